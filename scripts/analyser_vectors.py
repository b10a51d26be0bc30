#!/usr/bin/env python3
"""Makes the generated streams of crates/vectors: small ones by a fixed generator, and their faults by the sentences of their definition
(ETSI TR 101 290, 5.2.1; ISO/IEC 13818-1, 2.4.3.3), each asked of the whole list of slots. What a slot is made of is known, and no byte
is read. "Behind" some slots is after the last of them; lists by numbers of slots say at place k what holds behind the first k slots.
From anywhere: scripts/analyser_vectors.py stdin prints the calls, and scripts/analyser_vectors.py stdout what they are to print; without
a word it says whether both stand so at the ends of the crate's files, and the status is 1 where they don't.
"""
import sys
from pathlib import Path

CRATE = Path(__file__).resolve().parent.parent / "crates" / "vectors"

STREAMS = 100
SLOTS = 24

# Tables have to come within so many slots, and PIDs within so many. A slot has 1,504 bits, and tables half a second.
TABLE_LIMIT = 3
PERIOD = 4
RATE = TABLE_LIMIT * 3008

# The kinds of slots by their names, the more likely ones more than once; a bare one has no payload.
KINDS = "bad bad malformed null pat other_pat pmt_on_pat_pid scrambled_pat pmt other_pmt next_pmt scrambled_pmt moved_pmt video bare_video other_video".split()

PIDS = {"null": 0x1FFF, "moved_pmt": 0x0101, "video": 0x0200, "bare_video": 0x0200, "other_video": 0x0201}
PIDS |= dict.fromkeys(["pat", "other_pat", "pmt_on_pat_pid", "scrambled_pat"], 0x0000)
PIDS |= dict.fromkeys(["pmt", "other_pmt", "next_pmt", "scrambled_pmt"], 0x0100)

# The PIDs of which tables' faults can be told, in order.
TOLD_PIDS = [0x0100, 0x0101, 0x0200, 0x0201]


def is_scrambled(slot):
    return slot[0] in ("scrambled_pat", "scrambled_pmt")


def pid_of(slot):
    """The PID of a slot; none where it isn't a packet."""
    return PIDS.get(slot[0])


def section_at(front):
    """The last of these slots, where it ends a section: its packet isn't scrambled, and no second copy."""
    ended, before, is_skipped = front[-1], None, False
    for slot in front:
        if pid_of(slot) == pid_of(ended) and not is_scrambled(slot):
            is_skipped = not is_skipped and before == slot
            before = slot
    return None if is_skipped or is_scrambled(ended) else ended


def has(front, kinds, pid=None):
    """Whether the last of these slots ends a section of one of these kinds, on this PID where one is said."""
    ended = section_at(front) if front else None
    return ended is not None and ended[0] in kinds and pid in (None, pid_of(ended))


def newest(front, kinds, pid=None):
    """The kind of the newest such section behind these slots."""
    found = [front[k][0] for k in range(len(front)) if has(front[:k + 1], kinds, pid)]
    return found[-1] if found else None


def pat_behind(front):
    return newest(front, ("pat", "other_pat"))


def has_pmt(front, pid):
    return has(front, ("pmt", "other_pmt", "next_pmt", "moved_pmt"), pid)


def is_pmt_pid(front, pid):
    """Whether the PAT in force behind these slots names it: pat has program 500 on PID 0x0100, and other_pat on 0x0101 and then on 0x0100."""
    return pid in {"pat": [0x0100], "other_pat": [0x0100, 0x0101]}.get(pat_behind(front), [])


def is_referred(front, pid):
    """Whether the newest current PMT of program 500 names it: pmt and moved_pmt have video on PID 0x0200, and other_pmt on 0x0201 too."""
    on = {"pat": 0x0100, "other_pat": 0x0101}.get(pat_behind(front))
    pmt = newest(front, ("pmt", "other_pmt", "moved_pmt"), on) if on else None
    return pid in {"pmt": [0x0200], "moved_pmt": [0x0200], "other_pmt": [0x0200, 0x0201]}.get(pmt, [])


def watched(slots, is_watched, has_come):
    """A thing that has to come, by numbers of slots: whether it is watched, and where it has a mark. The slot behind which it begins to be
    watched is one."""
    fronts = [slots[:k] for k in range(len(slots) + 1)]
    watch = [is_watched(front) for front in fronts]
    marks = [watch[k] and not (k and watch[k - 1]) or has_come(front) for k, front in enumerate(fronts)]
    return watch, marks


def is_gap(limit, m, of):
    """Whether slot m tells the gap of a limit: watched behind each of the slots m - limit - 1 to m - 1, a mark at the first of them and
    none behind it."""
    watch, marks = of
    first = m - limit
    return first >= 0 and marks[first] and not any(marks[first + 1:m + 1]) and all(watch[first:m + 1])


def is_in_sync(front):
    """Whether some slot of these ends five good ones, and no two neighbours behind it are bad."""
    bad = [slot[0] == "bad" for slot in front]
    return any(
        place >= 4 and not any(bad[place - 4:place + 1]) and not any(a and b for a, b in zip(bad[place + 1:], bad[place + 2:]))
        for place in range(len(front))
    )


def is_unlawful(front):
    """Whether the last of these slots is a packet that isn't lawful among those of its PID. None is told of null packets."""
    pid = pid_of(front[-1])
    last, was_copy, is_lawful = None, False, True
    for slot in front:
        if pid_of(slot) != pid:
            continue
        has_payload = slot[0] != "bare_video"
        is_copy = has_payload and last == slot
        steps = last is not None and slot[1] == (last[1] + has_payload) % 16
        is_lawful = last is None or steps or is_copy and not was_copy
        was_copy, last = is_copy, slot
    return pid not in (None, 0x1FFF) and not is_lawful


def faults(slots):
    """The faults of a stream, as they are printed."""
    pats = watched(slots, lambda front: True, lambda front: has(front, ("pat", "other_pat")))
    pmts = {pid: watched(slots, lambda front: is_pmt_pid(front, pid), lambda front: has_pmt(front, pid)) for pid in TOLD_PIDS}
    pids = {
        pid: watched(slots, lambda front: is_referred(front, pid), lambda front: bool(front) and pid_of(front[-1]) == pid) for pid in TOLD_PIDS
    }
    told = []
    for m, slot in enumerate(slots):
        front = slots[:m + 1]
        if slot[0] == "bad":
            if m and slots[m - 1][0] == "bad" and is_in_sync(slots[:m]):
                told.append(f"slot {m} 1.1 - TS_sync_loss")
            told.append(f"slot {m} 1.2 - Sync_byte_error")
        if is_gap(TABLE_LIMIT, m, pats) or has(front, ("pmt_on_pat_pid",)) or slot[0] == "scrambled_pat":
            told.append(f"slot {m} 1.3.a 0x0000 PAT_error_2")
        if is_unlawful(front):
            told.append(f"slot {m} 1.4 0x{pid_of(slot):04X} Continuity_count_error")
        for pid in TOLD_PIDS:
            watch = pmts[pid]
            if is_gap(TABLE_LIMIT, m, watch) or is_scrambled(slot) and pid_of(slot) == pid and watch[0][m]:
                told.append(f"slot {m} 1.5.a 0x{pid:04X} PMT_error_2")
        for pid in TOLD_PIDS:
            if is_gap(PERIOD, m, pids[pid]):
                told.append(f"slot {m} 1.6 0x{pid:04X} PID_error")
    return told


def stream(first):
    """The slots of the stream that begins behind this number of the generator, each a kind and a counter."""
    slots = []
    number = first
    for _ in range(SLOTS):
        number = (number * 1_664_525 + 1_013_904_223) % (1 << 32)
        slots.append((KINDS[number >> 28], (number >> 16) % 3))
    return slots


def word(slot):
    """The name of a slot's bytes."""
    return f"{slot[0]}_slot" if slot[0] in ("bad", "null") else f"{slot[0]}.{slot[1]}"


def lines():
    """The calls, and what each is to print."""
    for number in range(STREAMS):
        slots = stream(number * 0x9E37_79B9 % (1 << 32))
        told = faults(slots)
        text = " ".join(f"{fault};" for fault in told)
        yield f"analyse {RATE} {PERIOD} {' '.join(map(word, slots))}", f"{len(told)} faults: [{text}]"


def main():
    calls, wanted = zip(*lines())
    texts = {"stdin": "".join(f"{line}\n" for line in calls), "stdout": "".join(f"{line}\n" for line in wanted)}
    if len(sys.argv) > 1:
        sys.stdout.write(texts[sys.argv[1]])
        return 0
    failed = [name for name, text in texts.items() if not (CRATE / name).read_text().endswith(text)]
    for name in failed:
        print(f"{CRATE / name}: it has other streams at its end")
    print(f"{2 - len(failed)} passed, {len(failed)} failed")
    return 1 if failed else 0


if __name__ == "__main__":
    sys.exit(main())
