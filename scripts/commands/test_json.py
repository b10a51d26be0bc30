"""What the commands print as JSON. The expected values are those of the lines that other tests expect of the same files, where each is worked
out; here they stand as numbers.
"""
import json

from does import ANALYSE, CHECK, ENDED, FILES, RUN, CommandCase, does_once
from small import NULL, TABLES, packets
from test_analyse import PAUSED, payload
from test_probe import PROBE
from test_rates import fast, input_with
from test_switches import FILES as SWITCHED, THEN

HEAD = {"format": 1}

# What a run over the small files prints.
TOTALS = {
    "file": "x.ts", "framed": 8, "malformed": 0, "unmapped": 3, "bad": 0, "losses": 0, "lost": 0,
    "taken": 5, "sent": 5, "dropped": 0, "queued": 0, "end": "input",
}
RAN = HEAD | {
    "command": "run", "inputs": [TOTALS],
    "slots": 9, "tables": 3, "elementary": 5, "null": 1, "faults": 0, "kinds": [], "first": [],
    "streams": [{"out": 0x0200, "input": 0, "pid": 0x0101, "delay": 27000, "queue": 3}],
}

# What a check of the small plan prints.
CHECKED = HEAD | {
    "command": "check", "rate": 1504000, "gap": 2, "period": 100, "fast": 2, "slow": 2, "pat_ms": 100, "sdt_ms": 200,
    "left": 1458880, "taken": None, "inputs": [{"file": "x.ts", "rate": 1504000, "measured": None, "variable": None, "clock": None}],
    "services": [{"service": 500, "pmt": 0x0100}],
    "streams": [{"out": 0x0200, "input": 0, "pid": 0x0101, "leak": 2000000}],
    "switches": [],
}

# What a switch to another plan does, whose only stream is another.
SWITCH = {
    "slot": 100, "version": 1, "services": [{"service": 500, "pmt": 0x0100}], "keeps": [], "drops": [0x0200],
    "begins": [{"out": 0x0202, "input": 0, "pid": 0x0101, "leak": 2000000}],
}


def fault(slot, kind, name, pid):
    """A fault of a stream whose packets take a millisecond each."""
    return {"slot": slot, "kind": kind, "name": name, "pid": pid, "byte": 188 * slot, "ms": slot}


def pid(number, packets, rate, highest, pcrs=0, jitter=None, troubles=()):
    """A PID of a probe's document."""
    return {"pid": number, "packets": packets, "rate": rate, "highest": highest, "pcrs": pcrs, "jitter": jitter, "troubles": list(troubles)}


PAUSES = [fault(501, "1.3.a", "PAT_error_2", 0x0000), fault(501, "1.5.a", "PMT_error_2", 0x0100)]

LATE = {"kind": "late", "count": 3, "packet": 171, "byte": 32148, "ms": 170}

PROBED = {
    "name": "x.ts", "packets": 506, "size": 188, "rate": 1507008, "variable": False, "clock": 0x0101, "tables": ["PAT", "PMT", "SDT"],
    "programs": [{
        "number": 100, "pmt": 0x0100, "pcr": 0x0101, "scrambled": False, "type": 1, "name": "B",
        "streams": [{"pid": 0x0101, "type": 2, "language": None, "scrambled": False, "codec": "MPEG-2 video"}],
    }],
    "pids": [
        pid(0x0000, 1, 0, 2943), pid(0x0011, 1, 0, 2943), pid(0x0100, 1, 0, 2943),
        pid(0x0101, 4, 12008, 12008, 4, 0, [LATE]), pid(0x1FFF, 499, 1495000, 1495000),
    ],
}


class Documents(CommandCase):
    def tells(self, done, status, document, err=""):
        """The command printed this document, and ended with this status."""
        self.assertEqual((json.loads(done.out), done.status, done.err), (document, status, err))

    def test_a_run_is_told(self):
        done = self.does([*RUN, "--json"])
        self.tells(done, 0, RAN, ENDED)
        self.writes(done, 1692)

    def test_a_run_to_standard_output_is_told_beside_it(self):
        done = does_once(["run", "--plan", "x.toml", "--out", "-", "--json"])
        document, rest = done.err.split("\n", 1)
        self.assertEqual((json.loads(document), rest, len(done.raw)), (RAN, ENDED, 1692))

    def test_faults_of_an_output_are_told(self):
        """Of the packets with the counters 5, 5, 5, 6, 7 the third goes out in slot 6, one copy too many."""
        done = self.does([*RUN, "--json"], {"x.toml": SWITCHED["x.toml"], "x.ts": TABLES + packets([5, 5, 5, 6, 7])})
        document = json.loads(done.out)
        self.assertEqual(document["faults"], 1)
        self.assertEqual(document["kinds"], [{"kind": "1.4", "name": "Continuity_count_error", "count": 1}])
        self.assertEqual(document["first"], [fault(6, "1.4", "Continuity_count_error", 0x0200)])

    def test_an_input_that_was_cut_says_so(self):
        done = self.does([*RUN, "--slots", "4", "--json", "--serial"])
        self.assertEqual((json.loads(done.out)["inputs"][0]["end"], done.status), ("slots", 0))

    def test_a_refused_command_prints_no_document(self):
        done = self.does([*RUN, "--json"], {"x.toml": "rate = 1\n", "x.ts": b""})
        self.assertEqual((done.out, done.status), ("", 3))

    def test_a_check_is_told(self):
        done = self.does([*CHECK, "--json"])
        self.assertEqual((json.loads(done.out), done.status), (CHECKED, 0))
        self.assertEqual(done.err, self.does(CHECK).err)

    def test_measured_rates_are_told(self):
        """Of the stream of the tests of rates. A packet of the plan's takes a millisecond, and a round 100 of them; 97 are the services'."""
        measured = {"file": "x.ts", "rate": 1504000, "measured": 1507008, "variable": False, "clock": 0x0101}
        done = self.does([*CHECK, "--json"], {**FILES, "x.ts": input_with(fast())})
        self.assertEqual(json.loads(done.out), CHECKED | {"taken": 12008, "inputs": [measured]})

    def test_switches_are_told(self):
        done = self.does([*CHECK, *THEN, "--json"], SWITCHED)
        self.assertEqual(json.loads(done.out), CHECKED | {"switches": [SWITCH]})

    def test_an_analysis_is_told(self):
        done = self.does([*ANALYSE, "--json"], {"x.ts": PAUSED})
        end = {"slots": 502, "faults": 2, "rest": 0, "summary": None, "levels": None}
        self.tells(done, 1, HEAD | {"command": "analyse", "found": PAUSES, "end": end})
        self.assertEqual(len(done.out.splitlines()), 5)

    def test_a_limit_holds(self):
        for limit in 0, 1, 2:
            done = self.does([*ANALYSE, "--json", "--limit", str(limit)], {"x.ts": PAUSED})
            document = json.loads(done.out)
            self.assertEqual((document["found"], document["end"]["faults"]), (PAUSES[:limit], 2))

    def test_a_summary_is_told(self):
        """Counters 0, 2, 4 and 0, 1, 3. Of six packets and a slot that is none each PID has 644,571.4 bits a second."""
        stream = b"".join(payload(at, counter) for at, counter in ((257, 0), (258, 0), (257, 2), (258, 1), (257, 4), (258, 3)))
        done = self.does([*ANALYSE, "--json", "--summary"], {"x.ts": stream + b"\x48" + NULL[1:] + b"rest"})
        want = {
            "kinds": [
                {"kind": "1.2", "name": "Sync_byte_error", "count": 1},
                {"kind": "1.4", "name": "Continuity_count_error", "count": 3},
            ],
            "told": [
                {"kind": "1.2", "pid": None, "count": 1, "first": 6, "last": 6},
                {"kind": "1.4", "pid": 257, "count": 2, "first": 2, "last": 4},
                {"kind": "1.4", "pid": 258, "count": 1, "first": 5, "last": 5},
            ],
            "pids": [{"pid": 257, "packets": 3, "rate": 644571}, {"pid": 258, "packets": 3, "rate": 644571}],
        }
        document = json.loads(done.out)
        self.assertEqual(document["end"], {"slots": 7, "faults": 4, "rest": 4, "summary": want, "levels": None})
        self.assertEqual(document["found"][-1], fault(6, "1.2", "Sync_byte_error", None))

    def test_a_probe_is_told(self):
        done = self.does([*PROBE, "--json"], {"x.ts": input_with(fast())})
        self.tells(done, 0, HEAD | {"command": "probe", "files": [PROBED]})

    def test_what_is_not_known_is_null(self):
        done = self.does(["probe", "a \"b\".ts", "--json"], {"a \"b\".ts": 9 * NULL})
        told = {"name": "a \"b\".ts", "packets": 9, "size": 188, "rate": None, "variable": None, "clock": None, "tables": [], "programs": []}
        self.tells(done, 0, HEAD | {"command": "probe", "files": [told | {"pids": [pid(0x1FFF, 9, None, None)]}]})

    def test_a_plan_is_no_document(self):
        done = self.does([*PROBE, "--plan", "--json"], {"x.ts": 9 * NULL})
        self.assertEqual((done.out, done.status), ("", 2))
        self.assertIn("cannot be used with", done.err)
