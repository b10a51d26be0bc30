"""What `analyse` shows by its further words. The expected lines are worked out by hand: a packet of 188 bytes takes a millisecond at
1,504,000 bits a second, as one of 204 bytes does at 1,632,000; and of two packets of a PID with payload the counter of the second is one more
(ISO/IEC 13818-1, 2.4.3.3).
"""
import json
import os
import select
import subprocess
import tempfile

from does import ANALYSE, PROGRAM, CommandCase
from small import EIGHT, NULL, PAT, PLAN, TABLES, packets
from test_rates import fast, input_with

# How long a line may take, in seconds.
PATIENCE = 20

# A PAT that names a PMT on PID 0x0100, and half a second of null packets and one more.
PAUSED = PAT + 501 * NULL


def with_words(*words):
    """The command with more words."""
    return [*ANALYSE[:-1], *words, ANALYSE[-1]]


def payload(pid, counter):
    """A packet with payload."""
    return bytes([0x47, pid >> 8, pid & 0xFF, 0x10 | counter]) + bytes(184)


class Limits(CommandCase):
    def test_so_many_faults_have_a_line(self):
        """All are counted."""
        first, second = "slot 501 1.3.a 0x0000\n", "slot 501 1.5.a 0x0100\n"
        for limit, lines in ("0", ""), ("1", first), ("2", first + second), ("1000000", first + second):
            done = self.does(with_words("--limit", limit), {"x.ts": PAUSED})
            self.ends(done, 1, f"{lines}slots 502 faults 2 rest 0\n", "")

    def test_another_limit_is_refused(self):
        for limit in "1000001", "-1", "ten":
            done = self.does(with_words(f"--limit={limit}"), {"x.ts": PAUSED})
            self.assertEqual((done.status, done.out), (2, ""))
            self.assertTrue(done.err.startswith(f"error: invalid value '{limit}' for '--limit <N>'"), done.err)


# Ten packets, a byte too many, and ten more. The slot at it and the next one begin with no sync byte: sync is lost at the second.
SLIPPED = 10 * NULL + b"\0" + 10 * NULL


class Syncs(CommandCase):
    def test_packets_are_sought_where_sync_was_lost(self):
        lines = """slot 10 1.2 - byte 1880 ms 10
slot 11 1.1 - byte 2068 ms 11
slot 11 1.2 - byte 2068 ms 11
slots 22 faults 3 rest 1
"""
        self.ends(self.does(with_words("--sync", "--places"), {"x.ts": SLIPPED}), 1, lines, "")

    def test_without_the_word_it_is_named(self):
        """Slots 10 to 19 begin with no sync byte."""
        lines = "".join(f"slot {slot} 1.2 -\n" for slot in range(12, 20))
        lines = f"slot 10 1.2 -\nslot 11 1.1 -\nslot 11 1.2 -\n{lines}slots 20 faults 11 rest 1\n"
        said = "x.ts: sync was lost by byte 2068: with --sync packets are sought behind it\n"
        self.ends(self.does(ANALYSE, {"x.ts": SLIPPED}), 1, lines, said)

    def test_a_bad_sync_byte_is_a_slot(self):
        stream = 5 * NULL + b"\x48" + NULL[1:] + 5 * NULL
        for words in ["--sync"], []:
            self.ends(self.does(with_words(*words), {"x.ts": stream}), 1, "slot 5 1.2 -\nslots 11 faults 1 rest 0\n", "")

    def test_bytes_before_the_first_packet_are_in_none(self):
        self.ends(self.does(with_words("--sync"), {"x.ts": b"ab" + 10 * NULL}), 0, "slots 10 faults 0 rest 2\n", "")

    def test_packets_of_204_bytes_are_sought_too(self):
        lines = "slot 10 1.2 - byte 2040 ms 10\nslot 11 1.1 - byte 2244 ms 11\nslot 11 1.2 - byte 2244 ms 11\nslots 22 faults 3 rest 1\n"
        words = ["analyse", "--rate", "1632000", "--period", "1000", "--size", "204", "--sync", "--places", "x.ts"]
        wide = 10 * (NULL + 16 * b"\xff")
        self.ends(self.does(words, {"x.ts": wide + b"\0" + wide}), 1, lines, "")

    def test_a_file_without_packets_has_no_slot(self):
        self.ends(self.does(with_words("--sync"), {"x.ts": b""}), 1, "slots 0 faults 0 rest 0\n", "x.ts: it is empty\n")


class Levels(CommandCase):
    """At 1,504,000 bits a second and a leak of 1,000,000 the level in bits a second times bytes is 188 * 1,504,000 - 187 * 1,000,000 =
    95,752,000 behind a first packet, and 94,752,000 more behind each that follows at once. 512 bytes are 770,048,000."""

    LEAK = "0x0101=1000000"

    def test_the_highest_level_is_printed(self):
        """Behind five packets it is 474,760,000: 315.7 bytes."""
        told = "level 0x0101 leak 1000000 bytes 316 slot 7 over 0 packets 5\nslots 8 faults 0 rest 0\n"
        for leak in self.LEAK, "257=1000000":
            self.ends(self.does(with_words("--leak", leak), {"x.ts": EIGHT}), 0, told, "")

    def test_a_buffer_leaks_meanwhile(self):
        """Two null packets take 376,000,000 off it, and a packet adds 94,752,000: 193,512,000 are 128.7 bytes, fewer than before. From the first
        packet on: 95,752,000 leak away in one slot, and the second is as high as the first, 63.7 bytes."""
        first = TABLES + packets(range(1)) + NULL + packets([1])
        told = "level 0x0101 leak 1000000 bytes 64 slot 3 over 0 packets 2\nslots 6 faults 0 rest 0\n"
        self.ends(self.does(with_words("--leak", self.LEAK), {"x.ts": first}), 0, told, "")
        told = "level 0x0101 leak 1000000 bytes 316 slot 7 over 0 packets 6\nslots 11 faults 0 rest 0\n"
        self.ends(self.does(with_words("--leak", self.LEAK), {"x.ts": EIGHT + 2 * NULL + packets([5])}), 0, told, "")

    def test_an_overrun_is_counted(self):
        """Behind eight packets it is 759,016,000, behind nine 853,768,000, and behind ten 948,520,000, which are 630.7 bytes."""
        told = "level 0x0101 leak 1000000 bytes 631 slot 12 over 2 packets 10\nslots 13 faults 0 rest 0\n"
        self.ends(self.does(with_words("--leak", self.LEAK), {"x.ts": TABLES + packets(range(10))}), 0, told, "")

    def test_a_plan_says_the_leaks(self):
        """2,000,000 bits a second leave one byte, that which came last. The word of the command line counts for its PID."""
        stream = b"".join(payload(0x0200, counter) for counter in range(10))
        told = "level 0x0200 leak 2000000 bytes 1 slot 0 over 0 packets 10\nslots 10 faults 0 rest 0\n"
        self.ends(self.does(with_words("--levels", "x.toml"), {"x.toml": PLAN, "x.ts": stream}), 0, told, "")
        told = "level 0x0200 leak 1000000 bytes 631 slot 9 over 2 packets 10\nslots 10 faults 0 rest 0\n"
        done = self.does(with_words("--levels", "x.toml", "--leak", "0x0200=1000000"), {"x.toml": PLAN, "x.ts": stream})
        self.ends(done, 0, told, "")

    def test_the_packets_of_a_stream_of_204_bytes_have_their_share_of_its_rate(self):
        """Of 510,000 bits a second 470,000. At a leak of 235,000 the level is 188 * 470,000 - 187 * 235,000 = 44,415,000 behind a packet: 94.5
        bytes."""
        stream = TABLES + packets(range(1))
        longer = b"".join(stream[at : at + 188] + bytes(16) for at in range(0, len(stream), 188))
        words = ["analyse", "--rate", "510000", "--size", "204", "--period", "1000", "--leak", "0x0101=235000", "x.ts"]
        told = "level 0x0101 leak 235000 bytes 95 slot 3 over 0 packets 1\nslots 4 faults 0 rest 0\n"
        self.ends(self.does(words, {"x.ts": longer}), 0, told, "")

    def test_a_document_has_them(self):
        done = self.does(with_words("--leak", self.LEAK, "--json"), {"x.ts": EIGHT})
        level = {"pid": 0x0101, "leak": 1000000, "bytes": 316, "slot": 7, "over": 0, "packets": 5}
        self.assertEqual(json.loads(done.out)["end"]["levels"], [level])

    def test_other_words_are_refused(self):
        for word in "0x2000=1", "8192=1", "0x0101", "0x0101=0", "0x0101=100000001", "x=1", "0x=1", "=1", "1=-1":
            done = self.does(with_words("--leak", word), {"x.ts": EIGHT})
            self.assertEqual((done.status, done.out), (2, ""), word)
            self.assertTrue(done.err.startswith("error: '--leak <PID=N>' has a PID from 0 to 0x1FFF"), done.err)

    def test_a_refused_plan_is_told(self):
        done = self.does(with_words("--levels", "x.toml"), {"x.toml": "rate = 1\n", "x.ts": EIGHT})
        self.assertEqual((done.status, done.out), (3, ""))


class OtherRates(CommandCase):
    def test_the_rate_that_the_pcrs_say_is_told(self):
        """The stream of the tests of rates has 1,507,008 bits a second, and one PAT in 506 packets: half a second at 1,504,000 bits a second is
        500 of them. Where there is no fault and no buffer is followed, nothing is said."""
        stream = {"x.ts": input_with(fast())}
        said = "x.ts: it runs at 1507008 bits a second by the PCRs of PID 0x0101, and --rate is "
        done = self.does(ANALYSE, stream)
        self.assertEqual((done.status, done.err), (1, f"{said}1504000\n"))
        words = ["analyse", "--rate", "3008000", "--period", "2000", "x.ts"]
        self.assertEqual((self.does(words, stream).status, self.does(words, stream).err), (0, ""))
        done = self.does([*words, "--leak", "0x0101=1000000"], stream)
        self.assertEqual((done.status, done.err), (0, f"{said}3008000\n"))

    def test_the_right_rate_is_not(self):
        words = ["analyse", "--rate", "1507008", "--period", "1000", "--leak", "0x0101=1000000", "x.ts"]
        self.assertEqual(self.does(words, {"x.ts": input_with(fast())}).err, "")

    def test_a_variable_rate_is_told(self):
        """A second of 1,000 packets and one of 500: 1,163,093 bits a second in all, as in the tests of rates."""
        pcrs = [(step * 13_500_000, False, nulls) for step, nulls in enumerate([499, 499, 249, 249, 0])]
        done = self.does(with_words("--leak", "0x0101=1000000"), {"x.ts": input_with(pcrs)})
        self.assertEqual(done.err, "x.ts: it is of variable rate by the PCRs of PID 0x0101, 1163093 bits a second in all, and --rate is 1504000\n")


class Places(CommandCase):
    def test_a_fault_has_its_byte_and_its_time(self):
        lines = "slot 501 1.3.a 0x0000 byte 94188 ms 501\nslot 501 1.5.a 0x0100 byte 94188 ms 501\nslots 502 faults 2 rest 0\n"
        self.ends(self.does(with_words("--places"), {"x.ts": PAUSED}), 1, lines, "")

    def test_a_fault_without_a_pid_has_them_too(self):
        stream = 5 * NULL + b"\x48" + NULL[1:] + 5 * NULL
        lines = """slot 5 1.2 - byte 940 ms 5
kind 1.2 count 1 Sync_byte_error
told 1.2 - count 1 first 5 last 5
pid 0x1FFF packets 10 rate 1367272
slots 11 faults 1 rest 0
"""
        self.ends(self.does(with_words("--places", "--summary"), {"x.ts": stream}), 1, lines, "")

    def test_bytes_behind_packets_count(self):
        wide = b"".join(PAUSED[at:at + 188] + bytes(16) for at in range(0, len(PAUSED), 188))
        words = ["analyse", "--rate", "1632000", "--period", "1000", "--size", "204", "--places", "--limit", "1", "x.ts"]
        lines = "slot 501 1.3.a 0x0000 byte 102204 ms 501\nslots 502 faults 2 rest 0\n"
        self.ends(self.does(words, {"x.ts": wide}), 1, lines, "")


class Summaries(CommandCase):
    def test_faults_and_packets_are_counted_by_pid(self):
        """1,504,000 / 502 is 2,996.01, and 501 times as much 1,501,003.98."""
        counted = """kind 1.3.a count 1 PAT_error_2
kind 1.5.a count 1 PMT_error_2
told 1.3.a 0x0000 count 1 first 501 last 501
told 1.5.a 0x0100 count 1 first 501 last 501
pid 0x0000 packets 1 rate 2996
pid 0x1FFF packets 501 rate 1501003
slots 502 faults 2 rest 0
"""
        self.ends(self.does(with_words("--summary", "--limit", "0"), {"x.ts": PAUSED}), 1, counted, "")

    def test_one_line_for_each_fault_on_each_pid(self):
        """Counters 0, 2, 4 and 0, 1, 3. Of six packets each is 250,666.67 bits a second."""
        stream = b"".join(payload(pid, counter) for pid, counter in ((257, 0), (258, 0), (257, 2), (258, 1), (257, 4), (258, 3)))
        counted = """slot 2 1.4 0x0101
slot 4 1.4 0x0101
slot 5 1.4 0x0102
kind 1.4 count 3 Continuity_count_error
told 1.4 0x0101 count 2 first 2 last 4
told 1.4 0x0102 count 1 first 5 last 5
pid 0x0101 packets 3 rate 752000
pid 0x0102 packets 3 rate 752000
slots 6 faults 3 rest 0
"""
        self.ends(self.does(with_words("--summary"), {"x.ts": stream}), 1, counted, "")

    def test_a_slot_without_the_sync_byte_has_no_pid(self):
        """Ten of eleven slots are null packets: 1,367,272.7 bits a second."""
        counted = """slot 5 1.2 -
kind 1.2 count 1 Sync_byte_error
told 1.2 - count 1 first 5 last 5
pid 0x1FFF packets 10 rate 1367272
slots 11 faults 1 rest 0
"""
        stream = 5 * NULL + b"\x48" + NULL[1:] + 5 * NULL
        self.ends(self.does(with_words("--summary"), {"x.ts": stream}), 1, counted, "")

    def test_a_slot_that_is_no_packet_has_no_pid(self):
        """The adaptation_field_control of the second is the reserved 0 (ISO/IEC 13818-1, 2.4.3.3). Two of three slots are 1,002,666.67 bits a
        second."""
        stream = NULL + bytes([0x47, 1, 1, 0]) + bytes(184) + NULL
        done = self.does(with_words("--summary"), {"x.ts": stream})
        self.assertTrue(done.out.endswith("pid 0x1FFF packets 2 rate 1002666\nslots 3 faults 0 rest 0\n"), done.out)

    def test_the_rate_is_that_of_the_packets_alone(self):
        """188 of 204 bytes of 1,632,000 bits a second."""
        words = ["analyse", "--rate", "1632000", "--period", "1000", "--size", "204", "--summary", "x.ts"]
        lines = "pid 0x1FFF packets 2 rate 1504000\nslots 2 faults 0 rest 0\n"
        self.ends(self.does(words, {"x.ts": 2 * (NULL + bytes(16))}), 0, lines, "")

    def test_a_stream_without_faults_has_its_packets(self):
        lines = "pid 0x1FFF packets 2 rate 1504000\nslots 2 faults 0 rest 0\n"
        self.ends(self.does(with_words("--summary"), {"x.ts": 2 * NULL}), 0, lines, "")


class Empty(CommandCase):
    def test_a_file_without_a_packet_is_a_failure(self):
        """It is said what it looks like, since no fault says so."""
        self.ends(self.does(ANALYSE, {"x.ts": b""}), 1, "slots 0 faults 0 rest 0\n", "x.ts: it is empty\n")
        few = "x.ts: no five sync bytes stand in step at its beginning: it is no transport stream, or has fewer than five packets\n"
        self.ends(self.does(ANALYSE, {"x.ts": NULL[:187]}), 1, "slots 0 faults 0 rest 187\n", few)
        lines = "slots 0 faults 0 rest 0\n"
        self.ends(self.does(with_words("--summary"), {"x.ts": b""}), 1, lines, "x.ts: it is empty\n")


class OverAPipe(CommandCase):
    def test_lines_come_before_the_stream_ends(self):
        """That of the sixth of 348 packets."""
        with tempfile.TemporaryDirectory() as folder:
            name = os.path.join(folder, "x.ts")
            os.mkfifo(name)
            with subprocess.Popen([PROGRAM, *ANALYSE], cwd=folder, stdout=subprocess.PIPE) as process, open(name, "wb") as pipe:
                pipe.write(5 * NULL + b"\x48" + NULL[1:] + 342 * NULL)
                pipe.flush()
                self.assertTrue(select.select([process.stdout], [], [], PATIENCE)[0], "no line came")
                self.assertEqual(process.stdout.readline(), b"slot 5 1.2 -\n")
                pipe.close()
                self.assertEqual(process.stdout.read(), b"slots 348 faults 1 rest 0\n")
