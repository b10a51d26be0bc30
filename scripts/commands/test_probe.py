"""What `probe` says of streams, and the plans that it makes of them.

The first stream is that of the rates: a PAT, a PMT, an SDT and a null packet, and then four packets of PID 0x0101 with PCRs and 166
null packets between each two, 506 in all, at 1,507,008 bits a second."""
import random
import re
import shlex

from does import CommandCase
from small import NULL, PAT, SDT, TABLES, pcr_packet, table_packet, widened
from test_rates import fast, input_with

PROBE = ["probe", "x.ts"]
PLAN = ["probe", "--plan", "x.ts"]

# Of 502 packets, those behind the first four, 4 are of PID 0x0101 and 498 are null: 1,507,008 * 4 / 502 is 12,008.03, and 1,507,008 *
# 498 / 502 is 1,494,999.97. A window has 512 packets: 1,507,008 / 512 is 2,943.375. From one PCR to the next it is 4,500,000 ticks, a
# sixth of a second, so three come late, the first of them in packet 4 + 167: byte 171 * 188, after 32,148 * 8,000 / 1,507,008 = 170.7
# milliseconds.
LINES = """file 0 packets 506 size 188 rate 1507008 variable no clock 0x0101 name x.ts
tables PAT PMT SDT
program 100 pmt 0x0100 pcr 0x0101 scrambled no type 0x01 name B
stream 0x0101 program 100 type 0x02 language - scrambled no codec MPEG-2 video
pid 0x0000 packets 1 rate 0 highest 2943 pcrs 0 jitter -
pid 0x0011 packets 1 rate 0 highest 2943 pcrs 0 jitter -
pid 0x0100 packets 1 rate 0 highest 2943 pcrs 0 jitter -
pid 0x0101 packets 4 rate 12008 highest 12008 pcrs 4 jitter 0
trouble 0x0101 late 3 packet 171 byte 32148 ms 170
pid 0x1FFF packets 499 rate 1495000 highest 1495000 pcrs 0 jitter -
"""

# The stream needs 12,008 bits a second and a tenth more, and the tables three slots of 1,504 bits each tenth of a second, 45,120: less
# than the least rate of a multiplex. A tenth of a second has 33 slots at 500,000 bits a second.
TEXT = """# A plan that remux probe made. Beside the tables its rate leaves a tenth more than the services took at most.
# Each leak is of the kind of the stream: of audio, teletext and subtitles it is fixed, of others a guess by the highest rate.
# docs/FIRST-PLAN.md has those of the levels of video.
rate = 500000
period = 33
watch = 660
version = 0
queue = 1024
ring = 1024
transport_stream_id = 1
original_network_id = 65281
network_id = 65281
network_name = "remux"
transport_descriptors = ""

[[input]]
file = "x.ts"
rate = 1507008
offset = 0

[[service]] # B
input = 0
program = 100
service = 1
pmt = 0x0100
[[service.stream]]
pid = 0x0101 # MPEG-2 video
out = 0x0200
leak = 18000000
"""

# What `check` prints of it.
CHECKED = """rate 500000 gap 2 period 33 fast 2 slow 2
service 1 pmt 0x0100
stream 0x0200 input 0 pid 0x0101 leak 18000000
"""

NO_PLAN = "no plan: none of the services can be taken\n"

# A stream_type, the descriptors behind it, and what is said of such a stream: ISO/IEC 13818-1, table 2-34, and EN 300 468, 6.2.
CODECS = [
    ("01", "", "- scrambled no codec MPEG-1 video"),
    ("03", "0a04667261 00", "fra scrambled no codec MPEG-1 audio"),
    ("04", "", "- scrambled no codec MPEG-2 audio"),
    ("05", "", "- scrambled no codec private sections"),
    ("06", "", "- scrambled no codec private data"),
    ("06", "0a0464657500 6a0100", "deu scrambled no codec AC-3"),
    ("06", "7a0100", "- scrambled no codec E-AC-3"),
    ("06", "7f0215 00", "- scrambled no codec AC-4"),
    ("06", "5908 646575 10 0001 0001", "deu scrambled no codec subtitles"),
    ("06", "5605 656e67 0900", "eng scrambled no codec teletext"),
    ("0f", "", "- scrambled no codec AAC in ADTS"),
    ("11", "", "- scrambled no codec AAC in LATM"),
    ("1b", "6a0100", "- scrambled no codec AVC"),
    ("24", "0904 0001 e123", "- scrambled yes codec HEVC"),
    ("81", "6a0100", "- scrambled no codec AC-3"),
    ("7e", "", "- scrambled no codec unknown"),
]

# The bytes of a service's name, and what is printed: EN 300 468, annex A.
NAMES = [
    (b"ZDF\x86neo\x87", "ZDFneo"),
    (b"\x05Arte", "Arte"),
    (b"\x10\x00\x02Nova", "Nova"),
    (b"\x15Z\xc3\xbcrich", "Zürich"),
    (b"Z\xfcrich", "Z?rich"),
]


def section(table_id, number, body):
    """A section without its CRC, in hex digits."""
    return f"{table_id}{0xB000 + len(body) // 2 + 9:04x}{number:04x}c10000{body}"


def pmt_of(rows, number=100, pcr=0x0101):
    """A PMT with these rows: a stream_type, a PID and descriptors in hex digits each."""
    body = f"{0xE000 + pcr:04x}f000"
    for stream_type, pid, descriptors in rows:
        octets = descriptors.replace(" ", "")
        body += f"{stream_type}{0xE000 + pid:04x}{0xF000 + len(octets) // 2:04x}{octets}"
    return section("02", number, body)


def sdt_of(names):
    """An SDT with a row for each program, of service_type 0x01 and with these bytes as name."""
    body = "0002ff"
    for number, name in names:
        row = f"48{len(name) + 3:02x}0100{len(name):02x}{name.hex()}"
        body += f"{number:04x}fc{0x8000 + len(row) // 2:04x}{row}"
    return section("42", 1, body)


def with_bits(octets, at, byte, bits):
    """The stream with these bits set in a byte of packet `at`."""
    place = 188 * at + byte
    return octets[:place] + bytes([octets[place] | bits]) + octets[place + 1:]


def command_of(rate):
    """The command of ffmpeg that writes program 100 of the stream alone."""
    return f"ffmpeg -i 'x.ts' -map 0:p:100 -c copy -copy_unknown -mpegts_service_id 100 -metadata service_name='x' -muxrate {rate} new.ts"


class Good:
    """A stream of constant rate: its services' tables and PCRs ten times a second and more, and packets of their streams."""

    def __init__(self, rng):
        self.rng, self.counters = rng, {}
        self.rate = rng.randrange(600_000, 6_000_000)
        self.is_wide = rng.random() < 0.3
        pids = rng.sample(range(0x20, 0x1FFF), 20)
        numbers = rng.sample(range(1, 65_536), rng.randrange(1, 4))
        self.services = [(number, pids.pop(), [pids.pop() for _ in range(rng.randrange(1, 4))]) for number in numbers]
        self.weights = [rng.choice([1, 5, 40]) for _, _, own in self.services for _ in own] + [rng.choice([5, 50, 200])]

    def counted(self, packet):
        """The packet with the next counter of its PID."""
        pid = packet[1] % 32 << 8 | packet[2]
        self.counters[pid] = (self.counters.get(pid, 15) + 1) % 16
        return packet[:3] + bytes([packet[3] & 0xF0 | self.counters[pid]]) + packet[4:]

    def tables(self):
        """A packet of each table."""
        pat = "".join(f"{number:04x}{0xE000 + pmt:04x}" for number, pmt, _ in self.services)
        yield table_packet(0x0000, section("00", 1, pat))
        yield table_packet(0x0011, sdt_of([(number, b"N%d" % number) for number, _, _ in self.services]))
        for number, pmt, own in self.services:
            rows = [(self.rng.choice(["02", "03", "1b", "24", "0f", "06"]), pid, "") for pid in own]
            yield table_packet(pmt, pmt_of(rows, number, own[0]))

    def packets(self):
        """Its packets, for six tenths of a second."""
        stride = 204 if self.is_wide else 188
        pids = [pid for _, _, own in self.services for pid in own]
        waiting, next_tables, next_pcr, out = [], 0, 0, b""
        table_packets = list(self.tables())
        for number in range(self.rate * 6 // 10 // (8 * stride)):
            ticks = (number * stride + 10) * 8 * 27_000_000 // self.rate
            if ticks >= next_tables:
                waiting += table_packets
                next_tables += 2_000_000
            if ticks >= next_pcr:
                waiting += [own[0] for _, _, own in self.services]
                next_pcr += 900_000
            if waiting:
                made = waiting.pop(0)
                if isinstance(made, int):
                    made = pcr_packet(0, ticks)[:1] + bytes([made >> 8, made & 255]) + pcr_packet(0, ticks)[3:]
            else:
                pid = self.rng.choices([*pids, 0x1FFF], self.weights)[0]
                made = bytes([0x47, pid >> 8, pid & 255, 0x10]) + b"\xaa" * 184
            out += self.counted(made)
        return widened(out) if self.is_wide else out


class Probing(CommandCase):
    def probed(self, octets, words=PROBE):
        """What a probe of this stream does."""
        return self.does(words, {"x.ts": octets})

    def test_a_stream_is_shown(self):
        self.ends(self.probed(input_with(fast())), 0, LINES, "")

    def test_a_stream_of_204_byte_packets_is_shown(self):
        """All its bytes are counted in its rate, 1,507,008 * 204 / 188, and its packets alone in those of its PIDs. Byte 171 * 204 comes
        when byte 171 * 188 came."""
        want = LINES.replace("size 188 rate 1507008", "size 204 rate 1635264").replace("byte 32148", "byte 34884")
        self.ends(self.probed(widened(input_with(fast()))), 0, want, "")

    def test_a_plan_is_made_that_runs(self):
        stream = input_with(fast())
        self.ends(self.probed(stream, PLAN), 0, TEXT, "")
        wide = TEXT.replace("rate = 1507008\noffset = 0\n", "rate = 1635264\noffset = 0\nsize = 204\n")
        self.ends(self.probed(widened(stream), PLAN), 0, wide, "")
        for text, octets in (TEXT, stream), (wide, widened(stream)):
            files = {"x.toml": text, "x.ts": octets}
            checked = self.does(["check", "--plan", "x.toml", "--strict"], files)
            self.assertEqual((checked.out, checked.status), (CHECKED, 0))
            ran = self.does(["run", "--plan", "x.toml", "--out", "out.ts", "--strict"], files)
            self.assertEqual((ran.err, ran.status), ("end: all inputs ended\n", 0))

    def test_plans_of_any_good_streams_are_accepted(self):
        """One to four streams with one to three services each, of packets of 188 and of 204 bytes: all of them are taken, `check` finds
        nothing wrong, and a run has no fault."""
        for seed in range(12):
            rng = random.Random(seed)
            streams = [Good(rng) for _ in range(rng.randrange(1, 5))]
            files = {f"{number}.ts": stream.packets() for number, stream in enumerate(streams)}
            made = self.does(["probe", *files, "--plan"], files)
            self.assertEqual((made.err, made.status), ("", 0), seed)
            self.assertEqual(made.out.count("[[service]]"), sum(len(stream.services) for stream in streams))
            files["p.toml"] = made.out
            checked = self.does(["check", "--plan", "p.toml", "--strict"], files)
            self.assertEqual(checked.status, 0, (seed, checked.err))
            ran = self.does(["run", "--plan", "p.toml", "--out", "out.ts", "--all"], files)
            self.assertEqual((ran.status, ran.out.split()[-2:]), (0, ["faults", "0"]), (seed, ran.out, ran.err))
            self.assertNotIn("overfull", ran.err)

    def test_codecs_and_languages_are_told(self):
        """Program 100 has a stream of each, on PIDs from 0x0200 on."""
        rows = [(stream_type, 0x0200 + at, descriptors) for at, (stream_type, descriptors, _) in enumerate(CODECS)]
        done = self.probed(PAT + table_packet(0x0100, pmt_of(rows)) + SDT + 9 * NULL)
        told = [line for line in done.out.splitlines() if line.startswith("stream ")]
        want = [f"stream 0x{0x0200 + at:04X} program 100 type 0x{kind.upper()} language {said}" for at, (kind, _, said) in enumerate(CODECS)]
        self.assertEqual(told, want)

    def test_names_are_printed(self):
        for octets, name in NAMES:
            done = self.probed(PAT + table_packet(0x0011, sdt_of([(100, octets)])) + 9 * NULL)
            self.assertIn(f"program 100 pmt 0x0100 pcr - scrambled - type 0x01 name {name}\n", done.out)

    def test_tables_are_found(self):
        """A CAT, the NIT of another network, an EIT, and a TDT, which has no CRC; and then the stream's own NIT."""
        cat = table_packet(0x0001, "01b009ffffc10000")
        other = table_packet(0x0010, "41f00d0001c10000f000f000")
        eit = table_packet(0x0012, "4ef00f0001c1000000010001004e")
        tdt = bytes.fromhex("474014100070700 5ea001200".replace(" ", "")).ljust(188, b"\xff")
        self.assertIn("\ntables CAT EIT TDT\n", self.probed(cat + other + eit + tdt + 4 * NULL).out)
        own = table_packet(0x0010, "40f00d0001c10000f000f000")
        self.assertIn("\ntables PAT NIT SDT\n", self.probed(PAT + SDT + own + 4 * NULL).out)

    def test_jitter_is_measured(self):
        """Three PCRs, ten packets of 1,504 bits apart, a hundredth of a second at 1,504,000 bits a second. The one between is 27 ticks
        late, a thousand nanoseconds. Of the 21 packets behind the first four three are of the PID: 1,504,000 * 3 / 21 is 214,857.1."""
        stream = 4 * NULL + pcr_packet(0, 1_000_000) + 9 * NULL + pcr_packet(1, 1_270_027) + 9 * NULL + pcr_packet(2, 1_540_000)
        self.assertIn("\npid 0x0101 packets 3 rate 214857 highest 214857 pcrs 3 jitter 1000\n", self.probed(stream).out)

    def test_what_is_wrong_is_told_with_its_first_place(self):
        """Of packets, sections and PCRs. The stream has 1,504,000 bits a second, so that a packet takes a millisecond: its PCRs are in the
        packets 5, 15, 25 and on. From the fourth to the fifth the clock jumps back, and at the last the discontinuity indicator says so."""
        stream = TABLES + 2 * NULL
        for at, (pcr, says_so) in enumerate([(9_000_000, 0), (9_270_000, 0), (9_540_000, 0), (9_810_000, 0), (540_000, 0), (0, 1)]):
            stream += pcr_packet(at, pcr, says_so) + 9 * NULL
        stream += bytes([0x47, 0x41, 0x00, 0x11]) + TABLES[188 + 4:376 - 1] + b"\0"
        lines = self.probed(stream).out
        self.assertNotIn("trouble", lines.replace("trouble 0x0101 jump 1 packet 45 byte 8460 ms 45\n", ""))
        wrong = with_bits(with_bits(with_bits(stream, 15, 1, 0x80), 25, 1, 0x80), 7, 3, 0x40)
        wrong = wrong[:188 + 10] + bytes([wrong[188 + 10] ^ 1]) + wrong[188 + 11:]
        told = re.findall("trouble .*", self.probed(wrong).out)
        self.assertEqual(told, [
            "trouble 0x0100 crc 1 packet 1 byte 188 ms 1",
            "trouble 0x0101 error 2 packet 15 byte 2820 ms 15",
            "trouble 0x0101 jump 1 packet 45 byte 8460 ms 45",
            "trouble 0x1FFF scrambled 1 packet 7 byte 1316 ms 7",
        ])

    def test_a_pid_in_no_table_is_told(self):
        """The CAT names 0x0300, a CA descriptor of the program 0x0301 and one of the stream 0x0302; 0x0101 is the stream's. Nothing is told
        where the PMT wasn't found, and not of 0x0068, whose one packet has the transport_error_indicator."""
        named = pmt_of([("02", 0x0101, "0904 0001 e302")]).replace("e101f000", "e101f006" + "09040001e301")
        named = named[:2] + f"{0xB000 + len(named) // 2 + 1:04x}" + named[6:]
        cat = table_packet(0x0001, "01b00fffffc10000" + "09040001e300")
        rest = b"".join(bytes([0x47, pid >> 8, pid & 255, 0x10]) + b"\xaa" * 184 for pid in (0x0300, 0x0301, 0x0302, 0x0067, 0x0101, 0x001F))
        rest += bytes([0x47, 0x00, 0x67, 0x11]) + b"\xaa" * 184 + bytes([0x47, 0x80, 0x68, 0x10]) + b"\xaa" * 184
        done = self.probed(PAT + cat + table_packet(0x0100, named) + rest)
        self.assertEqual(re.findall("trouble .* unreferenced .*", done.out), ["trouble 0x0067 unreferenced 2 packet 6 byte 1128 ms -"])
        self.assertNotIn("unreferenced", self.probed(PAT + cat + rest).out)

    def test_the_pid_of_a_nit_is_in_the_pat(self):
        """It is 0x0065 in the row of program 0."""
        pat = table_packet(0x0000, section("00", 1, "0000e0650064e100"))
        nit = table_packet(0x0065, "40f00d0001c10000f000f000")
        self.assertNotIn("trouble", self.probed(pat + TABLES[188:] + nit + 4 * NULL).out)
        self.assertIn("trouble 0x0065 unreferenced ", self.probed(TABLES + nit + 4 * NULL).out)

    def test_of_a_pat_with_programs_that_are_not_looked_at_no_pid_is_told(self):
        """Those behind the 1,024th aren't, and the last program's stream is 0x0102."""
        for count in 1_024, 1_025:
            rows = [f"{number:04x}e100" for number in range(1, count + 1)]
            parts = ["".join(rows[at:at + 41]) for at in range(0, count, 41)]
            tables = [table_packet(0x0000, f"00{0xB000 + len(part) // 2 + 9:04x}0001c1{number:02x}{len(parts) - 1:02x}{part}")
                      for number, part in enumerate(parts)]
            tables += [table_packet(0x0100, pmt_of([("02", 0x0101 + number // 1_025, "")], number)) for number in range(1, count + 1)]
            stream = b"".join(table[:3] + bytes([0x10 + at % 16]) + table[4:] for at, table in enumerate(tables))
            told = self.probed(stream + bytes([0x47, 0x01, 0x02, 0x10]) + b"\xaa" * 184).out
            self.assertEqual(told.count(" unreferenced "), 1_025 - count)

    def test_a_command_is_one_for_a_shell(self):
        name = "it's \"one\".2.ts"
        done = self.does(["probe", name, "--plan"], {name: TABLES[:2 * 188] + 2 * NULL + input_with(fast())[4 * 188:]})
        words = shlex.split(done.err.splitlines()[1].partition("PIDs: ")[2])
        self.assertEqual((words[:3], words[11]), (["ffmpeg", "-i", name], "service_name=it's \"one\".2"))

    def test_of_a_file_of_variable_rate_a_command_is_told(self):
        """A second of 1,000 packets and one of 500, as in the tests of rates. The first has its first second at 1,504,000 bits a second."""
        pcrs = [(step * 13_500_000, False, nulls) for step, nulls in enumerate([499, 499, 249, 249, 0])]
        said = f"""file 0 is of variable rate: its packets have no right times until null packets make it constant
file 0 gets them by ffmpeg, and other PIDs: {command_of(1654400)}
"""
        done = self.probed(input_with(pcrs), PLAN)
        self.assertEqual((done.err, done.status), (said, 0))

    def test_a_scrambled_service_is_left_out(self):
        stream = with_bits(input_with(fast()), 4, 3, 0x80)
        self.ends(self.probed(stream, PLAN), 1, "", "left out: file 0 program 100: it is scrambled\n" + NO_PLAN)
        self.assertIn("trouble 0x0101 scrambled 1 packet 4 byte 752 ms 3\n", self.probed(stream).out)

    def test_scrambling_bits_of_a_packet_in_error_are_not_believed(self):
        """The one packet that looks scrambled has the transport_error_indicator too."""
        stream = with_bits(with_bits(input_with(fast()), 4, 3, 0x80), 4, 1, 0x80)
        self.assertIn("\nprogram 100 pmt 0x0100 pcr 0x0101 scrambled no ", self.probed(stream).out)
        self.assertEqual(re.findall("trouble .* (?:error|scrambled) .*", self.probed(stream).out), ["trouble 0x0101 error 1 packet 4 byte 752 ms 3"])
        self.assertIn("\nprogram = 100\n", self.probed(stream, PLAN).out)

    def test_leaks_are_those_of_kinds_and_of_windows(self):
        """1,024 packets, which are two windows, at 15,040,000 bits a second: a packet takes 2,700 ticks. By PID, how many packets of either
        window it has: private data with the PCRs 6 and 5, audio 100 and 20, AVC 20 and 200, other private data 60 and none. The audio's
        highest rate is above its leak rate and its mean below; the AVC's highest rate is 15,040,000 * 200 / 512."""
        rows = [("06", 0x0101, ""), ("03", 0x0102, ""), ("1b", 0x0103, ""), ("06", 0x0104, "")]
        stream = [PAT, table_packet(0x0100, pmt_of(rows)), SDT] + 1021 * [NULL]
        for at in range(4, 1024, 100):
            stream[at] = pcr_packet(at // 100, at * 2700)
        for pid, first, second in (2, 100, 20), (3, 20, 200), (4, 60, 0):
            free = [at for at in range(4, 1024) if stream[at] == NULL]
            places = [at for at in free if at < 512][:first] + [at for at in free if at >= 512][:second]
            for count, at in enumerate(places):
                stream[at] = bytes([0x47, 0x01, pid, 0x10 + count % 16]) + b"\xaa" * 184
        stream = b"".join(stream)
        lines = self.probed(stream).out
        self.assertIn("\npid 0x0102 packets 120 rate 1769412 highest 2937500 ", lines)
        self.assertIn("\npid 0x0103 packets 220 rate 3243922 highest 5875000 ", lines)
        leaks = re.findall(r"leak = (\d+)", self.probed(stream, PLAN).out)
        self.assertEqual(leaks, ["1000000", "2000000", "5875000", "1762500"])

    def test_services_of_several_files_are_numbered_anew(self):
        """Two files with one PID and one program number each. The streams need 12,008 bits a second each."""
        files = {"a \"b\".ts": input_with(fast()), "c.ts": input_with(fast())}
        done = self.does(["probe", *files, "--plan"], files)
        self.assertEqual((done.err, done.status), ("", 0))
        lines = [line for line in done.out.splitlines() if line.split(" ")[0] in ("file", "input", "program", "service", "pmt", "pid", "out")]
        self.assertEqual(lines, [
            "file = 'a \"b\".ts'", 'file = "c.ts"',
            "input = 0", "program = 100", "service = 1", "pmt = 0x0100", "pid = 0x0101 # MPEG-2 video", "out = 0x0200",
            "input = 1", "program = 100", "service = 2", "pmt = 0x0101", "pid = 0x0101 # MPEG-2 video", "out = 0x0201",
        ])

    def test_what_is_no_input_is_told(self):
        """Two PCRs are wanted for a rate, and a PMT and a row of the SDT of a service."""
        for stream, why in (
            (input_with([(0, False, 99)]), ": its rate isn't known: fewer than two PCRs were found with no packet missing between"),
            (PAT + SDT + 2 * NULL + input_with(fast())[4 * 188:], " program 100: its PMT was not found"),
            (TABLES[:2 * 188] + 2 * NULL + input_with(fast())[4 * 188:], f" program 100: the SDT has no row that describes it\nffmpeg writes a file with one, and with other PIDs: {command_of(1507008)}"),
            (5 * NULL, ": it has no program"),
        ):
            self.ends(self.probed(stream, PLAN), 1, "", f"left out: file 0{why}\n{NO_PLAN}")

    def test_a_file_without_packets_is_told_by_what_it_looks_like(self):
        done = self.probed(b"no stream")
        said = "x.ts: it has no sync byte, 0x47, at its beginning: it is no transport stream\n"
        self.ends(done, 1, "file 0 packets 0 size - rate - variable - clock - name x.ts\ntables\n", said)
        stamped = b"".join(bytes(4) + packet for packet in [NULL] * 11)
        done = self.probed(stamped)
        said = "x.ts: it looks like packets of 192 bytes; they have to have 188 or 204\n"
        self.assertEqual((done.err, done.status), (said, 1))
        self.assertIn(" size 192 ", done.out)

    def test_a_file_that_is_not_there_ends_the_command(self):
        done = self.does(["probe", "x.ts", "y.ts"], {"x.ts": input_with(fast())})
        self.assertEqual((done.out, done.status), (LINES, 4))
        self.assertTrue(done.err.startswith("fault file y.ts\ny.ts: it can't be opened: "), done.err)

    def test_a_pipe_is_probed_as_a_file_is(self):
        with self.pipe_of(input_with(fast())) as name:
            done = self.does(["probe", name], {})
            self.ends(done, 0, LINES.replace("x.ts", name), "")

    def test_nine_files_are_refused(self):
        done = self.does(["probe", *["x.ts"] * 9], {})
        self.assertEqual((done.out, done.status), ("", 2))
        self.assertTrue(done.err.startswith("error: "), done.err)
        self.assertEqual(self.does(["probe"], {}).status, 2)
