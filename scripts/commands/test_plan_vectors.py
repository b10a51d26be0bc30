"""The lines of plans.txt: plans, and what `check` and the tables of a run's output say of them."""
import os
import re

from does import FILES, RUN, CommandCase
from small import NULL, PLAN, crc, input_of, packets, service, settings

FINE = "fine"

HERE = os.path.dirname(os.path.realpath(__file__))


def read_vectors():
    """The lines of plans.txt behind each heading."""
    lines, sections = [], {}
    with open(os.path.join(HERE, "plans.txt"), encoding="utf-8") as file:
        for line in file.read().splitlines():
            heading = re.match(r"\[(\w+)\] ", line)
            if heading:
                lines = sections[heading[1]] = []
            elif line and not line.startswith("#"):
                lines.append(line)
    return sections


VECTORS = read_vectors()


def named(heading):
    """The lines of a heading that each begin with a name, by these."""
    return dict(line.split(" ", 1) for line in VECTORS[heading])


def wanted(heading):
    """The lines of a heading: what is tried, and what is said of it."""
    return [line.split(" => ") for line in VECTORS[heading]]


BODIES, ROWS, SERVICES = named("bodies"), named("rows"), named("services")


def section(table_id, extension, body, number=0, last=0):
    """A section with its CRC_32."""
    rest = extension.to_bytes(2, "big") + bytes([0xC1, number, last]) + body
    made = bytes([table_id]) + (0xF000 | len(rest) + 4).to_bytes(2, "big") + rest
    return made + crc(made)


def section_packets(pid, made):
    """The packets of a section."""
    octets, found = b"\0" + made, b""
    for counter, at in enumerate(range(0, len(octets), 184)):
        head = bytes([0x47, (0x40 if at == 0 else 0) | pid >> 8, pid & 0xFF, 0x10 | counter % 16])
        found += (head + octets[at:at + 184]).ljust(188, b"\xff")
    return found


def long_row(program):
    """A row of an SDT of 260 bytes: its provider has a name of 250."""
    return bytes([0, program, 0xFC, 0x80, 255, 0x48, 253, 1, 250]) + b"A" * 250 + b"\0"


def sdt_rows(text):
    """The rows of each section of an SDT."""
    for part in text.split(" / "):
        if part.startswith("long"):
            yield b"".join(long_row(int(program)) for program in part.split()[1:])
        elif part != "-":
            yield bytes.fromhex(part)


def input_with(programs, rows):
    """An input: a PAT, the PMTs of its programs, the first of which is told, and an SDT."""
    first, *bodies = programs.split()
    pat, pmts = b"", b""
    for place, name in enumerate(bodies):
        program, pid = int(first) + place, 0x0500 + place
        pat += program.to_bytes(2, "big") + (0xE000 | pid).to_bytes(2, "big")
        if BODIES[name] != "-":
            pmts += section_packets(pid, section(2, program, bytes.fromhex(BODIES[name])))
    sdts = list(sdt_rows(rows))
    made = section_packets(0, section(0, 7, pat)) + pmts
    for number, row in enumerate(sdts):
        made += section_packets(0x0011, section(0x42, 7, b"\0\1\xff" + row, number, len(sdts) - 1))
    return made + NULL * 5


def service_text(word):
    """A service in a plan's text; in front of its name stands its input, where it isn't input 0."""
    of, name = word.split(":") if ":" in word else ("0", word)
    program, number, pmt, *streams = SERVICES[name].split()
    text = f"[[service]]\ninput = {of}\nprogram = {program}\nservice = {number}\npmt = 0x{pmt}\n"
    for stream in streams:
        pid, out = stream.split("/")
        text += f"[[service.stream]]\npid = 0x{pid}\nout = 0x{out}\nleak = 1000000\n"
    return text


def files_of(rate, period, services, inputs):
    """The plan for these services of these inputs, and the inputs: of each its programs and its SDT."""
    head = settings().replace("1504000", rate).replace("period = 100", f"period = {period}").replace('"N"', '"net"')
    text, files = head, {}
    for place, (programs, rows) in enumerate(inputs):
        text += f'[[input]]\nfile = "{place}.ts"\nrate = 10000000\noffset = 0\n'
        files[f"{place}.ts"] = input_with(programs, ROWS[rows])
    files["x.toml"] = text + "".join(map(service_text, services.split()))
    return files


def files_of_line(line):
    """The same for one input, as a line of plans.txt tells it."""
    numbers, services, programs, rows = line.split(", ")
    return files_of(*numbers.split(), services, [(programs, rows)])


def counted(inputs, services, streams):
    """A plan of so many inputs and services, the first with so many streams."""
    text = settings()
    text += "" if inputs else "input = []\n"
    text += "" if services else "service = []\n"
    text += '[[input]]\nfile = "x.ts"\nrate = 1504000\noffset = 0\n' * inputs
    for place in range(services):
        text += f"[[service]]\ninput = 0\nprogram = 100\nservice = {1 + place}\npmt = {0x20 + place}\n"
        rows = range(0 if place else streams)
        text += "" if rows else "stream = []\n"
        for row in rows:
            text += f"[[service.stream]]\npid = {0x20 + row}\nout = {0x200 + row}\nleak = 1000\n"
    return text


def renumbered(key, number):
    """The example plan with another number of this key, and a second input."""
    table, _, name = key.rpartition(".")
    heads = {"": "", "input": "[[input]]", "service": "[[service]]", "stream": "[[service.stream]]"}
    at = PLAN.index(heads[table])
    changed, count = re.subn(rf"^{name} = \d+$", f"{name} = {number}", PLAN[at:], count=1, flags=re.M)
    assert count == 1, key
    return PLAN[:at] + changed + '[[input]]\nfile = "x.ts"\nrate = 1504000\noffset = 0\n'


def second(line):
    """The example plan with a second service."""
    number, pmt, *streams = line.split()
    text = f"[[service]]\ninput = 0\nprogram = 200\nservice = {number}\npmt = {pmt}\n"
    text += "" if streams else "stream = []\n"
    for stream in streams:
        pid, out, leak = stream.split("/")
        text += f"[[service.stream]]\npid = {pid}\nout = {out}\nleak = {leak}\n"
    return PLAN + text


def sections_of(octets, pid):
    """The sections on a PID of the output, which begin in packets of their own."""
    found = []
    for at in range(0, len(octets), 188):
        packet = octets[at:at + 188]
        if (packet[1] & 0x1F) << 8 | packet[2] == pid:
            if packet[1] & 0x40:
                found.append(b"")
            found[-1] += packet[5 if packet[1] & 0x40 else 4:]
    return [made[:3 + (made[1] & 15) * 256 + made[2]] for made in found]


class PlanVectors(CommandCase):
    def says(self, plan, want, files=None):
        """`check` says this of a plan: that it is fine, or its fault, and the beginning of its cause where that is told."""
        fault, _, cause = want.partition(": ")
        if fault != FINE:
            done = self.refuses(plan, f"fault {fault}\n", files)
            self.assertTrue(done.err.splitlines()[2].startswith(cause), done.err)
            return None
        done = self.does(["check", "--plan", "p.toml"], {**(files or FILES), "p.toml": plan})
        self.assertEqual(done.status, 0, done.err)
        return done

    def test_edits(self):
        for edit, want in wanted("edits"):
            old, new = edit.split(" -> ")
            with self.subTest(new):
                self.assertIn(old, PLAN)
                self.says(PLAN.replace(old, re.sub(r"(?<!\\)\\n", "\n", new).replace("\\\\", "\\"), 1), want)

    def test_numbers(self):
        for line, wants in wanted("numbers"):
            key, numbers = line.split(" -> ")
            below, least, most, above = numbers.split()
            of_least, of_most = wants.split(", ")
            out = "2 OutOfRange"
            for number, want in [(below, out), (least, of_least), (most, of_most), (above, out)]:
                with self.subTest(f"{key} {number}"):
                    self.says(renumbered(key, number), want)

    def test_counts(self):
        for counts, want in wanted("counts"):
            with self.subTest(counts):
                self.says(counted(*map(int, counts.split())), want)

    def test_descriptors(self):
        for line, want in wanted("descriptors"):
            with self.subTest(line):
                lengths, cut = line.split(" - ")
                loop = b"".join(bytes([0x41, length]) + bytes(length) for length in map(int, lengths.split()))
                loop = loop[:len(loop) - int(cut)]
                self.says(PLAN.replace('descriptors = ""', f'descriptors = "{loop.hex()}"'), want)

    def test_sections_that_just_fit(self):
        """A PMT with descriptors of the program of 1,003 bytes, and a row of an SDT with descriptors of 1,004: sections of 1,024 bytes."""
        info = (bytes([0x80, 255]) + bytes(255)) * 3 + bytes([0x80, 230]) + bytes(230)
        pmt = section(2, 100, bytes.fromhex("e101f3eb") + info + bytes.fromhex("02e101f000"))
        loop = bytes.fromhex("4803010000") + (bytes([0x80, 255]) + bytes(255)) * 3 + bytes([0x80, 226]) + bytes(226)
        sdt = section(0x42, 7, b"\0\2\xff" + b"\0\x64\xfc" + (0x8000 | len(loop)).to_bytes(2, "big") + loop)
        self.assertEqual((len(pmt), len(sdt)), (1024, 1024))
        pat = section_packets(0, section(0, 7, bytes.fromhex("0064e100")))
        octets = pat + section_packets(0x0100, pmt) + section_packets(0x0011, sdt) + packets([0])
        self.says(PLAN, FINE, {"x.ts": octets})

    def test_the_longest_nit(self):
        """Services of one program, whose stream is theirs together."""
        for line, want in wanted("nit"):
            with self.subTest(line):
                services, name, length = map(int, line.split())
                text = "".join(service(number).replace(f"out = {512 + number}", "out = 512") for number in range(services))
                loop = (bytes([0x80, 178]) + bytes(178)) * (length // 180)
                plan = (settings() + input_of() + text).replace('"N"', f'"{"N" * name}"').replace('descriptors = ""', f'descriptors = "{loop.hex()}"')
                self.says(plan, want)

    def test_a_second_service(self):
        for line, want in wanted("second"):
            with self.subTest(line):
                self.says(second(line), want)

    def test_plans(self):
        for line, want in wanted("plans"):
            with self.subTest(line):
                files = files_of_line(line)
                self.says(files["x.toml"], want, files)

    def test_rhythms(self):
        for line, want in wanted("rhythms"):
            with self.subTest(line):
                files = files_of_line(line)
                self.assertEqual(self.says(files["x.toml"], FINE, files).out.splitlines()[0], want)

    def test_streams(self):
        for line, want in wanted("streams"):
            with self.subTest(line):
                services, of_inputs = line.split(", ")
                files = files_of("10000000", "500", services, [(programs, "ROWS") for programs in of_inputs.split(" / ")])
                shown = [row for row in self.says(files["x.toml"], FINE, files).out.splitlines() if row.startswith("stream ")]
                self.assertEqual(shown, [f"stream {row} leak 1000000" for row in want.split(", ")])

    def test_tables_of_the_output(self):
        """The versions and the EIT flags of the input aren't those of the output."""
        pat, pmt = section(0, 7, bytes.fromhex("0064e100")), bytearray(section(2, 100, bytes.fromhex("e101f00002e101f000"))[:-4])
        pmt[5] = 0xD3
        sdt = section(0x42, 7, bytes.fromhex("0002ff0064ff800748050101410142"))
        pmt = bytes(pmt) + crc(pmt)
        octets = section_packets(0, pat) + section_packets(0x0100, pmt) + section_packets(0x0011, sdt) + packets(range(120))
        output = self.does([*RUN, "--slots", "110"], {**FILES, "x.ts": octets}).written
        for line in VECTORS["tables"]:
            head, rest = line.split(" ", 1)
            with self.subTest(head):
                want = bytes.fromhex(head + rest).ljust(188, b"\xff")
                first = next(output[at:at + 188] for at in range(0, len(output), 188) if output[at + 1:at + 3] == want[1:3])
                self.assertEqual(first.hex(), want.hex())

    def test_sections_of_the_output(self):
        files = files_of_line(wanted("rhythms")[3][0])
        files["0.ts"] += b"".join(packets([counter]) + NULL * 149 for counter in range(100))
        output = self.does([*RUN, "--slots", "2000"], files).written
        found = sections_of(output, 0x0011)[:2] + sections_of(output, 0x0010)[:1]
        for made, want in zip(found, VECTORS["sections"], strict=True):
            self.assertEqual(made[:len(want) // 2].hex(), want)

    def test_packets_of_tables_take_turns(self):
        """Of four services: in each round of 100 slots the PAT and four PMTs, two slots apart, and behind them one of seven packets of the SDT
        and one of the NIT. Three rows of 260 bytes have room in a section of the SDT, which so has five packets, and the other two. The
        input comes 2,000 slots behind the start, so that no other packet goes out."""
        programs = range(1, 5)
        pat = b"".join(bytes([0, k, 0xF0, k]) for k in programs)
        octets = section_packets(0, section(0, 7, pat))
        for k in programs:
            octets += section_packets(0x1000 + k, section(2, k, bytes([0xE1, k, 0xF0, 0, 2, 0xE1, k, 0xF0, 0])))
        for number, rows in enumerate([long_row(1) + long_row(2), long_row(3) + long_row(4)]):
            octets += section_packets(0x0011, section(0x42, 7, b"\0\x09\xff" + rows, number, 1))
        plan = settings() + input_of().replace("offset = 0", "offset = 54000000") + "".join(service(k, program=k, pid=0x0100 + k) for k in programs)
        output = self.does([*RUN, "--slots", "1000"], {"x.toml": plan, "x.ts": octets + packets([0])}).written
        self.assertEqual(len(output), 188 * 1000)
        fast, slow = {0: 0x0000, **{2 * k: 0x0100 + k for k in programs}}, [0x0011] * 7 + [0x0010]
        sent, starts, first = {}, [], {}
        for slot in range(1000):
            packet = output[188 * slot:188 * slot + 188]
            pid = slow[slot // 100 % 8] if slot % 100 == 10 else fast.get(slot % 100, 0x1FFF)
            self.assertEqual((packet[1] & 0x1F) << 8 | packet[2], pid, slot)
            if pid < 0x1FFF:
                self.assertEqual(packet[3], 0x10 + sent.get(pid, 0) % 16, slot)
                sent[pid] = sent.get(pid, 0) + 1
                turn = (pid, slot // 100 % 8) if slot % 100 == 10 else pid
                self.assertEqual(packet[4:], first.setdefault(turn, packet[4:]), slot)
            if slot % 100 == 10 and packet[1] & 0x40:
                starts.append((slot, packet[5]))
        self.assertEqual(starts, [(10, 0x42), (510, 0x42), (710, 0x40), (810, 0x42)])
