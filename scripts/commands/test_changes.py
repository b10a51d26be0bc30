"""What is said of programs that change inside an input: they leave its PAT, their PMTs go to other PIDs, or change."""
from does import CHECK, FILES, RUN, CommandCase
from small import NULL, PAT, PLAN, PMT, TABLES, WIDE_PLAN, packets, pcr_packet, table_packet, widened

# Packet 12 of an input is the one that tells a change.
AT = "at packet 12, which isn't followed\n"

LEFT = f"program: input 0: program 100 left the PAT {AT}"

MOVED = f"program: input 0: the PMT of program 100 went to another PID {AT}"

CHANGED = f"program: input 0: the PMT of program 100 changed {AT}"

UNMEASURED = "rate: input 0 can't be measured: fewer than two PCRs were found with no packet missing between\n"

# Another PAT, of program 101; one with a further program; one that names another PID; one of two sections; and those of program 101 whose
# version stays, or that aren't in force yet.
PAT_OF_ANOTHER = table_packet(0x0000, "00b00d0001c300000065e100")
PAT_OF_BOTH = table_packet(0x0000, "00b0110001c300000064e1000065e110")
PAT_ELSEWHERE = table_packet(0x0000, "00b00d0001c300000064e110")
PAT_OF_TWO_SECTIONS = table_packet(0x0000, "00b00d0001c300010065e100")
PAT_OF_SAME_VERSION = table_packet(0x0000, "00b00d0001c100000065e100")
PAT_NOT_IN_FORCE = table_packet(0x0000, "00b00d0001c200000065e100")

# The PMT with version 1, the same of program 101, and one that isn't in force yet.
NEXT_PMT = table_packet(0x0100, "02b0120064c30000e101f00002e101f000")
PMT_OF_ANOTHER = table_packet(0x0100, "02b0120065c30000e101f00002e101f000")
PMT_NOT_IN_FORCE = table_packet(0x0100, "02b0120064c20000e101f00002e101f000")


def numbered(packet, counter):
    """The packet with another continuity counter."""
    return packet[:3] + bytes([packet[3] & 0xF0 | counter]) + packet[4:]


def input_with(*changed):
    """The tables, five packets in step, the PAT and the PMT once more, two null packets, and these from packet 12 on."""
    octets = TABLES + packets(range(5)) + numbered(PAT, 1) + numbered(PMT, 1) + NULL * 2
    assert len(octets) == 12 * 188
    return octets + b"".join(numbered(packet, 2) for packet in changed) + packets([5]) + NULL * 5


class Changes(CommandCase):
    def tells(self, octets, lines, plan=PLAN):
        """A check and a run say this of an input, and end with status 1 where they are strict and say something."""
        files = {**FILES, "x.toml": plan, "x.ts": octets}
        for words in CHECK, RUN:
            for strict in [], ["--strict"]:
                done = self.does([*words, *strict], files)
                told = "".join(line for line in done.err.splitlines(True) if line.startswith("program: "))
                self.assertEqual((told, done.status), (lines, 1 if strict and lines else 0), done.err)

    def test_a_program_that_leaves_the_pat(self):
        self.tells(input_with(PAT_OF_ANOTHER), LEFT)
        self.tells(input_with(PAT_OF_ANOTHER, numbered(PAT, 3)), LEFT)

    def test_a_pmt_that_goes_to_another_pid(self):
        self.tells(input_with(PAT_ELSEWHERE), MOVED)

    def test_a_pmt_that_changes(self):
        self.tells(input_with(NEXT_PMT), CHANGED)
        self.tells(input_with(NEXT_PMT, PAT_OF_ANOTHER), CHANGED)

    def test_what_stays_is_not_told(self):
        """The same tables, another program, a table of two sections, one whose version stays, one that isn't in force, one with a wrong CRC,
        and the PMT of another program on the PID."""
        others = PAT_OF_BOTH, PAT_OF_TWO_SECTIONS, PAT_OF_SAME_VERSION, PAT_NOT_IN_FORCE, PMT_NOT_IN_FORCE, PMT_OF_ANOTHER
        for packet in PAT, PMT, *others:
            self.tells(input_with(packet), "")
        self.tells(input_with(NEXT_PMT[:22] + b"\0" + NEXT_PMT[23:]), "")

    def test_packets_of_204_bytes(self):
        self.tells(widened(input_with(NEXT_PMT)), CHANGED, WIDE_PLAN)

    def test_the_lines_stand_behind_the_rate(self):
        files = {**FILES, "x.ts": input_with(NEXT_PMT)}
        self.assertTrue(self.does(CHECK, files).err.endswith(UNMEASURED + CHANGED))
        self.assertEqual(self.does(RUN, files).err, "end: all inputs ended\n" + CHANGED)

    def test_a_rate_is_not_told_as_variable_where_a_program_changed(self):
        """Seconds of 1,000 packets, and of 500."""
        octets = TABLES + packets(range(2)) + numbered(PAT, 1) + numbered(PMT, 1)
        for second in range(6):
            octets += pcr_packet(2 + second, 27_000_000 * second) + NULL * (999 if second < 3 else 499)
        variable = "rate: input 0 is of variable rate"
        for tail, is_told in (b"", True), (numbered(NEXT_PMT, 2), False):
            done = self.does([*CHECK, "--strict"], {**FILES, "x.ts": octets + tail})
            self.assertEqual((variable in done.err, done.status), (is_told, 1), done.err)
