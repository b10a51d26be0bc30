"""What is said of the rates of inputs: the example's is stated to have 1,504,000 bits a second, so that a packet takes a millisecond, as
a slot does."""
from does import CHECK, FILES, RUN, CommandCase
from small import NULL, PLAN, TABLES, WIDE_PLAN, packets, pcr_packet, widened

# After so many ticks a PCR begins anew.
PCR_MODULUS = 300 << 33

# The ticks of 167 packets at 1,507,008 bits a second: 167 * 1,504 * 27,000,000 / 1,507,008 is 4,500,000. That rate is 1,504,000 and 2 in
# a thousand more.
STEP = 4_500_000

FAST = "rate: input 0 runs at 1507008 bits a second by the PCRs of PID 0x0101, 2000 ppm above the stated 1504000: state 1507008\n"

# Four of 502 packets are the stream's: 1,507,008 * 4 / 502 is 12,008.03. Three of 100 slots are for tables: 45,120 of 1,504,000.
SUM = "services: measured 12008 bits a second of 1504000, the tables take 45120\n"


def input_with(pcrs):
    """The tables, a null packet, and packets with these PCRs, each with whether the discontinuity indicator is set, and how many null
    packets follow. The first of them is the fifth packet in step."""
    octets = TABLES + NULL
    for counter, (pcr, is_discontinuous, nulls) in enumerate(pcrs):
        octets += pcr_packet(counter, pcr % PCR_MODULUS, is_discontinuous) + nulls * NULL
    return octets


def files_with(pcrs, plan=PLAN):
    """A plan, and an input with these PCRs."""
    return {**FILES, "x.toml": plan, "x.ts": input_with(pcrs)}


def fast(first=0):
    """Four PCRs of an input that runs fast, 167 packets apart, from this one on."""
    return [(first + step * STEP, False, 166 if step < 3 else 0) for step in range(4)]


def counted(pcrs):
    """An input with these PCRs, each with a list of counters: those of the packets behind it on PID 0x0102, with which its neighbours are
    167 packets apart before any packet is lost or doubled."""
    octets = TABLES + NULL
    for counter, (pcr, counters) in enumerate(pcrs):
        octets += pcr_packet(counter, pcr) + b"".join(bytes([0x47, 0x01, 0x02, 0x10 + at % 16]) + b"\xaa" * 184 for at in counters)
    return octets


# Four intervals of the fast input, with packets of another PID between the PCRs.
WHOLE = [(step * STEP, list(range(166 * step, 166 * (step + 1))) if step < 4 else []) for step in range(5)]


class Rates(CommandCase):
    def told(self, files):
        """What a check says behind its lines of the tables."""
        return self.does(CHECK, files).err.partition("slots take 1000 s\n")[2]

    def test_an_input_that_runs_fast_is_told(self):
        """A check says it, and a run behind its end. The same with a PCR that wraps."""
        for first in 0, PCR_MODULUS - 2 * STEP:
            self.assertEqual(self.told(files_with(fast(first))), FAST + SUM)
            self.assertEqual(self.does(RUN, files_with(fast(first))).err, "end: all inputs ended\n" + FAST)

    def test_all_bytes_of_an_input_are_measured(self):
        """The rate of packets of 204 bytes counts all of their bytes: 1,632,000 and 2 in a thousand more. What the services take
        doesn't: 1,635,264 * 188 / 204 is 1,507,008."""
        told = "rate: input 0 runs at 1635264 bits a second by the PCRs of PID 0x0101, 2000 ppm above the stated 1632000: state 1635264\n"
        self.assertEqual(self.told({"x.toml": WIDE_PLAN, "x.ts": widened(input_with(fast()))}), told + SUM)

    def test_splices_are_left_out(self):
        """Three PCRs; two more, the first of which has the discontinuity indicator; and two more, ten seconds behind."""
        far = 1_000_000_000
        pcrs = [
            (far, False, 166),
            (far + STEP, False, 166),
            (far + 2 * STEP, False, 10),
            (far + 2 * STEP + 100, True, 166),
            (far + 3 * STEP + 100, False, 10),
            (far - 270_000_000, False, 166),
            (far - 270_000_000 + STEP, False, 0),
        ]
        self.assertTrue(self.told(files_with(pcrs)).startswith(FAST))

    def lost(self, change):
        """What a check says of the rate of the fast input, of which one interval has other packets."""
        pcrs = [(pcr, list(counters)) for pcr, counters in WHOLE]
        change(pcrs)
        return self.told({**FILES, "x.ts": counted(pcrs)}).partition("services:")[0]

    def test_packets_that_are_missing_do_not_change_a_rate(self):
        """Three packets of the second interval, and then nearly all of it, by which the rate would be another one, or variable."""
        self.assertEqual(self.lost(lambda pcrs: None), FAST)
        for last in 53, 160:
            def lose(pcrs, last=last):
                del pcrs[1][1][50:last]
            self.assertEqual(self.lost(lose), FAST)

    def test_packets_that_came_twice_do_not_change_a_rate(self):
        def double(pcrs):
            pcrs[2][1][10:10] = pcrs[2][1][10:14]
        self.assertEqual(self.lost(double), FAST)

    def test_a_rate_is_unknown_where_each_interval_lacks_packets(self):
        def lose(pcrs):
            for _, counters in pcrs:
                del counters[20:22]
        self.assertEqual(self.lost(lose), "rate: input 0 can't be measured: fewer than two PCRs were found with no packet missing between\n")

    def test_a_counter_that_is_allowed_to_jump_cuts_nothing(self):
        """Null packets have none, packets without a payload have that before them, and one with the discontinuity indicator any."""
        octets = TABLES + NULL
        for step in range(3):
            octets += pcr_packet(step, step * STEP)
            without = bytes([0x47, 0x01, 0x01, 0x20 + step, 183, 0]) + b"\xff" * 182
            anew = bytes([0x47, 0x01, 0x02, 0x30 + 5 * step, 1, 0x80]) + b"\xaa" * 182
            octets += without + anew + NULL * 164
        octets += pcr_packet(3, 3 * STEP)
        self.assertTrue(self.told({**FILES, "x.ts": octets}).startswith(FAST))

    def test_scrambled_packets_are_told(self):
        """Two packets of the stream, one with each of the odd and the even key."""
        octets = TABLES + packets(range(3)) + b"".join(
            bytes([0x47, 0x01, 0x01, control + counter]) + b"\xaa" * 184 for control, counter in [(0x90, 3), (0xD0, 4)]
        ) + packets([5, 6])
        line = "scrambled: stream 0x0200 (input 0, PID 0x0101): 2 packets: nobody can see them without a key\n"
        files = {**FILES, "x.ts": octets}
        self.assertTrue(self.told(files).endswith(line))
        self.assertEqual(self.does(RUN, files).err, "end: all inputs ended\n" + line)
        for words in CHECK, RUN:
            self.assertEqual(self.does([*words, "--strict"], files).status, 1)

    def test_an_input_of_variable_rate_is_told(self):
        """A second of 1,000 packets and one of 500, each with a PCR at its half: points at 0, 2, 4, 5 and 6 times 47,000 bytes and at 0
        to 4 times 13,500,000 ticks. 5 * 81 - 17 * 17 is 116, 5 * 49 - 17 * 10 is 75, and 47,000 bytes a half second are 752,000 bits a
        second: 752,000 * 116 / 75 is 1,163,093.3."""
        pcrs = [(step * 13_500_000, False, nulls) for step, nulls in enumerate([499, 499, 249, 249, 0])]
        told = "rate: input 0 is of variable rate by the PCRs of PID 0x0101, 1163093 bits a second in all; the plan states 1504000 throughout: null packets have to make it constant first\n"
        self.assertTrue(self.told(files_with(pcrs)).startswith(told))

    def test_what_the_services_take_is_told(self):
        """A leak rate below that is named too, in a check and in a run."""
        self.assertEqual(self.told(files_with(fast())), FAST + SUM)
        low = PLAN.replace("leak = 2000000", "leak = 12007")
        leak = "leak: stream 0x0200 (input 0, PID 0x0101): 12007 bits a second, below its measured 12008: state more\n"
        self.assertEqual(self.told(files_with(fast(), low)), FAST + SUM + leak)
        self.assertEqual(self.does(RUN, files_with(fast(), low)).err, "end: all inputs ended\n" + FAST + leak)
        just = PLAN.replace("leak = 2000000", "leak = 12008")
        self.assertEqual(self.told(files_with(fast(), just)), FAST + SUM)

    def test_nothing_is_said_of_a_rate_that_is_as_stated(self):
        """27,000 ticks a packet: nothing but what the services take, 1,504,000 * 3 / 201 or 22,447.8 bits a second. With one PCR nothing
        is known."""
        pcrs = [(0, False, 99), (2_700_000, False, 99), (5_400_000, False, 0)]
        told = "services: measured 22448 bits a second of 1504000, the tables take 45120\n"
        self.assertEqual(self.told(files_with(pcrs)), told)
        told = "rate: input 0 can't be measured: fewer than two PCRs were found with no packet missing between\n"
        self.assertEqual(self.told(files_with(pcrs[:1])), told)
