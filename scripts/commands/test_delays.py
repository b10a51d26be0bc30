"""How long the streams of a run waited, as it is told with `--delays`, and what is said of an overfull plan.

The time of a packet is that of its byte 10, and so is a slot's: slot s has 27,000 s + 1,436 ticks, and packet k of the input, its tables
counted, just as many for s = k. A slot goes out as soon as each input gave a packet of a later time, or has ended, or found a queue
full. No packet is taken before a slot asks for it.
"""
from does import ENDED, FILES, LINES, CommandCase, does_once
from small import EIGHT, TABLES, input_of, packets, pcr_packet, service, settings

RUN = ["run", "--plan", "x.toml", "--out", "out.ts", "--delays"]

# Packets 3 to 7 are the stream's, and go out in the slots 3, 5, 6, 7 and 8, since slot 4 is of a table: the first without a delay, each
# other a slot of 27,000 ticks late. Slot 5 asks for packet 6, and then the packets 4, 5 and 6 wait, of which it sends one; slot 6 asks
# for packet 7, and three wait again; then the input has ended.
TOLD = "stream 0x0200 input 0 pid 0x0101 delay 27000 queue 3\n" + ENDED

# A plan with queues of 4 packets, whose input comes twice as fast as slots go out, and 20 packets of it.
FULL = {"x.toml": settings(queue=4) + input_of(rate=3008000) + service(), "x.ts": TABLES + packets(range(20))}

# A plan of 500,000 bits a second, with queues of 1,024 packets and two inputs of the same rate, each with 320 packets of a stream.
SLOW_PLAN = settings(queue=1024) + input_of() + input_of("y.ts") + service() + service(1, of=1)
SLOW = {"x.toml": SLOW_PLAN.replace("rate = 1504000", "rate = 500000"), **dict.fromkeys(["x.ts", "y.ts"], TABLES + packets(range(320)))}

# A slot and a packet of each input take 81,216 ticks, and packet k of an input comes in slot k. Each round of 100 slots has tables in its
# slots 0, 2, 4 and 6, and slot 1 is empty; packets go out in the order of their times. So from slot 7 on the n-th of them, from 0, has
# slot n + 5 + 4 r in round r. Packet 322, the last of each input, has the numbers 638 and 639 and goes out in the slots 667 and 668 of
# round 6: 345 and 346 slots late, which are 28,019,520 and 28,100,736 ticks, 1,037.8 and 1,040.8 milliseconds. 640 of 669 slots have
# packets of streams: 500,000 * 640 / 669 is 478,325.9. 96 of 100 slots carry no table: 480,000 bits a second.
OF_SLOW = ENDED + """overfull: stream 0x0200 (input 0, PID 0x0101): a packet waited 1038 ms
overfull: stream 0x0201 (input 1, PID 0x0101): a packet waited 1041 ms
overfull: the services took 478325 bits a second; rate 500000 leaves 480000 after the tables
"""


def pcrs_of(octets):
    """The slots of an output whose packets have an adaptation field, with the six bytes of a PCR in it."""
    return [(at // 188, octets[at + 6:at + 12].hex()) for at in range(0, len(octets), 188) if octets[at + 3] & 0x20]


class Delays(CommandCase):
    def test_the_delay_of_a_stream_is_told(self):
        done = self.does(RUN)
        self.ends(done, 0, LINES, TOLD)
        self.writes(done, 1692)

    def test_the_delay_of_each_packet_is_in_its_pcr(self):
        """Each of the five packets has the PCR 0, which goes out as the packet's delay: 0, or 27,000, which is 90 times 300."""
        done = self.does(RUN, {**FILES, "x.ts": TABLES + b"".join(pcr_packet(counter, 0) for counter in range(5))})
        self.ends(done, 0, LINES, TOLD)
        late = "0000002d7e00"
        self.assertEqual(pcrs_of(done.written), [(3, "000000007e00"), (5, late), (6, late), (7, late), (8, late)])

    def test_an_overfull_plan_is_seen(self):
        """Packet k of the input has 13,500 k + 718 ticks. Packet 3 goes out in slot 3, and packet 3 + j in slot 4 + j for each j from
        1 to 19: its delay is 27,000 (4 + j) + 1,436 - 13,500 (3 + j) - 718 = 68,218 + 13,500 j ticks, more with each slot. From slot 3
        on each slot finds the queue full, with 4 packets. The last of 14 slots sends packet 12, while 13, 14 and 15 wait behind it and
        16 is held: 17 of 23 packets were read. 20 of 24 slots, and 10 of 14, have packets of the stream, and 97 of 100 carry no table.
        """
        lines = """input 0 framed 23 malformed 0 unmapped 3 bad 0 losses 0 lost 0 taken 20 sent 20 dropped 0 queued 0
slots 24 tables 3 elementary 20 null 1 faults 0
"""
        of_stream = "stream 0x0200 input 0 pid 0x0101 delay 324718 queue 4\n"
        of_plan = """overfull: stream 0x0200 (input 0, PID 0x0101): its queue was full, with 4 packets
overfull: the services took 1253333 bits a second; rate 1504000 leaves 1458880 after the tables
overfull: no packet waited a second: `queue` may be too small, raise it
"""
        whole = self.does(RUN, FULL)
        self.ends(whole, 0, lines, of_stream + ENDED + of_plan)
        unasked = self.does(RUN[:-1], FULL)
        self.ends(unasked, 0, lines, ENDED + of_plan)
        self.assertTrue(unasked.written == whole.written, "another output")
        shorter = self.does([*RUN, "--slots", "14"], FULL)
        told = """stream 0x0200 input 0 pid 0x0101 delay 189718 queue 4
end: the slot limit: input 0 was read to 73 %
overfull: stream 0x0200 (input 0, PID 0x0101): its queue was full, with 4 packets
overfull: the services took 1074285 bits a second; rate 1504000 leaves 1458880 after the tables
overfull: no packet waited a second: `queue` may be too small, raise it
"""
        self.assertEqual(shorter.err, told)

    def test_packets_that_waited_long_are_named(self):
        lines = """input 0 framed 323 malformed 0 unmapped 3 bad 0 losses 0 lost 0 taken 320 sent 320 dropped 0 queued 0
input 1 framed 323 malformed 0 unmapped 3 bad 0 losses 0 lost 0 taken 320 sent 320 dropped 0 queued 0
slots 669 tables 28 elementary 640 null 1 faults 0
"""
        plain, strict = self.does(RUN[:-1], SLOW), self.does([*RUN[:-1], "--strict"], SLOW)
        self.ends(plain, 0, lines, OF_SLOW)
        self.ends(strict, 1, lines, OF_SLOW)
        self.assertTrue(strict.written == plain.written, "another output")

    def test_each_stream_has_a_line(self):
        """Two inputs, the second without its last packet. Tables go out in the slots 0, 2, 4 and 6; packet 3 of the first input in slot
        3 and of the second in slot 5; then packets 4 to 6 of both by turns in the slots 7 to 12, and packet 7 of the first in slot 13.
        Slot 6 asks for packet 7 of the first, which has sent one of five by then; slot 5 asks for packet 6 of the second, which has sent
        none."""
        plan = settings() + input_of() + input_of("y.ts") + service() + service(1, of=1)
        lines = """input 0 framed 8 malformed 0 unmapped 3 bad 0 losses 0 lost 0 taken 5 sent 5 dropped 0 queued 0
input 1 framed 7 malformed 0 unmapped 3 bad 0 losses 0 lost 0 taken 4 sent 4 dropped 0 queued 0
slots 14 tables 4 elementary 9 null 1 faults 0
"""
        told = """stream 0x0200 input 0 pid 0x0101 delay 162000 queue 4
stream 0x0201 input 1 pid 0x0101 delay 162000 queue 4
end: all inputs ended
"""
        self.ends(self.does(RUN, {"x.toml": plan, "x.ts": EIGHT, "y.ts": EIGHT[:-188]}), 0, lines, told)

    def test_delays_are_told_behind_the_lines_where_they_can_be(self):
        """A standard error that takes nothing changes neither the lines nor the status; where the lines can't be printed, no delays
        are."""
        told = """fault file standard output
standard output: it can't be written: No space left on device (os error 28)
end: all inputs ended
"""
        for way in [], ["--serial"]:
            with open("/dev/full", "wb") as full:
                done = does_once([*RUN, *way], stderr=full)
                self.assertEqual((done.out, done.status), (LINES, 0))
                done = does_once([*RUN, *way], stdout=full)
                self.assertEqual((done.err, done.status), (told, 4))
