"""Streams of 204-byte packets: the example's, with sixteen bytes 0x47 after each. One of them takes a millisecond at 1,632,000 bits a
second, as one of 188 bytes does at 1,504,000."""
from does import CHECK, ENDED, LINES, RUN, CommandCase
from small import EIGHT, NULL, PAT, PLAN, TABLES, WIDE_PLAN, packets, pcr_packet, widened
from test_delays import pcrs_of

ANALYSE = ["analyse", "--rate", "1632000", "--period", "1000", "x.ts"]
ANALYSE_204 = [*ANALYSE[:-1], "--size", "204", "x.ts"]

# A PAT and 501 null packets of 204 bytes. Half a second has 500 of them.
PAUSED = widened(PAT + 501 * NULL)


def wide(octets):
    """The plan of 204-byte packets, and an input of these bytes."""
    return {"x.toml": WIDE_PLAN, "x.ts": octets}


class Sizes(CommandCase):
    def test_packets_of_204_bytes_are_multiplexed(self):
        """A run writes what the run over the packets alone does, also where bytes lack after the last one."""
        plain = self.does(RUN)
        for length in 1616, 1632:
            done = self.does(RUN, wide(widened(EIGHT)[:length]))
            self.ends(done, 0, LINES, ENDED)
            self.assertTrue(done.written == plain.written, "another output")

    def test_all_bytes_are_counted_as_read(self):
        """Four packets of eight."""
        done = self.does([*RUN, "--slots", "3"], wide(widened(EIGHT)))
        self.assertEqual(done.err, "end: the slot limit: input 0 was read to 50 %\n")

    def test_a_packet_of_204_bytes_comes_at_its_time(self):
        """Byte 10 of packet 3 comes at (3 * 204 + 10) * 8 * 27,000,000 / 1,632,000 = 82,323.5 ticks, 113 before slot 3, in which it goes
        out. Each of the others goes out in the slot behind its own, 27,113 ticks late, which are 90 times 300 and 113: so say the PCRs,
        all of which are 0 in the input."""
        octets = widened(TABLES + b"".join(pcr_packet(counter, 0) for counter in range(5)))
        done = self.does([*RUN, "--delays"], wide(octets))
        late = "0000002d7e71"
        self.assertEqual(pcrs_of(done.written), [(3, "000000007e71"), (5, late), (6, late), (7, late), (8, late)])
        self.assertIn("delay 27113 queue 3\n", done.err)

    def test_bytes_behind_packets_change_nothing(self):
        """At 204 bytes byte 10 of each packet comes 113 ticks earlier, which the offset makes good: so all times are the same. The sixteen
        bytes are sync bytes, or each 37 more than the one before."""
        octets = TABLES + b"".join(pcr_packet(k, 0) if k % 5 == 0 else packets([k]) for k in range(40))
        plain = self.does([*RUN, "--delays"], {"x.toml": PLAN, "x.ts": octets})
        plan = WIDE_PLAN.replace("offset = 0", "offset = 113")
        for step in 0, 37:
            behind = [bytes((0x47 + (16 * k + n) * step) % 256 for n in range(16)) for k in range(43)]
            wide_octets = b"".join(octets[188 * k:188 * k + 188] + behind[k] for k in range(43))
            done = self.does([*RUN, "--delays"], {"x.toml": plan, "x.ts": wide_octets})
            self.assertEqual((done.out, done.err), (plain.out, plain.err))
            self.assertTrue(done.written == plain.written, "another output")
        self.assertTrue(plain.out.startswith("input 0 framed 43 "), plain.out)

    def test_an_input_of_another_size_is_told(self):
        """With what to state of it, where it is one of the two."""
        stamped = b"".join(bytes(4) + EIGHT[at:at + 188] for at in range(0, len(EIGHT), 188))
        for plan, octets, words in (
            (PLAN, widened(EIGHT), "it looks like packets of 204 bytes: state size = 204"),
            (WIDE_PLAN, EIGHT, "it looks like packets of 188 bytes: state size = 188"),
            (WIDE_PLAN, stamped, "it looks like packets of 192 bytes; they have to have 188 or 204"),
        ):
            done = self.does(CHECK, {"x.toml": plan, "x.ts": octets})
            self.ends(done, 3, "", f"fault 5 NoProgram\na program is not in its input\ninput 0, x.ts: {words}\n")

    def test_packets_of_204_bytes_are_analysed(self):
        """A packet may lack bytes after it."""
        faults = "slot 501 1.3.a 0x0000\nslot 501 1.5.a 0x0100\n"
        for rest, slots, left in (187 * b"\x47", 502, 187), (NULL, 503, 0):
            done = self.does(ANALYSE_204, {"x.ts": PAUSED + rest})
            self.ends(done, 1, faults + f"slots {slots} faults 2 rest {left}\n", "")

    def test_a_stream_of_another_size_is_told(self):
        """It has faults, and what to state is said."""
        done = self.does(ANALYSE, {"x.ts": PAUSED})
        self.assertEqual((done.err, done.status), ("x.ts: it looks like packets of 204 bytes: state --size 204\n", 1))
        done = self.does(ANALYSE_204)
        self.assertEqual((done.err, done.status), ("x.ts: it looks like packets of 188 bytes: state --size 188\n", 1))

    def test_an_analysis_at_another_size_is_refused(self):
        done = self.does([*ANALYSE_204[:-2], "192", "x.ts"])
        self.assertTrue(done.err.startswith("error: invalid value '192' for '--size <N>'\n  [possible values: 188, 204]\n"), done.err)
        self.assertEqual(done.status, 2)
