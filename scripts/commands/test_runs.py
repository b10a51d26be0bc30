"""What commands print and write over the example's plan and input."""
from does import ANALYSE, CHECK, ENDED, FILES, LINES, RUN, CommandCase, does_once
from small import EIGHT, NULL, PAT, PLAN, TABLES, input_of, packets, service, settings

# Lengths of the input: those round the ends of its packets, and round the fifth sync byte, with which its tables are found.
CUTS = [0, 1, 187, 188, 189, 564, 751, 752, 753, 754, 939, 940, 941, 1127, 1128, 1129, 1250, 1316, 1317, 1503, 1504]


def marks(octets):
    """PID and counter of each packet."""
    return [(octets[at + 1] % 32 << 8 | octets[at + 2], octets[at + 3] % 16) for at in range(0, len(octets), 188)]


def slots_of(cut):
    """How many slots a run over the input, cut to so many bytes, has where its tables are found: in all, of tables, and of the
    stream; one is null."""
    framed = cut // 188
    tables = 2 if framed == 4 else 3
    return tables + framed - 3 + 1, tables, framed - 3


class Runs(CommandCase):
    def test_a_run_prints_its_lines(self):
        for words in RUN, [*RUN, "--serial"], [*RUN, "--all"], [*RUN, "--strict"]:
            done = self.does(words)
            self.ends(done, 0, LINES, ENDED)
            self.writes(done, 1692)

    def test_a_run_has_the_slots_that_are_asked_for(self):
        done = self.does([*RUN, "--slots", "3"])
        lines = """input 0 framed 4 malformed 0 unmapped 3 bad 0 losses 0 lost 0 taken 1 sent 0 dropped 0 queued 1
slots 3 tables 2 elementary 0 null 1 faults 0
"""
        self.ends(done, 0, lines, "end: the slot limit: input 0 was read to 50 %\n")
        self.writes(done, 564)
        done = self.does([*RUN, "--slots", "8"])
        lines = """input 0 framed 8 malformed 0 unmapped 3 bad 0 losses 0 lost 0 taken 5 sent 4 dropped 0 queued 1
slots 8 tables 3 elementary 4 null 1 faults 0
"""
        self.ends(done, 0, lines, "end: the slot limit: all inputs were read to their ends\n")
        self.writes(done, 1504)

    def test_the_output_is_the_slots(self):
        """In their order, with the counters of the input."""
        streams = [(0x0200, counter) for counter in range(5)]
        want = [(0x0000, 0), (0x1FFF, 0), (0x0100, 0), streams[0], (0x0011, 0), *streams[1:]]
        self.assertEqual(marks(self.does(RUN).written), want)

    def test_an_input_that_no_service_uses_is_read_and_closed(self):
        done = self.does(RUN, {"x.ts": EIGHT, "y.ts": EIGHT, "x.toml": settings() + input_of() + input_of("y.ts") + service()})
        first, slots = LINES.splitlines()
        unused = first.replace("input 0", "input 1").replace("unmapped 3", "unmapped 8").replace("taken 5 sent 5", "taken 0 sent 0")
        self.ends(done, 0, "\n".join([first, unused, slots, ""]), ENDED)
        self.assertEqual(done.written, self.does(RUN).written)

    def test_queues_and_rings_of_one_packet_change_nothing(self):
        """Of two inputs: four packets of tables, ten of streams and a null packet."""
        plan = settings() + input_of() + input_of("y.ts") + service() + service(1, of=1)
        wanted = self.does(RUN, {"x.ts": EIGHT, "y.ts": EIGHT, "x.toml": plan}).written
        self.assertEqual(len(wanted) // 188, 4 + 10 + 1)
        for change in ("ring = 64", "ring = 1"), ("queue = 64", "queue = 1"):
            plan = plan.replace(*change)
            done = self.does(RUN, {"x.ts": EIGHT, "y.ts": EIGHT, "x.toml": plan})
            self.assertEqual((done.status, done.out.splitlines()[-1].rpartition(" ")[2]), (0, "0"))
            self.assertTrue(done.written == wanted, "another output")

    def test_what_is_no_packet_is_counted(self):
        """Seven packets of the stream, whose sixth has a bad sync byte, behind a byte that is in none; the second has a reserved control.
        By that byte each comes a slot later, and the fourth slot has a table."""
        octets = bytearray(b"\0" + TABLES + packets(range(7)))
        octets[1 + 188 * 4 + 3] = 0x00
        octets[1 + 188 * 8] = 0x00
        done = self.does(RUN, {**FILES, "x.ts": bytes(octets)})
        told = "input 0 framed 9 malformed 1 unmapped 3 bad 1 losses 0 lost 1 taken 5 sent 5 dropped 0 queued 0"
        faults = "faults: 2 of 1.4 Continuity_count_error\nfaults: slot 6 1.4 0x0200\nfaults: slot 10 1.4 0x0200\n"
        damaged = "damaged: input 0 has malformed packets: 1, bad sync bytes: 1, losses of sync: 0, bytes in no packet: 1\n"
        self.assertEqual((done.out.splitlines()[0], done.err, done.status), (told, ENDED + damaged + faults, 0))

    def test_a_plan_is_shown(self):
        lines = """rate 1504000 gap 2 period 100 fast 2 slow 2
service 500 pmt 0x0100
stream 0x0200 input 0 pid 0x0101 leak 2000000
"""
        told = """tables: PAT and PMTs every 100 ms, SDT and NIT every 200 ms
period: may be 6 to 500 slots
run: 1000000 slots take 1000 s
rate: input 0 can't be measured: fewer than two PCRs were found with no packet missing between
"""
        done = self.does(CHECK)
        self.ends(done, 0, lines, told)
        self.assertIsNone(done.written)

    def test_an_input_may_end_anywhere(self):
        whole = self.does(RUN).written
        for cut in CUTS:
            done = self.does(RUN, {**FILES, "x.ts": EIGHT[:cut]})
            if cut < 753:
                self.assertTrue(done.err.startswith("fault 5 NoProgram\n"), done.err)
                self.assertEqual((done.status, done.out, done.written), (3, "", None))
                continue
            slots, tables, taken = slots_of(cut)
            lines = f"""input 0 framed {cut // 188} malformed 0 unmapped 3 bad 0 losses 0 lost {cut % 188} taken {taken} sent {taken} dropped 0 queued 0
slots {slots} tables {tables} elementary {taken} null 1 faults 0
"""
            self.ends(done, 0, lines, ENDED)
            self.assertEqual(done.written, whole[:188 * slots])

    def test_an_output_that_fails_leaves_its_beginning(self):
        told = """fault file out.ts
out.ts: it can't be written: File too large (os error 27)
out.ts.part: the output so far
"""
        whole = self.does(RUN).written
        for room in 0, 100, 1691:
            done = self.does(RUN, room=room)
            self.ends(done, 4, "", told)
            self.assertEqual((done.written, done.is_whole), (whole[:room], False))

    def test_standard_output_has_the_multiplex_alone(self):
        whole = self.does(RUN).written
        for way in [], ["--serial"]:
            done = does_once(["run", "--plan", "x.toml", "--out", "-", *way])
            self.assertEqual((done.err, done.status, done.written), (LINES + ENDED, 0, None))
            self.assertEqual((done.raw, len(whole)), (whole, 1692))

    def test_faults_of_the_output_are_named(self):
        """Of the packets with the counters 5, 5, 5, 6, 7 the first three are equal: the third goes out in slot 6, one copy too many."""
        done = self.does([*RUN, "--strict"], {**FILES, "x.ts": TABLES + packets([5, 5, 5, 6, 7])})
        told = """end: all inputs ended
faults: 1 of 1.4 Continuity_count_error
faults: slot 6 1.4 0x0200
"""
        self.ends(done, 0, LINES.replace("faults 0", "faults 1"), told)

    def test_the_output_is_none_of_the_files_that_are_read(self):
        for name in "x.toml", "./x.toml", "x.ts", "./x.ts":
            told = f"fault file {name}\n{name}: it is the plan's file or an input; the output has to be another file\n"
            self.fails(["run", "--plan", "x.toml", "--out", name], FILES, told)


class Analyses(CommandCase):
    def test_faults_are_told(self):
        told = "slot 501 1.3.a 0x0000\nslot 501 1.5.a 0x0100\nslots 502 faults 2 rest 0\n"
        self.ends(self.does(ANALYSE, {"x.ts": PAT + 501 * NULL}), 1, told, "")
        self.ends(self.does(ANALYSE, {"x.ts": PAT + 500 * NULL + 7 * b"\x47"}), 0, "slots 501 faults 0 rest 7\n", "")
        told = "slot 1 1.2 -\nslots 2 faults 1 rest 187\n"
        shape = "x.ts: no five sync bytes stand in step at its beginning: it is no transport stream, or has fewer than five packets\n"
        self.ends(self.does(ANALYSE, {"x.ts": PAT + 375 * b"\xAA"}), 1, told, shape)


class Words(CommandCase):
    def test_words_are_judged_first(self):
        """Files aren't looked for."""
        run = ["run", "--plan", "x.toml", "--out", "o"]
        refused = [
            ["walk"],
            ["--serial"],
            ["run"],
            ["run", "--plan", "x.toml"],
            [*run, "--slots", "0"],
            [*run, "--slots", "1000001"],
            [*run, "--slots", "5", "--all"],
            [*run, "more"],
            ["check"],
            ["analyse", "--rate", "499999", "--period", "1", "x.ts"],
            ["analyse", "--rate", "100000001", "--period", "1", "x.ts"],
            ["analyse", "--rate", "500000", "--period", "0", "x.ts"],
            ["analyse", "--rate", "500000", "--period", "1"],
        ]
        for words in refused:
            done = self.does(words, {})
            self.assertEqual((done.out, done.status), ("", 2), words)
            self.assertIn("--help", done.err)

    def test_more_slots_than_there_may_be_are_refused_with_a_word_of_all(self):
        told = """error: invalid value '1000001' for '--slots <N>': 1000001 is not in 1..=1000000

  tip: '--all' goes on until the inputs end

For more information, try '--help'.
"""
        self.ends(self.does([*RUN, "--slots", "1000001"], {}), 2, "", told)
        analysis = self.does(["analyse", "--rate", "1504000", "--period", "2000000", "x.ts"], {})
        self.assertEqual(analysis.status, 2)
        self.assertNotIn("--all", analysis.err)

    def test_help_is_given(self):
        for words in ["--help"], ["run", "--help"], ["check", "-h"], ["help", "analyse"]:
            done = self.does(words, {}) if words[0] != "run" else does_once(words, {})
            self.assertEqual(done.status, 0, words)
            self.assertIn("Example", done.out)
        self.ends(self.does(["--version"], {}), 0, "remux 0.1.0\n", "")

    def test_without_words_the_stored_run_is_made(self):
        """Two packets in hex digits, a line each."""
        done = does_once([], {})
        self.assertEqual((done.status, len(done.out)), (0, 2 * 377))


class Files(CommandCase):
    def test_files_that_are_not_there_are_named(self):
        unknown = "it can't be opened: No such file or directory (os error 2)"
        self.fails(CHECK, {}, f"fault file x.toml\nx.toml: {unknown}\n")
        self.fails(["analyse", "--rate", "1504000", "--period", "1", "y.ts"], {}, f"fault file y.ts\ny.ts: {unknown}\n")
        self.fails(["run", "--plan", "x.toml", "--out", "no/out.ts"], FILES, f"fault file no/out.ts\nno/out.ts: no new file can be made beside it: {unknown[20:]}\n")
        names = "names in a plan are taken from the folder in which the program is called\n"
        self.fails(CHECK, {"x.toml": PLAN}, f"fault file x.ts\nx.ts: {unknown}\n{names}")
        told = f"fault file \nthe name is empty: {unknown}\n"
        self.fails(CHECK, {**FILES, "x.toml": PLAN.replace("x.ts", "", 1)}, told)

    def test_a_plan_of_more_than_a_mebibyte_is_refused(self):
        self.refuses(" " * 1_048_576, "fault 1 BadText\n", {})
        told = "fault file p.toml\np.toml: it has more than 1048576 bytes\n"
        self.fails(["check", "--plan", "p.toml"], {"p.toml": " " * 1_048_577}, told)
        told = "fault file p.toml\np.toml: it is a transport stream; a plan is text\n"
        self.fails(["check", "--plan", "p.toml"], {"p.toml": 5_578 * NULL}, told)
