"""Runs that go from one plan to the next: what goes out, what is dropped, and which plans can't follow one another."""
from does import CHECK, ENDED, RUN, CommandCase, does_once
from small import PLAN, TABLES, packets
from test_runs import marks

# The plan of the small files, and the one that follows it: its stream goes out on another PID.
LATER = PLAN.replace("version = 0", "version = 1").replace("out = 512", "out = 514")

# A hundred packets of the stream, each of which takes a millisecond, as a slot does.
INPUT = TABLES + packets(range(100))

FILES = {"x.toml": PLAN, "y.toml": LATER, "x.ts": INPUT}

THEN = ["--then", "y.toml", "--at", "100"]

# Three slots have tables and one is null before the first packet, so the last packet of the first plan still waits when the second
# comes into force, and is dropped.
LINES = """input 0 framed 103 malformed 0 unmapped 3 bad 0 losses 0 lost 0 taken 100 sent 99 dropped 1 queued 0
slots 106 tables 6 elementary 99 null 1 faults 0
"""


def later(**changes):
    """The second plan with other values of keys, each of which stands once in it."""
    text = LATER
    for key, value in changes.items():
        lines = [f"{key} = {value}" if line.startswith(f"{key} = ") else line for line in text.splitlines()]
        text = "\n".join(lines) + "\n"
    return text


class Switches(CommandCase):
    def test_a_run_goes_on_by_the_next_plan(self):
        done = self.does([*RUN, *THEN], FILES)
        self.ends(done, 0, LINES, ENDED)
        want = [(0x0000, 1), (0x0202, 1), (0x0100, 1), (0x0202, 2), (0x0011, 1), (0x0202, 3)]
        self.assertEqual(marks(done.written)[100:], want)
        self.assertEqual({pid for pid, _ in marks(done.written)[:100]}, {0x0000, 0x0011, 0x0100, 0x0200, 0x1FFF})

    def test_the_slots_before_a_switch_are_those_of_the_first_plan(self):
        alone = self.does(RUN, FILES).written
        self.assertEqual(self.does([*RUN, *THEN], FILES).written[:100 * 188], alone[:100 * 188])

    def test_a_switch_that_the_run_does_not_reach_changes_nothing(self):
        words = [*RUN, "--slots", "100"]
        done = self.does([*words, *THEN], FILES)
        self.assertEqual((done.status, done.written), (0, self.does(words, FILES).written))
        self.assertIn("switch 0: slot 100 didn't come: the run has 100 slots\n", done.err)

    def test_plans_follow_one_another_in_their_order(self):
        files = FILES | {"z.toml": PLAN.replace("version = 0", "version = 2").replace("out = 512", "out = 515")}
        files["x.ts"] = TABLES + packets(range(200))
        done = self.does([*RUN, *THEN, "--then", "z.toml", "--at", "200"], files)
        self.assertEqual(done.status, 0)
        pids = [pid for pid, _ in marks(done.written)]
        self.assertIn(0x0202, pids[100:200])
        self.assertIn(0x0203, pids[200:])
        self.assertNotIn(0x0202, pids[200:])

    def test_an_input_that_can_be_read_once_has_the_tables_of_both(self):
        wanted = self.does([*RUN, *THEN], FILES).written
        with self.pipe_of(INPUT) as name:
            files = {file: text.replace("x.ts", name) for file, text in FILES.items() if file != "x.ts"}
            done = does_once([*RUN, *THEN], files)
        self.assertEqual((done.status, done.written), (0, wanted))

    def test_check_shows_what_a_switch_does(self):
        done = self.does([*CHECK, *THEN], FILES)
        self.assertEqual(done.status, 0)
        shown = """switch 0 slot 100 version 1
service 500 pmt 0x0100
drops 0x0200
begins 0x0202 input 0 pid 0x0101 leak 2000000
"""
        self.assertTrue(done.out.endswith(shown), done.out)
        self.assertIn("switch 0: after 100 ms: PAT in slot 100, PMTs by slot 102, SDT and NIT by slot 204\n", done.err)

    def test_a_plan_without_its_slot_is_refused(self):
        for words in ["--then", "y.toml"], ["--at", "100"], [*THEN, "--then", "y.toml"]:
            done = self.does([*RUN, *words], FILES)
            self.assertEqual(done.status, 2)
            self.assertIn("'--then <F>' and '--at <N>' go in pairs", done.err)
        self.assertEqual(self.does([*RUN, "--then", "y.toml", "--at", "0"], FILES).status, 2)
        self.assertEqual(self.does([*RUN, "--then", "y.toml", "--at", "1000000"], FILES).status, 2)

    def test_plans_that_can_not_follow_are_refused(self):
        for text, slot, fault, words in [
            (later(period=50), 100, "fault 14 SwitchUneven", "its period isn't that of the first plan"),
            (later(file='"z.ts"'), 100, "fault 14 SwitchUneven", "its [[input]] isn't that of the first plan"),
            (later(version=0), 100, "fault 15 VersionWrong", "version 0 follows 0: state version = 1"),
            (later(out=512, leak=2000001), 100, "fault 16 PidReused", "PID 0x0200 stands in an earlier plan"),
            (LATER, 150, "fault 17 SwitchSlot", "slot 150 is none, 100 and 200 are"),
        ]:
            with self.subTest(fault=fault, words=words):
                files = FILES | {"y.toml": text, "z.ts": INPUT}
                done = self.does([*RUN, "--then", "y.toml", "--at", str(slot)], files)
                self.assertEqual((done.status, done.written), (3, None))
                self.assertTrue(done.err.startswith(fault), done.err)
                self.assertIn(words, done.err)

    def test_the_first_plan_comes_before_the_second(self):
        files = FILES | {"x.toml": PLAN.replace("program = 100", "program = 101")}
        done = self.does([*RUN, "--then", "missing.toml", "--at", "100"], files)
        self.assertTrue(done.err.startswith("fault 5 NoProgram"), done.err)
        done = self.does([*RUN, "--then", "missing.toml", "--at", "100"], FILES)
        self.assertEqual(done.status, 4)
        self.assertTrue(done.err.startswith("fault file missing.toml"), done.err)
        files = FILES | {"y.toml": later(program=101)}
        done = self.does([*RUN, *THEN], files)
        self.assertTrue(done.err.startswith("fault 5 NoProgram"), done.err)
        self.assertIn("the plan from slot 100 on: ", done.err)

    def test_an_output_is_none_of_the_plans(self):
        done = self.does(["run", "--plan", "x.toml", *THEN, "--out", "y.toml"], FILES)
        self.assertEqual(done.status, 4)
        self.assertEqual(done.files["y.toml"].decode(), LATER)
