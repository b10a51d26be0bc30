"""What is said while a command waits: for the other end of a pipe, for tables, and in a run that reports, for an input. A slot takes a
millisecond, as a packet of an input does: when packet k of an input was read, slots 0 to k - 1 may go out."""
import contextlib
import os
import re
import subprocess
import tempfile
import time

from does import CHECK, FILES, PROGRAM, CommandCase, does_once, lay
from small import EIGHT, NULL, PAT, PLAN, PMT, SDT, TABLES, packets
from test_pipes import ALL, PATIENCE, SERIAL, input_with, late, live, plan_of

# What is said of a pipe that nobody opens, and of one that gives nothing.
UNOPENED = "wait: {}: it isn't open yet: a pipe waits for its other end\n"
NO_PAT = "wait: input 0, {}: its PAT hasn't come yet\n"
NO_TABLES = "wait: input 0, {}: its PAT has come, and its SDT or a PMT hasn't yet\n"

# How long it is waited before it is said, in seconds.
SILENCE = 2


def without_waits(said):
    """What was said, without the lines of waits."""
    return "".join(line for line in said.splitlines(True) if not line.startswith("wait: "))


class Waiting:
    """A command over pipes in a folder, which goes on while a test sees what it says."""

    def __init__(self, words, pipes, plan):
        self.folder = tempfile.TemporaryDirectory()
        lay(self.folder.name, {**FILES, "x.toml": plan})
        for name in pipes:
            os.mkfifo(self.path(name))
        self.errors = open(self.path("errors"), "w+b")
        self.start = time.monotonic()
        self.process = subprocess.Popen(
            [PROGRAM, *words], cwd=self.folder.name, stdin=subprocess.DEVNULL, stdout=subprocess.PIPE, stderr=self.errors
        )

    def path(self, name):
        """The whole name of a file of the folder."""
        return os.path.join(self.folder.name, name)

    def said(self):
        """What it has said so far."""
        with open(self.path("errors"), encoding="utf-8") as file:
            return file.read()

    def says(self, text):
        """Waits until it has said this, and answers after how many seconds."""
        until = time.monotonic() + PATIENCE
        while text not in self.said() and time.monotonic() < until:
            time.sleep(0.01)
        return time.monotonic() - self.start

    def ends(self):
        """What it prints until it ends, and its status."""
        out, _ = self.process.communicate(timeout=PATIENCE)
        return out.decode(), self.process.returncode

    def close(self):
        """Ends whatever goes on."""
        self.process.kill()
        self.process.communicate()
        self.errors.close()
        self.folder.cleanup()


@contextlib.contextmanager
def waiting(words, pipes, plan=PLAN):
    """A command over pipes, which is over behind the test."""
    command = Waiting(words, pipes, plan)
    try:
        yield command
    finally:
        command.close()


RUN = ["run", "--plan", "x.toml", "--out"]

PIPED = PLAN.replace('"x.ts"', '"pipe"')


class BeforeARun(CommandCase):
    def waits(self, command, line):
        """The command says this line, and nothing else before it, once two seconds are over."""
        self.assertGreater(command.says(line), SILENCE - 0.1)
        self.assertTrue(command.said().startswith(line), command.said())

    def goes_on(self, command, out, err=""):
        """The command goes on as if it hadn't waited: it prints this, says this, and ends with status 0."""
        self.assertEqual((*command.ends(), without_waits(command.said())), (out, 0, err))

    def test_an_input_that_nobody_opens(self):
        """A check goes on as ever once it is opened. So does a run, in threads and in one thread."""
        checked, ran = does_once(CHECK).out, does_once([*RUN, "out.ts"])
        measured = "rate: input 0 is not measured: it can be read only once\n"
        with waiting(CHECK, ["pipe"], PIPED) as command:
            self.waits(command, UNOPENED.format("pipe"))
            with open(command.path("pipe"), "wb") as pipe:
                pipe.write(EIGHT)
            out, status = command.ends()
            self.assertEqual((out, status), (checked, 0))
            self.assertTrue(command.said().endswith(measured), command.said())
        for way in [], ["--serial"]:
            with self.subTest(way), waiting([*RUN, "out.ts", *way], ["pipe"], PIPED) as command:
                self.waits(command, UNOPENED.format("pipe"))
                with open(command.path("pipe"), "wb") as pipe:
                    pipe.write(EIGHT)
                self.goes_on(command, ran.out, ran.err)

    def test_an_output_that_nobody_opens(self):
        ran = does_once([*RUN, "out.ts"])
        with waiting([*RUN, "pipe"], ["pipe"]) as command:
            self.waits(command, UNOPENED.format("pipe"))
            with open(command.path("pipe"), "rb") as pipe:
                self.assertTrue(pipe.read() == ran.written, "another output")
            self.goes_on(command, ran.out, ran.err)

    def test_tables_that_do_not_come(self):
        """First none, and then the PAT alone: each is said once."""
        with waiting(CHECK, ["pipe"], PIPED) as command, open(command.path("pipe"), "wb", buffering=0) as pipe:
            self.waits(command, NO_PAT.format("pipe"))
            pipe.write(PAT + 6 * NULL)
            command.says(NO_TABLES.format("pipe"))
            self.assertEqual(command.said(), NO_PAT.format("pipe") + NO_TABLES.format("pipe"))
            pipe.write(PMT + SDT + 6 * NULL)
            self.assertEqual(command.ends()[1], 0)

    def test_tables_that_come_never(self):
        """No more of a pipe is read than is kept, and the fault is that of a file, which one more line explains."""
        octets = PAT + PMT + 400_000 * NULL
        file = does_once(CHECK, {"x.toml": PLAN, "x.ts": PAT + PMT + 10 * NULL})
        with self.pipe_of(octets) as name:
            pipe = does_once(CHECK, {"x.toml": PLAN.replace("x.ts", name)})
        more = f"input 0, {name}: it can be read only once, and its tables are not in its first 67108864 bytes\n"
        self.assertTrue(file.err.startswith("fault 6 NoSdtRow\n"), file.err)
        self.assertEqual((without_waits(pipe.err).replace(f"'{name}'", "'x.ts'").replace("='pipe'", "='x'"), pipe.status), (file.err + more, 3))


class InARun(CommandCase):
    """Runs over pipes that report every second."""

    def says(self, run, pattern, count=1):
        """Waits until a run has said such a line so often, or more often."""
        until = time.monotonic() + PATIENCE
        while len(re.findall(pattern, run.said())) < count and time.monotonic() < until:
            time.sleep(0.01)
        self.assertGreaterEqual(len(re.findall(pattern, run.said())), count, run.said())

    def says_no_more(self, run, pattern):
        """For more than a second a run, which goes on reporting, says no such line again."""
        before, reports = len(re.findall(pattern, run.said())), run.said().count("report: slots")
        self.says(run, "report: slots", reports + 2)
        self.assertEqual(len(re.findall(pattern, run.said())), before, run.said())

    def test_an_input_that_all_wait_for_is_told(self):
        """The second gives 100 packets, with or without others behind them that the plan doesn't name, and waits: it is told, and again
        once it went on and waits anew. Slots 0 to 98 went out. What was read of its stream and didn't go out is its queue, which isn't full
        yet: both inputs have a packet a slot."""
        for way in ALL, SERIAL:
            for tail in b"", 20 * NULL:
                with self.subTest((way, tail[:1])), live(plan_of(inputs=2), inputs=2, words=[*way, "--report", "1"]) as run:
                    run.feeds(input_with(400), then=run.end)
                    run.feeds(input_with(100) + tail, 1)
                    out = run.read(99 * 188)
                    self.assertEqual(len(out), 99 * 188)
                    sent = sum(out[at + 1:at + 3] == b"\x02\x01" for at in range(0, len(out), 188))
                    line = "report: input 1 gives nothing for more than a second, and all wait for it\n"
                    self.says(run, line)
                    self.says_no_more(run, line)
                    position, queue = 18800 + len(tail), 97 - sent
                    self.says(run, f"report: slots 99 faults 0, input 0 position \\d+ queue \\d+, input 1 position {position} queue {queue} waited for\n")
                    if not tail:
                        run.feeds(packets(range(97, 107)), 1)
                        self.assertEqual(len(run.read(10 * 188)), 10 * 188)
                        self.says(run, line, 2)
                    self.assertNotIn("input 0 gives nothing", run.said())
                    run.end(1)
                    run.read(10**6)
                    self.assertEqual(run.status(), 0)

    def test_an_input_that_begins_later_is_waited_for(self):
        """From the start all wait for its first packet."""
        plan = late(plan_of(inputs=2), 27_000_000)
        with live(plan, inputs=2, words=[*ALL, "--report", "1"]) as run:
            run.feeds(input_with(30))
            run.feed(TABLES + 5 * NULL, 1)
            self.says(run, r"report: slots 0 faults 0, input 0 position \d+ queue \d+, input 1 position 1504 queue 0 waited for\n")

    def test_an_input_that_ends_while_others_go_on_is_told(self):
        """Once, and behind it each report says it. Where all have ended nothing is told."""
        for way in ALL, SERIAL:
            with self.subTest(way), live(plan_of(inputs=2), inputs=2, words=[*way, "--report", "1"]) as run:
                run.feeds(input_with(20))
                run.feeds(input_with(100), 1)
                run.read(19 * 188)
                run.end(0)
                run.read(79 * 188)
                line = "report: input 0 ended at 3760, and others go on\n"
                self.says(run, line)
                self.says_no_more(run, line)
                self.says(run, r"report: slots \d+ faults 0, input 0 position 3760 queue 0 ended, input 1 position 18800 ")
                run.end(1)
                run.read(10**6)
                self.assertEqual(run.status(), 0)
                self.assertNotIn("input 1 ended", run.said())

    def test_faults_are_counted(self):
        """The packet with counter 7 is missing: the output has a fault of its counter, and no other."""
        octets = TABLES + packets([*range(7), *range(8, 50)])
        for way in ALL, SERIAL:
            with self.subTest(way), live(plan_of(), words=[*way, "--report", "1"]) as run:
                run.feeds(octets)
                run.read(51 * 188)
                self.says(run, r"report: slots 51 faults 1, input 0 position 9776 queue \d+ waited for\n")
                run.end()
                run.read(10**6)
                self.assertEqual(run.status(), 0)

    def test_nothing_is_told_that_is_not_asked_for(self):
        with live(plan_of(inputs=2), inputs=2) as run:
            run.feeds(input_with(20))
            run.feeds(input_with(10), 1)
            run.read(9 * 188)
            time.sleep(1.5)
            self.assertEqual(without_waits(run.said()), "")


class BehindARun(CommandCase):
    def test_a_missing_stream_names_the_input_that_ended(self):
        """The first input ends at 8 ms, and the other goes on. The fault itself is what the analyser says of the output."""
        plan = plan_of(inputs=2).replace("watch = 1000000", "watch = 50")
        files = {"x.toml": plan, "in0": EIGHT, "in1": input_with(200)}
        for way in [], ["--serial"]:
            with self.subTest(way):
                done = does_once([*RUN, "out.ts", *way], files)
                told = does_once(["analyse", "--rate", "1504000", "--period", "50", "out.ts"], {"out.ts": done.written}).out
                missing = [line for line in told.splitlines() if line.endswith(" 1.6 0x0200")]
                self.assertEqual(len(missing), 1, told)
                self.assertIn(f"faults: {missing[0]}: input 0 had ended\n", done.err)

    def test_a_stream_that_pauses_names_no_input(self):
        """Behind its first packet a stream comes no more in 100 packets, and goes on; then its input ends."""
        plan = plan_of().replace("watch = 1000000", "watch = 50")
        octets = TABLES + packets([0]) + 100 * NULL + packets(range(1, 10))
        done = self.does([*RUN, "out.ts"], {"x.toml": plan, "in0": octets})
        self.assertRegex(done.err, r"faults: slot \d+ 1\.6 0x0200\n")
