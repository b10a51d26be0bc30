"""Runs over pipes: what goes out while an input waits, how far a run goes on while its output does, and how runs end whose inputs don't.
A slot takes a millisecond, as a packet of an input does: when packet k of an input was read, slots 0 to k - 1 may go out."""
import contextlib
import fcntl
import functools
import os
import select
import struct
import subprocess
import tempfile
import termios
import threading
import time

from does import PROGRAM, CommandCase, does_once, lay
from small import NULL, TABLES, input_of, packets, service, settings

# How long a test waits for what has to come, in seconds.
PATIENCE = 20

# A pipe that holds one page.
F_SETPIPE_SZ = 1031
PAGE = 4096

RUN = ["run", "--plan", "x.toml", "--out"]

ALL = ["--all"]

SERIAL = ["--all", "--serial"]


def plan_of(ring=64, inputs=1, queue=64):
    """A plan of so many inputs, each a pipe, with a service each."""
    text = settings(queue).replace("ring = 64", f"ring = {ring}").replace("watch = 1000", "watch = 1000000")
    return text + "".join(input_of(f"in{n}") for n in range(inputs)) + "".join(service(n, of=n) for n in range(inputs))


def late(plan, ticks):
    """The plan with its last input so much later."""
    head, _, tail = plan.rpartition("offset = 0")
    return f"{head}offset = {ticks}{tail}"


def input_with(count):
    """An input of so many packets: its tables, and those of its stream."""
    return TABLES + packets(range(count - 3))


class Live:
    """A run whose inputs are pipes, and whose output is one. Each pipe has room for a page."""

    def __init__(self, plan, inputs, words):
        self.folder = tempfile.TemporaryDirectory()
        lay(self.folder.name, {"x.toml": plan})
        names = [os.path.join(self.folder.name, f"in{n}") for n in range(inputs)]
        for name in names:
            os.mkfifo(name)
        self.out, out = os.pipe()
        fcntl.fcntl(out, F_SETPIPE_SZ, PAGE)
        self.errors = open(os.path.join(self.folder.name, "errors"), "w+b")
        self.process = subprocess.Popen([PROGRAM, *RUN, "-", *words], cwd=self.folder.name, stdin=subprocess.DEVNULL, stdout=out, stderr=self.errors)
        os.close(out)
        # Opened to read too, so that opening waits for nobody; the program sees the end once all is closed.
        self.inputs = [os.open(name, os.O_RDWR) for name in names]
        for pipe in self.inputs:
            fcntl.fcntl(pipe, F_SETPIPE_SZ, PAGE)
            os.set_blocking(pipe, False)
        self.fed = [0] * inputs
        self.feeders = []

    def is_over(self):
        """Whether the run has ended."""
        return self.process.poll() is not None

    def feed(self, octets, number=0, piece=PAGE):
        """Writes these bytes to an input, as fast as it takes them; nothing more once the run has ended."""
        for at in range(0, len(octets), piece):
            while not select.select([], [self.inputs[number]], [], 0.1)[1]:
                if self.is_over():
                    return
            self.fed[number] += os.write(self.inputs[number], octets[at:at + piece])

    def feeds(self, octets, number=0, piece=PAGE, then=None):
        """The same beside the test."""

        def work():
            self.feed(octets, number, piece)
            if then:
                then()

        feeder = threading.Thread(target=work)
        feeder.start()
        self.feeders.append(feeder)

    def waits(self, number):
        """How many bytes wait in an input's pipe."""
        return struct.unpack("i", fcntl.ioctl(self.inputs[number], termios.FIONREAD, b"\0\0\0\0"))[0]

    def taken(self, number=0):
        """How many bytes the run has read of an input."""
        return self.fed[number] - self.waits(number)

    def stands_still(self, number=0):
        """Waits until the run has read some of an input, and then reads nothing for a while: how many bytes it has read."""
        last, since, start = 0, time.monotonic(), time.monotonic()
        while (last == 0 or time.monotonic() - since < 0.4) and time.monotonic() - start < PATIENCE:
            taken = self.taken(number)
            if taken != last:
                last, since = taken, time.monotonic()
            time.sleep(0.005)
        return last

    def end(self, number=0):
        """Ends an input, once the run has read all of it."""
        until = time.monotonic() + PATIENCE
        while self.waits(number) and not self.is_over() and time.monotonic() < until:
            time.sleep(0.001)
        os.close(self.inputs[number])
        self.inputs[number] = None

    def read(self, count):
        """Reads so many bytes of the output: fewer where no more come."""
        found, until = b"", time.monotonic() + PATIENCE
        while len(found) < count and time.monotonic() < until:
            if select.select([self.out], [], [], 0.1)[0]:
                part = os.read(self.out, count - len(found))
                if not part:
                    break
                found += part
        return found

    def seconds(self):
        """The processor time that the run's threads have taken, in seconds."""
        nanoseconds = 0
        for name in os.listdir(f"/proc/{self.process.pid}/task"):
            with open(f"/proc/{self.process.pid}/task/{name}/schedstat", encoding="ascii") as file:
                nanoseconds += int(file.read().split()[0])
        return nanoseconds / 1e9

    def threads(self):
        """How many threads the run has."""
        return len(os.listdir(f"/proc/{self.process.pid}/task"))

    def leave(self):
        """Closes the output's other end."""
        os.close(self.out)
        self.out = None

    def status(self):
        """The status with which the run ends."""
        return self.process.wait(PATIENCE)

    def said(self):
        """What it said."""
        with open(self.errors.name, encoding="utf-8") as file:
            return file.read()

    def close(self):
        """Ends whatever goes on."""
        self.process.kill()
        self.process.wait()
        for feeder in self.feeders:
            feeder.join(PATIENCE)
        for pipe in [*self.inputs, self.out]:
            if pipe is not None:
                os.close(pipe)
        self.errors.close()
        self.folder.cleanup()


@contextlib.contextmanager
def live(plan, inputs=1, words=ALL):
    """A run over pipes, which is over behind the test."""
    run = Live(plan, inputs, words)
    try:
        yield run
    finally:
        run.close()


def written(plan, inputs, words=ALL):
    """What the run in one thread writes of these inputs, as files."""
    files = {f"in{n}": octets for n, octets in enumerate(inputs)}
    return does_once([*RUN, "out.ts", "--serial", *words], {"x.toml": plan, **files}).written


class WhileAnInputWaits(CommandCase):
    def test_what_was_sent_goes_out(self):
        """With 350 packets slots 0 to 348 go out, and no further packet comes until all of these were read."""
        for ring, way in (1, ALL), (64, ALL), (64, SERIAL):
            plan, octets = plan_of(ring), input_with(800)
            with self.subTest((ring, way)), live(plan, words=way) as run:
                run.feeds(octets[:350 * 188])
                first = run.read(349 * 188)
                self.assertEqual(len(first), 349 * 188)
                run.feeds(octets[350 * 188:], then=run.end)
                self.assertTrue(first + run.read(10**6) == written(plan, [octets]), "another output")
                self.assertEqual(run.status(), 0)

    def test_a_block_that_was_kept_in_hand_is_offered_again(self):
        """Nothing is read until the run has taken 698 packets and stands still: the last of the 697 slots are in the block in hand then,
        which found no more than the last few blocks empty. No further packet comes until all of them were read."""
        plan, octets = plan_of(1), input_with(800)
        with live(plan) as run:
            run.feeds(octets[:698 * 188])
            self.assertEqual(run.stands_still(), 698 * 188)
            first = run.read(697 * 188)
            self.assertEqual(len(first), 697 * 188)
            run.feeds(octets[698 * 188:], then=run.end)
            self.assertTrue(first + run.read(10**6) == written(plan, [octets]), "another output")

    def test_a_write_that_fails_meanwhile_is_told(self):
        """The reader goes away behind the first bytes, and with the next packets a write fails. In one thread the run ends then, and in
        threads once its input goes on."""
        for way in ALL, SERIAL:
            with self.subTest(way), live(plan_of(), words=way) as run:
                run.feed(input_with(8))
                self.assertEqual(len(run.read(188)), 188)
                run.leave()
                run.feed(packets(range(5, 10)))
                if way == ALL:
                    time.sleep(0.3)
                    run.end()
                self.assertEqual(run.status(), 4)
                gone = r"fault file -\nstandard output: its reader is gone\nreport: slots \d+, input 0 position \d+( ended| waited for)?\n"
                self.assertRegex(run.said(), f"^{gone}$")

    def test_other_inputs_are_read_meanwhile(self):
        """The first input has no more than its tables and two packets. In threads the other one is read all the same, up to its ring."""
        plan = plan_of(inputs=2)
        inputs = [input_with(400), input_with(400)]
        with live(plan, inputs=2) as run:
            run.feeds(inputs[0][:5 * 188])
            run.feeds(inputs[1], 1)
            self.assertGreaterEqual(run.stands_still(1), 64 * 188)
            run.feeds(inputs[0][5 * 188:], then=run.end)
            found = run.read(600 * 188)
            run.end(1)
            self.assertTrue(found + run.read(10**6) == written(plan, inputs), "another output")
            self.assertEqual(run.status(), 0)

    def test_a_write_that_fails_ends_the_waits(self):
        """The first input has no more for a while, the other's ring is full, and the output waits for its reader, which goes away. The first
        input's thread is in a read, and the run's own waits for it; the other two end."""
        with live(plan_of(inputs=2), inputs=2) as run:
            run.feeds(input_with(100))
            run.feeds(input_with(400), 1)
            run.stands_still(1)
            threads = run.threads() - 2
            run.leave()
            until = time.monotonic() + PATIENCE
            while run.threads() > threads and time.monotonic() < until:
                time.sleep(0.005)
            self.assertEqual(run.threads(), threads)
            run.end()
            self.assertEqual(run.status(), 4)

    def test_a_run_that_waits_takes_no_processor(self):
        """Of two inputs the first has no more for a while, and the other's ring is full: all threads wait. In two seconds they take less than a
        hundredth of a core."""
        plan = plan_of(inputs=2)
        inputs = [input_with(400), input_with(400)]
        with live(plan, inputs=2) as run:
            run.feeds(inputs[0][:5 * 188])
            run.feeds(inputs[1], 1)
            run.stands_still(1)
            before = run.seconds()
            time.sleep(2)
            self.assertLess(run.seconds() - before, 0.02)
            run.feeds(inputs[0][5 * 188:], then=run.end)
            found = run.read(600 * 188)
            run.end(1)
            self.assertTrue(found + run.read(10**6) == written(plan, inputs), "another output")
            self.assertEqual(run.status(), 0)

    def test_pipes_that_are_written_in_turn(self):
        """The second input is late by more packets than its ring has places, so its worker stands at a full ring. Who writes both pipes in turn
        waits for that worker, and the run for what comes by the first pipe then."""
        plan, inputs = late(plan_of(ring=64, inputs=2), 100 * 27000), [input_with(2000), input_with(2000)]
        with live(plan, inputs=2) as run:
            run.feed(inputs[0][:PAGE])

            def write_in_turn():
                for at in range(0, len(inputs[0]), PAGE):
                    run.feed(inputs[1][at:at + PAGE], 1)
                    run.feed(inputs[0][at + PAGE:at + 2 * PAGE])
                run.end()
                run.end(1)

            writer = threading.Thread(target=write_in_turn)
            writer.start()
            found = run.read(10**7)
            writer.join()
            self.assertTrue(found == written(plan, inputs), "another output")
            self.assertEqual(run.status(), 0)

    def test_each_packet_goes_out_in_time(self):
        """A packet comes every five milliseconds. The slot that it lets go is read behind it within a millisecond, in the median of twenty packets:
        of the best twenty of a hundred, since the machine may do other things too."""
        plan, octets = plan_of(), input_with(120)
        with live(plan) as run:
            run.feed(octets[:20 * 188])
            found, delays = run.read(19 * 188), []
            for at in range(20 * 188, len(octets), 188):
                time.sleep(0.005)
                start = time.monotonic()
                run.feed(octets[at:at + 188])
                found += run.read(188)
                delays.append(time.monotonic() - start)
            twenties = [sorted(delays[at:at + 20]) for at in range(0, 100, 20)]
            self.assertLess(min(twenty[10] for twenty in twenties), 0.001)
            run.end()
            self.assertTrue(found + run.read(10**6) == written(plan, [octets]), "another output")
            self.assertEqual(run.status(), 0)


class WhileTheOutputWaits(CommandCase):
    def test_the_run_goes_on_behind_full_blocks(self):
        """Behind a reader that takes nothing the thread that ticks waits, and no sooner than with a packet that went to the writer, nine
        blocks of a packet each, five full ones and a full one in hand: 1,546 slots, each of which wants a packet of the input."""
        for ring in 4, 64:
            plan, octets = plan_of(ring), input_with(5000)
            with self.subTest(ring), live(plan) as run:
                run.feeds(octets, then=run.end)
                taken = run.stands_still() // 188
                self.assertLessEqual(1546, taken)
                self.assertLess(taken, 5000)
                self.assertTrue(run.read(10**7) == written(plan, [octets]), "another output")
                self.assertEqual(run.status(), 0)

    def test_short_turns_to_a_reader_that_sleeps(self):
        """Packets come one by one, through rings of a packet, and the reader sleeps now and then."""
        plan, octets = plan_of(1), input_with(1500)
        want = written(plan, [octets])
        for _ in range(3):
            with live(plan) as run:
                run.feeds(octets, piece=188, then=run.end)
                found = b""
                while part := run.read(1000):
                    found += part
                    if len(found) // 1000 % 16 == 0:
                        time.sleep(0.002)
                self.assertTrue(found == want, "another output")

    def test_long_runs_to_a_reader_that_sleeps(self):
        """The second input begins 9 seconds behind the first: such a run has more than 9,000 slots, more than twice as many as are on their
        way to the output at most, so that blocks are used again and again."""
        inputs = [input_with(8), input_with(8)]
        for ring in 1, 64:
            plan = late(plan_of(ring, inputs=2), 243_000_000)
            want = written(plan, inputs)
            self.assertLess(9_000 * 188, len(want))
            for turn in range(10):
                with self.subTest((ring, turn)), live(plan, inputs=2) as run:
                    for number in 0, 1:
                        run.feeds(inputs[number], number, then=functools.partial(run.end, number))
                    found = b""
                    while part := run.read(20_000 + 9_000 * turn):
                        found += part
                        time.sleep(0.002)
                    self.assertTrue(found == want, "another output")

    def test_a_reader_that_goes_away_ends_the_run(self):
        """A while behind the last byte that it reads: while all blocks on their way to it are full, of a run of more than 9,000 slots, and
        once the last slot went out, of one of more than 3,000, since the second input begins 9 or 3 seconds behind the first."""
        for begins in 243_000_000, 81_000_000:
            plan = late(plan_of(inputs=2), begins)
            inputs = [input_with(8), input_with(8)]
            whole = written(plan, inputs)
            for room in 1, 100_000:
                with self.subTest((begins, room)), live(plan, inputs=2) as run:
                    for number in 0, 1:
                        run.feeds(inputs[number], number, then=functools.partial(run.end, number))
                    self.assertTrue(run.read(room) == whole[:room], "another output")
                    time.sleep(0.05)
                    run.leave()
                    self.assertEqual(run.status(), 4)


class WhoseInputsGoOn(CommandCase):
    """Runs that have all their slots before their inputs end."""

    def stops(self, plan, counts):
        """A run of three slots whose inputs have so many packets, and null packets behind them without end."""
        words = ["--slots", "3"]
        with live(plan, inputs=len(counts), words=words) as run:
            for number, count in enumerate(counts):
                run.feeds(input_with(count) + NULL * 100_000, number)
            found = run.read(10**6)
            self.assertEqual(run.status(), 0)
            said = run.said()
        self.assertEqual(len(found), 3 * 188)
        self.assertEqual(found, written(plan, [input_with(count) + NULL * 100 for count in counts], words))
        for number in range(len(counts)):
            self.assertIn(f"end: the slot limit: input {number} was not read to its end\n", said)

    def test_a_worker_at_a_full_ring_is_stopped(self):
        """It waits at its ring of one packet when the last slot goes out."""
        self.stops(plan_of(1), [1000])

    def test_a_worker_that_sends_nothing_is_stopped(self):
        """The second one has sent its four packets, and reads packets that the plan doesn't name, when the last slot goes out."""
        self.stops(plan_of(inputs=2), [1000, 7])
