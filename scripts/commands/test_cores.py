"""In how many threads a run goes, by the cores that it may use and by what its inputs are."""
import os
import select
import subprocess
import tempfile
import threading
import time
import unittest

from does import PROGRAM, lay
from small import PLAN, TABLES, packets

# More packets than a ring, the blocks on their way to the output, and two pipes hold.
LONG = TABLES + packets(range(20_000))

# How long a run may take until it writes, and how long it has then to fill the pipe that nobody reads, in seconds.
PATIENCE, FILLED = 20, 0.3

CORES = sorted(os.sched_getaffinity(0))


def give(pipe):
    """Writes the input into a pipe, until it is closed."""
    try:
        pipe.write(LONG)
    except OSError:
        pass


def threads_of(words, cores, is_piped=False):
    """How many threads a run has, on so many cores, that waits for whoever reads its output."""
    plan = PLAN.replace('file = "x.ts"', 'file = "-"') if is_piped else PLAN
    command = [PROGRAM, "run", "--plan", "x.toml", "--out", "-", "--all", *words]
    with tempfile.TemporaryDirectory() as folder:
        lay(folder, {"x.toml": plan, "x.ts": LONG})
        run = subprocess.Popen(command, cwd=folder, stdin=subprocess.PIPE, stdout=subprocess.PIPE, stderr=subprocess.DEVNULL,
                               preexec_fn=lambda: os.sched_setaffinity(0, CORES[:cores]))
        giver = threading.Thread(target=give, args=(run.stdin,))
        if is_piped:
            giver.start()
        try:
            if not select.select([run.stdout], [], [], PATIENCE)[0]:
                raise TimeoutError("the run wrote nothing")
            time.sleep(FILLED)
            return len(os.listdir(f"/proc/{run.pid}/task"))
        finally:
            run.kill()
            run.wait()
            if is_piped:
                giver.join()
            run.stdout.close()


class Cores(unittest.TestCase):
    """One thread reads, one makes the multiplex, and one writes it; or one does all."""

    def test_on_one_core_a_run_over_files_has_one_thread(self):
        self.assertEqual(threads_of([], 1), 1)

    def test_on_one_core_a_run_over_a_pipe_has_three(self):
        self.assertEqual(threads_of([], 1, is_piped=True), 3)

    def test_on_one_core_serial_is_heeded(self):
        self.assertEqual(threads_of(["--serial"], 1, is_piped=True), 1)

    @unittest.skipIf(len(CORES) < 2, "there is one core")
    def test_on_two_cores_a_run_has_three(self):
        self.assertEqual(threads_of([], 2), 3)
