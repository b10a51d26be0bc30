"""What a run shows on a terminal while it goes on."""
import os
import pty
import re
import select
import subprocess
import tempfile
import time
import unittest

from does import PROGRAM, lay
from small import PLAN, TABLES, packets

# A thousand packets of a millisecond each, of which half a second comes before the input pauses.
INPUT = TABLES + packets(range(997))
FIRST = 503 * 188

# How long the input pauses, in seconds: longer than a line takes to be shown.
PAUSE = 1.6

RENEW = "\r\x1b[K"

# What makes a terminal cut a line off at its edge, and break lines again.
CUT, BREAK = "\x1b[?7l", "\x1b[?7h"

# The run waits for packet 503, so the slots before it went out. Half a second is 0 whole ones, of a pipe that ends nobody
# knows when. It took at least 0.4 seconds until the first line.
LINE = re.compile(r"slots 50[0-3], inputs - %, 0 s, [0-9]\.[0-9]x")


def run_of(words, stderr):
    """A run whose input comes by a pipe, which pauses."""
    folder = tempfile.mkdtemp()
    lay(folder, {"x.toml": PLAN.replace('file = "x.ts"', 'file = "-"')})
    command = [PROGRAM, "run", "--plan", "x.toml", "--out", "out.ts", "--all", *words]
    run = subprocess.Popen(command, cwd=folder, stdin=subprocess.PIPE, stdout=subprocess.PIPE, stderr=stderr)
    run.stdin.write(INPUT[:FIRST])
    run.stdin.flush()
    time.sleep(PAUSE)
    run.stdin.write(INPUT[FIRST:])
    run.stdin.close()
    return run


def on_terminal(words):
    """What the run printed on a terminal as its standard error, and its status."""
    ours, theirs = pty.openpty()
    run = run_of(words, theirs)
    status = run.wait()
    run.stdout.close()
    os.close(theirs)
    told = b""
    while select.select([ours], [], [], 0.2)[0]:
        try:
            told += os.read(ours, 65_536)
        except OSError:
            break
    os.close(ours)
    return told.decode().replace("\r\n", "\n"), status


def on_pipe(words):
    """The same where it is a pipe."""
    run = run_of(words, subprocess.PIPE)
    told = run.stderr.read().decode()
    run.stderr.close()
    run.stdout.close()
    return told, run.wait()


ENDED = "end: all inputs ended\n"


class Progress(unittest.TestCase):
    def test_a_terminal_shows_how_far_a_run_is(self):
        """In a line that is renewed, and gone when the lines of the end come."""
        told, status = on_terminal([])
        self.assertEqual(status, 0)
        *shown, end = told.split(RENEW)
        self.assertEqual((shown[0], end), ("", ENDED))
        self.assertGreaterEqual(len(shown), 3)
        for line in shown[1:]:
            self.assertTrue(line.startswith(CUT) and line.endswith(BREAK), line)
            self.assertRegex(line.removeprefix(CUT).removesuffix(BREAK), LINE)

    def test_a_terminal_shows_nothing_where_it_is_not_asked_to(self):
        self.assertEqual(on_terminal(["--quiet"]), (ENDED, 0))

    def test_a_pipe_has_no_line(self):
        self.assertEqual(on_pipe([]), (ENDED, 0))

    def test_a_pipe_has_a_line_each_second_where_it_is_asked_for(self):
        told, status = on_pipe(["--progress"])
        line, end = told.split("\n", 1)
        self.assertRegex(line, LINE)
        self.assertEqual((end, status), (ENDED, 0))

    def test_words_that_exclude_one_another_are_refused(self):
        for words in ["--quiet", "--progress"], ["--report", "1", "--progress"], ["--report", "1", "--quiet"]:
            ran = subprocess.run([PROGRAM, "run", "--plan", "x.toml", "--out", "o.ts", *words], capture_output=True, text=True)
            self.assertEqual((ran.returncode, ran.stdout), (2, ""))
            self.assertIn("cannot be used with", ran.stderr)
