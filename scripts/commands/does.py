"""Does a command over files in a folder of its own, a run in threads and in one thread."""
import contextlib
import os
import resource
import signal
import subprocess
import tempfile
import threading
import unittest
from dataclasses import dataclass

from small import EIGHT, PLAN

TOP = os.path.dirname(os.path.dirname(os.path.dirname(os.path.realpath(__file__))))
PROGRAM = os.path.abspath(os.environ.get("REMUX", f"{TOP}/crates/remux/out/remux"))

FILES = {"x.toml": PLAN, "x.ts": EIGHT}

RUN = ["run", "--plan", "x.toml", "--out", "out.ts"]
CHECK = ["check", "--plan", "x.toml"]
ANALYSE = ["analyse", "--rate", "1504000", "--period", "1000", "x.ts"]

# What a run over FILES prints, and what it says of its end.
LINES = """input 0 framed 8 malformed 0 unmapped 3 bad 0 losses 0 lost 0 taken 5 sent 5 dropped 0 queued 0
slots 9 tables 3 elementary 5 null 1 faults 0
"""
ENDED = "end: all inputs ended\n"


@dataclass
class Done:
    """What a command did: its status, what it printed and said, and the files that lie there then."""

    status: int
    raw: bytes
    err: str
    files: dict

    @property
    def out(self):
        """What was printed, as a text."""
        return self.raw.decode("utf-8", "replace")

    @property
    def is_whole(self):
        """Whether the output has its name."""
        return "out.ts" in self.files

    @property
    def written(self):
        """The bytes of the output, or of what is left of one; none where there is neither."""
        return self.files.get("out.ts", self.files.get("out.ts.part"))


def lay(folder, files):
    """Writes the files into the folder, texts in UTF-8."""
    for name, content in files.items():
        with open(os.path.join(folder, name), "wb") as file:
            file.write(content.encode() if isinstance(content, str) else content)


def files_in(folder):
    """The files of a folder, by their names."""
    found = {}
    for name in os.listdir(folder):
        with open(os.path.join(folder, name), "rb") as file:
            found[name] = file.read()
    return found


def allow(room):
    """Lets the process write so many bytes to a file."""
    signal.signal(signal.SIGXFSZ, signal.SIG_IGN)
    resource.setrlimit(resource.RLIMIT_FSIZE, (room, room))


def does_once(words, files=None, room=None, env=None, stdout=subprocess.PIPE, stderr=subprocess.PIPE):
    """Does a command. Without `files` it has the example's; it can write at most `room` bytes to each file, where that is said."""
    with tempfile.TemporaryDirectory() as folder:
        lay(folder, FILES if files is None else files)
        before = None if room is None else lambda: allow(room)
        ran = subprocess.run(
            [PROGRAM, *words], cwd=folder, env=env, stdin=subprocess.DEVNULL, stdout=stdout, stderr=stderr, preexec_fn=before, timeout=60
        )
        return Done(ran.returncode, ran.stdout or b"", (ran.stderr or b"").decode("utf-8", "replace"), files_in(folder))


class CommandCase(unittest.TestCase):
    """A test of whole commands."""

    maxDiff = None

    def does(self, words, files=None, **how):
        """Does a command. A run has to do in threads what it does in one thread. Where it had all its slots before its inputs' ends,
        how far these were read isn't compared."""
        if words[0] != "run" or "--serial" in words:
            return does_once(words, files, **how)
        threads, serial = does_once(words, files, **how), does_once([*words, "--serial"], files, **how)
        self.assertEqual(threads.status, serial.status)
        self.assertEqual(threads.is_whole, serial.is_whole)
        self.assertTrue(threads.written == serial.written, "another output")
        told, read_to, _ = serial.err.partition(" was read to ")
        if read_to:
            self.assertTrue(threads.err.startswith(told), threads.err)
            self.assertEqual(threads.out.splitlines()[-1:], serial.out.splitlines()[-1:])
        else:
            self.assertEqual((threads.out, threads.err), (serial.out, serial.err))
        return serial

    @contextlib.contextmanager
    def pipe_of(self, octets, stays=False):
        """The name of a pipe that gives these bytes, and that stays open behind them as long as the test goes on, if it is to."""
        with tempfile.TemporaryDirectory() as folder:
            name = os.path.join(folder, "pipe")
            os.mkfifo(name)
            ended = threading.Event()

            def write():
                with contextlib.suppress(BrokenPipeError), open(name, "wb") as pipe:
                    pipe.write(octets)
                    pipe.flush()
                    if stays:
                        ended.wait(60)

            writer = threading.Thread(target=write)
            writer.start()
            try:
                yield name
            finally:
                ended.set()
                writer.join()

    def ends(self, done, status, out, err):
        """The command ended with this status and these texts."""
        self.assertEqual((done.err, done.out, done.status), (err, out, status))

    def writes(self, done, length):
        """The command wrote a whole output of so many bytes."""
        self.assertEqual((len(done.written or b""), done.is_whole), (length, True))

    def fails(self, words, files, err, **how):
        """The command ends with status 4 and these words, prints nothing, and leaves the files as they were."""
        done = self.does(words, files, **how)
        self.ends(done, 4, "", err)
        before = {name: text.encode() if isinstance(text, str) else text for name, text in files.items()}
        self.assertEqual(done.files, before)

    def refuses(self, plan, fault, files=None):
        """`check` refuses a plan's text: this is the beginning of what it says."""
        done = self.does(["check", "--plan", "p.toml"], {**(FILES if files is None else files), "p.toml": plan})
        self.assertTrue(done.err.startswith(fault), done.err)
        self.assertEqual((done.out, done.status), ("", 3))
        return done
