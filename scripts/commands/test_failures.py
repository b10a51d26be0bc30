"""What a run says of files that can't be opened, read or written: each such call of a run over the example's files fails, one after
another. And what reads and writes do that give or take few bytes."""
import os
import subprocess
import tempfile

from does import ANALYSE, CHECK, ENDED, LINES, RUN, TOP, CommandCase, does_once
from small import TABLES, input_of, packets, service, settings

ERROR = "Input/output error (os error 5)"

PLAN_UNOPENED = f"fault file x.toml\nx.toml: it can't be opened: {ERROR}\n"

INPUT_UNOPENED = f"fault file x.ts\nx.ts: it can't be opened: {ERROR}\n"

PLAN_UNREAD = f"fault file x.toml\nx.toml: it can't be read: {ERROR}\n"

INPUT_UNREAD = f"fault file x.ts\nx.ts: it can't be read: {ERROR}\n"

OUTPUT_UNMADE = f"fault file out.ts\nout.ts: no new file can be made beside it: {ERROR}\n"

UNWRITTEN = f"fault file out.ts\nout.ts: it can't be written: {ERROR}\nout.ts.part: the output so far\n"

# Behind the lines of a run whose input failed; its output doesn't get its name.
INPUT_FAILED = f"{INPUT_UNREAD}end: input 0 failed\nout.ts.part: the output so far\n"

DELAYS = "stream 0x0200 input 0 pid 0x0101 delay 27000 queue 3\n"

# The slots of the example's tables, and those of its five packets; slot 1 is null.
TABLE_SLOTS, PACKET_SLOTS = [0, 2, 4], [3, 5, 6, 7, 8]

# PID and counter of each slot of two inputs, each of which has the example's tables in front: a PAT, two PMTs, two slots apart, and an
# SDT. The packets of both inputs come at the same times, and of two the lower PID goes first.
TWO_INPUTS = [
    (0x0000, 0), (0x1FFF, 0), (0x0100, 0), (0x0200, 0), (0x0101, 0), (0x0201, 0), (0x0011, 0), (0x0200, 1), (0x0201, 1),
    (0x0200, 2), (0x0201, 2), (0x0200, 3), (0x0201, 3), (0x0200, 4), (0x0201, 4),
]


def lines_of(read, is_end=False):
    """What a run prints of whose input so many bytes were read, up to its end or to a read that failed: four packets are told at the
    fifth sync byte, and each further one at its own end; what is in none is lost at the input's end, and else given up. Five packets are
    the plan's, behind three that aren't."""
    framed = read // 188 if read > 4 * 188 else 0
    lost = read - 188 * framed if is_end else 0
    taken = max(framed - 3, 0)
    slots = PACKET_SLOTS[taken - 1] + 1 if taken else 0
    tables = len([slot for slot in TABLE_SLOTS if slot < slots])
    return (
        f"input 0 framed {framed} malformed 0 unmapped {framed - taken} bad 0 losses 0 lost {lost} taken {taken} sent {taken} dropped 0 queued 0\n"
        f"slots {slots} tables {tables} elementary {taken} null {slots - tables - taken} faults 0\n"
    )


class Failures(CommandCase):
    @classmethod
    def setUpClass(cls):
        cls.folder = tempfile.TemporaryDirectory()
        cls.addClassCleanup(cls.folder.cleanup)
        cls.library = f"{cls.folder.name}/fail.so"
        subprocess.run(["cc", "-O1", "-shared", "-fPIC", "-o", cls.library, f"{TOP}/scripts/fail_calls.c", "-ldl"], check=True)

    def each_fails(self, kind, words, **most):
        """What the command does where its first call of this kind fails, its second one, and so on, as long as there is one."""
        mark = f"{self.folder.name}/mark"
        env = {"LD_PRELOAD": self.library, "FAIL_KIND": kind, "FAIL_MARK": mark, **most}
        for at in range(1, 1000):
            done = does_once(words, env={**env, "FAIL_AT": str(at)})
            if not os.path.exists(mark):
                return
            os.remove(mark)
            yield done

    def test_files_that_cannot_be_opened_are_named(self):
        """The input is opened again before the output is made, and before its name is looked at."""
        for way in [], ["--serial"]:
            told = []
            for done in self.each_fails("open", [*RUN, *way]):
                if done.status != 0:
                    self.assertEqual((done.status, done.out, done.written), (4, "", None))
                    told.append(done.err)
            self.assertEqual(told, [PLAN_UNOPENED, INPUT_UNOPENED, INPUT_UNOPENED, OUTPUT_UNMADE])
            onto_the_plan = ["run", "--plan", "x.toml", "--out", "x.toml", *way]
            told = [done.err for done in self.each_fails("open", onto_the_plan)]
            self.assertEqual(told[-3:], [PLAN_UNOPENED, INPUT_UNOPENED, INPUT_UNOPENED])

    def test_inputs_that_cannot_be_opened_again_are_not_measured(self):
        *_, done = self.each_fails("open", CHECK)
        self.assertEqual((done.status, done.err.splitlines()[-1]), (0, "rate: the inputs can't be measured"))

    def test_each_read_that_fails_is_told(self):
        whole = self.does(RUN).written
        for way in [], ["--serial"]:
            told = []
            for done in self.each_fails("read", [*RUN, *way]):
                self.assertEqual((done.status, done.is_whole), (4, False))
                if done.out:
                    self.assertIn(done.out, (lines_of(0), LINES))
                    self.assertEqual(done.err, INPUT_FAILED)
                    self.assertEqual(done.written, whole if done.out == LINES else b"")
                else:
                    self.assertIn(done.err, (PLAN_UNREAD, INPUT_UNREAD))
                    self.assertIsNone(done.written)
                told.append((done.out, done.err))
            self.assertEqual({*told}, {("", PLAN_UNREAD), ("", INPUT_UNREAD), (lines_of(0), INPUT_FAILED), (LINES, INPUT_FAILED)})

    def test_a_read_that_fails_ends_an_analysis(self):
        told = {(done.status, done.out, done.err) for done in self.each_fails("read", ANALYSE)}
        self.assertEqual(told, {(4, "", INPUT_UNREAD)})

    def test_what_came_before_goes_out(self):
        """Half a packet a read, of which one fails, or is the last one."""
        for way in [], ["--serial"]:
            for kind, status, err in ("read", 4, INPUT_FAILED), ("end", 0, ENDED):
                told = set()
                for done in self.each_fails(kind, [*RUN, *way], READ_MOST="94"):
                    if done.out:
                        self.assertEqual((done.status, done.err), (status, err))
                        self.assertEqual(f"slots {len(done.written) // 188} ", done.out.splitlines()[1].split("tables")[0])
                        told.add(done.out)
                self.assertEqual(told, {lines_of(read, kind == "end") for read in range(0, 8 * 188 + 1, 94)})
                self.assertIn(LINES, told)

    def test_a_failed_input_is_told_behind_the_delays(self):
        for way in [], ["--serial"]:
            told = {(done.status, done.err) for done in self.each_fails("read", [*RUN, "--delays", *way]) if done.out == LINES}
            self.assertEqual(told, {(4, DELAYS + INPUT_FAILED)})

    def test_each_write_that_fails_is_told(self):
        """What was written before is the beginning of the output. The last writes are those of the lines."""
        whole = self.does(RUN).written
        for way in [], ["--serial"]:
            sizes = []
            for done in self.each_fails("write", [*RUN, *way], WRITE_MOST="100"):
                if not done.is_whole:
                    self.assertEqual((done.status, done.err, done.out), (4, UNWRITTEN, ""))
                    self.assertTrue(whole.startswith(done.written))
                    sizes.append(len(done.written))
            self.assertEqual(sizes[0], 0)
            self.assertTrue(all(0 < size - before <= 100 for before, size in zip(sizes, [*sizes[1:], len(whole)])), sizes)

    def test_pieces_change_nothing(self):
        """Neither those in which inputs are read and the output is written, nor the room in the queues."""
        inputs = {"x.ts": TABLES + packets(range(5)), "y.ts": TABLES + packets(range(5))}
        for queue, most in (64, "1000000"), (64, "1"), (64, "187"), (1, "189"), (2, "940"), (1, "1"):
            with self.subTest(f"a queue of {queue}, {most} bytes at once"):
                plan = settings(queue) + input_of() + input_of("y.ts") + service() + service(1, 1)
                env = {"LD_PRELOAD": self.library, "READ_MOST": most, "WRITE_MOST": most}
                done = self.does(RUN, {"x.toml": plan, **inputs}, env=env)
                self.assertEqual((done.status, done.err.splitlines(True)[0]), (0, ENDED))
                slots = [done.written[at:at + 188] for at in range(0, len(done.written), 188)]
                self.assertEqual([((slot[1] & 0x1F) << 8 | slot[2], slot[3] & 15) for slot in slots], TWO_INPUTS)
                self.assertEqual(done.out.splitlines()[2], "slots 15 tables 4 elementary 10 null 1 faults 0")
