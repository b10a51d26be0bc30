"""What `--strict` makes of a check and of a run: the lines and the output stay as they are, and where a line says that the plan or an
input isn't as it should be, the status is 1. A slot takes a millisecond, and so does a packet of an input."""
from does import CHECK, ENDED, FILES, LINES, RUN, CommandCase, does_once
from small import EIGHT, NULL, PLAN, TABLES, input_of, packets, service, settings
from test_rates import FAST, SUM, fast, files_with, input_with

# The leak of a stream that takes 12,008 bits a second.
LOW = PLAN.replace("leak = 2000000", "leak = 12007")
LEAK = "leak: stream 0x0200 (input 0, PID 0x0101): 12007 bits a second, below its measured 12008: state more\n"

# An input of variable rate: a second of 1,000 packets, and one of 500.
VARIABLE = [(step * 13_500_000, False, nulls) for step, nulls in enumerate([499, 499, 249, 249, 0])]

# Two inputs, of which the first has eight packets, and none of which is watched for a pause.
TWO = settings().replace("watch = 1000", "watch = 1000000") + input_of() + input_of("y.ts") + service() + service(1, of=1)


def of_two(count):
    """A plan of two inputs, the second of which has so many packets."""
    return {"x.toml": TWO, "x.ts": EIGHT, "y.ts": TABLES + packets(range(count - 3))}


class Strict(CommandCase):
    def told(self, words, files, status):
        """What a command says, which is the same with `--strict`; that ends with this status, and the other with 0."""
        plain, strict = self.does(words, files), self.does([*words, "--strict"], files)
        self.assertEqual((strict.out, strict.err), (plain.out, plain.err))
        self.assertTrue(strict.files == plain.files, "another output")
        self.assertEqual((plain.status, strict.status), (0, status))
        return plain.err

    def test_what_is_as_it_should_be_ends_well(self):
        pcrs = [(0, False, 99), (2_700_000, False, 99), (5_400_000, False, 0)]
        for words in RUN, CHECK, [*RUN, "--all"]:
            self.told(words, FILES, 0)
            self.told(words, files_with(pcrs), 0)

    def test_a_rate_that_is_not_as_stated(self):
        self.assertTrue(self.told(CHECK, files_with(fast()), 1).endswith(FAST + SUM))
        self.assertEqual(self.told(RUN, files_with(fast()), 1), ENDED + FAST)

    def test_a_variable_rate(self):
        line = "rate: input 0 is of variable rate by the PCRs of PID 0x0101, "
        for words in CHECK, RUN:
            self.assertIn(line, self.told(words, files_with(VARIABLE), 1))

    def test_a_leak_that_is_too_low(self):
        """A run that goes on until its inputs end says it first too."""
        plan = LOW.replace("[[input]]\nfile = \"x.ts\"\nrate = 1504000", "[[input]]\nfile = \"x.ts\"\nrate = 1507008")
        files = files_with(fast(), plan)
        self.assertTrue(self.told(CHECK, files, 1).endswith(SUM + LEAK))
        self.assertEqual(self.told(RUN, files, 1), ENDED + LEAK)
        self.assertEqual(self.told([*RUN, "--all"], files, 1), LEAK + ENDED + LEAK)

    def test_a_damaged_input(self):
        """A packet whose sync byte is 0x48, and one whose adaptation_field_control is 0; each counter comes all the same."""
        bad, malformed = b"\x48" + NULL[1:], bytes([0x47, 0x01, 0x01, 0x00]) + bytes(184)
        for wrong, told in (bad, "0, bad sync bytes: 1"), (malformed + 2 * NULL + malformed, "2, bad sync bytes: 0"):
            files = {**FILES, "x.ts": TABLES + packets(range(3)) + wrong + packets([3, 4])}
            line = f"damaged: input 0 has malformed packets: {told}, losses of sync: 0, bytes in no packet: 0\n"
            self.assertEqual(self.told(RUN, files, 1), ENDED + line)
            self.assertEqual(self.does([*CHECK, "--strict"], files).status, 0)

    def test_what_can_be_read_once_is_not_measured_first(self):
        """A pipe gives its bytes to the run."""
        with self.pipe_of(input_with(fast())) as name:
            plan = LOW.replace('"x.ts"', f'"{name}"')
            done = does_once([*RUN, "--all"], {"x.toml": plan})
        self.assertEqual((done.err, done.status), (ENDED + FAST + LEAK, 0))

    def test_services_that_take_more_than_there_is(self):
        """Four of 502 packets of 100,000,000 bits a second are 796,813 of 500,000; the input's rate is as stated."""
        pcrs = [(step * 167 * 1504 * 27 // 100, False, 166 if step < 3 else 0) for step in range(4)]
        plan = PLAN.replace("rate = 1504000", "rate = 500000", 1).replace("rate = 1504000", "rate = 100000000")
        told = self.told(CHECK, files_with(pcrs, plan), 1)
        self.assertTrue(told.endswith("that rate 500000 leaves after the tables: raise it, or leave a service out\n"), told)

    def test_an_input_that_ended_before_another(self):
        """The first ends at 8 ms. A second behind that is granted to the other."""
        self.assertEqual(self.told(RUN, of_two(1008), 0), ENDED)
        early = "end: input 0 ended after 8 ms, and the run went on for 1001 ms\n"
        self.assertEqual(self.told(RUN, of_two(1009), 1), ENDED + early)
        self.assertEqual(self.told([*RUN, "--serial"], of_two(1009), 1), ENDED + early)

    def test_an_input_that_ended_at_the_last_slot(self):
        """Of a run of 1,008 slots the other is left a second behind its end, however far it was read, and of one of 1,009 more."""
        self.assertNotIn("ended after", self.told([*RUN, "--slots", "1008"], of_two(5000), 0))
        early = "end: input 0 ended after 8 ms, and the run went on for 1001 ms\n"
        self.assertIn(early, self.told([*RUN, "--slots", "1009"], of_two(5000), 1))

    def test_an_input_that_no_service_uses_may_end(self):
        plan = settings() + input_of() + input_of("y.ts") + service()
        files = {"x.toml": plan, "x.ts": of_two(1009)["y.ts"], "y.ts": EIGHT}
        self.assertEqual(self.told(RUN, files, 0), ENDED)

    def test_a_status_of_a_fault_stays(self):
        done = self.does([*RUN, "--strict"], files_with(fast()), room=100)
        self.assertEqual(done.status, 4)
        done = self.does([*CHECK, "--strict"], {**FILES, "x.toml": PLAN.replace("program = 100", "program = 7")})
        self.assertEqual(done.status, 3)

    def test_words_of_check(self):
        done = self.does(["check", "--strict"], {})
        self.assertEqual((done.out, done.status), ("", 2))


class Hints(CommandCase):
    def test_a_file_that_is_two_inputs(self):
        plan = settings() + input_of() + input_of("./x.ts") + service() + service(1, of=1)
        hint = "inputs: 0 and 1 are one file; services of one file can share an [[input]]\n"
        for words in CHECK, RUN:
            done = self.does(words, {"x.toml": plan, "x.ts": EIGHT})
            self.assertTrue(done.err.endswith(hint), done.err)
            self.assertEqual(done.status, 0)

    def test_a_run_that_was_cut_is_told_of_all(self):
        """An input that comes 1,001 seconds behind the start: a slot takes a millisecond."""
        late = PLAN.replace("offset = 0", "offset = 27027000000")
        for way in [], ["--serial"]:
            done = does_once(["run", "--plan", "x.toml", "--out", "/dev/null", *way], {**FILES, "x.toml": late})
            self.assertIn("end: with --all a run goes on until its inputs end\n", done.err)
        done = self.does([*RUN, "--slots", "8"])
        self.assertNotIn("--all", done.err)

    def test_an_address_is_no_name(self):
        told = "names are those of files and pipes, and no addresses of a network\n"
        name = "udp://239.0.0.1:1234"
        done = self.does(CHECK, {"x.toml": PLAN.replace("x.ts", name, 1)})
        self.assertEqual(done.err, f"fault file {name}\n{name}: it can't be opened: No such file or directory (os error 2)\n{told}")
        done = self.does(["run", "--plan", "x.toml", "--out", name])
        self.assertEqual(done.err, f"fault file {name}\n{name}: no new file can be made beside it: No such file or directory (os error 2)\n{told}")
        self.assertEqual(done.status, 4)

    def test_the_help_is_named_where_there_are_no_words(self):
        done = does_once([], {})
        self.assertEqual((done.err, done.status), ("help: remux --help\n", 0))


class Refusals(CommandCase):
    """What is known to be no program of an input is told as soon as its PAT has come."""

    def test_a_program_that_the_pat_lacks(self):
        """What comes behind the PAT doesn't matter, nor that the pipe stays open."""
        told = "fault 5 NoProgram\na program is not in its input\nservice 500 (input 0, program 7): the input has no such program; its PAT has program 100\n"
        plan = PLAN.replace("program = 100", "program = 7")
        self.assertEqual(self.does(CHECK, {**FILES, "x.toml": plan}).err, told)
        with self.pipe_of(TABLES + packets(range(20)), stays=True) as name:
            done = does_once(CHECK, {"x.toml": plan.replace('"x.ts"', f'"{name}"')})
        self.assertEqual((done.err, done.status), (told, 3))

    def test_the_service_that_is_lacking_is_named(self):
        """The first service's PMT hasn't come yet."""
        plan = settings() + input_of() + service() + service(1, program=7, pid=258)
        told = "service 501 (input 0, program 7): the input has no such program; its PAT has program 100\n"
        done = self.does(CHECK, {"x.toml": plan, "x.ts": EIGHT[:188] + packets(range(20))})
        self.assertTrue(done.err.endswith(told), done.err)

    def test_further_inputs_have_only_to_be_there(self):
        plan = settings() + input_of() + input_of("y.ts") + service(program=7) + service(1, of=1)
        told = "service 500 (input 0, program 7): the input has no such program; its PAT has program 100\n"
        done = self.does(CHECK, {"x.toml": plan, "x.ts": EIGHT, "y.ts": b""})
        self.assertTrue(done.err.endswith(told), done.err)
        self.assertEqual(done.status, 3)
        done = self.does(CHECK, {"x.toml": plan, "x.ts": EIGHT})
        self.assertEqual((done.err.splitlines()[0], done.status), ("fault file y.ts", 4))
