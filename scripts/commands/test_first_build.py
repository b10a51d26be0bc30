"""What `./remux` says of a first build: the lines of scripts/how_far.sh, by those that a build prints."""
import re
import subprocess
import unittest

from does import TOP


def said(*lines):
    """What is said of a build that prints these lines."""
    text = "".join(f"{line}\n" for line in lines)
    ran = subprocess.run([f"{TOP}/scripts/how_far.sh"], input=text, capture_output=True, text=True)
    return ran.returncode, ran.stdout, ran.stderr.splitlines()


def proved(name):
    """The line behind a crate's proof."""
    return f"crate {name}: modules loaded=0 checked=33"


class HowFar(unittest.TestCase):
    def counts(self, *lines):
        """How many crates are proved by each line, and that all are of the same number."""
        status, out, told = said(*lines)
        found = [re.fullmatch(r"remux: (\d+) of (\d+) crates are proved; at this pace the others take 0 minutes", line) for line in told]
        self.assertTrue(status == 0 and out == "" and all(found), told)
        self.assertEqual(len({line[2] for line in found}), 1)
        return [int(line[1]) for line in found]

    def test_each_crate_is_counted_once(self):
        self.assertEqual(self.counts(proved("tspkt"), proved("section"), proved("section"), proved("tables")), [1, 2, 3])

    def test_what_an_earlier_build_proved_is_counted(self):
        lines = ["library tspkt: modules loaded=18 checked=0", "library section: modules loaded=18 checked=0", proved("tables")]
        self.assertEqual(self.counts(*lines), [3])

    def test_what_the_program_does_not_stand_on_is_not_counted(self):
        """Neither the library beside the program, nor what the kit has."""
        self.assertEqual(self.counts(proved("marks"), "library hex: modules loaded=4 checked=0", proved("tspkt")), [1])

    def test_what_is_wrong_is_told(self):
        wrong = "src/main.rt:8:32: error[unknown-name]: cannot find value `a` in this scope"
        self.assertEqual(said("rt: chose --jobs 2 for tspkt", wrong), (0, "", [wrong]))


if __name__ == "__main__":
    unittest.main()
