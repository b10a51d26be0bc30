"""What scripts/install.sh leaves: the program, its manual page, and the completions of three shells."""
import os
import shutil
import subprocess
import tempfile
import unittest

from does import PROGRAM, TOP, lay
from small import EIGHT, PLAN

INSTALL = f"{TOP}/scripts/install.sh"

# The words of each command, as docs/OUTPUT.md and the README have them.
WORDS = {
    "run": "--plan --then --at --out --slots --all --serial --delays --strict --report --progress --quiet --graph --json",
    "check": "--plan --then --at --strict --json",
    "analyse": "--rate --period --size --sync --limit --places --summary --levels --leak --json",
    "probe": "--plan --json",
}


def install(words, program=PROGRAM):
    """Runs the script with these words."""
    env = {**os.environ, "REMUX": program}
    return subprocess.run([INSTALL, *words], env=env, capture_output=True, text=True)


class Installed(unittest.TestCase):
    @classmethod
    def setUpClass(cls):
        cls.folder = tempfile.mkdtemp()
        cls.addClassCleanup(shutil.rmtree, cls.folder)
        cls.done = install(["--prefix", cls.folder])

    def read(self, name):
        """An installed page."""
        with open(os.path.join(self.folder, "share", name), encoding="utf-8") as file:
            return file.read()

    def test_five_files_are_there(self):
        self.assertEqual((self.done.returncode, self.done.stderr), (0, ""))
        found = sorted(os.path.relpath(os.path.join(at, name), self.folder) for at, _, names in os.walk(self.folder) for name in names)
        self.assertEqual(found, ["bin/remux", "share/bash-completion/completions/remux", "share/fish/vendor_completions.d/remux.fish",
                                 "share/man/man1/remux.1", "share/zsh/site-functions/_remux"])

    def test_the_program_wants_nothing_else(self):
        """It runs without an environment, in a folder of its own."""
        with tempfile.TemporaryDirectory() as folder:
            lay(folder, {"x.toml": PLAN, "x.ts": EIGHT})
            words = ["run", "--plan", "x.toml", "--out", "out.ts"]
            ran = subprocess.run([f"{self.folder}/bin/remux", *words], cwd=folder, env={}, capture_output=True)
            self.assertEqual(ran.returncode, 0)
            self.assertEqual(os.path.getsize(os.path.join(folder, "out.ts")), 9 * 188)

    def test_the_manual_has_all_words(self):
        page = self.read("man/man1/remux.1").replace("\\-", "-")
        for command, words in WORDS.items():
            part = page.split(f".SH {command.upper()}\n")[1].split("\n.SH ")[0]
            for word in words.split():
                self.assertIn(f".B {word}", part)
        self.assertIn("Status: 0 success", page)

    @unittest.skipUnless(shutil.which("groff"), "no groff")
    def test_the_manual_is_one(self):
        ran = subprocess.run(["groff", "-man", "-Tascii", "-P-cbou", "-ww", f"{self.folder}/share/man/man1/remux.1"], capture_output=True, text=True)
        self.assertEqual((ran.returncode, ran.stderr), (0, ""))
        self.assertIn("--report <N>", ran.stdout)

    def completed(self, *words):
        """What bash offers behind these words, the last of which isn't whole."""
        script = f'. {self.folder}/share/bash-completion/completions/remux; COMP_WORDS=("$@"); COMP_CWORD=$(($# - 1)); _remux; echo "${{COMPREPLY[@]}}"'
        return subprocess.run(["bash", "-c", script, "bash", "remux", *words], capture_output=True, text=True).stdout.split()

    def test_bash_completes(self):
        self.assertEqual(sorted(self.completed("")), sorted([*WORDS, "--help", "--version"]))
        self.assertEqual(self.completed("an"), ["analyse"])
        for command, words in WORDS.items():
            self.assertEqual(sorted(self.completed(command, "--")), sorted([*words.split(), "--help"]))
        self.assertEqual(sorted(self.completed("run", "--s")), ["--serial", "--slots", "--strict"])
        self.assertEqual(self.completed("run", "--slots", ""), [])
        self.assertEqual(self.completed("run", "out"), [])

    def test_zsh_and_fish_have_all_words(self):
        zsh, fish = self.read("zsh/site-functions/_remux"), self.read("fish/vendor_completions.d/remux.fish")
        for command, words in WORDS.items():
            case = zsh.split(f"        {command}) ")[1].split(";;")[0]
            lines = [line for line in fish.split("\n") if f"__fish_seen_subcommand_from {command}'" in line]
            for word in words.split():
                self.assertIn(f"'*{word}[", case)
                self.assertEqual(sum(f" -l {word[2:]} " in line for line in lines), 1)

    @unittest.skipUnless(shutil.which("zsh"), "no zsh")
    def test_zsh_reads_it(self):
        ran = subprocess.run(["zsh", "-n", f"{self.folder}/share/zsh/site-functions/_remux"], capture_output=True, text=True)
        self.assertEqual((ran.returncode, ran.stderr), (0, ""))

    @unittest.skipUnless(shutil.which("fish"), "no fish")
    def test_fish_completes(self):
        script = f"source {self.folder}/share/fish/vendor_completions.d/remux.fish; complete -C 'remux run --s'"
        ran = subprocess.run(["fish", "--no-config", "-c", script], capture_output=True, text=True)
        self.assertEqual([line.split("\t")[0] for line in ran.stdout.split("\n") if line], ["--serial", "--slots", "--strict"])


class NotInstalled(unittest.TestCase):
    def test_other_words_are_refused(self):
        for words in (["--prefix"], ["somewhere"], ["--prefix", "a", "b"], ["--help"]):
            done = install(words)
            self.assertEqual((done.returncode, done.stdout), (2, ""))
            self.assertIn("scripts/install.sh [--prefix FOLDER]", done.stderr)

    def test_without_the_program_nothing_is_installed(self):
        with tempfile.TemporaryDirectory() as folder:
            done = install(["--prefix", folder], f"{folder}/none")
            self.assertEqual((done.returncode, os.listdir(folder)), (1, []))
            self.assertEqual(done.stderr, "install.sh: the program isn't built: ./remux --help builds it\n")
