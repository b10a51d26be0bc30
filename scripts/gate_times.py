#!/usr/bin/env python3
"""Times the gate: how many processor seconds each crate's proof, tests and edits take.

From anywhere, where `rt ci` passed: python3 scripts/gate_times.py words. The words name crates; without words all of crates.txt are
timed. Have nothing beside it. Of each crate a copy is timed, whole and from outside: `rt ci NAME` without its edits, and then with
them; tests stand in crates of their own. A comment makes the copy another one than that which `rt ci` kept, so that it is proved anew,
while what it stands on is kept. It prints a line for each crate: its name, the processor seconds of its proof, of its tests and of its
edits, and how long each took by the clock; then the sums, and at last the chain of crates that takes longest. A run over what is kept
takes some seconds too, which are in these numbers. `--at-once N` in front of the words times so many crates beside each other: that is
faster, and its numbers are greater. With `--first` in front of all, on a machine where nothing is kept yet, the copies have no such
comment, each crate comes behind those that it stands on, and what is timed is kept, as the first `rt ci` on a machine would keep it.
"""

import functools
import os
import shutil
import subprocess
import sys
import tempfile
import time
from concurrent.futures import FIRST_COMPLETED, ThreadPoolExecutor, wait
from pathlib import Path

TOP = Path(__file__).resolve().parent.parent


def read_uses():
    """The crates of crates.txt, each with what it uses."""
    uses = {}
    for line in (TOP / "crates.txt").read_text().splitlines():
        names, colon, below = line.split("#")[0].partition(":")
        if colon:
            uses[names.split()[0]] = below.split()
    return uses


def copy_to(folder, name, is_first):
    """Copies what git has of the crates, without edits. That of this name gets a comment that no copy had before, but the first time."""
    files = subprocess.run(["git", "ls-files", "-z", "-co", "--exclude-standard", "crates", "crates.txt", "HANDLES"],
                           cwd=TOP, capture_output=True, check=True, text=True).stdout
    for file in filter(None, files.split("\0")):
        if "/must-fail/" not in file and (TOP / file).exists():
            (folder / file).parent.mkdir(parents=True, exist_ok=True)
            shutil.copy2(TOP / file, folder / file)
    if is_first:
        return
    for root in "lib.rt", "main.rt":
        file = folder / "crates" / name / "src" / root
        if file.exists():
            with open(file, "a", encoding="utf-8") as opened:
                opened.write(f"// Timed at {time.time_ns()}.\n")


def is_of_tests(name):
    """Whether a crate holds tests alone, or vectors."""
    return name.endswith(("_tests", "vectors"))


def timed(folder, name):
    """Runs `rt ci NAME` in the copy: its processor seconds and its seconds by the clock."""
    start = time.monotonic()
    with open(folder / "log", "w", encoding="utf-8") as log:
        running = subprocess.Popen(["rt", "ci", name], cwd=folder, stdout=log, stderr=log)
        _, status, usage = os.wait4(running.pid, 0)
        running.returncode = status
    if status != 0:
        raise RuntimeError((folder / "log").read_text()[-2000:])
    return usage.ru_utime + usage.ru_stime, time.monotonic() - start


def time_crate(name, is_first):
    """Times one crate in a copy of its own, and prints its line: of its proof, its tests and its edits the processor seconds, and the
    seconds by the clock."""
    with tempfile.TemporaryDirectory() as made:
        folder = Path(made)
        copy_to(folder, name, is_first)
        once = timed(folder, name)
        spent = [(0, 0), once, (0, 0)] if is_of_tests(name) else [once, (0, 0), (0, 0)]
        edits = TOP / "crates" / name / "must-fail"
        if edits.is_dir():
            shutil.copytree(edits, folder / "crates" / name / "must-fail")
            spent[2] = timed(folder, name)
        print_line(name, spent)
        return spent


def time_all(names, uses, at_once, is_first):
    """Times the crates, so many at once, and each behind those of them that it stands on: the three times of each."""
    spent, running = {}, {}
    with ThreadPoolExecutor(at_once) as pool:
        while len(spent) < len(names):
            for name in names:
                is_ready = all(used in spent for used in uses[name] if used in names)
                if is_ready and name not in spent and name not in running and len(running) < at_once:
                    running[name] = pool.submit(time_crate, name, is_first)
            wait(running.values(), return_when=FIRST_COMPLETED)
            for name in [name for name, timing in running.items() if timing.done()]:
                spent[name] = running.pop(name).result()
    return spent


def print_line(name, spent):
    """Prints a line of three times."""
    print(name, *(f"{seconds[0]:.0f}" for seconds in spent), "/", *(f"{seconds[1]:.0f}" for seconds in spent), flush=True)


def longest(uses, seconds):
    """The chain of crates whose proofs take longest one behind the other, and how long by the clock."""

    @functools.cache
    def chain(name):
        before = max((chain(used) for used in uses[name] if used in seconds), default=(0, ()))
        return before[0] + seconds[name], (*before[1], name)

    return max(map(chain, seconds))


def main(words):
    is_first = words[:1] == ["--first"]
    words = words[is_first:]
    at_once = 1
    if words[:1] == ["--at-once"]:
        at_once, words = int(words[1]), words[2:]
    uses = read_uses()
    print("crate proof tests edits / by the clock", flush=True)
    spent = time_all(words or list(uses), uses, at_once, is_first)
    print_line("all", [[sum(times[part][unit] for times in spent.values()) for unit in (0, 1)] for part in range(3)])
    seconds, chain = longest(uses, {name: times[0][1] + times[1][1] for name, times in spent.items()})
    print(f"the longest chain takes {seconds:.0f} s by the clock: {' '.join(chain)}")


if __name__ == "__main__":
    main(sys.argv[1:])
