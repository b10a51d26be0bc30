#!/usr/bin/env python3
"""Runs in threads that wait for one another: 1,008 of them, through rings of 1, 2, 4 and 64 packets, on one, two and four cores. Each ends
by itself and writes what the run in one thread writes, and the fastest of each kind takes less than a second, as none through rings of 1 or 2
does whose threads sleep until their time is over. From anywhere: python3 scripts/waiting.py, once the program is built; REMUX names another
one. The last line counts; the status is 1 where something failed. A run that doesn't end within a minute ends all.
"""
import os
import subprocess
import sys
import tempfile
import time

from small import TABLES, input_of, packets, service, settings

TOP = os.path.dirname(os.path.dirname(os.path.realpath(__file__)))
PROGRAM = os.path.abspath(os.environ.get("REMUX", f"{TOP}/crates/remux/out/remux"))

# How many runs are made through each kind of ring on so many cores.
RUNS = 84

# The packets of each of the two inputs: rings of 64 are full and empty several times.
COUNTS = 300, 220


def run(folder, words, cores):
    """Makes a run on so many cores of those that there are: what it wrote, or why it failed."""
    allowed = sorted(os.sched_getaffinity(0))[:cores]
    command = [PROGRAM, "run", "--plan", "x.toml", "--out", "out.ts", *words]
    try:
        ran = subprocess.run(command, cwd=folder, capture_output=True, timeout=60, preexec_fn=lambda: os.sched_setaffinity(0, allowed))
    except subprocess.TimeoutExpired:
        sys.exit("a run didn't end within a minute")
    if ran.returncode:
        return f"status {ran.returncode}: {ran.stderr.decode()}"
    with open(os.path.join(folder, "out.ts"), "rb") as file:
        return file.read()


def main():
    passed = failed = 0
    with tempfile.TemporaryDirectory() as folder:
        for number, count in enumerate(COUNTS):
            with open(os.path.join(folder, f"in{number}"), "wb") as file:
                file.write(TABLES + packets(range(count - 3)))
        for ring in 1, 2, 4, 64:
            text = settings().replace("ring = 64", f"ring = {ring}").replace("watch = 1000", "watch = 1000000")
            with open(os.path.join(folder, "x.toml"), "w", encoding="utf-8") as file:
                file.write(text + "".join(input_of(f"in{n}") for n in (0, 1)) + "".join(service(n, of=n) for n in (0, 1)))
            want = run(folder, ["--all", "--serial"], 1)
            for cores in 1, 2, 4:
                fastest = 60
                for turn in range(RUNS):
                    start = time.monotonic()
                    if isinstance(want, bytes) and run(folder, ["--all"], cores) == want:
                        passed += 1
                    else:
                        failed += 1
                        print(f"ring {ring}, {cores} cores, run {turn}: not what the run in one thread writes, or it didn't end well")
                    fastest = min(fastest, time.monotonic() - start)
                if fastest >= 1:
                    failed += 1
                    print(f"ring {ring}, {cores} cores: the fastest run took {fastest:.1f} seconds")
    print(f"{passed} passed, {failed} failed")
    return 1 if failed or not passed else 0


if __name__ == "__main__":
    sys.exit(main())
