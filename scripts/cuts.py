#!/usr/bin/env python3
"""Runs the program over each beginning of a file of eight packets, from no byte to all 1,504, in threads and in one thread: both end
with the same status, print the same and write the same file, which begins the output of the whole file. From anywhere:
scripts/cuts.py. It takes less than a minute once the program is built. REMUX names another program than the built one. The last
line counts; the status is 1 where something failed.
"""
import sys
import tempfile

from failures import EIGHT_PLAN, run
from small import EIGHT


def ran(folder, way):
    """The status, both texts and the output of a run, and none of a refused one."""
    status, _, printed, said, whole, part = run(folder, ["run", "--plan", "eight.toml", "--out", "out.ts", *way])
    return status, printed, said, whole, part


def judged(folder, whole):
    """What is wrong with the runs over the file that lies there, or nothing."""
    threads, serial = ran(folder, []), ran(folder, ["--serial"])
    if threads != serial:
        return "the runs differ"
    status, _, _, output, part = threads
    if status == 3:
        return "" if output is None and part is None else "a refused run has an output"
    if status != 0:
        return f"status {status}"
    return "" if whole.startswith(output) else "the output begins another one"


def main():
    wrong = 0
    with tempfile.TemporaryDirectory() as folder:
        with open(f"{folder}/eight.toml", "w") as file:
            file.write(EIGHT_PLAN)
        with open(f"{folder}/eight.ts", "wb") as file:
            file.write(EIGHT)
        whole = ran(folder, [])[3]
        if whole is None or len(whole) != 1692:
            sys.exit("the run over the whole file failed")
        for cut in range(len(EIGHT) + 1):
            with open(f"{folder}/eight.ts", "wb") as file:
                file.write(EIGHT[:cut])
            fault = judged(folder, whole)
            if fault:
                wrong += 1
                print(f"{cut} bytes: {fault}")
    print(f"{len(EIGHT) + 1 - wrong} passed, {wrong} failed")
    return 1 if wrong else 0


if __name__ == "__main__":
    sys.exit(main())
