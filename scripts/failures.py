#!/usr/bin/env python3
"""Makes each request for memory, each opening of a file, each read and each write of whole commands fail in turn, and looks at what
becomes of the run:
over the example's plan and over a file of eight packets, in threads and in one thread. A wrong run has a line, and with -v each
run: what failed, the status, and whether what was written begins the right bytes. From anywhere: scripts/failures.py [-v]. It needs
a C compiler; REMUX names another program than the built one. The last line counts; the status is 1 where a run was wrong.

A run is wrong where it ends by a signal or isn't over within a minute; where its status is another than 0, or 5 with
`fault memory` for want of memory, or else 4; where it is 0
and the output, or what it printed, isn't that of the run that nothing stopped; where it isn't 0 and an output has the final name,
or what was written doesn't begin the right bytes, or nothing is said on standard error.

An input whose read fails ends there and the run goes on, and so it does in threads where a worker is refused memory. What is written
then is another multiplex, in which that input ended early: of it the analyser may tell nothing but a PID that pauses.
"""
import os
import shutil
import subprocess
import sys
import tempfile

from small import EIGHT, PLAN

top = os.path.dirname(os.path.dirname(os.path.realpath(__file__)))
program = os.environ.get("REMUX", f"{top}/crates/remux/out/remux")

EIGHT_PLAN = PLAN.replace("x.ts", "eight.ts")


def lay(folder):
    """The plans and inputs, by the name of the job."""
    for name in ("north.ts", "south.ts"):
        shutil.copy(f"{top}/examples/{name}", folder)
    with open(f"{top}/examples/plan.toml") as file:
        plan = file.read().replace("examples/", "")
    for name, text in (("example.toml", plan), ("eight.toml", EIGHT_PLAN)):
        with open(f"{folder}/{name}", "w") as file:
            file.write(text)
    with open(f"{folder}/eight.ts", "wb") as file:
        file.write(EIGHT)


def read(path):
    try:
        with open(path, "rb") as file:
            return file.read()
    except FileNotFoundError:
        return None


def run(folder, words, kind=None, at=0):
    """Runs the program, and answers its status, whether the call that was to fail was reached, what it printed, and its output and
    what it left of one."""
    for name in ("out.ts", "out.ts.part", "mark"):
        if os.path.exists(f"{folder}/{name}"):
            os.remove(f"{folder}/{name}")
    env = {"LD_PRELOAD": f"{folder}/fail.so", "FAIL_KIND": kind, "FAIL_AT": str(at), "FAIL_MARK": f"{folder}/mark"} if kind else {}
    try:
        ran = subprocess.run([program, *words], cwd=folder, env=env, stdin=subprocess.DEVNULL, capture_output=True, timeout=60)
    except subprocess.TimeoutExpired:
        return None, True, b"", b"", None, None
    return ran.returncode, os.path.exists(f"{folder}/mark"), ran.stdout, ran.stderr, read(f"{folder}/out.ts"), read(f"{folder}/out.ts.part")


def is_clean(folder, plan):
    """Whether the analyser tells nothing of what is left of an output but PIDs that pause."""
    values = dict(line.split(" = ", 1) for line in plan.split("\n") if " = " in line)
    words = ["analyse", "--rate", values["rate"], "--period", values["watch"], "out.ts.part"]
    ran = subprocess.run([program, *words], cwd=folder, stdin=subprocess.DEVNULL, capture_output=True, text=True, timeout=60)
    *faults, last = ran.stdout.splitlines()
    return ran.returncode in (0, 1) and last.endswith("rest 0") and all(fault.split()[2] == "1.6" for fault in faults)


def judged(kind, right, got, may_end_early, folder, plan):
    """What is wrong with a run, or nothing, how much it wrote, and what that is."""
    status, _, printed, said, whole, part = got
    _, _, right_print, _, right_bytes, _ = right
    if status is None:
        return "it didn't end", 0, ""
    if status == 0:
        fault = "" if whole == right_bytes and printed == right_print else "it ended well with another output"
        return fault, len(whole or b""), "all of it"
    written = part or b""
    if status != (5 if kind == "memory" else 4) or kind == "memory" and not said.startswith(b"fault memory\n"):
        return "the status, or the word", len(written), ""
    if whole is not None and whole != right_bytes:
        return "an output has the final name", len(whole), ""
    fault = "" if said else "no word"
    if right_bytes.startswith(written):
        return fault, len(written), "a beginning"
    if may_end_early and is_clean(folder, plan):
        return fault, len(written), "an input ended early"
    return "the bytes", len(written), ""


def main():
    runs, wrong = 0, 0
    with tempfile.TemporaryDirectory() as folder:
        lay(folder)
        subprocess.run(["cc", "-O1", "-shared", "-fPIC", "-o", f"{folder}/fail.so", f"{top}/scripts/fail_calls.c", "-ldl"], check=True)
        for job in ("eight", "example"):
            for way in ([], ["--serial"]):
                words = ["run", "--plan", f"{job}.toml", "--out", "out.ts", *way]
                with open(f"{folder}/{job}.toml") as file:
                    plan = file.read()
                right = run(folder, words)
                if right[0] != 0:
                    sys.exit(f"{' '.join(words)}: status {right[0]} though nothing failed")
                for kind in ("memory", "open", "read", "write"):
                    at = 1
                    while True:
                        got = run(folder, words, kind, at)
                        if not got[1]:
                            break
                        may_end_early = kind == "read" or kind == "memory" and not way
                        fault, size, what = judged(kind, right, got, may_end_early, folder, plan)
                        runs, wrong = runs + 1, wrong + bool(fault)
                        way_name = "in one thread" if way else "in threads"
                        if fault or "-v" in sys.argv:
                            print(f"{job} {way_name}, {kind} {at}: status {got[0]}, {size} of {len(right[4])} bytes, {'WRONG: ' + fault if fault else what}")
                        at += 1
    print(f"{runs - wrong} passed, {wrong} failed")
    return 1 if wrong or not runs else 0


if __name__ == "__main__":
    sys.exit(main())
