#!/usr/bin/env python3
"""Times runs in threads beside runs in one thread, over the files of make_inputs.sh, by turns: through rings of 1,024, 256, 64 and 16
packets, on four, two and one of the cores, of four inputs with eight services in 38 Mbit/s and of one input with one service in 5.5.

Usage: bench/rings.py [FOLDER]     (bench/data/remux where none is said; TURNS times or nine; REMUX names another program)

The output goes to nobody. Each line: the job, its ring and the cores, of both runs the best time, and the quartiles behind it, in
milliseconds, and how many times as fast as one thread the threads are, by the best times and by the medians.
"""
import os
import statistics
import subprocess
import sys
import time

HERE = os.path.dirname(os.path.realpath(__file__))
FOLDER = sys.argv[1] if len(sys.argv) > 1 else f"{HERE}/data/remux"
PROGRAM = os.path.abspath(os.environ.get("REMUX", f"{HERE}/../crates/remux/out/remux"))
TURNS = int(os.environ.get("TURNS", "9"))


def plans(ring):
    """The plan of all eight services, and that of the first one alone."""
    with open(os.path.join(FOLDER, "job.toml"), encoding="utf-8") as file:
        text = file.read()
    assert "ring = 256\n" in text, "job.toml has no ring of 256 packets"
    text = text.replace("ring = 256\n", f"ring = {ring}\n")
    head, *inputs = text[:text.index("[[service]]")].split("[[input]]")
    first = text[text.index("[[service]]"):].split("[[service]]")[1]
    return text, head.replace("38000000", "5500000") + "[[input]]" + inputs[0] + "[[service]]" + first


def milliseconds(plan, words, cores):
    """How long a run takes on so many cores."""
    allowed = sorted(os.sched_getaffinity(0))[:cores]
    start = time.perf_counter()
    subprocess.run([PROGRAM, "run", "--plan", plan, "--out", "-", "--all", *words], cwd=FOLDER, check=True, stdout=subprocess.DEVNULL,
                   stderr=subprocess.DEVNULL, preexec_fn=lambda: os.sched_setaffinity(0, allowed))
    return 1000 * (time.perf_counter() - start)


def said(times):
    """The best time, and the quartiles."""
    low, middle, high = statistics.quantiles(times, n=4)
    return f"{min(times):6.0f} ({low:.0f} {middle:.0f} {high:.0f})"


def main():
    for ring in 1024, 256, 64, 16:
        for job, text in zip(("four inputs", "one input"), plans(ring)):
            plan = f"ring_{ring}.toml"
            with open(os.path.join(FOLDER, plan), "w", encoding="utf-8") as file:
                file.write(text)
            for cores in 4, 2, 1:
                threads, serial = [], []
                for turn in range(TURNS):
                    for words in ([], ["--serial"]) if turn % 2 else (["--serial"], []):
                        (serial if words else threads).append(milliseconds(plan, words, cores))
                best, middle = (of(serial) / of(threads) for of in (min, statistics.median))
                print(f"{job:11} ring {ring:4} cores {cores}  threads {said(threads)}  serial {said(serial)}  {best:.2f} {middle:.2f}", flush=True)
            os.remove(os.path.join(FOLDER, plan))


if __name__ == "__main__":
    main()
