#!/usr/bin/env python3
"""Plans that `probe` makes of the streams of make_inputs.sh: of each of their fifteen sets.

From anywhere: bench/plans.py FOLDER, where the folder has the streams. REMUX names another program than the built one. A plan has all
services of its set, `check --strict` finds it as it should be, and a strict run has no fault. A line tells what doesn't hold of a set;
the last one counts, and the status is 1 where something didn't.
"""

import os
import subprocess
import sys
import tempfile
from itertools import combinations
from pathlib import Path

TOP = Path(__file__).resolve().parent.parent
REMUX = os.path.abspath(os.environ.get("REMUX", TOP / "crates" / "remux" / "out" / "remux"))
STREAMS = [f"input_{number}.ts" for number in range(4)]


def does(folder, *words):
    return subprocess.run([REMUX, *words], cwd=folder, capture_output=True, text=True)


def lack_of(folder, plan, names):
    """What doesn't hold of the plan of these streams, each of which has two services; none where all does."""
    made = does(folder, "probe", *names, "--plan")
    if made.returncode or made.stdout.count("[[service]]") != 2 * len(names):
        return f"probe: {made.stdout}{made.stderr}"
    plan.write_text(made.stdout)
    checked = does(folder, "check", "--plan", plan, "--strict")
    if checked.returncode:
        return f"check: {checked.stderr}"
    ran = does(folder, "run", "--plan", plan, "--out", os.devnull, "--slots", "50000", "--strict")
    if ran.returncode or not ran.stdout.endswith(" faults 0\n"):
        return f"run: {ran.stdout}{ran.stderr}"
    return None


def main(folder):
    sets = [names for count in range(1, 5) for names in combinations(STREAMS, count)]
    failed = 0
    with tempfile.TemporaryDirectory() as made:
        for names in sets:
            lack = lack_of(folder, Path(made) / "plan.toml", names)
            if lack:
                failed += 1
                print(f"{' '.join(names)}: {lack}")
    print(f"{len(sets) - failed} passed, {failed} failed")
    return 1 if failed else 0


if __name__ == "__main__":
    sys.exit(main(Path(sys.argv[1])))
