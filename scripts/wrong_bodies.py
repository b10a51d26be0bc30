#!/usr/bin/env python3
"""Tries wrong bodies beside the merge gate: the prover must refuse each.

From anywhere: scripts/wrong_bodies.py WORDS. The words name folders of wrong-bodies; without words those are tried that aren't known to be
refused in their crates as these stand now, and with `all` each of them, over what `rt ci` kept on this machine. It works in a copy, in
which these bodies stand in the place of the must-fail edits, and prints a line for each. Of a crate whose bodies are all refused
wrong-bodies/tried.txt then has a line: its name, and a checksum of its sources, definitions and proofs, and of these bodies. So where a
crate changes its line is no longer right, and `scripts/edits.py`, which the gate calls, says so. The last line counts; the status is 1
where a body was proved, couldn't be tried, or was refused for its names alone.
"""

import hashlib
import re
import shutil
import subprocess
import sys
import tempfile
from pathlib import Path

TOP = Path(__file__).resolve().parent.parent
BODIES = TOP / "wrong-bodies"
TRIED = BODIES / "tried.txt"


def checksum(name):
    """The checksum of a crate and of its wrong bodies."""
    crate = TOP / "crates" / name
    files = [file for part in ("src", "specs", "proofs") for file in (crate / part).rglob("*") if file.is_file()]
    total = hashlib.sha256()
    for file in sorted([*files, *(BODIES / name).glob("*.edit")]):
        total.update(f"{file.relative_to(TOP)} {hashlib.sha256(file.read_bytes()).hexdigest()}\n".encode())
    return total.hexdigest()[:32]


def all_names():
    """The crates that have wrong bodies here."""
    return sorted(folder.name for folder in BODIES.iterdir() if folder.is_dir())


def read_tried():
    """The crates whose bodies were all refused, and their checksums then."""
    lines = TRIED.read_text().splitlines() if TRIED.exists() else []
    return dict(line.split() for line in lines)


def untried():
    """The crates whose bodies aren't known to be refused as they stand."""
    tried = read_tried()
    return [name for name in all_names() if tried.get(name) != checksum(name)]


def copy_to(folder, names):
    """Copies the crates, those with these names with their wrong bodies in the place of their edits, and the others without."""
    files = subprocess.run(["git", "ls-files", "-z", "-co", "--exclude-standard", "crates", "crates.txt", "HANDLES"],
                           cwd=TOP, capture_output=True, check=True, text=True).stdout
    for file in filter(None, files.split("\0")):
        if "/must-fail/" not in file and (TOP / file).exists():
            (folder / file).parent.mkdir(parents=True, exist_ok=True)
            shutil.copy2(TOP / file, folder / file)
    for name in names:
        shutil.copytree(BODIES / name, folder / "crates" / name / "must-fail")


def judged(log, name, edit):
    """What the log says of a wrong body."""
    said = re.search(rf"must-fail {name}/{edit}\.edit: (.*)", log)
    return said[1] if said else "it was not tried"


def is_refused(said):
    """Whether this says that a body was refused by a clause."""
    return said.startswith("refused") and "only because" not in said


def bodies_of(name):
    """The names of a crate's wrong bodies."""
    return sorted(file.stem for file in (BODIES / name).glob("*.edit"))


def groups(names):
    """The crates in groups that are tried together, each with a few dozen bodies: what a group showed is noted once it is done."""
    group, count = [], 0
    for name in names:
        group.append(name)
        count += len(bodies_of(name))
        if count >= 24:
            yield group
            group, count = [], 0
    if group:
        yield group


def try_group(names):
    """Tries the wrong bodies of these crates, and answers what the log says."""
    with tempfile.TemporaryDirectory() as made:
        folder = Path(made)
        copy_to(folder, names)
        log = subprocess.run(["rt", "ci", *names], cwd=folder, stdout=subprocess.PIPE, stderr=subprocess.STDOUT).stdout
    return log.decode(errors="replace")


def note(name, total):
    """Notes that all of a crate's bodies were refused at this checksum, or, where it is none, that they weren't."""
    tried = read_tried()
    tried.pop(name, None)
    if total:
        tried[name] = total
    TRIED.write_text("".join(f"{crate} {total}\n" for crate, total in sorted(tried.items())))


def judge(name, log, before):
    """Prints what the log says of each body of a crate, notes it, and answers how many were refused, and how many weren't."""
    said = {body: judged(log, name, body) for body in bodies_of(name)}
    for body, words in said.items():
        print(f"{name} {body}: {words}", flush=True)
    refused = sum(map(is_refused, said.values()))
    note(name, before if refused == len(said) and checksum(name) == before else None)
    return refused, len(said) - refused


def main(words):
    names = all_names() if words == ["all"] else words or untried()
    unknown = [name for name in names if not (BODIES / name).is_dir()]
    if unknown:
        sys.exit(f"wrong-bodies has none of {', '.join(unknown)}")
    passed = failed = 0
    for group in groups(names):
        before = {name: checksum(name) for name in group}
        log = try_group(group)
        wrong = 0
        for name in group:
            refused, others = judge(name, log, before[name])
            passed += refused
            wrong += others
        failed += wrong
        if wrong:
            print(log[-4000:])
    print(f"{passed} passed, {failed} failed")
    return 1 if failed else 0


if __name__ == "__main__":
    sys.exit(main(sys.argv[1:]))
