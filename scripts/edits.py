#!/usr/bin/env python3
"""Says which edits apply nowhere: of each wrong body in crates/*/must-fail and wrong-bodies it looks whether each text that is to be
replaced stands exactly once in its file. Further pairs of an edit apply to what the earlier ones made. And it says of which crates the
bodies in wrong-bodies aren't known to be refused as the crate stands now (`wrong_bodies.py`). It proves nothing. From anywhere:
scripts/edits.py. The last line counts; the status is 1 where a text doesn't stand once, or where a crate's bodies are to be tried."""

import sys
from pathlib import Path

from wrong_bodies import all_names, read_tried, untried

TOP = Path(__file__).resolve().parent.parent


def faults(edit, crate):
    """What is wrong with an edit of a crate, as texts."""
    texts = {}
    name = old = None
    for line in edit.read_text().splitlines():
        key, colon, value = line.partition(":")
        value = value.removeprefix(" ")
        if key == "file" and colon:
            name = value
            if name not in texts:
                path = crate / name
                if not path.is_file():
                    yield f"there is no {name}"
                    return
                texts[name] = path.read_text()
        elif key == "old" and colon and name is not None:
            old = value
        elif key == "new" and colon and old is not None:
            count = texts[name].count(old)
            if count != 1:
                yield f"stands {count} times in {name}: {old}"
            texts[name] = texts[name].replace(old, value, 1)
            old = None
        elif line.strip():
            yield f"a line of no edit: {line}"
    if name is None or old is not None:
        yield "it has no whole pair"


def main():
    edits = sorted(TOP.glob("crates/*/must-fail/*.edit")) + sorted(TOP.glob("wrong-bodies/*/*.edit"))
    wrong = 0
    for edit in edits:
        crate = edit.parent.parent if edit.parent.name == "must-fail" else TOP / "crates" / edit.parent.name
        found = list(faults(edit, crate))
        for text in found:
            print(f"{edit.relative_to(TOP)}: {text}")
        wrong += bool(found)
    for name in untried():
        why = "its crate changed" if name in read_tried() else "they weren't yet"
        print(f"wrong-bodies/{name}: to be tried, since {why}: scripts/wrong_bodies.py {name}")
        wrong += 1
    print(f"{len(edits) + len(all_names()) - wrong} passed, {wrong} failed")
    return 1 if wrong else 0


sys.exit(main())
