#!/usr/bin/env python3
"""wrong_bodies.py: compares the table "Wrong bodies" of docs/THEOREMS.md with the edits under
crates/NAME/must-fail: each edit is named there once, nothing else is, and each changes one line.
The last line counts what differs; the status is 1 where something does."""
import pathlib
import re
import sys

TOP = pathlib.Path(__file__).resolve().parent.parent


def named():
    text = (TOP / "docs" / "THEOREMS.md").read_text()
    table = text.split("## Wrong bodies", 1)[1].split("\n## ", 1)[0]
    return re.findall(r"`(\w+/must-fail/[\w-]+\.edit)`", table)


def lines_changed(path):
    return sum(line.startswith("old: ") for line in path.read_text().splitlines())


def main():
    listed = named()
    there = {str(p.relative_to(TOP / "crates")): p for p in TOP.glob("crates/*/must-fail/*.edit")}
    wrong = [f"named, and not there: {name}" for name in listed if name not in there]
    wrong += [f"there, and not named: {name}" for name in sorted(there) if name not in listed]
    wrong += [f"named twice: {name}" for name in sorted(set(listed)) if listed.count(name) > 1]
    wrong += [f"changes {lines_changed(path)} lines: {name}"
              for name, path in sorted(there.items()) if lines_changed(path) != 1]
    for line in wrong:
        print(line)
    print(f"wrong bodies: {len(there)} edits, {len(wrong)} of them amiss")
    return 1 if wrong or not there else 0


if __name__ == "__main__":
    sys.exit(main())
