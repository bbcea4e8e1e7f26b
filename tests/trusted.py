#!/usr/bin/env python3
"""trusted.py [--print]: what a reader of the headline has to believe. From the clauses of the top call
it follows each definition that they cite to those that it is made of, and compares the files in
which these stand with the list "What has to be believed" of docs/THEOREMS.md. The last line counts
what differs; the status is 1 where something does. With --print it writes the definitions of each
file, and how many lines they have."""
import functools
import pathlib
import re
import sys

TOP = pathlib.Path(__file__).resolve().parent.parent
TOP_CALL = TOP / "crates/clearview/src/clearview.rt"
USE = re.compile(r"use Rattle\.(\w+)\.specs\.([\w.]+?)(?:\.\{([^}]*)\}| as (\w+))?;?$", re.M)
BEGINS = re.compile(r"^(?:unfoldable |abbrev )?(?:pub )?(?:(?:record|data) )?([^\s:()]+)")
CASE = re.compile(r"^  (\w+) :", re.M)
WORD = re.compile(r"[^\s(){};,:.]+")


def spec_file(crate, module):
    """Where a module of a crate's specs/ stands; None for what code or the kit declares."""
    path = TOP / "crates" / crate / "specs" / (module.replace(".", "/") + ".antt")
    return path if path.is_file() else None


@functools.lru_cache(maxsize=None)
def blocks(path):
    """The definitions of a file by name: its text, from its signature to the next one's comment."""
    found, name = {}, None
    for line in path.read_text().splitlines():
        if not line or line.startswith(("--", "use ")):
            name = name if line.startswith("use ") else None if not line else name
            continue
        begins = BEGINS.match(line) if not line.startswith((" ", "|")) else None
        if begins and (line.startswith(("abbrev", "unfoldable", "pub ")) or (" : " in line and begins[1] not in found and name != begins[1])):
            name = begins[1]
            found[name] = ""
        if name:
            found[name] += line + "\n"
    return found


def imports(text):
    """What a text brings in: a name's file and the name there, and a file under a name of its own."""
    names, files = {}, {}
    for crate, module, group, alias in USE.findall(text):
        path = spec_file(crate, module)
        if path is None:
            continue
        for name in filter(None, (n.strip() for n in group.split(","))):
            names[name] = (path, name)
        if alias:
            files[alias] = path
    return names, files


def owner(path, name):
    """The definition that declares a name: itself, or the data type of which it is a case."""
    there = blocks(path)
    if name in there:
        return name
    return next((of for of, text in there.items() if name in CASE.findall(text)), None)


def cited(text, path, names, files):
    for dotted in re.findall(r"(\w+)\.(\w+)", text):
        if dotted[0] in files:
            yield files[dotted[0]], dotted[1]
    for word in set(WORD.findall(text)):
        if word in names:
            yield names[word]
        elif path and (word in blocks(path) or owner(path, word)):
            yield path, word


def closure():
    code = TOP_CALL.read_text()
    names, files = imports(code)
    call = code.split("pub fn clearview", 1)[1].split("\n{", 1)[0]
    todo, reached = list(cited(call, None, names, files)), {}
    while todo:
        path, name = todo.pop()
        name = owner(path, name)
        if name is None or name in reached.get(path, ()):
            continue
        reached.setdefault(path, set()).add(name)
        todo += cited(blocks(path)[name], path, *imports(path.read_text()))
    return {str(path.relative_to(TOP)): (path, them) for path, them in reached.items()}


def main():
    reached = closure()
    if "--print" in sys.argv:
        for file, (path, them) in sorted(reached.items()):
            print(f"{file} {sum(blocks(path)[it].count(chr(10)) for it in them)} {' '.join(sorted(them))}")
    text = (TOP / "docs/THEOREMS.md").read_text()
    listed = re.findall(r"^\| `(crates/\w+/specs/[\w/]+\.antt)` \|", text.split("## What has to be believed", 1)[-1].split("\n## ", 1)[0], re.M)
    wrong = [f"believed, and not listed: {file}" for file in sorted(set(reached) - set(listed))]
    wrong += [f"listed, and not believed: {file}" for file in listed if file not in reached]
    wrong += [f"listed twice: {file}" for file in sorted(set(listed)) if listed.count(file) > 1]
    for line in wrong:
        print(line)
    lines = sum(blocks(path)[it].count("\n") for path, them in reached.values() for it in them)
    print(f"trusted: {lines} lines of {len(reached)} files, {len(wrong)} amiss")
    return 1 if wrong else 0


if __name__ == "__main__":
    sys.exit(main())
