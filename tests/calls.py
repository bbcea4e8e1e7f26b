#!/usr/bin/env python3
"""calls.py [--print]: compares the table "Every call" of docs/THEOREMS.md with the signatures in
crates/*/src. Each call that a crate gives stands there once, and no other call does; laws, which take
nothing and give nothing, stay out. By its signature a call takes memory where its result names NoMemory,
or a type that holds it or hands back what was given, and is always Ok where its contract says so; it
may wait where a bound of its own or of its type is Wait or Threads. The last line counts what differs;
the status is 1 where something does. With --print it writes the rows, with nothing said of what stands
after want of memory."""
import pathlib
import re
import sys

TOP = pathlib.Path(__file__).resolve().parent.parent
# how memory is told: it is taken; an allocator is handed in, and none is taken; none; none, though the type has the answer
TAKES, KEEPS, NONE, OK = "taken", "kept for later", "none", "none: always Ok"
MAY, NO = "may", "no"
LENT = "nothing is changed"  # what stands after want of memory where nothing is lent by `&mut` or given away
# what hands back what was given where memory was refused
HANDED_BACK = re.compile(r"\bUn(kept|booked|posted|made|closed)\b|Result<\(\), T>")
ITEM = re.compile(r"(?m)^(?P<indent> *)(?P<pub>pub(?:\((?P<within>\w+)\))? )?(?:final )?(?P<kind>fn|impl|trait|enum|struct)\b")


def bare(text):
    """A source without comments, attributes and what its contracts say, but `always Ok`."""
    text = re.sub(r"#!?\[[^\]\n]*\]", "", re.sub(r"//[^\n]*", "", text))
    text = re.sub(r"\bensures \w+ \{ IsOk result \}(?=;?\n)", " always_ok", text)
    return re.sub(r"\b(requires|ensures\*?)( \w+)? \{.*?\}(?=;?\n)", "", text, flags=re.S)


def head(text, start):
    """An item's text up to its block or its semicolon."""
    depth = 0
    for at in range(start, len(text)):
        depth += text[at] in "([" and 1 or text[at] in ")]" and -1 or 0
        if depth == 0 and text[at] in "{;":
            return text[start:at]
    return text[start:]


def block_end(text, start):
    """The place behind an item's block."""
    depth = 0
    for at in range(start, len(text)):
        depth += {"{": 1, "}": -1}.get(text[at], 0)
        if depth == 0 and text[at] in "};":
            return at + 1
    return len(text)


class Call:
    """A call: its name in the table, and what its signature says of it."""

    def __init__(self, name, signature, outer=""):
        self.name = name
        self.signature = " ".join(signature.split())
        self.result = self.signature.rpartition("->")[2] if "->" in self.signature else ""
        self.waits = MAY if re.search(r"\b(Wait|Threads)\b", outer + " " + self.signature) else NO
        self.memory = None

    def is_law(self):
        return re.fullmatch(r"\w+(<[\w, ]*>)?\(\)", self.signature) is not None

    def changes(self):
        """Whether something is lent by `&mut`, or given away, but numbers and what is copied."""
        return re.search(r"&mut|[(,] (mut )?self\b|: (Plan|Book|Draft|Record|Entry|Arc<)", self.signature) is not None

    def judge(self, holding):
        """How it takes memory, by the names of the types that hold want of memory."""
        wants = HANDED_BACK.search(self.result) or any(re.search(rf"\b{word}\b", self.result) for word in holding)
        handed = re.search(r"\balloc: ", self.signature)
        self.memory = OK if wants and "always_ok" in self.signature else TAKES if wants else KEEPS if handed else NONE


def exported(crate):
    """The names that a crate's root gives; None of a program."""
    root = TOP / "crates" / crate / "src" / "lib.rt"
    if not root.is_file():
        return None
    text = bare(root.read_text())
    names = set(re.findall(r"(?m)^pub (?:fn|struct|enum|trait) (\w+)", text))
    for group in re.findall(r"pub use [\w:]+::(?:\{([^}]*)\}|(\w+));", text):
        names |= {word.strip() for word in (group[0] or group[1]).split(",") if word.strip()}
    return names


def of_file(text, names, calls, holders):
    """Adds a file's calls with one of these names, or of a type with one, and what its types hold."""
    at = 0
    while True:
        item = ITEM.search(text, at)
        if not item:
            return
        signature = head(text, item.end("kind"))
        end = block_end(text, item.end("kind"))
        body = text[item.end("kind") + len(signature):end]
        name = re.match(r"\s*(?:<.*?>(?= \w))?\s*(\w+)", signature)
        if item["kind"] in ("enum", "struct"):
            holders[name[1]] = body
        elif item["kind"] == "fn":
            if item["pub"] and not item["within"] and name[1] in names:
                calls.append(Call(name[1], signature))
        elif item["kind"] == "trait" or " for " not in signature:
            of_type(item, signature, body, names, calls)
        at = end


def of_type(item, signature, body, names, calls):
    """The calls of a trait or of a type's own impl."""
    plain = re.sub(r"^\s*<(?:[^<>]|<[^<>]*>)*>", "", signature)
    owner = re.search(r"\w+", plain)[0]
    if owner not in names:
        return
    for inner in ITEM.finditer(body):
        if inner["kind"] != "fn" or not (inner["pub"] and not inner["within"] or item["kind"] == "trait"):
            continue
        line = head(body, inner.end("kind"))
        name = re.search(r"\w+", line)[0]
        calls.append(Call(f"{owner}::{name}", line, signature))


def closed(holders):
    """The names of the types that hold want of memory."""
    holding, more = set(), {"NoMemory", "AllocError"}
    while more:
        holding |= more
        more = {name for name, body in holders.items() if name not in holding
                and any(re.search(rf"\b{word}\b", body) for word in holding)}
    return holding


def signatures():
    """The calls that each crate gives, without laws, and how many laws there are."""
    found, holders, laws = {}, {}, 0
    for root in sorted((TOP / "crates").iterdir()):
        names = exported(root.name) or {"clearview", "tool"}  # of a program, the calls that do its commands
        calls = []
        for path in sorted(root.glob("src/**/*.rt")):
            if not path.stem.endswith("tests"):
                of_file(bare(path.read_text()), names, calls, holders)
        found[root.name] = [call for call in calls if not call.is_law()]
        laws += len(calls) - len(found[root.name])
    holding = closed(holders)
    for calls in found.values():
        for call in calls:
            call.judge(holding)
    return {crate: calls for crate, calls in found.items() if calls}, laws


def table():
    """The rows of docs/THEOREMS.md by crate: the calls, memory, what stands, whether they wait."""
    text = (TOP / "docs" / "THEOREMS.md").read_text().split("## Every call", 1)[-1].split("\n## ", 1)[0]
    rows = {}
    for line in re.findall(r"(?m)^\| (`\w+` \| .*) \|$", text):
        crate, names, *rest = line.split(" | ")
        rows.setdefault(crate.strip("`"), []).append((re.findall(r"`([\w:]+)`", names), *rest))
    return rows


def amiss(call, memory, stands, waits):
    """What is wrong with a call's row."""
    if memory != call.memory:
        yield f"memory is {call.memory}"
    if waits != call.waits:
        yield f"waits: {call.waits}"
    if (stands == "-") != (call.memory != TAKES):
        yield "something stands after want of memory exactly where memory is taken"
    if stands == LENT and call.changes():
        yield "something is lent by `&mut`, or given away"


def compared(found):
    listed = table()
    for crate in sorted(set(found) | set(listed)):
        calls = {call.name: call for call in found.get(crate, [])}
        names = [name for row in listed.get(crate, []) for name in row[0]]
        yield from (f"{crate}: not listed: {name}" for name in calls if name not in names)
        yield from (f"{crate}: no such call: {name}" for name in names if name not in calls)
        yield from (f"{crate}: listed twice: {name}" for name in sorted(set(names)) if names.count(name) > 1)
        for row in listed.get(crate, []):
            if len(row) != 4:
                yield f"{crate}: a row of {len(row) + 1} cells: {row[0]}"
                continue
            yield from (f"{crate}: {name}: {fault}" for name in row[0] if name in calls for fault in amiss(calls[name], *row[1:]))


def printed(found):
    print("| Crate | Calls | Memory | After want of memory | Waits |\n|---|---|---|---|---|")
    for crate, calls in found.items():
        alike = {}
        for call in calls:
            stands = "-" if call.memory != TAKES else f"? of {call.name}" if call.changes() else LENT
            alike.setdefault((call.memory, stands, call.waits), []).append(f"`{call.name}`")
        for (memory, stands, waits), names in alike.items():
            print(f"| `{crate}` | {', '.join(names)} | {memory} | {stands} | {waits} |")


def main():
    found, laws = signatures()
    if "--print" in sys.argv:
        printed(found)
        return 0
    wrong = list(compared(found))
    for line in wrong:
        print(line)
    print(f"calls: {sum(map(len, found.values()))} of {len(found)} crates, and {laws} laws, {len(wrong)} amiss")
    return 1 if wrong else 0


if __name__ == "__main__":
    sys.exit(main())
