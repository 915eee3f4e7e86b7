#!/usr/bin/env python3
"""Counts what makes the crates hard to read, and checks that none of it grows.

    tests/house.py            prints the counts; FAILED where one is more than docs/ARCHITECTURE.md says
    tests/house.py --list     also prints each place
    tests/house.py --write    writes the counts into docs/ARCHITECTURE.md

The last line is `N passed, M failed`; the status is 1 where one failed.
"""
import os
import re
import sys
from collections import defaultdict

from check_docs import TOP, text_of

PAGE = "docs/ARCHITECTURE.md"
MOST_PARAMETERS, MOST_COLUMNS, MOST_LINES = 7, 100, 300
ROW = re.compile(r"\| (.+?) \| (\d+) \|")
IMPORT = re.compile(r"\s*(?:ghost |pub )?use ")
FUNCTION = re.compile(r"\bfn (\w+)")
# a name that a file of specs/ declares: `abbrev pub NAME :`, `pub NAME :`, `pub record NAME`, `pub data NAME`
DECLARED = re.compile(r"^(?:abbrev )?pub (?:record |data |module )?([^\s:({]+)", re.MULTILINE)


def files(part, ending):
    """The files of this part of all crates, as paths from the top."""
    for folder, folders, names in os.walk(os.path.join(TOP, "crates")):
        folders[:] = sorted(name for name in folders if name != "out")
        inside = os.path.relpath(folder, TOP).split(os.sep)
        if len(inside) > 2 and inside[2] == part:
            yield from (os.path.join(*inside, name) for name in sorted(names) if name.endswith(ending))


def crate_of(path):
    return path.split(os.sep)[1]


def closed(text, start, pairs):
    """Where the bracket that opens at `start` closes; arrows aren't brackets."""
    depth = 0
    for at in range(start, len(text)):
        if text[at] == pairs[0]:
            depth += 1
        elif text[at] == pairs[1] and text[at - 1] not in "-=":
            depth -= 1
            if not depth:
                return at
    return len(text)


def parameters(text, start):
    """The parameters of the function whose name ends at `start`, without self."""
    if text[start] == "<":
        start = closed(text, start, "<>") + 1
    if text[start : start + 1] != "(":
        return []
    inner, depth, parts = text[start + 1 : closed(text, start, "()")], 0, [""]
    for at, letter in enumerate(inner):
        depth += letter in "(<[{"
        depth -= letter in ")]}" or letter == ">" and inner[at - 1] not in "-="
        if letter == "," and not depth:
            parts.append("")
        else:
            parts[-1] += letter
    return [it.strip() for it in parts if it.strip() and not re.fullmatch(r"(&(\'\w+ )?)?(mut )?self", it.strip())]


def long_lists():
    for path in files("src", ".rt"):
        text = re.sub(r"//.*", "", text_of(path))
        for found in FUNCTION.finditer(text):
            count = len(parameters(text, found.end()))
            if count > MOST_PARAMETERS:
                yield f"{path}: {found[1]} has {count}"


def positions():
    for path in files("specs", ".antt"):
        for number, line in enumerate(text_of(path).splitlines(), 1):
            for _ in re.finditer(r"(?<=[\w)'])\.\d+\b", line.split("--")[0]):
                yield f"{path}:{number}: {line.strip()}"


def wide_lines():
    for part, ending in (("src", ".rt"), ("specs", ".antt")):
        for path in files(part, ending):
            for number, line in enumerate(text_of(path).splitlines(), 1):
                if len(line) > MOST_COLUMNS and not IMPORT.match(line):
                    yield f"{path}:{number}"


def long_files():
    for part, ending in (("src", ".rt"), ("specs", ".antt"), ("proofs", ".antt")):
        for path in files(part, ending):
            count = text_of(path).count("\n")
            if count > MOST_LINES:
                yield f"{path}: {count}"


def shared_names():
    crates = defaultdict(set)
    for path in files("specs", ".antt"):
        for name in DECLARED.findall(text_of(path)):
            if name not in ("mod", "use"):
                crates[name].add(crate_of(path))
    for name in sorted(crates):
        if len(crates[name]) > 1:
            yield f"{name}: {' '.join(sorted(crates[name]))}"


COUNTS = {
    f"functions with more than {MOST_PARAMETERS} parameters": long_lists,
    "positions in specs (`x.1` in place of a field)": positions,
    f"lines above {MOST_COLUMNS} columns in src and specs, imports aside": wide_lines,
    f"files above {MOST_LINES} lines": long_files,
    "names in specs that stand in two crates": shared_names,
}


def said():
    """The numbers that the page says."""
    return {what: int(number) for what, number in ROW.findall(text_of(PAGE))}


def write(counts):
    text = text_of(PAGE)
    for what, number in counts.items():
        text = re.sub(rf"\| {re.escape(what)} \| \d+ \|", f"| {what} | {number} |", text)
    with open(os.path.join(TOP, PAGE), "w", encoding="utf-8") as file:
        file.write(text)


def run(words=()):
    """Counts, and compares with the page. The answer is how many counts passed and how many failed."""
    found = {what: list(places()) for what, places in COUNTS.items()}
    if "--write" in words:
        write({what: len(places) for what, places in found.items()})
    limits, failed = said(), 0
    for what, places in found.items():
        if "--list" in words:
            print("\n".join(places))
        print(f"{len(places):6}  {what}")
        if what not in limits or len(places) > limits[what]:
            failed += 1
            print(f"FAILED  {PAGE} says {limits.get(what, 'nothing of it')}: {what}")
    return len(found) - failed, failed


def main(words):
    if any(word not in ("--list", "--write") for word in words):
        print(__doc__)
        return 2
    passed, failed = run(words)
    print(f"{passed} passed, {failed} failed")
    return 1 if failed else 0


if __name__ == "__main__":
    sys.exit(main(sys.argv[1:]))
