#!/usr/bin/env python3
"""Checks the documents against the repository.

    tests/check_docs.py [--write]

crates/README.md and docs/crates.svg show the rooms and crates of crates.txt, as docs/make_rooms.py writes them; --write
writes them so. Each call that the drawings of docs/ARCHITECTURE.md name is a function of a file beside it. Each name in docs/PROVED.md stands in some crate, and each file that README.md or a page of docs/ names
is there. Code in docs/LIBRARY.md stands so in the file that was named last before it. No crate that uses atomic_table calls
one of its words that no hand lists (UNLISTED). The last line is `N passed, M failed`; the status is 1 where one failed.
"""
import os
import re
import sys

TOP = os.path.dirname(os.path.dirname(os.path.abspath(__file__)))
sys.path.insert(0, os.path.join(TOP, "docs"))
import make_rooms

DRAWINGS = "docs/ARCHITECTURE.md"
PROVED = "docs/PROVED.md"
QUOTING = "docs/LIBRARY.md"
# a path as the documents write it, from the top of the repository or from crates/
PATH = re.compile(r"(?<![\w/.<])(?:[\w.-]+/)+[\w.-]+\.(?:rt|antt|md|json|py|sh|edit|txt)\b")

# what atomic_table offers beside the steps of a seat: looks without a seat, seats that a look makes, and sleep. A table's
# hands list their steps, and these would be none; no contract can refuse them where the words are in reach
UNLISTED = re.compile(r"(?:\.|::)(peek|load_new_seat|swap_new_seat|park|wake_one|wake_all)\b")

# a line of a drawing: calls, then files below crates/, of which a later one may be named without its folder
DRAWN = re.compile(r" *(\S.*?)  +((?:\w+/src/(?:\w+/)*\w+\.rt)(?:, (?:\w+/src/(?:\w+/)*)?\w+\.rt)*)(?:  .*)?")
CALL = re.compile(r"(?:\w+::)?([a-z]\w*)(?: \.\.)?")


def text_of(name):
    with open(os.path.join(TOP, name), encoding="utf-8") as file:
        return file.read()


def documents():
    pages = sorted(os.listdir(os.path.join(TOP, "docs")))
    return ["README.md", *(f"docs/{name}" for name in pages if name.endswith(".md"))]


def faults_of_paths():
    """The files that a document names and that aren't there."""
    said = []
    for document in documents():
        for path in sorted(set(PATH.findall(text_of(document)))):
            if not any(os.path.exists(os.path.join(TOP, above, path)) for above in ("", "crates", "docs")):
                said.append(f"{document}: there is no {path}")
    return said


def drawn():
    """Each call of the drawings, with the files that its line names."""
    for line in text_of(DRAWINGS).splitlines():
        row = DRAWN.fullmatch(line)
        if row and "|" not in line:
            files, folder = [], ""
            for name in row[2].split(", "):
                folder = os.path.dirname(name) or folder
                files.append(os.path.join(folder, os.path.basename(name)))
            for call in filter(None, map(CALL.fullmatch, re.split(r", | -> ", row[1]))):
                yield call[1], files


def faults_of_drawings():
    """The calls that no file beside them has."""
    said, calls = [], list(drawn())
    for call, files in calls:
        there = [os.path.join("crates", name) for name in files if os.path.isfile(os.path.join(TOP, "crates", name))]
        if not any(re.search(rf"\bfn {call}\b", text_of(name)) for name in there):
            said.append(f"{DRAWINGS}: no `fn {call}` in {', '.join(files)}")
    return said if calls else [f"{DRAWINGS} draws no call"]


def faults_of_names():
    """The names in docs/PROVED.md that no source and no definition has: a clause that was renamed, say."""
    known = set()
    for folder, folders, names in os.walk(os.path.join(TOP, "crates")):
        folders[:] = [name for name in folders if name != "out"]
        for name in names:
            if name.endswith((".rt", ".antt")):
                with open(os.path.join(folder, name), encoding="utf-8") as file:
                    known.update(re.findall(r"\w+", file.read()))
    named = sorted(set(re.findall(r"`(?:\w+::)?(\w+)`", text_of(PROVED))))
    return [f"{PROVED}: nothing is called {name}" for name in named if name not in known]


def quotes():
    """The pieces of code that docs/LIBRARY.md quotes, each with the file that was named last before it. A line `..` ends
    a piece and begins another."""
    file, piece = "", None
    for line in text_of(QUOTING).splitlines():
        if line.startswith("```") or (piece is not None and line == ".."):
            if piece:
                yield file, "\n".join(piece)
            piece = [] if line in ("..", "```rust", "```antt") else None
        elif piece is not None:
            piece.append(line)
        else:
            file = (PATH.findall(line) or [file])[-1]


def faults_of_quotes():
    """The pieces that don't stand so in their files."""
    said, pieces = [], list(quotes())
    for file, piece in pieces:
        if not (os.path.isfile(os.path.join(TOP, file)) and f"\n{piece}\n" in f"\n{text_of(file)}"):
            said.append(f"{QUOTING}: {file or 'no file'} doesn't have `{piece.splitlines()[0].strip()} ..` so")
    return said if pieces else [f"{QUOTING} quotes no code"]


def table_sources():
    """The sources of the crates that use atomic_table."""
    for crate in sorted(os.listdir(os.path.join(TOP, "crates"))):
        folder = os.path.join("crates", crate, "src")
        if os.path.isdir(os.path.join(TOP, folder)):
            files = sorted(os.listdir(os.path.join(TOP, folder)))
            names = [f"{folder}/{name}" for name in files if name.endswith(".rt")]
            if any(re.search(r"^use atomic_table::", text_of(name), re.M) for name in names):
                yield from names


def faults_of_steps():
    """The calls of a table's words that no hand lists."""
    said, names = [], list(table_sources())
    for name in names:
        for number, line in enumerate(text_of(name).splitlines(), 1):
            for call in UNLISTED.findall(line.split("//")[0]):
                said.append(f"{name}:{number}: `{call}` is a step that no hand lists")
    return said if names else ["no crate uses atomic_table"]


def run():
    """Checks the documents. The answer is how many checks passed and how many failed."""
    found = [make_rooms.faults(), faults_of_drawings(), faults_of_names(), faults_of_paths(), faults_of_quotes(), faults_of_steps()]
    for fault in sum(found, []):
        print(f"FAILED  {fault}")
    failed = sum(1 for faults in found if faults)
    return len(found) - failed, failed


def main(words):
    if words == ["--write"]:
        make_rooms.main([])
    elif words:
        print(__doc__)
        return 2
    passed, failed = run()
    print(f"{passed} passed, {failed} failed")
    return 1 if failed else 0


if __name__ == "__main__":
    sys.exit(main(sys.argv[1:]))
