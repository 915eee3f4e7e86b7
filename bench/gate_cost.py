#!/usr/bin/env python3
"""What a run of the gate costs, by crate: processor minutes of its checks, with its tests, and of its must-fail edits.

    bench/gate_cost.py watch [FILE]    watches until it is stopped: start it in the background before `make test`
    bench/gate_cost.py table [FILE]    prints the table of docs/GATE.md from what was seen

FILE is gate_cost.json under the temporary folder unless one is named. It sees every check on the machine, every two
seconds: what is shorter is missed, and what other checkouts do meanwhile is counted too. A check of edits is told by
its folder, a copy outside any crates/.
"""
import collections
import json
import os
import re
import sys
import tempfile
import time

TICKS = os.sysconf("SC_CLK_TCK")
EVERY = 2
KINDS = ("library", "tests", "edits")


def kind_of(line, folder):
    if not re.search(r"/crates/\w+$", folder):
        return "edits"
    return "tests" if " --test" in line else "library"


def look(seen):
    """Notes of each check that runs now its crate, its kind and the processor seconds that it has taken."""
    for pid in filter(str.isdigit, os.listdir("/proc")):
        try:
            with open(f"/proc/{pid}/cmdline", "rb") as file:
                words = file.read().split(b"\0")
            if not words[0].endswith(b"/rattle"):
                continue
            with open(f"/proc/{pid}/stat", encoding="utf-8", errors="replace") as file:
                fields = file.read().rsplit(")", 1)[1].split()
            folder = os.readlink(f"/proc/{pid}/cwd")
        except (OSError, IndexError):
            continue
        line = b" ".join(words).decode(errors="replace")
        name = re.search(r"--crate-name (\S+)", line)
        if name:
            # a number of a process may come again, so its start is part of its name
            seconds = (int(fields[11]) + int(fields[12])) / TICKS
            seen[f"{pid}/{fields[19]}"] = [name[1], kind_of(line, folder), seconds]


def watch(path):
    seen = {}
    while True:
        look(seen)
        with open(path + ".new", "w", encoding="utf-8") as file:
            json.dump(seen, file)
        os.replace(path + ".new", path)
        time.sleep(EVERY)


def table(path):
    with open(path, encoding="utf-8") as file:
        checks = json.load(file).values()
    minutes = collections.defaultdict(lambda: dict.fromkeys(KINDS, 0.0))
    for name, kind, seconds in checks:
        for crate in (name, "all"):
            minutes[crate][kind] += seconds / 60
    print("| crate | library | tests | edits | together |\n|---|---|---|---|---|")
    for crate in sorted(minutes, key=lambda it: -sum(minutes[it].values())):
        parts = [minutes[crate][kind] for kind in KINDS]
        print(f"| {crate} | {' | '.join(f'{it:.1f}' for it in [*parts, sum(parts)])} |")


def main(words):
    path = words[1] if len(words) > 1 else os.path.join(tempfile.gettempdir(), "gate_cost.json")
    if words[:1] == ["watch"]:
        watch(path)
    elif words[:1] == ["table"]:
        table(path)
    else:
        print(__doc__)
        return 2
    return 0


if __name__ == "__main__":
    sys.exit(main(sys.argv[1:]))
