#!/usr/bin/env python3
"""Measures parts of a stream: how much sooner they end when several run at once, and what joining takes beside them.

    bench/parts.py [PROGRAM] [--records N] [--parts N] [--at-once N] [--rounds N]

1 is added to each of 20,000,000 numbers (--records), in 20 parts (--parts), cut and run by the commands of
docs/SCALE.md: one after another and four at once (--at-once) by xargs, and by GNU parallel, over these parts and over a
stream that it cuts, where it is installed. The `exec_join` that was built beside PROGRAM joins what they left. Lines
are measured, and then summaries.

Each runs three times (or --rounds), all in turn, and the median is told, as a table in Markdown: `seconds` by the
clock, `processor` of all processes, user and system, and `memory`, the greatest resident set of one process in MB, as
GNU time tells it where it is installed. Runs are compared with the parts one after another by the clock, cutting and
joining by the processor. What is joined is compared with what is due, so nothing wrong is measured. It wants as many
free cores as parts run at once, and 3 GB below TMPDIR.
"""
import argparse
import filecmp
import json
import os
import re
import resource
import shutil
import statistics
import subprocess
import sys
import tempfile
import time

from measure import INPUT, PROGRAM, TOP, node_of, plan_of, summary

NAMES = ("exec_run", "exec_join")
TIMER = shutil.which("time")
ALONE, JOINING = "one after another", "exec_join"
CUTTING, STREAM = "cutting by split", "parallel, from a stream"
TIMED = ("seconds", "processor", "memory")


def commands_of_page():
    """The commands that cut records into parts, with the script that runs one."""
    with open(os.path.join(TOP, "docs", "SCALE.md"), encoding="utf-8") as page:
        return re.search(r"```sh\n(mkdir parts\n.*?cat > part\.sh .*?)```", page.read(), re.S)[1]


def beside(program, name):
    folder, ending = os.path.dirname(program), os.path.basename(program).removeprefix(NAMES[0])
    return os.path.join(os.path.dirname(os.path.dirname(folder)), name, os.path.basename(folder), name + ending)


class Room:
    """A folder with records, and what is due; the programs are on the path of the commands that run there."""

    def __init__(self, program, records):
        self.folder = tempfile.TemporaryDirectory()
        self.bin = os.path.join(self.folder.name, "bin")
        os.mkdir(self.bin)
        for name in NAMES:
            os.symlink(beside(program, name), os.path.join(self.bin, name))
        self.write("plan.json", json.dumps(plan_of("int", node_of("then", INPUT, "add", n=1))))
        self.write("summary.due", summary(records, records * (records + 3) // 2))
        self.run(f"seq {records} > records; seq 2 {records + 1} | awk '{{ print NR \" value \" $0 }}' > lines.due")

    def __enter__(self):
        return self

    def __exit__(self, *_):
        self.folder.cleanup()

    def path(self, name):
        return os.path.join(self.folder.name, name)

    def write(self, name, text):
        with open(self.path(name), "w", encoding="utf-8") as file:
            file.write(text)

    def run(self, commands):
        """Runs the commands. The answer is their seconds, those of the processor, and the memory."""
        environment = {**os.environ, "PATH": f"{self.bin}:{os.environ['PATH']}"}
        told = [TIMER, "-q", "-f", "%M", "-o", self.path("memory"), "--"] if TIMER else []
        before, began = resource.getrusage(resource.RUSAGE_CHILDREN), time.monotonic()
        ran = subprocess.run([*told, "bash", "-c", commands], cwd=self.folder.name, env=environment, check=False)
        took, after = time.monotonic() - began, resource.getrusage(resource.RUSAGE_CHILDREN)
        if ran.returncode:
            sys.exit(f"{commands}: ended with {ran.returncode}")
        return took, after.ru_utime + after.ru_stime - before.ru_utime - before.ru_stime, self.megabytes()

    def megabytes(self):
        if not TIMER:
            return 0.0
        with open(self.path("memory"), encoding="utf-8") as file:
            return int(file.read()) / 1024

    def expect_due(self, name):
        if not filecmp.cmp(self.path(name), self.path(f"{name}.due"), shallow=False):
            sys.exit(f"the {name} that were joined aren't those that are due")


def runs_of(what, at_once):
    """The ways in which parts are run: a name, the commands, and the names of the parts for exec_join."""
    word = "--summary" if what == "summary" else ""
    parts = "printf '%s\\n' parts/x???"
    yield ALONE, f"{parts} | xargs -I PART sh part.sh PART {word}", "parts/x???"
    yield f"{at_once} at once", f"{parts} | xargs -P {at_once} -I PART sh part.sh PART {word}", "parts/x???"
    if shutil.which("parallel"):
        yield "parallel, over these parts", f"parallel -j {at_once} sh part.sh {{}} {word} ::: parts/x???", "parts/x???"
        job = f"exec_run run plan.json {word} > parts/{{#}}.out; echo $? > parts/{{#}}.status"
        numbered = "$(ls -v parts/*.status | sed 's/\\.status$//')"
        yield STREAM, f"parallel --pipe --block 1m -j {at_once} '{job}' < records", numbered


def measured(room, given, what):
    """The times of cutting, of each way to run the parts, and of joining those that were cut, by their names."""
    taken, joins = {}, []
    cutting = commands_of_page().replace("1000000", str(-(-given.records // given.parts)))
    for _ in range(given.rounds):
        for name, commands, parts in runs_of(what, given.at_once):
            shutil.rmtree(room.path("parts"), ignore_errors=True)
            if name == STREAM:
                os.mkdir(room.path("parts"))
            else:
                taken.setdefault(CUTTING, []).append(room.run(cutting))
            taken.setdefault(name, []).append(room.run(commands))
            joined = room.run(f"exec_join {what} {parts} > {what}")
            room.expect_due(what)
            if name != STREAM:
                joins.append(joined)
    taken[JOINING] = joins
    return {name: tuple(map(statistics.median, zip(*times))) for name, times in taken.items()}


def compared(name, times, alone):
    """What stands behind a row: how much sooner the parts end, or the share of joining."""
    if name in (CUTTING, JOINING):
        return f"{100 * times[1] / alone[1]:.0f} % of their processor time"
    if name == ALONE:
        return ""
    return f"{alone[0] / times[0]:.2f} times as fast"


def main():
    parser = argparse.ArgumentParser(description="Measures parts of a stream, and joining them.")
    parser.add_argument("program", nargs="?", default=PROGRAM, metavar="PROGRAM")
    parser.add_argument("--records", type=int, default=20_000_000, metavar="N")
    parser.add_argument("--parts", type=int, default=20, metavar="N")
    parser.add_argument("--at-once", type=int, default=4, metavar="N")
    parser.add_argument("--rounds", type=int, default=3, metavar="N")
    given = parser.parse_args()
    program = os.path.abspath(given.program)
    for name in NAMES:
        if not os.access(beside(program, name), os.X_OK):
            sys.exit(f"no program at {beside(program, name)}: `make run` proves and builds it")
    print(f"{given.records:,} records in {given.parts} parts\n")
    print(f"| | {' | '.join(TIMED)} | beside one after another |\n|---|{'---:|' * len(TIMED)}---|")
    with Room(program, given.records) as room:
        for what in ("lines", "summary"):
            found = measured(room, given, what)
            for name, times in found.items():
                row = " | ".join(f"{number:.2f}" for number in times)
                print(f"| {what}: {name} | {row} | {compared(name, times, found[ALONE])} |".replace("|  |", "| |"))


if __name__ == "__main__":
    main()
