#!/usr/bin/env python3
"""Measures the program, and mawk, jq and mlr on the same records, in one table.

    bench/measure.py [PROGRAM] [--rounds N] [--smaller N] [--no-instructions]

Three works: 1 is added to 1,000,000 lines `0`, a line for each; 100,000 generated records of plan G
(crates/exec_run/data/plan.json), with hops, a let, a bulk and a when_all each; and 1,000 rows of 4,096 numbers go
through two bulks and a sum. The program runs with no worker, and with as many as it takes where none are said; a plan
that puts nothing on the pool starts none either way. mawk and jq print the same lines by a text of their own; a tool
that isn't installed is told, and has no row.

Each runs five times (or --rounds), all in turn, from a file to a file. `seconds` is the least by the clock, `processor`
the least of the processor, of all threads, user and system. Instructions a record are counted by `valgrind
--tool=callgrind` on two sizes: their difference, so that the start counts for nothing. They repeat to the last digit or
nearly, whatever else the machine does; times don't. With workers they aren't counted, since callgrind runs one thread
at a time. What is printed is compared with what is due, so nothing wrong is measured. With --smaller N there are so
many times fewer records.
"""
import argparse
import json
import os
import re
import resource
import shutil
import subprocess
import sys
import tempfile
import time

TOP = os.path.dirname(os.path.dirname(os.path.abspath(__file__)))
PROGRAM = os.path.join(TOP, "crates", "exec_run", "out", "exec_run")
PLAN_G = os.path.join(TOP, "crates", "exec_run", "data", "plan.json")
ROW = range(4096)

INPUT = {"do": "input"}
NUMBERED = "foreach inputs as $it (0; . + 1; \"\\(.) value \\($it{})\")"
MILLER = ["mlr", "--inidx", "--ifs", "\t", "--onidx", "put", "-q"]
ADDED = 't = 0; for (k, v in splitnv(gsub($1, "[\\[\\]]", ""), ",")) {t += 2 * (v + 1)}'
SPLIT = "{gsub(/[][]/, \"\"); n = split($0, a, \",\"); t = 0; for (i = 1; i <= n; i++) t += 2 * (a[i] + 1)"


def plan_of(kind, root):
    return {"version": 1, "input": kind, "root": root}


def node_of(do, child, job, **operands):
    return {"do": do, "child": child, "job": {"job": job, **operands}}


def generated(count):
    return [(7919 * number + 17) % 100003 for number in range(1, count + 1)]


def summary(values, total):
    return f"records {values} values {values} errors 0 stopped 0 out-of-memory 0 bad 0 sum {total}\n"


def lines_of(count, value):
    return "".join(f"{number} value {value}\n" for number in range(1, count + 1))


class AddOne:
    name, timed, counted = "add 1", 1_000_000, (1000, 3000)
    plan = plan_of("int", node_of("then", INPUT, "add", n=1))
    words = staticmethod(lambda plan, count: ["run", plan])
    records = staticmethod(lambda count: "0\n" * count)
    due = staticmethod(lambda count: lines_of(count, 1))
    others = {
        "mawk": ["mawk", '{print NR " value " $1 + 1}'],
        "jq": ["jq", "-nr", NUMBERED.format(" + 1")],
        "mlr": [*MILLER, 'print NR . " value " . ($1 + 1)'],
    }


class PlanG:
    name, timed, counted = "plan G", 100_000, (1000, 3000)
    with open(PLAN_G, encoding="utf-8") as file:
        plan = json.load(file)
    words = staticmethod(lambda plan, count: ["gen", plan, str(count)])
    records = staticmethod(lambda count: "")
    due = staticmethod(lambda count: summary(count, sum(2 * number + 9 for number in generated(count))))
    others = {}


class Rows:
    name, timed, counted = "rows of 4,096", 1000, (10, 30)
    plan = plan_of("row", node_of("then", node_of("bulk", node_of("bulk", INPUT, "add", n=1), "mul", n=2), "sum"))
    words = staticmethod(lambda plan, count: ["run", plan])
    records = staticmethod(lambda count: ("[" + ",".join(map(str, ROW)) + "]\n") * count)
    due = staticmethod(lambda count: lines_of(count, sum(2 * (number + 1) for number in ROW)))
    others = {
        "mawk": ["mawk", SPLIT + '; print NR " value " t}'],
        "jq": ["jq", "-nr", NUMBERED.format(" | map((. + 1) * 2) | add")],
        "mlr": [*MILLER, ADDED + ' print NR . " value " . t'],
    }


class Room:
    """A folder with the plan and the records of a work, and what is due."""

    def __init__(self, work, count):
        self.folder = tempfile.TemporaryDirectory()
        self.plan, self.records, self.out = map(self.path, ("plan", "records", "out"))
        with open(self.plan, "w", encoding="utf-8") as file:
            json.dump(work.plan, file)
        with open(self.records, "w", encoding="utf-8") as file:
            file.write(work.records(count))
        self.work, self.count, self.due = work, count, work.due(count)

    def __enter__(self):
        return self

    def __exit__(self, *_):
        self.folder.cleanup()

    def path(self, name):
        return os.path.join(self.folder.name, name)

    def command(self, program, *options):
        return [program, *self.work.words(self.plan, self.count), *options]

    def run(self, command):
        """Runs the command, and gives the seconds that it took by the clock and of the processor."""
        before, began = resource.getrusage(resource.RUSAGE_CHILDREN), time.monotonic()
        with open(self.records, "rb") as given, open(self.out, "wb") as taken:
            ran = subprocess.run(command, stdin=given, stdout=taken, stderr=subprocess.PIPE, check=False)
        took, after = time.monotonic() - began, resource.getrusage(resource.RUSAGE_CHILDREN)
        if ran.returncode:
            sys.exit(f"{' '.join(command)} ended with {ran.returncode}: {ran.stderr.decode(errors='replace')[-400:]}")
        with open(self.out, encoding="utf-8") as file:
            if file.read() != self.due:
                sys.exit(f"{' '.join(command)} printed something else than is due")
        return took, after.ru_utime + after.ru_stime - before.ru_utime - before.ru_stime


def best_times(room, commands, rounds):
    """The least times of each command: all run in turn, so that they meet the same machine."""
    times = {name: [] for name in commands}
    for _ in range(rounds):
        for name, command in commands.items():
            times[name].append(room.run(command))
    return {name: [min(column) for column in zip(*taken)] for name, taken in times.items()}


def instructions(program, work, count):
    with Room(work, count) as room:
        counts, command = room.path("counts"), room.command(program, "--workers", "0")
        room.run(["valgrind", "--tool=callgrind", f"--callgrind-out-file={counts}", *command])
        with open(counts, encoding="utf-8") as file:
            return int(re.search(r"^(?:summary|totals): (\d+)", file.read(), re.M)[1])


def instructions_a_record(program, work):
    few, many = work.counted
    return (instructions(program, work, many) - instructions(program, work, few)) / (many - few)


def measure(program, work, given):
    with Room(work, max(1, work.timed // given.smaller)) as room:
        alone = "exec_run --workers 0"
        commands = {"exec_run": room.command(program), alone: room.command(program, "--workers", "0")}
        commands |= {name: command for name, command in work.others.items() if shutil.which(name)}
        times = best_times(room, commands, given.rounds)
    for name, (seconds, processor) in times.items():
        counted = ""
        if name == alone and given.instructions:
            counted = f"{instructions_a_record(program, work):,.0f}"
        row = f"{work.name:14} {name:21} {room.count:9,} {seconds:8.3f} {processor:10.3f} {counted:>22}"
        print(row.rstrip(), flush=True)


def main():
    parser = argparse.ArgumentParser(description="Measures the program, with mawk, jq and mlr beside it.")
    parser.add_argument("program", nargs="?", default=PROGRAM, metavar="PROGRAM")
    parser.add_argument("--rounds", type=int, default=5, metavar="N")
    parser.add_argument("--smaller", type=int, default=1, metavar="N")
    parser.add_argument("--no-instructions", dest="instructions", action="store_false")
    given = parser.parse_args()
    program = os.path.abspath(given.program)
    if not os.access(program, os.X_OK):
        sys.exit(f"no program at {program}: `make run` proves and builds it")
    others = [(tool, "its rows") for tool in ("mawk", "jq", "mlr")]
    for tool, what in (*others, ("valgrind", "the instructions")):
        if not shutil.which(tool) and (tool != "valgrind" or given.instructions):
            print(f"{tool} isn't installed: {what} are left out")
            given.instructions = given.instructions and tool != "valgrind"
    print(f"{'work':14} {'program':21} {'records':>9} {'seconds':>8} {'processor':>10} {'instructions a record':>22}")
    for work in (AddOne, PlanG, Rows):
        measure(program, work, given)


if __name__ == "__main__":
    main()
