#!/usr/bin/env python3
"""Measures the program beside a twin without proofs and a oneTBB arena, and says of each goal whether it is met.

    bench/beside.py [PROGRAM] [--twin PROGRAM] [--tbb PROGRAM] [--rounds N] [--smaller N] [--work NAME]..

A twin, and a program over oneTBB, take the words of exec_run (`gen PLAN N --workers W --window V`) and print the same
lines; none is part of this repository, and where one isn't given its rows are left out. Each row is a work, with all
that is compared run in turn, five times (or --rounds) each: the least and the median of seconds by the clock, and the
least of the processor, of all threads, user and system. Below stands each goal as a ratio: of medians by the clock, but
of adding 1, which is of the processor. With --smaller N there are so many times fewer records.
"""
import argparse
import json
import os
import shutil
import statistics
import sys
import tempfile

import hops
import measure
from measure import INPUT, PROGRAM, node_of, plan_of

WINDOW = ["--window", "64"]


def chain(count):
    """So many `neg`, one after the other."""
    node = INPUT
    for _ in range(count):
        node = node_of("then", node, "neg")
    return node


def on(context, child):
    return {"do": "starts_on", "on": context, "child": child}


def all_of(child, count):
    return {"do": "when_all", "children": [child] * count}


def counted():
    """The sum of the numbers below 4,096, from a row that is made."""
    made = node_of("then", {"do": "just", "values": [4096]}, "iota")
    return node_of("then", made, "sum")


def lets(count):
    """So many lets, each of the one before, whose body adds up a row."""
    node = counted()
    for _ in range(count):
        node = {"do": "let_value", "child": node, "pick": {"job": "give", "values": [0]}, "bodies": [counted()]}
    return node


def bulk():
    made = node_of("then", {"do": "just", "values": [4096]}, "iota")
    return node_of("then", node_of("bulk", made, "mul", n=3), "sum")


PLANS = {
    "plan G": measure.PlanG.plan,
    "fan of 51": plan_of("int", all_of(chain(4), 51)),
    "42 that hop": plan_of("int", all_of(on("pool", chain(4)), 42)),
    "rows in 8 parts": plan_of("int", bulk()),
    "4 rows": plan_of("int", node_of("then", all_of(on("pool", counted()), 4), "sum")),
    "10 lets": plan_of("int", on("pool", lets(9))),
    "one hop": hops.PLAN,
}
# The goals of a work: a name, what is compared with what (program and workers), and the greatest ratio of the two.
WORKS = [
    ("plan G", 100_000, WINDOW, [
        ("without workers, to the twin", ("this", 0), ("twin", 0), 1.0),
        ("4 workers, to oneTBB", ("this", 4), ("tbb", 4), 0.9),
        ("4 workers, to none", ("this", 4), ("this", 0), 1.1),
    ]),
    ("42 that hop", 10_000, WINDOW, [("4 workers, to oneTBB", ("this", 4), ("tbb", 4), 1.2)]),
    ("fan of 51", 10_000, WINDOW, [("without workers, to the twin", ("this", 0), ("twin", 0), 1.1)]),
    ("4 rows", 4_000, WINDOW, [
        ("4 workers, to one", ("this", 4), ("this", 1), 0.4),
        ("4 workers, to oneTBB", ("this", 4), ("tbb", 4), 1.0),
    ]),
    ("10 lets", 1_500, WINDOW, [
        ("4 workers, to one", ("this", 4), ("this", 1), 0.4),
        ("4 workers, to oneTBB", ("this", 4), ("tbb", 4), 1.0),
    ]),
    ("one hop", 100_000, ["--window", "1"], [("a worker, to oneTBB", ("this", 1), ("tbb", 1), 0.7)]),
    ("one hop on one core", 100_000, ["--window", "1"], [("a worker, to the twin", ("this", 1), ("twin", 1), 1.3)]),
    ("rows in 8 parts", 5_000, WINDOW, [("4 workers, to oneTBB", ("this", 4), ("tbb", 4), 1.0)]),
]


def row(work, name, workers, times):
    seconds, processor = ([it[k] for it in times] for k in (0, 1))
    least, middle = min(seconds), statistics.median(seconds)
    print(f"{work:20} {name:5} {workers!s:>8} {least:8.3f} {middle:8.3f} {min(processor):10.3f}", flush=True)


def say(said, work, goal, ratio, most):
    said.append(f"{work:20} {goal:31} {ratio:6.2f} {most:6.2f}  {'met' if ratio <= most else 'missed'}")


def run_work(work, records, words, goals, programs, given, folder):
    """Runs all that is compared, in turn, prints the rows, and answers what became of the goals."""
    base = work.removesuffix(" on one core")
    before = ["taskset", "-c", "0"] if base != work else []
    plan = os.path.join(folder, base.replace(" ", "_") + ".json")
    with open(plan, "w", encoding="utf-8") as file:
        json.dump(PLANS[base], file)
    goals = [it for it in goals if it[1][0] in programs and it[2][0] in programs]
    runs = dict.fromkeys(run for _, one, other, _ in goals for run in (one, other))
    times, printed = {run: [] for run in runs}, set()
    for _ in range(given.rounds):
        for name, workers in runs:
            command = [*before, *programs[name], "gen", plan, str(max(1, records // given.smaller))]
            out, *taken = hops.ran([*command, "--workers", str(workers), *words])
            printed.add(out)
            times[name, workers].append(taken)
    if len(printed) > 1:
        sys.exit(f"{work}: the programs print different lines")
    for (name, workers), taken in times.items():
        row(work, name, workers, taken)
    middle = {run: statistics.median(it[0] for it in taken) for run, taken in times.items()}
    said = []
    for goal, one, other, most in goals:
        say(said, work, goal, middle[one] / middle[other], most)
    return said


def add_one(program, given):
    """Adding 1 to 1,000,000 lines, beside mawk and jq: what is compared is the processor's time."""
    work, said = measure.AddOne, []
    with measure.Room(work, max(1, work.timed // given.smaller)) as room:
        commands = {("this", many): room.command(program, "--workers", str(many)) for many in (0, 4)}
        commands |= {(tool, ""): work.others[tool] for tool in ("mawk", "jq") if shutil.which(tool)}
        times = {run: [] for run in commands}
        for _ in range(given.rounds):
            for run, command in commands.items():
                times[run].append(room.run(command))
    for (name, workers), taken in times.items():
        row(work.name, name, workers, taken)
    spent = {run: statistics.median(it[1] for it in taken) for run, taken in times.items()}
    for tool, most in (("mawk", 1.2), ("jq", 0.5)):
        for many in (0, 4):
            if (tool, "") in spent:
                say(said, work.name, f"{many} workers, to {tool}", spent["this", many] / spent[tool, ""], most)
    return said


def main():
    parser = argparse.ArgumentParser(description="Measures the program beside others, goal by goal.")
    parser.add_argument("program", nargs="?", default=PROGRAM, metavar="PROGRAM")
    parser.add_argument("--twin", metavar="PROGRAM")
    parser.add_argument("--tbb", metavar="PROGRAM")
    parser.add_argument("--rounds", type=int, default=5, metavar="N")
    parser.add_argument("--smaller", type=int, default=1, metavar="N")
    parser.add_argument("--work", action="append", default=[], metavar="NAME")
    given = parser.parse_args()
    program = os.path.abspath(given.program)
    if not os.access(program, os.X_OK):
        sys.exit(f"no program at {program}: `make run` proves and builds it")
    programs = {"this": [program]}
    programs |= {name: [os.path.abspath(it)] for name, it in (("twin", given.twin), ("tbb", given.tbb)) if it}
    print(f"{'work':20} {'what':5} {'workers':>8} {'least':>8} {'median':>8} {'processor':>10}")
    said = []
    with tempfile.TemporaryDirectory() as folder:
        if not given.work or measure.AddOne.name in given.work:
            said += add_one(program, given)
        for work, records, words, goals in WORKS:
            if not given.work or work in given.work:
                said += run_work(work, records, words, goals, programs, given, folder)
    print(f"\n{'work':20} {'goal':31} {'ratio':>6} {'most':>6}")
    print("\n".join(said))


if __name__ == "__main__":
    main()
