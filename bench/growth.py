#!/usr/bin/env python3
"""Measures how the program's time and memory grow: with the records, with the plan's nodes, and with the workers.

    bench/growth.py [PROGRAM] [--rounds N] [--smaller N]

With the records: 1 is added to each of 1,000 to 1,000,000, and so many generated records of plan G
(crates/exec_run/data/plan.json) are run, with no worker and with 4; processor time a record is the same where it is
constant. With the nodes: a
`when_all` of 51 children, each a chain of so many `then` that negate its number, at 52 to 1,021 nodes; processor time a
record and node is the same where it is linear. With the workers: a row of 4,096 numbers goes through ten bulks, and 64
children of a `when_all` each make such a row on the pool, put it through a bulk and sum it, by 1, 2 and 4 workers.

Each runs five times (or --rounds), all of one table in turn, and the median is told: `seconds` by the clock, `processor`
of all threads, user and system, and `memory`, the greatest resident set in MB, as GNU time tells it. Without GNU time
that column is left out. The start of the program is in each number: it is what the smallest runs show. What is printed
is compared with what is due, so nothing wrong is measured. With --smaller N there are so many times fewer records.
"""
import argparse
import os
import shutil
import statistics
import sys

from measure import INPUT, PROGRAM, AddOne, PlanG, Room, node_of, plan_of, summary

RECORDS = (1_000, 10_000, 100_000, 1_000_000)
CHILDREN = 51
DEPTHS = (1, 5, 10, 20)
OF_NODES = 2_000
WORKERS = (1, 2, 4)
ROW = 4096


def chain(node, do, job, times, **operands):
    for _ in range(times):
        node = node_of(do, node, job, **operands)
    return node


class Fan:
    """A `when_all` of chains of so many nodes each."""

    def __init__(self, depth):
        children = [chain(INPUT, "then", "neg", depth - 1)] * CHILDREN
        self.nodes, self.depth = CHILDREN * depth + 1, depth
        # more than 256 nodes stand in plans of version 2 alone
        self.plan = plan_of("int", {"do": "when_all", "children": children}) | {"version": 2}

    def words(self, plan, _count):
        return ["run", plan, "--summary"]

    def records(self, count):
        return "1\n" * count

    def due(self, count):
        return summary(count, count * CHILDREN * (1 if self.depth % 2 else -1))


class TenBulks:
    name, count = "ten bulks over a row of 4,096", 400
    plan = plan_of("row", node_of("then", chain(INPUT, "bulk", "add", 10, n=1), "sum"))

    def words(self, plan, _count):
        return ["run", plan, "--summary"]

    def records(self, count):
        return ("[" + ",".join(map(str, range(ROW))) + "]\n") * count

    def due(self, count):
        return summary(count, count * sum(number + 10 for number in range(ROW)))


class Children:
    name, count = "64 children with a bulk each", 40
    made = node_of("then", node_of("bulk", node_of("then", INPUT, "iota"), "add", n=1), "sum")
    children = [{"do": "starts_on", "on": "pool", "child": made}] * 64
    plan = plan_of("int", {"do": "when_all", "children": children}) | {"version": 2}

    def words(self, plan, _count):
        return ["run", plan, "--summary"]

    def records(self, count):
        return f"{ROW}\n" * count

    def due(self, count):
        return summary(count, count * 64 * sum(number + 1 for number in range(ROW)))


class Runs:
    """The rows of a table, which are run in turn so that all of them meet the same machine."""

    def __init__(self, program, rounds):
        self.program, self.rounds, self.rows = program, rounds, []

    def add(self, work, count, *options):
        room = Room(work, count)
        self.rows.append((room, room.command(self.program, *options), room.path("memory"), []))

    def run(self):
        timer = shutil.which("time")
        for _ in range(self.rounds):
            for room, command, memory, taken in self.rows:
                told = [timer, "-q", "-f", "%M", "-o", memory, "--"] if timer else []
                seconds, processor = room.run(told + command)
                taken.append((seconds, processor, self.megabytes(memory)))
        medians = [tuple(map(statistics.median, zip(*taken))) for *_, taken in self.rows]
        for room, *_ in self.rows:
            room.__exit__()
        return medians

    @staticmethod
    def megabytes(memory):
        if not os.path.exists(memory):
            return 0.0
        with open(memory, encoding="utf-8") as file:
            return int(file.read().split()[-1]) / 1024


def told(head, medians, left, each):
    """Prints a table: what stands on the left of each row, its times, and the processor's microseconds by its count."""
    print(f"\n{head:34} {'seconds':>8} {'processor':>10} {'memory':>7} {each:>22}")
    for name, (seconds, processor, memory), count in zip(left, medians, counts_of(left)):
        by = f"{processor * 1e6 / count:22.3f}" if count else ""
        print(f"{name[0]:34} {seconds:8.3f} {processor:10.3f} {memory:7.1f} {by}".rstrip(), flush=True)


def counts_of(left):
    return [count for _, count in left]


def by_records(given, work, label, *options):
    runs, counts = Runs(given.program, given.rounds), [max(1, count // given.smaller) for count in RECORDS]
    for count in counts:
        runs.add(work, count, *options)
    told(label, runs.run(), [(f"{count:,} records", count) for count in counts], "microseconds a record")


def by_nodes(given):
    runs, count = Runs(given.program, given.rounds), max(1, OF_NODES // given.smaller)
    fans = [Fan(depth) for depth in DEPTHS]
    for fan in fans:
        runs.add(fan, count)
    left = [(f"{fan.nodes:,} nodes, {count:,} records", fan.nodes * count) for fan in fans]
    told("a fan of 51 children", runs.run(), left, "a record and node")


def by_workers(given, work):
    runs, count = Runs(given.program, given.rounds), max(1, work.count // given.smaller)
    for workers in WORKERS:
        runs.add(work, count, "--workers", str(workers))
    medians = runs.run()
    told(work.name, medians, [(f"{workers} workers", 0) for workers in WORKERS], "")
    print(f"with {WORKERS[-1]} workers {medians[0][0] / medians[-1][0]:.2f} times as fast as with 1")


def main():
    parser = argparse.ArgumentParser(description="Measures how the program's time and memory grow.")
    parser.add_argument("program", nargs="?", default=PROGRAM, metavar="PROGRAM")
    parser.add_argument("--rounds", type=int, default=5, metavar="N")
    parser.add_argument("--smaller", type=int, default=1, metavar="N")
    given = parser.parse_args()
    given.program = os.path.abspath(given.program)
    if not os.access(given.program, os.X_OK):
        sys.exit(f"no program at {given.program}: `make run` proves and builds it")
    if not shutil.which("time"):
        print("GNU time isn't installed: memory is told as 0")
    by_records(given, AddOne, "add 1")
    by_records(given, PlanG, "plan G, no worker", "--workers", "0")
    by_records(given, PlanG, "plan G, 4 workers", "--workers", "4")
    by_nodes(given)
    for work in (TenBulks(), Children()):
        by_workers(given, work)


if __name__ == "__main__":
    main()
