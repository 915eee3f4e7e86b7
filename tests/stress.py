#!/usr/bin/env python3
"""Runs the program very often with workers, on all cores and on one, and looks for a run that hangs or a wrong line.

    tests/stress.py [--program PATH] [--runs N] [--minutes M] [--seed S] [--kept FOLDER]

N runs (1,000) are made with each of 1, 2, 4 and 16 workers, on all cores and on one each: of plan G, and of nested
`when_all` with delays, hops and failures, in three of ten runs as a child of an `ahead`, with and without a stop rule,
by windows of 1 to 256, in both orders. Each line must be one that plan_model.py allows the record under the stop
requests that it may have seen; where that is a single line it must be that one. A run that takes longer than a minute
hangs: its plan, records and words are kept in FOLDER (stress-kept), and so are those of one with a wrong line. After M
minutes (30) no further run is begun. It isn't part of `make test`. The last line is `N passed, M failed`; the status is
1 where one failed.
"""
import argparse
import json
import os
import random
import subprocess
import sys
import tempfile
import time
from concurrent.futures import ThreadPoolExecutor

import plan_model
from random_plans import states_of
from refused_memory import G, INPUT
from run_cases import PROGRAM

WORKERS = (1, 2, 4, 16)
WINDOWS = (1, 2, 3, 8, 64, 256)
WITH_AHEAD = 192
RUNS = 1_000
MINUTES = 30
SECONDS = 60
SEED = 4_711
DEEP = 3
DATA = (0, 1, 2, -1, 7, 2**63 - 1)
MOST_RECORDS = 300
FEW_RECORDS = 40


def job_of(dice):
    """A job on the record that gives a number, and one that fails for some records."""
    return dice.choice([{"job": "add", "n": 1}, {"job": "within", "lo": 0, "hi": 2}, {"job": "mul", "n": -1}])


def leaf(dice):
    """A child of a `when_all` below which there is none."""
    on = dice.choice(["loop", "pool"])
    row = {"do": "just", "values": [[dice.randint(0, 9) for _ in range(dice.randint(0, 20))]]}
    worked = {"do": "then", "child": INPUT, "job": job_of(dice)}
    failing = dice.choice([{"do": "just_error", "error": dice.choice(["low", "late"])}, {"do": "just_stopped"}])
    return dice.choice([
        {"do": "delay", "turns": dice.choice([0, 1, 2, 5, 30])},
        {"do": "starts_on", "on": on, "child": worked},
        {"do": "continues_on", "on": on, "child": worked},
        {"do": "bulk", "child": row, "job": {"job": "within", "lo": 0, "hi": dice.choice([8, 9])}},
        {"do": "starts_on", "on": on, "child": failing},
        {"do": "schedule", "on": on},
        INPUT,
    ])  # fmt: skip


def nested(dice, deep):
    """Nested `when_all`, some of them unstoppable, or started in a context."""
    if deep == 0 or dice.random() < 0.3:
        return leaf(dice)
    made = {"do": "when_all", "children": [nested(dice, deep - 1) for _ in range(dice.randint(2, 4))]}
    return dice.choice([
        made, made,
        {"do": "unstoppable", "child": made},
        {"do": "starts_on", "on": dice.choice(["loop", "pool"]), "child": made},
    ])  # fmt: skip


def ahead(dice, root):
    """An `ahead` of which this is one child: where the second fails the first is abandoned."""
    first, second = dice.choice([(root, leaf(dice)), (leaf(dice), root), (root, INPUT)])
    return {"do": "ahead", "first": first, "second": second}


def with_rule(dice, plan, count):
    """The plan with no stop rule, or one of both."""
    return plan | dice.choice([{}, {"stop_after": dice.randint(1, count)}, {"on_error": "stop"}])


class Run:
    """A run that is to be made: its words, plan and records, and whether it has all cores."""

    def __init__(self, dice, workers, all_cores):
        self.all_cores = all_cores
        is_g = dice.random() < 0.3
        count = dice.randint(1, MOST_RECORDS if is_g else FEW_RECORDS)
        root = G if is_g else {"do": "when_all", "children": [nested(dice, DEEP - 1) for _ in range(2)]}
        root = ahead(dice, root) if dice.random() < 0.3 else root
        self.data = [dice.choice(DATA) for _ in range(count)]
        self.window = dice.choice(WINDOWS)
        self.plan = with_rule(dice, {"version": 2, "input": "int", "root": root}, count)
        self.words = ["run", "plan.json", "--workers", str(workers), "--window", str(self.window)]
        self.words += ["--order", dice.choice(["fifo", "lifo"])]
        self.known = {}

    def put(self, folder):
        for name, text in (("plan.json", json.dumps(self.plan)), ("records", "".join(f"{it}\n" for it in self.data))):
            with open(os.path.join(folder, name), "w", encoding="utf-8") as file:
                file.write(text)

    def allowed(self, datum, state):
        """What the plan allows. No node of these plans asks for the record's number."""
        if (datum, state) not in self.known:
            self.known[datum, state] = plan_model.allowed(self.plan["root"], (datum,), 0, state)
        return self.known[datum, state]

    def fault(self, ran):
        """What the run should have come to, where it didn't."""
        lines = ran.stdout.decode().split("\n")
        if ran.returncode not in (0, 1) or ran.stderr or lines.pop() or len(lines) != len(self.data):
            return f"status 0 or 1, no notes, and a line for each record, not {ran.returncode} {ran.stderr[-200:]!r}"
        window = min(self.window, WITH_AHEAD) if self.plan["root"]["do"] == "ahead" else self.window
        for record, (datum, state) in enumerate(zip(self.data, states_of(self.plan, window, lines)), 1):
            may = {plan_model.line(record, it) for it in self.allowed(datum, state)}
            if lines[record - 1] not in may:
                return f"as line {record} one of {sorted(may)}, not {lines[record - 1]!r}"
        return None

    def make(self, program, number):
        """Makes the run. What is found: how it didn't do as it may."""
        cores = sorted(os.sched_getaffinity(os.getpid()))
        # what this thread starts has its cores
        os.sched_setaffinity(0, cores if self.all_cores else {cores[number % len(cores)]})
        try:
            with tempfile.TemporaryDirectory() as folder:
                self.put(folder)
                with open(os.path.join(folder, "records"), "rb") as records:
                    ran = subprocess.run(
                        [program, *self.words], cwd=folder, stdin=records, capture_output=True, timeout=SECONDS, check=False
                    )
        except subprocess.TimeoutExpired:
            return f"an end within {SECONDS} seconds"
        finally:
            os.sched_setaffinity(0, cores)
        return self.fault(ran)


def keep(kept, number, one, fault):
    """Keeps what is to be looked at again, and tells of it."""
    folder = os.path.join(kept, str(number))
    os.makedirs(folder, exist_ok=True)
    one.put(folder)
    told = f"{' '.join(one.words)}\n{'all cores' if one.all_cores else 'one core'}\nwanted: {fault}\n"
    with open(os.path.join(folder, "words"), "w", encoding="utf-8") as file:
        file.write(told)
    print(f"FAILED  stress.py: kept in {folder}: {told}", end="", flush=True)


def attempt(program, kept, until, number, one):
    """Makes the run, unless it is too late: then none. Else whether all was well."""
    if time.monotonic() > until:
        return None
    fault = one.make(program, number)
    if fault:
        keep(kept, number, one, fault)
    return not fault


def run(program, runs=RUNS, minutes=MINUTES, seed=SEED, kept="stress-kept"):
    """Makes the runs. The answer is how many passed and how many failed."""
    program, dice, until = os.path.abspath(program), random.Random(seed), time.monotonic() + 60 * minutes
    made = passed = failed = late = 0
    for all_cores in (True, False):
        for workers in WORKERS:
            chosen = enumerate([Run(dice, workers, all_cores) for _ in range(runs)], made)
            made += runs
            with ThreadPoolExecutor(os.cpu_count() or 1) as pool:
                found = list(pool.map(lambda it: attempt(program, kept, until, *it), chosen))
            good, bad = found.count(True), found.count(False)
            where = "all cores" if all_cores else "one core"
            print(f"{workers} workers on {where}: {good} runs passed, {bad} failed", flush=True)
            passed, failed, late = passed + good, failed + bad, late + found.count(None)
    if late:
        print(f"{late} runs weren't made within {minutes} minutes")
    return passed, failed


def main():
    parser = argparse.ArgumentParser(description="Runs the program very often with workers.")
    parser.add_argument("--program", default=PROGRAM, metavar="PATH")
    parser.add_argument("--runs", default=RUNS, type=int, metavar="N")
    parser.add_argument("--minutes", default=MINUTES, type=float, metavar="M")
    parser.add_argument("--seed", default=SEED, type=int, metavar="S")
    parser.add_argument("--kept", default="stress-kept", metavar="FOLDER")
    given = parser.parse_args()
    passed, failed = run(given.program, given.runs, given.minutes, given.seed, given.kept)
    print(f"{passed} passed, {failed} failed")
    return 1 if failed or not passed else 0


if __name__ == "__main__":
    sys.exit(main())
