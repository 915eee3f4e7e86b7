#!/usr/bin/env python3
"""Measures one hop at a time: a window of one record, whose job is on the pool, with one worker.

    bench/hops.py [PROGRAM] [--rounds N] [--records N] [--other NAME=PROGRAM]..

Nothing is done at the same time, so what is measured is how a hand that waits learns of a name: whether it looks on,
lets others run, or sleeps and is woken. In three places: on all cores with nothing beside it, on one core, and beside
eight busy processes on all cores. Each program, and each other that takes the same words, runs five times (or --rounds)
in each place, all in turn: medians of seconds by the clock, the least and the greatest in brackets, and medians of the
processor's seconds, of all threads, user and system. All must print the same.
"""
import argparse
import json
import os
import resource
import statistics
import subprocess
import sys
import tempfile
import time

from measure import PROGRAM

HOP = {"do": "then", "child": {"do": "input"}, "job": {"job": "add", "n": 1}}
PLAN = {"version": 1, "input": "int", "root": {"do": "starts_on", "on": "pool", "child": HOP}}
BUSY = [sys.executable, "-c", "while True: pass"]
# where it runs, what stands before the command, and how many processes are busy
PLACES = [
    ("all cores", [], 0),
    ("one core", ["taskset", "-c", "0"], 0),
    ("beside eight busy processes", [], 8),
]


def ran(command):
    """What the command printed, and the seconds that it took by the clock and of the processor."""
    before, began = resource.getrusage(resource.RUSAGE_CHILDREN), time.monotonic()
    done = subprocess.run(command, capture_output=True, text=True, check=False)
    took, after = time.monotonic() - began, resource.getrusage(resource.RUSAGE_CHILDREN)
    if done.returncode:
        sys.exit(f"{' '.join(command)} ended with {done.returncode}: {done.stderr[-400:]}")
    return done.stdout, took, after.ru_utime + after.ru_stime - before.ru_utime - before.ru_stime


def times_of(programs, before, words, rounds):
    """The times of each program, all in turn."""
    times, printed = {name: [] for name in programs}, set()
    for _ in range(rounds):
        for name, program in programs.items():
            out, *taken = ran([*before, program, *words])
            printed.add(out)
            times[name].append(taken)
    if len(printed) > 1:
        sys.exit("the programs print different lines")
    return times


def measure(programs, plan, given):
    words = ["gen", plan, str(given.records), "--window", "1", "--workers", "1"]
    for place, before, busy in PLACES:
        beside = [subprocess.Popen(BUSY) for _ in range(busy)]
        try:
            times = times_of(programs, before, words, given.rounds)
        finally:
            for process in beside:
                process.kill()
                process.wait()
        for name, taken in times.items():
            seconds, processor = ([row[k] for row in taken] for k in (0, 1))
            range_ = f"({min(seconds):.3f} to {max(seconds):.3f})"
            middle, spent = statistics.median(seconds), statistics.median(processor)
            print(f"{place:28} {name:12} {given.records:9,} {middle:8.3f} {range_:>20} {spent:10.3f}", flush=True)


def main():
    parser = argparse.ArgumentParser(description="Measures one hop at a time.")
    parser.add_argument("program", nargs="?", default=PROGRAM, metavar="PROGRAM")
    parser.add_argument("--rounds", type=int, default=5, metavar="N")
    parser.add_argument("--records", type=int, default=100_000, metavar="N")
    parser.add_argument("--other", action="append", default=[], metavar="NAME=PROGRAM")
    given = parser.parse_args()
    programs = {"exec_run": os.path.abspath(given.program)}
    programs |= dict(other.split("=", 1) for other in given.other)
    for program in programs.values():
        if not os.access(program, os.X_OK):
            sys.exit(f"no program at {program}")
    print(f"{'where':28} {'program':12} {'records':>9} {'seconds':>8} {'':20} {'processor':>10}")
    with tempfile.TemporaryDirectory() as folder:
        plan = os.path.join(folder, "plan.json")
        with open(plan, "w", encoding="utf-8") as file:
            json.dump(PLAN, file)
        measure(programs, plan, given)


if __name__ == "__main__":
    main()
