#!/usr/bin/env python3
"""Runs plans whose steps move texts, names of errors and rows, and looks at how much memory they take: as much for many
records as for few, so that nothing stays behind a step. No clause says so.

    tests/kept_memory.py [--program PATH] [WORD..]     all of them, or those with a WORD in their sentence

The last line is `N passed, M failed`; the status is 1 where one failed.
"""
import json
import subprocess
import sys
import tempfile
from concurrent.futures import ThreadPoolExecutor

from room import try_those
from run_cases import main
from streams import Wrong

FEW, MANY = 2_000, 40_000
# What it may grow by: a record that left but ten bytes behind would take more.
MOST_KILOBYTES = 400
INPUT = {"do": "input"}
LONG = "a-name-that-does-not-stand-in-place"
TEXT, ROW = "abc" * 30, "[" + ",".join(map(str, range(100))) + "]"


def job(child, name, **operands):
    return {"do": "then", "child": child, "job": {"job": name, **operands}}


def on_pool(child):
    return {"do": "starts_on", "on": "pool", "child": child}


def let(do, child):
    return {"do": do, "child": child, "pick": {"job": "give", "values": [0]}, "bodies": [LONGER]}


def all_of(*children):
    return {"do": "when_all", "children": list(children)}


def bulk(child, name, n):
    return {"do": "bulk", "child": child, "job": {"job": name, "n": n}}


LONGER = job(INPUT, "append", text=LONG)
FAILS = all_of(on_pool(LONGER), {"do": "just_error", "error": LONG})
PLANS = {
    "a text that is made longer": ("text", LONGER, TEXT),
    "texts of several children": ("text", all_of(LONGER, INPUT, on_pool(LONGER)), TEXT),
    "a text that a body goes on with": ("text", let("let_value", LONGER), TEXT),
    "an error that is mended": ("text", {"do": "upon_error", "child": FAILS, "job": {"job": "append", "text": LONG}}, TEXT),
    "an error that a body goes on with": ("text", let("let_error", FAILS), TEXT),
    "a row in parts": ("row", bulk({"do": "continues_on", "on": "pool", "child": INPUT}, "add", 1), ROW),
    "rows of which a part fails": ("row", all_of(bulk(INPUT, "add", 1), bulk(on_pool(INPUT), "mul", 2**63 - 1)), ROW),
}


def kilobytes(program, plan, lines):
    """The greatest memory of a run, once it has written a line for each of these, and while its input stays open."""
    command = [program, "run", plan, "--workers", "2"]
    with subprocess.Popen(command, stdin=subprocess.PIPE, stdout=subprocess.PIPE) as process:
        with ThreadPoolExecutor(1) as writer:
            writer.submit(write, process.stdin, lines)
            for _ in lines:
                process.stdout.readline()
        with open(f"/proc/{process.pid}/status", encoding="ascii") as file:
            most = next(int(line.split()[1]) for line in file if line.startswith("VmHWM:"))
        process.stdin.close()
    if process.returncode not in (0, 1):
        raise Wrong("the status", "0 or 1", str(process.returncode))
    return most


def write(file, lines):
    file.writelines(lines)
    file.flush()


def keeps_nothing(kind, root, line):
    def test(program):
        with tempfile.NamedTemporaryFile("w", suffix=".json", encoding="utf-8") as plan:
            json.dump({"version": 1, "input": kind, "root": root}, plan)
            plan.flush()
            few, many = (kilobytes(program, plan.name, [f"{line}\n".encode()] * count) for count in (FEW, MANY))
        if many - few > MOST_KILOBYTES:
            raise Wrong(f"the memory of {MANY} records", f"at most {few + MOST_KILOBYTES} kB", f"{many} kB")

    return test


def named(sentence, test):
    test.__name__ = sentence.replace(" ", "_")
    return test


TESTS = [(named(sentence, keeps_nothing(*plan)), ()) for sentence, plan in PLANS.items()]


def run(program, words=()):
    """Runs the tests. The answer is how many passed and how many failed."""
    return try_those("kept_memory.py", TESTS, program, words)


if __name__ == "__main__":
    sys.exit(main("Looks at the memory that runs over few and many records take.", run))
