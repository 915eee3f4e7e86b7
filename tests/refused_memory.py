#!/usr/bin/env python3
"""Has each request of the program for memory fail in turn, and looks at how its run ends.

    tests/refused_memory.py [--program PATH] [--most N] [WORD..]     all plans, or those with a WORD in their sentence

A request that is refused is the program's own call of `malloc` or `realloc` (tests/traced.py). The run then ends as if
there had been memory, or with status 4: before the first record is read with no output, later with `out-of-memory` in
place of one record's answer. A small plan (docs/DEFINITIONS.md) wants no memory once a record was read. Of each plan N
requests are refused, spread evenly, or each where there are no more; 0 is each. Where the system lets no program be
traced, nothing is tried, and one line says so. The last line is `N passed, M failed`; the status is 1 where one failed.
"""
import argparse
import json
import os
import re
import sys
import tempfile

import traced
from run_cases import PROGRAM, shown, tell

MOST = 24
NO_MEMORY = 4
NOTE = b"out of memory\n"
LONG_NAME = "a-name-of-more-than-twenty-two-bytes"
LONG_ROW = [5] * 4_000 + [70] + [5] * 95

INPUT = {"do": "input"}
G = {"do": "continues_on", "on": "loop", "child": {"do": "then", "job": {"job": "sum"}, "child": {
    "do": "when_all", "children": [
        {"do": "starts_on", "on": "pool", "child": {"do": "then", "child": INPUT, "job": {"job": "mul", "n": 2}}},
        {"do": "let_value", "child": INPUT, "pick": {"job": "pass"}, "bodies": [
            {"do": "just", "values": [9]},
            {"do": "then", "job": {"job": "sum"}, "child": {
                "do": "bulk", "child": {"do": "just", "values": [[1, 2, 3]]}, "job": {"job": "index"}}}]}]}}}  # fmt: skip


class Plan:
    """A plan, what it runs over, and whether it is small."""

    def __init__(self, sentence, kind, root, small=False, records=b"", count=None):
        self.sentence, self.small, self.records = sentence, small, records
        self.text = json.dumps({"version": 2, "input": kind, "root": root})
        self.words = ["run", "plan.json"] if count is None else ["gen", "plan.json", str(count)]
        # requests are counted on one thread
        self.words += ["--workers", "0"]

    def run(self, program, folder, number):
        with open(os.path.join(folder, "plan.json"), "w", encoding="utf-8") as file:
            file.write(self.text)
        return traced.run_refusing(os.path.abspath(program), self.words, folder, self.records, number)


class Trace(Plan):
    """A trace to check, or a schedule to replay."""

    def __init__(self, sentence, command, entries):
        self.sentence, self.small, self.records = sentence, False, b""
        self.text = "".join(f"{line}\n" for line in ("exec 2 1 1 counting 1", "node 1 plain", "node - plain", *entries))
        self.words = [command, "plan.json"]


def failing(name):
    all_of = {"do": "when_all", "children": [{"do": "just_error", "error": name}, INPUT]}
    return {"do": "upon_error", "child": all_of, "job": {"job": "length"}}


def row_of(numbers):
    return json.dumps(numbers, separators=(",", ":")).encode() + b"\n"


ADD_ONE = {"do": "then", "child": INPUT, "job": {"job": "add", "n": 1}}
PARSED = {"do": "then", "child": INPUT, "job": {"job": "parse"}}
WITHIN = {"do": "bulk", "child": INPUT, "job": {"job": "within", "lo": 0, "hi": 9}}
ADDED = {"do": "bulk", "child": INPUT, "job": {"job": "add", "n": 1}}
STOPPING = {"do": "when_all", "children": [
    {"do": "just", "values": [1]},
    {"do": "upon_error", "job": {"job": "length"}, "child": {"do": "when_all", "children": [
        {"do": "just_error", "error": "late"}, {"do": "delay", "turns": 1_000}]}}]}  # fmt: skip
ON_POOL = {"do": "starts_on", "on": "pool", "child": INPUT}
HOPPING = {"do": "let_error", "pick": {"job": "length"}, "bodies": [{"do": "just", "values": [-1]}], "child": {
    "do": "then", "job": {"job": "mul", "n": 100}, "child": {"do": "then", "job": {"job": "parse"}, "child": ON_POOL}}}  # fmt: skip
HALVED = {"do": "starts_on", "on": "pool", "child": {"do": "then", "child": INPUT, "job": {"job": "div", "n": 2}}}
PICKING = {"do": "upon_error", "job": {"job": "length"}, "child": {
    "do": "let_value", "child": HALVED, "pick": {"job": "pass"}, "bodies": [
        {"do": "just", "values": [1]}, {"do": "just_error", "error": "e"}]}}  # fmt: skip
BOTH = {"do": "ahead", "first": {"do": "then", "child": ON_POOL, "job": {"job": "mul", "n": 2}}, "second": ADD_ONE}
WHOLE = ["0 claim 0", "0 begin 0.1", "0 await 0.1 0", "0 begin 0.0", "0 finish 0.0", "0 report 0.0", "0 finish 0.1",
         "0 release 0"]  # fmt: skip
CHOICES = ["0 0", "0 0", "0 0", "0 0", "0 3", "0 0", "0 3", "0 0"]
PLANS = [
    Plan("one is added to three numbers", "int", ADD_ONE, True, b"5\n-1\nx\n"),
    Plan("of a row of 4,096 numbers one fails", "row", WITHIN, False, row_of(LONG_ROW)),
    Plan("a when_all fails", "int", failing("late"), True, b"5\n-1\n7\n"),
    Plan("a when_all fails by a long name", "int", failing(LONG_NAME), False, b"5\n-1\n7\n"),
    Plan("texts are parsed, of which one is long", "text", PARSED, False, b"42\nab\n" + b"0" * 50 + b"7\n"),
    Plan("plan G over 100 generated records", "int", G, count=100),
    Plan("plan G over three records", "int", G, records=b"0\n1\n2\n"),
    Plan("one is added to the numbers of rows", "row", ADDED, False, b"[]\n[1,2]\n" + row_of(LONG_ROW)),
    Plan("a when_all stops a delay", "int", STOPPING, False, b"0\n"),
    Plan("texts are parsed on the pool, and a let takes the error", "text", HOPPING, False, b"42\nx\n-3\n"),
    Plan("a let in the pool picks an error", "int", PICKING, True, b"0\n2\n"),
    Plan("an ahead joins both", "int", BOTH, False, b"5\n-1\n"),
    Trace("a trace is checked", "check", WHOLE),
    Trace("a schedule is replayed", "replay", CHOICES),
]


def one_is_missing(calm, ran):
    """Out has want of memory in place of one answer, and all others."""
    if calm.out.startswith(b"records "):
        before, after = ([int(it) for it in re.findall(rb"-?\d+", text)] for text in (calm.out, ran.out))
        return len(after) == 7 and after[0] == before[0] and after[4] == 1 and sum(after[1:6]) == sum(before[1:6])
    before, after = calm.out.split(b"\n"), ran.out.split(b"\n")
    other = [(number, line) for number, (line, old) in enumerate(zip(after, before), 1) if line != old]
    return len(after) == len(before) and [line for _, line in other] == [b"%d out-of-memory" % it for it, _ in other[:1]]


def fault_of(plan, calm, ran):
    """What the run should have come to, where it didn't."""
    if (ran.status, ran.out, ran.notes) == (calm.status, calm.out, calm.notes):
        return None
    if plan.small and ran.had_read:
        return f"what it comes to with memory, {calm.status} {shown(calm.out)}"
    if ran.status != NO_MEMORY or ran.notes not in (b"", NOTE):
        return f"status {NO_MEMORY}, and in notes {NOTE!r} or nothing"
    if ran.notes and one_is_missing(calm, ran):
        return None
    return None if not ran.out and not ran.had_read else "no output before a record is read, and later one answer less"


def numbers_of(requests, most):
    """So many of the numbers of requests, spread evenly, the first and the last among them."""
    if not 1 < most < requests:
        return list(range(1, requests + 1))
    return sorted({1 + (requests - 1) * i // (most - 1) for i in range(most)})


def refuse_each(program, plan, most):
    """Refuses requests of the plan's run. What is found: each that ends as it may not; and how many were tried."""
    found, tried = [], 0
    with tempfile.TemporaryDirectory() as folder:
        calm = plan.run(program, folder, 0)
        if calm.status not in (0, 1) or calm.notes:
            return [("with memory", "status 0 or 1, and no notes", f"{calm.status} {shown(calm.notes)}")], 1
        for number in numbers_of(calm.requests, most):
            ran = plan.run(program, folder, number)
            tried += 1
            fault = fault_of(plan, calm, ran) if ran.refused else "the same requests in each run"
            if fault:
                got = f"{ran.status} {shown(ran.out)} {shown(ran.notes)}"
                found.append((f"request {number} of {calm.requests} refused", fault, got))
    return found, tried


def run(program, words=(), most=MOST, told=False):
    """Tries the plans. The answer is how many requests were refused and all was well, and how many where it wasn't."""
    passed = failed = 0
    for plan in PLANS:
        if words and not any(word in plan.sentence for word in words):
            continue
        try:
            found, tried = refuse_each(program, plan, most)
        except (traced.CannotTrace, OSError) as fault:
            print(f"refused_memory.py: not tried: {fault}")
            break
        if found:
            tell(f"refused_memory.py: {plan.sentence}", found)
        if told:
            print(f"{plan.sentence}: {tried} requests refused, {len(found)} wrong", flush=True)
        passed, failed = passed + tried - len(found), failed + len(found)
    return passed, failed


def main():
    parser = argparse.ArgumentParser(description="Has each request for memory fail in turn.")
    parser.add_argument("--program", default=PROGRAM, metavar="PATH")
    parser.add_argument("--most", type=int, default=0, metavar="N")
    parser.add_argument("words", nargs="*", metavar="WORD")
    given = parser.parse_args()
    passed, failed = run(given.program, given.words, given.most, True)
    print(f"{passed} passed, {failed} failed")
    return 1 if failed or not passed else 0


if __name__ == "__main__":
    sys.exit(main())
