#!/usr/bin/env python3
"""Runs the program on plans made at random, from a fixed seed, and compares each line with what its plan allows.

    tests/random_plans.py [--program PATH] [--count N] [--seed S]

Each plan matches in its kinds, so the program takes it. It runs as it is, and as its twin, in which an operation is
spawned ahead of it (`ahead`); by windows of 1, 3 and 64, some under a stop rule. Of both each line must be one that plan_model.py allows the record under the stop requests that it may have seen. Where
that is a single line (no child of a `when_all` fails and no stop was requested) it must be that one. The last line is
`N passed, M failed`; the status is 1 where one failed.
"""
import argparse
import json
import os
import random
import subprocess
import sys
import tempfile

import plan_model
from run_cases import PROGRAM, try_each

SEED = 20_261
COUNT = 120
NODES = 24
SECONDS = 60
INTS = [0, 1, -1, 2, 3, 7, -40, 4_097, 2**63 - 1, -(2**63)]
SMALL = [0, 1, 2, -1, 5]
TEXTS = ["", "7", "-3", "ab", "x1", 'a"b', "42"]
ROWS = [[], [1], [3, -1, 8], [5, 4_000, 6, 7, 8], list(range(11)), [2**63 - 1, 1], [9] * 17]
ERRORS = ["low", "a.b", "not-today"]
OF_KIND = {"int": INTS, "text": TEXTS, "row": ROWS}
CONTEXTS = ["loop", "pool"]


class Maker:
    """Makes nodes whose value has given kinds, under arguments of given kinds."""

    def __init__(self, dice):
        self.dice = dice
        self.left = NODES
        self.version = 1

    def constants(self, kinds):
        return [self.dice.choice(OF_KIND[kind]) for kind in kinds]

    def element_job(self):
        low = self.dice.choice(SMALL)
        jobs = [{"job": it, "n": self.dice.choice(INTS)} for it in ("add", "sub", "mul", "div")]
        return self.dice.choice([*jobs, {"job": "neg"}, {"job": "within", "lo": low, "hi": low + 6}, {"job": "index"}])

    def arithmetic(self):
        while True:
            job = self.element_job()
            if job["job"] != "index":
                return job

    def jobs(self, taken, given):
        """The jobs that take these kinds and give those, but for `fail`."""
        found = [{"job": "pass"}] if taken == given else []
        if not any(kind.startswith("maybe") for kind in given):
            found.append({"job": "give", "values": self.constants(given)})
        if len(given) == 1 and given[0] in taken:
            found.append({"job": "at", "i": taken.index(given[0])})
        if given == ("int",):
            found += [self.arithmetic()] if taken == ("int",) else []
            found += [{"job": "sum"}] if set(taken) <= {"int", "row"} else []
            found += [{"job": "length"}] if taken in (("text",), ("row",)) else []
            found += [{"job": "parse"}] if taken == ("text",) else []
            found += [{"job": "value_or", "else": self.dice.choice(INTS)}] if taken == ("maybe int",) else []
        if given == ("text",):
            found += [{"job": "append", "text": self.dice.choice(TEXTS)}] if taken == ("text",) else []
            found += [{"job": "join"}] if set(taken) <= {"text"} else []
            found += [{"job": "show"}] if taken == ("int",) else []
            found += [{"job": "value_or", "else": self.dice.choice(TEXTS)}] if taken == ("maybe text",) else []
        if given == ("row",) and taken == ("int",):
            found.append({"job": "iota"})
        return found

    def job(self, taken, given):
        """A job that takes these kinds, and gives those or fails; one that fails only now and then."""
        found = self.jobs(taken, given)
        if not found or self.dice.random() < 0.08:
            return {"job": "fail", "error": self.dice.choice(ERRORS)}
        return self.dice.choice(found)

    def kinds_before(self, given):
        """Kinds that a child may give to a job that gives these."""
        choices = {
            ("int",): [("int",), ("text",), ("row",), ("int", "row"), ("maybe int",)],
            ("text",): [("int",), ("text",), ("text", "text"), ("maybe text",)],
            ("row",): [("int",), ("row",)],
        }
        return self.dice.choice([*choices.get(given, []), given, ("int",)])

    def leaf(self, arguments, given):
        found = [{"do": "input"}] * 3 if arguments == given else []
        if not any(kind.startswith("maybe") for kind in given):
            found.append({"do": "just", "values": self.constants(given)})
        if given == ():
            found.append({"do": "schedule", "on": self.dice.choice(CONTEXTS)})
            found.append({"do": "delay", "turns": self.dice.choice([0, 1, 3])})
        if given == ("int",):
            found += [{"do": "read_env", "query": query} for query in ("record", "stop")]
        if not found or self.dice.random() < 0.15:
            found = [{"do": "just_stopped"}, {"do": "just_error", "error": self.dice.choice(ERRORS)}]
        return self.dice.choice(found)

    def node(self, arguments, given, deep):
        """A node below which there are at most so many levels."""
        self.left -= 1
        if deep == 0 or self.left <= 0 or self.dice.random() < 0.15:
            return self.leaf(arguments, given)
        made = [self.then, self.upon, self.let_value, self.let_failure, self.hop, self.passed] + [self.when_all] * 2
        made += [self.bulk] * 3 if given == ("row",) else []
        made += [self.optional] * 6 if given in (("maybe int",), ("maybe text",)) else []
        return self.dice.choice(made)(arguments, given, deep - 1)

    def then(self, arguments, given, deep):
        taken = self.kinds_before(given)
        return {"do": "then", "child": self.node(arguments, taken, deep), "job": self.job(taken, given)}

    def upon(self, arguments, given, deep):
        do, taken = self.dice.choice([("upon_error", ("text",)), ("upon_stopped", ())])
        return {"do": do, "child": self.node(arguments, given, deep), "job": self.job(taken, given)}

    def bodies(self, arguments, given, deep):
        return [self.node(arguments, given, deep) for _ in range(self.dice.randint(1, 3))]

    def let_value(self, arguments, given, deep):
        taken = self.dice.choice([("int",), ("text",), ("row",), ("int", "text"), arguments])
        child, pick = self.node(arguments, taken, deep), self.job(taken, ("int",))
        return {"do": "let_value", "child": child, "pick": pick, "bodies": self.bodies(taken, given, deep)}

    def let_failure(self, arguments, given, deep):
        do, taken = self.dice.choice([("let_error", ("text",)), ("let_stopped", ())])
        child, pick = self.node(arguments, given, deep), self.job(taken, ("int",))
        return {"do": do, "child": child, "pick": pick, "bodies": self.bodies(taken, given, deep)}

    def hop(self, arguments, given, deep):
        do = self.dice.choice(["starts_on", "continues_on"])
        return {"do": do, "on": self.dice.choice(CONTEXTS), "child": self.node(arguments, given, deep)}

    def passed(self, arguments, given, deep):
        child = self.node(arguments, given, deep)
        if self.dice.random() < 0.5:
            return {"do": "stopped_as_error", "child": child, "error": self.dice.choice(ERRORS)}
        self.version = 2
        return {"do": "unstoppable", "child": child}

    def bulk(self, arguments, given, deep):
        return {"do": "bulk", "child": self.node(arguments, given, deep), "job": self.element_job()}

    def optional(self, arguments, given, deep):
        of = given[0].removeprefix("maybe ")
        return {"do": "stopped_as_optional", "of": of, "child": self.node(arguments, (of,), deep)}

    def when_all(self, arguments, given, deep):
        cuts = sorted(self.dice.randint(0, len(given)) for _ in range(self.dice.randint(1, 3)))
        parts = [given[low:high] for low, high in zip([0, *cuts], [*cuts, len(given)])]
        return {"do": "when_all", "children": [self.node(arguments, part, deep) for part in parts]}


def make_plan(dice):
    """A plan, and whether it has a stop rule."""
    maker = Maker(dice)
    kind = dice.choice(list(OF_KIND))
    given = dice.choice([("int",), ("text",), ("row",), ("int", "text"), ("maybe int",), ("maybe text", "row"), ()])
    root = maker.node((kind,), given, dice.randint(2, 5))
    plan = {"version": maker.version, "input": kind, "root": root}
    rule = dice.randrange(4)
    return plan | ({"stop_after": dice.randint(1, 5)} if rule == 0 else {"on_error": "stop"} if rule == 1 else {})


SPAWNED = [
    {"do": "starts_on", "on": "pool", "child": {"do": "read_env", "query": "record"}},
    {"do": "continues_on", "on": "loop", "child": {"do": "just", "values": [1, "b"]}},
    {"do": "delay", "turns": 20},
    {"do": "starts_on", "on": "pool", "child": {"do": "just_error", "error": "spawned"}},
    {"do": "just_stopped"},
]


def twin_of(plan, number=0):
    """The same as the second child of an `ahead`, whose first is spawned before it and is one of `SPAWNED`."""
    root = {"do": "ahead", "first": SPAWNED[number % len(SPAWNED)], "second": plan["root"]}
    return plan | {"version": 2, "root": root}


def make_records(dice, kind):
    """The records' data; None is a bad record."""
    data = [dice.choice(OF_KIND[kind]) for _ in range(dice.randint(1, 7))]
    return [None if kind != "text" and dice.random() < 0.1 else datum for datum in data]


def text_of(datum):
    if datum is None:
        return "?"
    return datum if isinstance(datum, str) else json.dumps(datum, separators=(",", ":"))


def states_of(plan, window, lines):
    """For each record the stop states under which it may have run, by what was printed."""
    request = plan.get("stop_after", len(lines) + 1)
    if "on_error" in plan:
        failed = [number for number, line in enumerate(lines, 1) if line.split(" ")[1:2] == ["error"]]
        begun = failed[0] if failed else len(lines)
        return [plan_model.NEVER if at <= begun else plan_model.STANDS if at >= begun + window else plan_model.MAY
                for at in range(1, len(lines) + 1)]  # fmt: skip
    return [plan_model.STANDS if at >= request else plan_model.MAY if at > request - window else plan_model.NEVER
            for at in range(1, len(lines) + 1)]  # fmt: skip


def lines_of(plan, datum, record, state):
    """The lines that the definition allows a record."""
    if datum is None:
        return {f"{record} bad-record"}
    data = (tuple(datum) if isinstance(datum, list) else datum,)
    return {plan_model.line(record, it) for it in plan_model.allowed(plan["root"], data, record, state)}


def fault_of(plan, data, window, ran):
    """What a run should have come to, where it didn't."""
    lines = ran.stdout.decode().split("\n")
    if ran.returncode not in (0, 1) or ran.stderr or lines.pop() or len(lines) != len(data):
        return "an exit status of 0 or 1, no notes, and a line for each record"
    if ran.returncode != (0 if all(line.split(" ")[1] == "value" for line in lines) else 1):
        return "exit status 0 exactly where each line is a value"
    for record, (datum, state) in enumerate(zip(data, states_of(plan, window, lines)), 1):
        may = lines_of(plan, datum, record, state)
        if lines[record - 1] not in may:
            return f"as line {record} one of {sorted(may)}"
    return None


def try_one(program, plan, data, window):
    """Runs a plan over these records. What is found: how it didn't do as it may."""
    given = "".join(text_of(datum) + "\n" for datum in data).encode()
    with tempfile.TemporaryDirectory() as folder:
        path = os.path.join(folder, "plan.json")
        with open(path, "w", encoding="utf-8") as file:
            json.dump(plan, file)
        words = [program, "run", path, "--window", str(window)]
        ran = subprocess.run(words, input=given, capture_output=True, timeout=SECONDS, check=False)
    fault = fault_of(plan, data, window, ran)
    what = f"{json.dumps(plan)} by window {window} over {given!r}"
    return [(what, fault, f"{ran.returncode} {ran.stdout!r} {ran.stderr!r}")] if fault else []


def run(program, count=COUNT, seed=SEED):
    """Runs the plans and their twins. The answer is how many passed and how many failed."""
    program = os.path.abspath(program)
    dice = random.Random(seed)
    chosen = []
    for number in range(count):
        plan = make_plan(dice)
        data = make_records(dice, plan["input"])
        window = dice.choice([1, 3, 64])
        for title, one in ((f"plan {number}", plan), (f"plan {number}, its twin", twin_of(plan, number))):
            chosen.append((f"random_plans.py: {title}", (one, data, window)))
    return try_each(chosen, lambda it: try_one(program, *it), os.cpu_count() or 1)


def main():
    parser = argparse.ArgumentParser(description="Runs the program on plans made at random.")
    parser.add_argument("--program", default=PROGRAM, metavar="PATH")
    parser.add_argument("--count", default=COUNT, type=int, metavar="N")
    parser.add_argument("--seed", default=SEED, type=int, metavar="S")
    given = parser.parse_args()
    passed, failed = run(given.program, given.count, given.seed)
    print(f"{passed} passed, {failed} failed")
    return 1 if failed else 0


if __name__ == "__main__":
    sys.exit(main())
