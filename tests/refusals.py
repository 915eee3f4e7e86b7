#!/usr/bin/env python3
"""Tries each way in which a plan can be refused: each fault of each key of each node, job and setting, at some place in a
plan, and kinds that don't match at each node that has a rule of them. What exec_show says must be the line of a model of
its own (refusal_model.py, kind_model.py), which names the word and what was wanted there.

    tests/refusals.py [--program PATH]     exec_show is the one that was built beside PATH, exec_run

The last line is `N passed, M failed`; the status is 1 where one failed.
"""
import argparse
import copy
import json
import os
import random
import subprocess
import sys
import tempfile

from refusal_model import JOBS, LATER, NODES, OWN, own_keys, refusal
from run_cases import PROGRAM, beside, try_each

SEED, SECONDS, CUTS = 4_105, 60, 100
INPUT = {"do": "input"}
LONG = "x" * 4_097
GOOD = {
    "values": [1, "a", [2]], "error": "e", "on": "pool", "turns": 3, "query": "stop", "of": "int", "n": 1, "lo": 0,
    "hi": 9, "text": "t", "i": 0, "else": 1, "child": INPUT, "first": INPUT, "second": INPUT, "bodies": [INPUT, INPUT],
    "children": [INPUT, INPUT], "pick": {"job": "give", "values": [0]}, "job": {"job": "neg"},
}  # fmt: skip
# what is put at a key in place of what stands there
ODD = [None, True, 1.5, 2**63, [], {}, 'a "b"\n', "é", 5, -1, 64, 1_000_001, "x" * 65, LONG, [1] * 65, [[1] * 4_097],
       [LONG], [1, True], [1, [2, "a"]], [INPUT] * 65, [INPUT] * 17, [INPUT]]  # fmt: skip


def node_of(name):
    return {"do": name, **{key: copy.deepcopy(GOOD[key]) for key in own_keys(name)}}


def job_of(name):
    return {"job": name, **{key: copy.deepcopy(GOOD[key]) for key in JOBS[name]}}


def spoils_of(value, own_key):
    """An object, spoilt in each way at each of its keys."""
    yield {**value, "comment": 1}
    yield {**value, "Zeile\n": 1, "z" * 65: 2}
    for key in value:
        yield {other: it for other, it in value.items() if other != key}
        if key != own_key or not isinstance(value[key], dict):
            yield from ({**value, key: odd} for odd in ODD)


def spoilt_nodes():
    yield from ODD
    yield from ({"do": odd} for odd in ODD)
    yield {"do": "inptu"}
    for name in NODES + LATER:
        yield from spoils_of(node_of(name), "do")
    for name in ("then", "let_value", "bulk"):
        for job in [{"job": "sqrt"}, *(it for each in JOBS for it in spoils_of(job_of(each), "job"))]:
            yield {**node_of(name), OWN[name]: job}


def spoilt_plans(dice):
    good = {"version": 2, "input": "int", "root": INPUT, "scope": "counting", "stop_after": 5, "on_error": "stop"}
    yield from ODD
    yield from spoils_of(good, "root")
    yield {**good, "scope": "simple"}
    yield {"version": 1, "input": "int", "root": INPUT, "scope": "simple", "on_error": "stop"}
    for name in LATER:
        yield {**good, "version": 1, "root": node_of(name)}
    for number, node in enumerate(spoilt_nodes()):
        version = 1 + number % 2
        yield {"version": version, "input": "int", "root": placed(dice, node)}


def placed(dice, node):
    """A tree with the node somewhere in it, and now and then with a second that is spoilt."""
    holders = [
        lambda it: it,
        lambda it: {"do": "starts_on", "on": "pool", "child": it},
        lambda it: {"do": "when_all", "children": [INPUT, it, {"do": "stopped"}][: dice.choice((2, 2, 3))]},
        lambda it: {**node_of("let_value"), "bodies": [INPUT, it]},
        lambda it: {**node_of("let_error"), "child": it},
    ]
    return dice.choice(holders)(dice.choice(holders)(node))


def kinds():
    """Plans whose kinds don't match, at each node that has a rule of them, with each job."""
    texts = {"do": "just", "values": ["a", "b"]}
    shapes = [INPUT, texts, {"do": "just", "values": []}, {"do": "just", "values": [[1]]}, {"do": "just_stopped"},
              {"do": "stopped_as_optional", "of": "int", "child": INPUT}]  # fmt: skip
    jobs = [job_of(name) for name in JOBS] + [{"job": "value_or", "else": "t"}, {"job": "at", "i": 3}]
    for child in shapes:
        for job in jobs:
            for name in ("then", "upon_error", "upon_stopped", "bulk"):
                yield {"do": name, "child": child, "job": job}
            for name in ("let_value", "let_error", "let_stopped"):
                yield {"do": name, "child": child, "pick": job, "bodies": [INPUT, {"do": "just_stopped"}, texts]}
        for of in ("int", "text"):
            yield {"do": "stopped_as_optional", "of": of, "child": child}
    yield {"do": "when_all", "children": [{"do": "just", "values": [1] * 40}] * 2}
    yield {"do": "ahead", "first": {"do": "just", "values": [1] * 64}, "second": INPUT}
    mixed = {"do": "let_value", "child": {"do": "just_error", "error": "e"}, "pick": job_of("pass"), "bodies": [texts, INPUT]}
    yield mixed
    yield {"do": "when_all", "children": [{"do": "then", "child": mixed, "job": job_of("add")}, mixed]}


def deep(levels, node):
    for _ in range(levels):
        node = {"do": "unstoppable", "child": node}
    return node


def all_plans():
    dice = random.Random(SEED)
    yield from spoilt_plans(dice)
    for root in kinds():
        yield {"version": 2, "input": dice.choice(("int", "text", "row")), "root": root}
    for levels in (55, 56, 60):
        yield {"version": 2, "input": "int", "root": deep(levels, INPUT)}
    fan = {"do": "when_all", "children": [{"do": "when_all", "children": [INPUT] * 51}] * 6}
    for version in (1, 2):
        yield {"version": version, "input": "int", "root": {"do": "then", "child": fan, "job": job_of("sum")}}
    for holder in ("unstoppable", "ahead", "when_all"):
        spoilt = json.loads(json.dumps(node_of(holder)).replace('"do": "input"', '"do": "input", "x": 1', 1))
        spoilt = json.loads(json.dumps(spoilt).replace('{"do": "input", "x": 1}', json.dumps(node_of("ahead"))))
        yield {"version": 2, "input": "int", "root": spoilt}


def cut(dice):
    """Texts of plans that end too soon, in lines, and not within a string: of one that is open its begin is told."""
    text = json.dumps({"version": 2, "input": "int", "root": node_of("let_value")}, indent=1)
    ends = [at for at in range(1, len(text) - 1) if text[:at].count('"') % 2 == 0]
    for at in [0, *sorted(dice.sample(ends, CUTS))]:
        yield text[:at]


def position(text):
    """What is to be said of a text that ends too soon: it ends in this line, behind so many characters."""
    line, column = text.count("\n") + 1, len(text.split("\n")[-1])
    return f"refused: P2 not JSON at line {line}, column {column}: the file is no UTF-8, no JSON, or nests more than 127 deep\n"


def try_one(program, text, wanted):
    with tempfile.TemporaryDirectory() as folder:
        path = os.path.join(folder, "plan.json")
        with open(path, "w", encoding="utf-8") as file:
            file.write(text)
        ran = subprocess.run([program, "plan", path], capture_output=True, timeout=SECONDS, check=False)
    came = (ran.returncode, ran.stderr.decode(), ran.stdout.decode(errors="replace"))
    drawn = wanted is None and came[:2] == (0, "") and came[2].startswith("digraph plan {\n")
    if drawn or came == (1, "", wanted):
        return []
    return [(text[:600], str(wanted), f"{came[0]} {came[2][:300]} {came[1]}")]


def run(program):
    """Tries all plans. The answer is how many passed and how many failed."""
    program = beside(os.path.abspath(program), "exec_show")
    tries = [(json.dumps(plan), refusal(plan)) for plan in all_plans()]
    tries += [(text, position(text)) for text in cut(random.Random(SEED))]
    chosen = [(f"refusals.py: plan {number}", given) for number, given in enumerate(tries)]
    refused = sum(line is not None for _, line in tries)
    if refused < 1_000:
        print(f"FAILED  refusals.py: only {refused} of the plans are to be refused")
        return 0, 1
    return try_each(chosen, lambda given: try_one(program, *given), os.cpu_count() or 1)


def main():
    parser = argparse.ArgumentParser(description="Tries each way in which a plan can be refused.")
    parser.add_argument("--program", default=PROGRAM, metavar="PATH")
    passed, failed = run(parser.parse_args().program)
    print(f"{passed} passed, {failed} failed")
    return 1 if failed else 0


if __name__ == "__main__":
    sys.exit(main())
