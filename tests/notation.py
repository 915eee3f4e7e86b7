#!/usr/bin/env python3
"""Tries plans in the notation of senders: exec_show writes plans made at random as text and reads these back, and tells
the place of what is wrong in spoilt texts, which notation_reader.py finds on its own. The examples of docs/PLANS.md and
of samples/ are among the plans, and samples/senders.py makes each of them by operators, too.

    tests/notation.py [--program PATH] [--count N]     exec_show is the one that was built beside PATH, exec_run

Lines have at most 100 columns. The last line is `N passed, M failed`; the status is 1 where one failed.
"""
import argparse
import glob
import json
import os
import random
import re
import subprocess
import sys
import tempfile

import notation_reader
from notation_reader import ADAPTORS, JOBS, NODES, Refused
from random_plans import SECONDS, make_plan, twin_of
from run_cases import PROGRAM, beside, try_each

TOP = os.path.dirname(os.path.dirname(os.path.abspath(__file__)))
sys.path.insert(0, os.path.join(TOP, "samples"))
import senders  # noqa: E402  (it stands in samples/)

SEED = 9_031
COUNT = 1_000
SPOILT = 300
COLUMNS = 100
REFUSED_PLAN = 3
DEFAULTS = {"scope": "counting", "on_error": "go"}
PLACE = re.compile(r"line (\d+), column (\d+): [^\n]+\n")
STRAY = ["inptu", "then", "input", "|", "(", ")", ",", "add", "7", '"t"', "[1]", "pool", "when_all(", "1.5", '"\\q"']
OTHER_NAMES = {"input": "input_", "sum": "sum_", "pass": "pass_"}
# a text for each node and job, and the same by operators
BY_OPERATORS = [
    ("input", "input_"), ('just(1, "a", [2, 3])', 'just(1, "a", [2, 3])'), ("just()", "just()"),
    ('just_error("e")', 'just_error("e")'), ("just_stopped", "just_stopped"), ("schedule(pool)", 'schedule("pool")'),
    ("delay(3)", "delay(3)"), ("read_env(record)", 'read_env("record")'), ("input | then(neg)", "input_ | then(neg)"),
    ("just(1) | upon_error(length)", "just(1) | upon_error(length)"),
    ("just_stopped | upon_stopped(give 0)", "just_stopped | upon_stopped(give(0))"),
    ("input | let_value(pass, just(1), input)", "input_ | let_value(pass_, just(1), input_)"),
    ("input | let_error(length, just(1))", "input_ | let_error(length, just(1))"),
    ("input | let_stopped(give 1, just(1), just(2))", "input_ | let_stopped(give(1), just(1), just(2))"),
    ("starts_on(pool, input)", 'starts_on("pool", input_)'),
    ("input | continues_on(loop)", 'input_ | continues_on("loop")'),
    ("input | stopped_as_optional(int)", 'input_ | stopped_as_optional("int")'),
    ('input | stopped_as_error("e")', 'input_ | stopped_as_error("e")'),
    ("just([1]) | bulk(within 1 9)", "just([1]) | bulk(within(1, 9))"),
    ("just([1]) | bulk(index)", "just([1]) | bulk(index)"),
    ("when_all(input, just(2)) | then(sum)", "when_all(input_, just(2)) | then(sum_)"),
    ("version 2 input | unstoppable", "input_ | unstoppable"),
    ("version 2 ahead(input, input)", "ahead(input_, input_)"),
    ("input | then(add 1) | then(sub 2) | then(mul 3) | then(div -4)",
     "input_ | then(add(1)) | then(sub(2)) | then(mul(3)) | then(div(-4))"),
    ('input | then(fail "e")', 'input_ | then(fail("e"))'),
    ("input | then(iota) | then(sum)", "input_ | then(iota) | then(sum_)"),
    ('input | then(show) | then(append "x") | then(join)', 'input_ | then(show) | then(append("x")) | then(join)'),
    ("input | then(show) | then(length)", "input_ | then(show) | then(length)"),
    ("input | then(show) | then(parse) | then(pass)", "input_ | then(show) | then(parse) | then(pass_)"),
    ('input | then(give 1 "b" [3]) | then(at 1)', 'input_ | then(give(1, "b", [3])) | then(at(1))'),
    ("input | stopped_as_optional(int) | then(value_or -1)",
     'input_ | stopped_as_optional("int") | then(value_or(-1))'),
]  # fmt: skip
# texts that are refused, some of them with the plan, which the reader beside this file doesn't judge: what stands
# before the place that is told, and the rest
WRONG = [
    ("input | then(append ", "1)"), ("input | ", 'then(append "x")'),
    ("when_all(input, input | then(show)) | ", "then(sum)"),
    ("input | then(neg) | ", "then(join)"), ("", "when_all(input)"), ("input | ", "let_value(pass)"),
    ("", "delay(1000001)"),
    ("when_all(input, ", "delay(1000001))"), ("input | ", "then(at 64)"), ("", "unstoppable"),
    ("input | ", "unstoppable"),
    ("", "ahead(input, input)"), ("version 2 input | let_value(pass, when_all(", "ahead(input, input), input))"),
    ("", 'just_error("a b")'), ("input | ", 'let_value(pass, just(1), just("x"))'),
    ("stop_after 1 ", "scope simple input"),
    ("input int\n# first\n input # then\n | then(add 1)\n | ", "bulk(neg)"),
    ('when_all(just("äöü"), input | ', "then(length))"), ("input | bulk(", "show)"),
    ("input text input | ", "then(add 1)"),
    ("input | " + 55 * "then(neg) | ", "then(neg)"), ("", 56 * "starts_on(loop, " + "input" + 56 * ")"),
    ("", ""), ("input int", ""), ("stop_after ", "soon input"), ("version ", "3 input"), ("input | then(add 1", ""),
]  # fmt: skip


def show(program, words, text):
    """What a program answers to these words over a file with this text: its status, output and notes."""
    with tempfile.TemporaryDirectory() as folder:
        path = os.path.join(folder, "file")
        with open(path, "w", encoding="utf-8", newline="") as file:
            file.write(text)
        ran = subprocess.run(
            [program, *words, path], stdin=subprocess.DEVNULL, capture_output=True, text=True, encoding="utf-8",
            timeout=SECONDS, check=False,
        )  # fmt: skip
    return ran.returncode, ran.stdout, ran.stderr


def expression(node):
    """A node or a job by operators."""
    if "job" in node and "do" not in node:
        names, takes = [node["job"]], JOBS[node["job"]]
    else:
        names, takes = [node["do"]], {**NODES, **ADAPTORS}[node["do"]] or []
    given = []
    for key, what in (it.split() for it in takes):
        values = node[key[1:]] if key[0] == "*" else [node[key]]
        given += [expression(it) if what in ("sender", "job", "element") else repr(it) for it in values]
    name = OTHER_NAMES.get(names[0], names[0])
    made = name if name in senders.WITHOUT_ARGUMENTS else f"{name}({', '.join(given)})"
    return f"({expression(node['child'])} | {made})" if "child" in node and node["do"] in ADAPTORS else made


def by_operators(text, **settings):
    return senders.plan(eval(text, vars(senders)), **settings)  # pylint: disable=eval-used


def try_back(program, plan):
    """Writes a plan as text, and reads that back: by the program, and by the reader beside this file."""
    status, text, notes = show(program, ["text"], json.dumps(plan))
    if (status, notes) != (0, ""):
        return [(json.dumps(plan), "a text", f"{status} {text} {notes}")]
    wide = [line for line in text.split("\n") if len(line) > COLUMNS]
    back, wanted = show(program, ["write"], text), DEFAULTS | plan
    if wide or back[0] or back[2] or json.loads(back[1]) != wanted:
        return [(text, f"{json.dumps(wanted)}, in lines of {COLUMNS} columns", f"{wide} {back}")]
    read = notation_reader.read(text)
    made = DEFAULTS | by_operators(expression(plan["root"]), **{key: it for key, it in plan.items() if key != "root"})
    if read == wanted and made == wanted:
        return []
    return [(text, json.dumps(wanted), f"{json.dumps(read)} {json.dumps(made)}")]


def try_operators(program, pair):
    """A text and its plan by operators are the same."""
    text, operators = pair
    status, out, notes = show(program, ["write"], text)
    wanted = DEFAULTS | by_operators(operators)
    came = json.loads(out) if status == 0 else out
    return [(text, json.dumps(wanted), f"{status} {out} {notes}")] if came != wanted else []


def try_place(program, made):
    """A text is refused at this place."""
    text, place = made
    status, out, notes = show(program, ["write"], text)
    found = PLACE.fullmatch(out)
    came = (status, notes, found and (int(found[1]), int(found[2])))
    return [(text, f"line {place[0]}, column {place[1]}", f"{status} {out} {notes}")] if came != (1, "", place) else []


def place_after(text):
    """The place behind a text."""
    return text.count("\n") + 1, len(text) - (text.rfind("\n") + 1) + 1


class Printer:
    """Prints a plan as text with blanks, line ends and comments made at random, and keeps the places of nodes."""

    def __init__(self, dice):
        self.dice, self.text, self.places = dice, "", {}

    def gap(self, needed=False):
        gaps = [" ", "\n", " \t", "\r\n  ", " # a comment (\n", "\n#\n"] + ([] if needed else [""] * 6)
        self.text += self.dice.choice(gaps)

    def put(self, text):
        self.text += text

    def constant(self, value):
        comma = self.dice.choice([",", ", ", ",\n"])
        text = json.dumps(value, ensure_ascii=self.dice.random() < 0.5, separators=(comma, ":"))
        if isinstance(value, str) and len(value) > 1 and value.isalnum():
            at = self.dice.randrange(2, len(text) - 1)
            text = f'{text[:at]}"\\ \n"{text[at:]}'
        self.put(text)

    def listed(self, node, takes, separator):
        """The arguments of a node or a job, behind a separator but the first."""
        given = []
        for key, what in (it.split() for it in takes):
            given += [(what, value) for value in (node[key[1:]] if key[0] == "*" else [node[key]])]
        for number, (what, value) in enumerate(given):
            if number or separator == " ":
                self.put(separator.strip())
                self.gap(separator == " ")
            if what == "sender":
                self.node(value)
            elif what in ("job", "element"):
                self.put(value["job"])
                self.listed(value, JOBS[value["job"]], " ")
            elif what in notation_reader.WORDS:
                self.put(value)
            else:
                self.constant(value)
            self.gap(what in ("number", "scalar", "constant") and separator == " ")

    def node(self, node):
        do = node["do"]
        if do in ADAPTORS:
            self.node(node["child"])
            self.gap()
            self.put("|")
            self.gap()
        self.places[id(node)] = place_after(self.text)
        self.put(do)
        takes = {**NODES, **ADAPTORS}[do]
        if takes is not None:
            self.gap()
            self.put("(")
            self.gap()
            self.listed(node, takes, ",")
            self.put(")")

    def plan(self, plan):
        keys = [key for key in plan if key != "root"]
        self.dice.shuffle(keys)
        for key in keys:
            self.gap()
            self.put(f"{key} {plan[key]}")
            self.gap(True)
        self.node(plan["root"])
        self.gap()
        return self.text


# what a node becomes that is refused with the plan
PLANTED = [
    {"do": "delay", "turns": 1_000_001}, {"do": "when_all", "children": [{"do": "just_stopped"}]},
    {"do": "just_error", "error": "no name"}, {"do": "just", "values": ["x" * 4_097]},
    {"do": "just", "values": [0] * 65},
    {"do": "then", "child": {"do": "just", "values": [[1]]}, "job": {"job": "append", "text": "kinds"}},
]  # fmt: skip


def planted(dice, plan):
    """A text of the plan in which one node is refused with the plan, and the place of that."""
    plan = json.loads(json.dumps(plan))
    nodes = []

    def walk(node):
        nodes.append(node)
        for key in ("child", "first", "second"):
            if key in node:
                walk(node[key])
        for below in node.get("children", []) + node.get("bodies", []):
            walk(below)

    walk(plan["root"])
    chosen, printer = dice.choice(nodes), Printer(dice)
    chosen.clear()
    chosen.update(json.loads(json.dumps(dice.choice(PLANTED))))
    return printer.plan(plan), printer.places[id(chosen)]


def try_read(program, made):
    """A text that is laid out at random is read as its plan."""
    text, plan = made
    status, out, notes = show(program, ["write"], text)
    came = json.loads(out) if (status, notes) == (0, "") else None
    return [(text, json.dumps(DEFAULTS | plan), f"{status} {out} {notes}")] if came != DEFAULTS | plan else []


def spoil(dice, text):
    """The text with one token lost, doubled, replaced or added, or cut off."""
    spans = [it.span() for it in re.finditer(r'"(?:[^"\\]|\\.)*"|\[[^]]*\]|[|(),]|[^\s|(),"\[]+', text)]
    start, end = dice.choice(spans)
    change = dice.randrange(5)
    if change == 0:
        return text[:start] + text[end:]
    if change == 1:
        return text[:end] + " " + text[start:]
    if change == 2:
        return text[:start] + dice.choice(STRAY) + text[end:]
    if change == 3:
        return text[:start] + dice.choice(STRAY) + " # why\n " + text[start:]
    return text[: dice.randrange(start, end + 1)]


def spoilt(dice, text):
    """A text that the reader refuses, and the place; or none."""
    broken = spoil(dice, text)
    try:
        notation_reader.read(broken)
    except Refused as refused:
        return broken, refused.place
    return None


def examples():
    """The plans of docs/PLANS.md and of samples/."""
    with open(os.path.join(TOP, "docs", "PLANS.md"), encoding="utf-8") as file:
        texts = re.findall(r"^```json\n(.*?)^```", file.read(), re.M | re.S)
    for name in sorted(glob.glob(os.path.join(TOP, "samples", "*.json"))):
        with open(name, encoding="utf-8") as file:
            texts.append(file.read())
    return [json.loads(text) for text in texts]


def deepest():
    """Plans of as many nodes on a path as there may be."""
    pipe = nest = {"do": "input"}
    for _ in range(notation_reader.DEEPEST - 1):
        pipe = {"do": "then", "child": pipe, "job": {"job": "neg"}}
        nest = {"do": "starts_on", "on": "loop", "child": nest}
    return [{"version": 1, "input": "int", "root": root} for root in (pipe, nest)]


def run(program, count=COUNT):
    """Tries so many plans made at random, and the others. The answer is how many passed and how many failed."""
    runs, program, dice = os.path.abspath(program), beside(os.path.abspath(program), "exec_show"), random.Random(SEED)
    cores = os.cpu_count() or 1
    plans = [(f"notation.py: example {number}", plan) for number, plan in enumerate(examples() + deepest())]
    plans = [it for it in plans if show(runs, ["run"], json.dumps(it[1]))[0] != REFUSED_PLAN]
    for number in range(count):
        plan = make_plan(dice)
        plans.append((f"notation.py: plan {number}", plan if number % 2 else twin_of(plan, number)))
    made = []
    while len(made) < SPOILT * count // COUNT:
        _, text, _ = show(program, ["text"], json.dumps(dice.choice(plans)[1]))
        broken = spoilt(dice, text)
        made += [(f"notation.py: spoilt text {len(made)}", broken)] if broken else []
    free = [(f"{title}, laid out at random", (Printer(dice).plan(plan), plan)) for title, plan in plans[:: 3]]
    for number in range(SPOILT * count // COUNT):
        made.append((f"notation.py: planted fault {number}", planted(dice, dice.choice(plans)[1])))
    wrong = [(f"notation.py: {first + rest!r}", (first + rest, place_after(first))) for first, rest in WRONG]
    counts = [
        try_each(plans, lambda plan: try_back(program, plan), cores),
        try_each(free, lambda one: try_read(program, one), cores),
        try_each(made, lambda one: try_place(program, one), cores),
        try_each(wrong, lambda one: try_place(program, one), cores),
        try_each([(f"notation.py: {it[0]}", it) for it in BY_OPERATORS], lambda it: try_operators(program, it), cores),
    ]
    return sum(it[0] for it in counts), sum(it[1] for it in counts)


def main():
    parser = argparse.ArgumentParser(description="Tries plans in the notation of senders.")
    parser.add_argument("--program", default=PROGRAM, metavar="PATH")
    parser.add_argument("--count", default=COUNT, type=int, metavar="N")
    given = parser.parse_args()
    passed, failed = run(given.program, given.count)
    print(f"{passed} passed, {failed} failed")
    return 1 if failed else 0


if __name__ == "__main__":
    sys.exit(main())
