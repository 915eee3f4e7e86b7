#!/usr/bin/env python3
"""Writes docs/PLANS.md: each node and job of a plan with a small plan, records, and what the program printed. And
writes docs/plan.schema.json and the manual page docs/exec_plan.5, with the same words on each node and job
(docs/make_schema.py, docs/make_page.py).

    docs/make_plans.py crates/exec_run/out/exec_run

Pictures, and plans in the notation of senders, are what exec_show prints, built beside it.

Each plan is tried against the schema where Python has the package jsonschema, and so are those of
tests/cases/plan_files.json: the schema must pass what the program takes, and refuse what it refuses for its form,
for an unknown name, or for settings that exclude each other.
"""
import json
import os
import subprocess
import sys
import tempfile
import textwrap

from make_page import page_of
from make_schema import schema_of, schema_text

HERE = os.path.dirname(os.path.abspath(__file__))
# what a plan's canonical text has where the plan tells nothing
DEFAULTS = {"scope": "counting", "on_error": "go"}

INPUT = {"do": "input"}
STOPPED = {"do": "just_stopped"}


def plan_of(root, input="int", version=1, **settings):
    return {"version": version, "input": input, **settings, "root": root}


def job_of(job, **operands):
    return {"job": job, **operands}


def then(child, job, **operands):
    return {"do": "then", "child": child, "job": job_of(job, **operands)}


def just(*values):
    return {"do": "just", "values": list(values)}


def error(name):
    return {"do": "just_error", "error": name}


# a node, what it means, a plan and records
NODES = [
    (
        "input",
        "[exec.just] A value of the arguments. At the root of a plan these are the record's "
        "datum; in a body of a `let` they are what its child ended with.",
        plan_of(INPUT),
        ["5", "-1", "x"],
    ),
    (
        "just",
        "[exec.just] A value of these constants: numbers, texts, and rows of numbers; also none "
        "at all.",
        plan_of(just(1, 'a"b', [2, 3])),
        ["0"],
    ),
    (
        "just_error",
        "[exec.just] Ends by the error of this name.",
        plan_of(error("not.today")),
        ["0"],
    ),
    (
        "just_stopped",
        "[exec.just] Ends stopped.",
        plan_of(STOPPED),
        ["0"],
    ),
    (
        "schedule",
        "[exec.schedule] A value with no data, on the context `on`: `loop`, the run loop, or `pool`, "
        "the workers. Stopped in a record that was started after a stop request, and where one is made "
        "before the node is taken there.",
        plan_of({"do": "schedule", "on": "pool"}),
        ["0"],
    ),
    (
        "delay",
        "A value with no data, `turns` turns of the run loop, at most 1,000,000, after the one in which the "
        "loop first sees it parked, or later. Stopped in a record that was started after a stop request, and where one "
        "is made while it waits.",
        plan_of({"do": "delay", "turns": 1000}),
        ["0"],
    ),
    (
        "read_env",
        "[exec.read.env] `record` gives the record's number, `stop` gives 1 in a record that was "
        "started after a stop request, or where one was made before the node looked, and else 0.",
        plan_of(
            {
                "do": "when_all",
                "children": [{"do": "read_env", "query": "record"}, {"do": "read_env", "query": "stop"}],
            },
        ),
        ["7", "8"],
    ),
    (
        "then",
        "[exec.then] What the job gives for the child's value. Errors and stopped pass.",
        plan_of(then(INPUT, "mul", n=3)),
        ["5", "9223372036854775807"],
    ),
    (
        "upon_error",
        "[exec.then] What the job gives for the name of the child's error, a text. It must be of "
        "the kinds of the child's value.",
        plan_of({"do": "upon_error", "child": then(INPUT, "div", n=0), "job": job_of("length")}),
        ["5"],
    ),
    (
        "upon_stopped",
        "[exec.then] What the job gives for no data, where the child stopped.",
        plan_of({"do": "upon_stopped", "child": STOPPED, "job": job_of("give", values=[0])}),
        ["5"],
    ),
    (
        "let_value",
        "[exec.let] One of the bodies, run under the child's value as its arguments. The pick's "
        "number says which; a number below 0 means the first, one beyond the last means the last. "
        "The bodies give data of equal kinds, as far as they can give a value.",
        plan_of(
            {
                "do": "let_value",
                "child": INPUT,
                "pick": job_of("pass"),
                "bodies": [just(10), just(20), then(INPUT, "mul", n=100)],
            },
        ),
        ["7", "-1", "1"],
    ),
    (
        "let_error",
        "[exec.let] The same where the child ended by an error, under the error's name as a text. "
        "Child and bodies give data of equal kinds, as far as they can give a value.",
        plan_of(
            {
                "do": "let_error",
                "child": then(INPUT, "parse"),
                "pick": job_of("length"),
                "bodies": [just(-1)],
            },
            "text",
        ),
        ["42", "x"],
    ),
    (
        "let_stopped",
        "[exec.let] The same where the child stopped, under no data. Child and bodies give data of equal kinds, as "
        "far as they can give a value.",
        plan_of(
            {
                "do": "let_stopped",
                "child": STOPPED,
                "pick": job_of("give", values=[1]),
                "bodies": [just(1), just(2)],
            },
        ),
        ["0"],
    ),
    (
        "starts_on",
        "[exec.starts.on] The child, started in this context. Stopped in a record that was started "
        "after a stop request, and where one is made before the node is taken there.",
        plan_of({"do": "starts_on", "on": "pool", "child": then(INPUT, "neg")}),
        ["5"],
    ),
    (
        "continues_on",
        "[exec.continues.on] The child, whose completion goes on in this context. Stopped in a record "
        "that was started after a stop request, and where one is made before the node is taken there, "
        "whatever the child does.",
        plan_of({"do": "continues_on", "child": then(INPUT, "neg"), "on": "pool"}),
        ["5"],
    ),
    (
        "stopped_as_optional",
        "[exec.stopped.opt] `some` and the child's one datum, of the kind `of` (`int` or `text`),"
        " or `none` where it stopped.",
        plan_of(
            {
                "do": "when_all",
                "children": [
                    {"do": "stopped_as_optional", "of": "int", "child": INPUT},
                    {"do": "stopped_as_optional", "of": "text", "child": STOPPED},
                ],
            },
        ),
        ["5"],
    ),
    (
        "stopped_as_error",
        "[exec.stopped.err] This error where the child stopped.",
        plan_of({"do": "stopped_as_error", "child": STOPPED, "error": "stopped-early"}),
        ["0"],
    ),
    (
        "bulk",
        "[exec.bulk] The child's row with the job applied to each number. Where some fail, the "
        "failure of the least index, with `@` and the index behind its name.",
        plan_of({"do": "bulk", "child": INPUT, "job": job_of("within", lo=0, hi=9)}, "row"),
        ["[1,2,3]", "[]", "[4,70,80]"],
    ),
    (
        "when_all",
        "[exec.when.all] The data of 2 to 64 children, one after the other. The first child that has "
        "none requests a stop of the others. Then it is the first error in the order of the children, "
        "of those that failed before they saw that request, else of the others, and stopped where "
        "there is no error. Stopped in a record that was started after a stop request.",
        plan_of({"do": "when_all", "children": [INPUT, just("and"), {"do": "read_env", "query": "record"}]}),
        ["5", "6"],
    ),
    (
        "unstoppable",
        "[exec.unstoppable] The child, as if no stop was requested. Version 2.",
        plan_of(
            {"do": "unstoppable", "child": {"do": "starts_on", "on": "pool", "child": INPUT}},
            version=2,
            stop_after=1,
        ),
        ["5"],
    ),
    (
        "ahead",
        "After `spawn_future` of P3149: the data of the first and then of the second. Where the second "
        "has no value, its completion, whatever the first does; else the first's, where that has none. "
        "Version 2; not below a `when_all`, an `unstoppable` or another `ahead`.",
        plan_of({"do": "ahead", "first": then(INPUT, "mul", n=2), "second": then(INPUT, "add", n=1)}, version=2),
        ["5"],
    ),
]
# a job, a plan, records and what it means
JOBS = [
    (
        "add",
        plan_of(then(INPUT, "add", n=1)),
        ["5", "9223372036854775807"],
        "`x + n`. A result beyond 64 bits is the error `overflow`, as with the next four.",
    ),
    (
        "sub",
        plan_of(then(INPUT, "sub", n=1)),
        ["5"],
        "`x - n`.",
    ),
    (
        "mul",
        plan_of(then(INPUT, "mul", n=-2)),
        ["5"],
        "`x * n`.",
    ),
    (
        "div",
        plan_of(then(INPUT, "div", n=2)),
        ["5", "-5"],
        "`x / n`, cut towards zero. `zero-divisor` where n is 0.",
    ),
    (
        "neg",
        plan_of(then(INPUT, "neg")),
        ["5", "-9223372036854775808"],
        "`-x`.",
    ),
    (
        "within",
        plan_of(then(INPUT, "within", lo=1, hi=9)),
        ["5", "10"],
        "x where `lo <= x <= hi`, else `out-of-range`.",
    ),
    (
        "index",
        plan_of({"do": "bulk", "child": INPUT, "job": job_of("index")}, "row"),
        ["[10,10,10]"],
        "x and its index in the row. Only under `bulk`; the six jobs above stand there too.",
    ),
    (
        "fail",
        plan_of(then(INPUT, "fail", error="no-such-day")),
        ["5"],
        "This error, whatever the data.",
    ),
    (
        "iota",
        plan_of(then(INPUT, "iota")),
        ["3", "-1"],
        "The numbers from 0 to x - 1, as a row. `out-of-range` below 0 and above 4,096.",
    ),
    (
        "sum",
        plan_of(then({"do": "when_all", "children": [INPUT, just([1, 2], 3)]}, "sum")),
        ["5"],
        "The exact sum of all numbers in ints and rows, 0 for none. `overflow` beyond 64 bits.",
    ),
    (
        "append",
        plan_of(then(INPUT, "append", text="!"), "text"),
        ["hi"],
        "The text and then this one. `too-long` above 4,096 bytes.",
    ),
    (
        "join",
        plan_of(then({"do": "when_all", "children": [INPUT, just("-"), INPUT]}, "join"), "text"),
        ["ab"],
        "The texts one after the other. `too-long` above 4,096 bytes.",
    ),
    (
        "length",
        plan_of(then(INPUT, "length"), "text"),
        ["four"],
        "How many bytes a text has, or numbers a row.",
    ),
    (
        "parse",
        plan_of(then(INPUT, "parse"), "text"),
        ["007", "seven"],
        "The number that a text says, else `not-a-number`.",
    ),
    (
        "show",
        plan_of(then(INPUT, "show")),
        ["-7"],
        "The decimal of a number, as a text.",
    ),
    (
        "give",
        plan_of(then(INPUT, "give", values=[1, "two", [3]])),
        ["0"],
        "These constants, whatever the data.",
    ),
    (
        "at",
        plan_of(then(just("a", "b", "c"), "at", i=1)),
        ["0"],
        "The datum at this place, from 0 to 63.",
    ),
    (
        "value_or",
        plan_of(then({"do": "stopped_as_optional", "of": "int", "child": STOPPED}, "value_or", **{"else": -1})),
        ["0"],
        "What a maybe holds, or this number, or text, where it holds nothing.",
    ),
    (
        "pass",
        plan_of(
            {
                "do": "let_value",
                "child": INPUT,
                "pick": job_of("pass"),
                "bodies": [just("zero"), just("more")],
            },
        ),
        ["0", "3"],
        "The data as they are. Serves as the pick of a let whose child gives the number.",
    ),
]
# a setting, what it means, a plan, records and options
SETTINGS = [
    (
        "stop_after",
        "A stop is requested once so many records were read, bad ones among them, before the last of "
        "them is started.",
        plan_of({"do": "starts_on", "on": "loop", "child": INPUT}, stop_after=2),
        ["1", "2", "3"],
        "--window 1",
    ),
    (
        "on_error",
        "With `stop` a stop is requested once a line with an error was written.",
        plan_of({"do": "starts_on", "on": "loop", "child": then(INPUT, "div", n=0)}, on_error="stop"),
        ["1", "2", "3"],
        "--window 1",
    ),
]

# what notes say, and a plan that is refused so
REFUSED = [
    ("P2 not JSON", "{"),
    ("P3 form", plan_of(then(INPUT, "add"))),
    ("P4 unknown name", plan_of({"do": "retry", "child": INPUT})),
    ("P4 unknown name", plan_of({"do": "unstoppable", "child": INPUT})),
    ("P5 limit", plan_of({"do": "when_all", "children": [INPUT]})),
    ("P6 kinds", plan_of(then(INPUT, "append", text="x"))),
    ("P7 settings exclude each other", plan_of(INPUT, scope="simple", stop_after=1)),
]

FRONT = """# Plans

A plan is a sender expression in JSON. `exec_run run plan.json` runs it for each line of standard input.
Every example below is a whole plan, and every output is what the program printed: `make docs` writes this page, and
docs/plan.schema.json, a JSON Schema of plans for editors, with the same words (docs/make_plans.py).

**A plan runs on the running table**, each record as an operation of its own, at most a window of them
at once. The calling thread serves the loop, and workers serve the pool, each on a thread of its own (`--workers`); with
no worker the calling thread serves the pool too, and a plan that puts nothing there starts no thread. A stop request
reaches the records that are started after it, and those in flight that look for one: in a hop, before a `when_all`, in
a `delay` or in a `read_env`.

The first child of an `ahead` is an operation of its own, too, in the same scope: it runs beside the second, and to its
end where nobody wants what it completes with any more. Of a plan with an `ahead` at most 192 records are worked on at
once.

## A plan

| key | value |
|---|---|
| `version` | 1, or 2 for `unstoppable`, `ahead` and 1,024 nodes |
| `input` | the kind of the records: `"int"`, `"text"` or `"row"` |
| `root` | a node |
| `scope` | `"counting"`, where none is said, or `"simple"`, which takes no stop request |
| `stop_after` | no such rule where none is said; else 1 to 1,000,000 |
| `on_error` | `"go"`, where none is said, or `"stop"` |

A record of kind `int` is a decimal number of 64 bits, one of kind `text` is UTF-8 of at most 4,096 bytes,
one of kind `row` is `[1,2,3]`, at most 4,096 numbers without blanks. A value is a list of at most 64
numbers, texts and rows. The name of an error is 1 to 64 letters, digits, `-`, `_`, `.` or `@`. Plans have
at most 256 nodes (1,024 in version 2), a `bulk` counting nine, and are at most 56 nodes deep. A number is a JSON
integer of 64 bits: `1.0`, `1e2` and `-0` are none. Of a key that stands twice the last counts.

## Exit statuses

| status | meaning | notes, on standard error |
|---|---|---|
| 0 | all lines are values; or a trace is taken, or a schedule was replayed | |
| 1 | some line is a bad record, an error or stopped; or a trace is refused at an entry | |
| 2 | the words ask for nothing | how the program is called |
| 3 | the plan, trace or schedule is refused | `plan refused: ..`, `trace refused: ..` |
| 4 | there was no memory | `out of memory` |
| 5 | a read failed | `read fault` |
| 6 | a write failed | `write fault` |
| 7 | more than 1,000,000 records or 268,435,456 bytes | `limit` |

A plan is refused for the first of these that holds, wherever in the file. A file of more than 1,048,576 bytes is
refused by `plan refused: P1 too long`. `P4 unknown name` is also told of a name of another version: `unstoppable` and
`ahead` aren't known in version 1. `exec_show plan plan.json` finds the place ("Pictures", below).

| a plan | what notes say |
|---|---|"""

SUMMARIES = """## Summaries and generated records

With `--summary` one line tells how many records ended in which way, and the exact sum of all numbers in
values. `exec_run gen PLAN N` makes N records of the plan's kind by a fixed formula, reads
nothing, and prints that line.
"""


NOTATION = """## The notation of senders

`exec_show write FILE` reads a plan as P2300 writes senders, and prints it as JSON in one line; `exec_show text
plan.json` prints a plan in that notation, in lines of at most 100 columns, and what it prints is read back as the
same plan. Nodes, jobs, contexts, kinds and settings have the names that they have in JSON.

- Settings come first, each a name and its value: `version 2`, `input text`, `scope simple`, `on_error stop`,
  `stop_after 5`. Without them the version is 1 and the input `int`; of a setting that stands twice the last counts.
- Then comes a sender: `input`, `just(1, "a", [2,3])`, `just_error("name")`, `just_stopped`, `schedule(pool)`,
  `delay(3)`, `read_env(record)`, `starts_on(pool, sender)`, `when_all(sender, ..)` or `ahead(sender, sender)`.
- A bar hands a sender to the node behind it: `then(job)`, `upon_error(job)`, `upon_stopped(job)`, `let_value(job,
  sender, ..)`, `let_error(job, sender, ..)`, `let_stopped(job, sender, ..)`, `continues_on(pool)`,
  `stopped_as_optional(int)`, `stopped_as_error("name")`, `bulk(job)` or `unstoppable`. The sender is its `child`.
- A job is its name and its operands, in the order of its keys in the section on jobs, without commas: `add 1`,
  `within 1 9`, `append "x"`, `give 1 "two" [3]`.
- Numbers, texts and rows are those of JSON. Blanks and line ends stand anywhere between words and marks, and behind
  the commas of a row; from `#` to the end of its line stands a comment. A text goes on in the next one behind a
  backslash: `"ab"\\` and `"cd"` on the next line are `"abcd"`.

A text that is no plan is refused in one line, with its line and column, which counts characters, and the exit status
is 1. First a text is refused for the first word or mark that can't stand there, and then as a plan is, with the place
of the node.
"""


TEXTS = [
    "input int\non_error stop\n\n# cents, and what they come to with tax\n"
    "input | then(mul 119) | then(div 100) | then(show) | upon_error(append \"?\")\n",
    "input int\nwhen_all(\n  starts_on(pool, inptu | then(mul 2)),\n  input\n) | then(sum)\n",
    "input int\nwhen_all(input, input | then(show)) | then(sum)\n",
    "ahead(input | then(mul 2), input)\n",
    "schedule(pol)\n",
]

PICTURES = """## Pictures

`exec_show plan plan.json`, a program beside `exec_run`, reads no records: it prints the plan as a digraph in the
language of Graphviz, for `dot -Tsvg`. A box is a node, with its number and the name that the standard has for it;
arrows go to its children, in order, and dashed ones, with the body's number, to the bodies of a let. The parts of a bulk
are not drawn. Of neighbours that are equal, all below them too, the first alone is drawn, and its box says how many there
are, as `x51`. The colour of a box is the context in which its node is started, that of its border the context in which it
completes; a legend says which is which. Where a hop finds a stop that was requested before its record was started, it
completes where it was started, and so may what follows it. The loop starts the children of an `ahead`, and it completes
there. A box says

- the node's own data, in the words of the plan file: its job, the values of a `just`, the turns of a `delay`, a let's
  pick, a context, a query, a kind or an error;
- which stop source its callback is registered on: that of the scope, that of a `when_all`, by its number, or none below
  an `unstoppable`;
- what it can complete with: `set_value` with the kinds of the data, `set_error`, `set_stopped`. What isn't named never
  comes, want of memory aside. Equal kinds that stand side by side are counted, as `int x51`.

Of a file that is no plan it prints in one line for which of the causes above it is refused, and where: a node by its path
from the root, as `root.children[1].child`; the plan's own keys, which are those beside `root`; or a line and a column. Of
several nodes that have the fault the first is told, and a node comes before those below it; of kinds that don't match it
is the first in the order of numbers. Behind the place stands the word that is wrong, and what was wanted there: `unknown
key "comment"; then takes child, do, job`, or `"turns" takes an integer from 0 to 1000000, not -1`. The exit status is 0
with a picture, 1 with such a line, and otherwise as above.
"""

DRAWN = """The plan of samples/fan_out.json, lets in a let, and a `when_all` of 51 equal children, as `dot` draws them (the plans
of the last two stand in docs/pictures):

![A when_all of three children, two of which start on the pool](pictures/fan_out.svg)

![Lets in a let: dashed arrows go to the bodies, with their numbers](pictures/lets.svg)

![A when_all, and one box that stands for its 51 children](pictures/fan.svg)
"""


def texts():
    """What the page says of each node, and of each job."""
    return {name: text for name, text, _, _ in NODES}, {name: text for name, _, _, text in JOBS}


def validator():
    """Says what the schema finds wrong with a plan, or nothing where the package isn't there."""
    try:
        import jsonschema
    except ImportError:
        return None
    schema = jsonschema.Draft4Validator(schema_of(*texts()))
    sys.setrecursionlimit(20_000)
    return lambda plan: [error.message for error in schema.iter_errors(plan)]


def parsed(text):
    """The JSON value of a text, in which -0 is no integer; none where it is no JSON."""
    try:
        return json.loads(text, parse_int=lambda digits: -0.0 if digits == "-0" else int(digits))
    except ValueError:
        return None


def try_schema(faults):
    """Tries the schema on the plans of the program's cases, but for those that stand there in pieces."""
    with open(os.path.join(HERE, "..", "tests", "cases", "plan_files.json"), encoding="utf-8") as file:
        cases = [case for case in json.load(file) if "files" in case]
    for case in cases:
        plan = parsed(compact(case["files"]["plan.json"]))
        wrong = plan is not None and faults(plan)
        if wrong and case["status"] != 3:
            sys.exit(f"the schema refuses: {case['name']}: {wrong}")
        if plan is not None and not wrong and case["notes"][14:16] in ("P3", "P4", "P7"):
            sys.exit(f"the schema passes: {case['name']}")


def compact(plan):
    return plan if isinstance(plan, str) else json.dumps(plan, separators=(",", ":"))


def call(exe, plan, records, words=(), command="run", count=()):
    """The exit status, the output and the notes of one run of the program."""
    with tempfile.TemporaryDirectory() as folder:
        path = os.path.join(folder, "plan.json")
        with open(path, "w", encoding="utf-8") as file:
            file.write(compact(plan))
        text = "".join(record + "\n" for record in records)
        ran = subprocess.run([exe, command, path, *count, *words], input=text, capture_output=True, text=True)
    return ran.returncode, ran.stdout, ran.stderr


def wrapped(text):
    return "\n".join(textwrap.wrap(text, 100, break_long_words=False, break_on_hyphens=False))


def notation(exe, plan):
    """A plan in the notation, which is read back as that plan."""
    status, text, notes = call(shower(exe), plan, [], command="text")
    if status or notes:
        sys.exit(f"a plan in the notation: {status} {notes}")
    status, back, notes = call(shower(exe), text, [], command="write")
    if status or notes or json.loads(back) != DEFAULTS | plan:
        sys.exit(f"a text read back: {status} {back} {notes}")
    return text


def example(exe, faults, name, text, plan, records, words=()):
    status, out, notes = call(exe, plan, records, words)
    wrong = faults and faults(plan)
    if wrong or notes or status > 1:
        sys.exit(f"{name}: {wrong} {status} {notes}")
    shown = ", ".join(f"`{record}`" for record in records)
    options = f", with `{' '.join(words)}`," if words else ""
    return (
        f"### `{name}`\n\n{wrapped(text)}\n\n```json\n{compact(plan)}\n```\n\n"
        f"In the notation of senders:\n\n```text\n{notation(exe, plan)}```\n\n"
        f"Records {shown}{options} give, with exit status {status}:\n\n```text\n{out}```\n"
    )


def refusal(exe, name, plan):
    status, _, notes = call(exe, plan, ["0"])
    if status != 3 or notes != f"plan refused: {name}\n":
        sys.exit(f"{name}: {status} {notes}")
    return f"| `{compact(plan)}` | `{notes.strip()}` |"


def summaries(exe):
    plan = plan_of(then(INPUT, "add", n=1))
    records = ["5", "abc", "9223372036854775807", "-1"]
    shown = ", ".join(f"`{record}`" for record in records)
    _, summary, _ = call(exe, plan, records, ["--summary"])
    _, made, _ = call(exe, plan, [], command="gen", count=["3"])
    return (
        f"{SUMMARIES}\n```json\n{compact(plan)}\n```\n\n"
        f"Records {shown}, with `--summary`, give:\n\n```text\n{summary}```\n\n"
        f"`gen` with the number 3 gives:\n\n```text\n{made}```\n"
    )


def shower(exe):
    """The program that shows, as it was built beside this one."""
    crates, ending = os.path.split(os.path.dirname(os.path.dirname(exe)))[0], os.path.basename(exe)[len("exec_run"):]
    return os.path.join(crates, "exec_show", "out", "exec_show" + ending)


def pictures(exe):
    hop = {"do": "starts_on", "on": "pool", "child": then(INPUT, "mul", n=2)}
    plan = plan_of(then({"do": "when_all", "children": [hop, INPUT]}, "sum"))
    status, picture, notes = call(shower(exe), plan, [], command="plan")
    if status or notes:
        sys.exit(f"a picture: {status} {notes}")
    bad = plan_of(then({"do": "when_all", "children": [INPUT, then(INPUT, "append", text="x")]}, "sum"))
    status, sentence, notes = call(shower(exe), bad, [], command="plan")
    if status != 1 or notes:
        sys.exit(f"a refusal: {status} {notes}")
    return (
        f"{PICTURES}\n```json\n{compact(plan)}\n```\n\ngives\n\n```text\n{picture}```\n\n"
        f"{DRAWN}\n```json\n{compact(bad)}\n```\n\ngives\n\n```text\n{sentence}```\n"
    )


def notations(exe):
    """The notation: its page, a plan, and texts that are refused."""
    page = [NOTATION]
    for text in TEXTS:
        status, out, notes = call(shower(exe), text, [], command="write")
        if status > 1 or notes:
            sys.exit(f"a text: {status} {notes}")
        page.append(f"```text\n{text}```\n\ngives\n\n```{'text' if status else 'json'}\n{out}```\n")
    return "\n".join(page)


def main():
    exe = os.path.abspath(sys.argv[1])
    faults = validator()
    if faults:
        try_schema(faults)
    page = [FRONT]
    page += [refusal(exe, name, plan) for name, plan in REFUSED]
    page.append("\n## Nodes\n")
    page += [example(exe, faults, name, text, plan, records) for name, text, plan, records in NODES]
    page.append("## Jobs\n\nA job is an operation on the data of a value.\n")
    page += [example(exe, faults, name, text, plan, records) for name, plan, records, text in JOBS]
    page.append(
        "## Stop rules\n\n"
        "In a record that is started after a stop request each `schedule`, `delay`, `when_all` and hop to a context\n"
        "ends stopped, save below an `unstoppable`. Up to a window of records are started before the line of the\n"
        "first of them is written, and a request may stop these too; with a window of one each line is written\n"
        "before the next record is started.\n"
    )
    for name, text, plan, records, words in SETTINGS:
        page.append(example(exe, faults, name, text, plan, records, words.split()))
    page.append(summaries(exe))
    page.append(notations(exe))
    page.append(pictures(exe))
    written = {
        "PLANS.md": "\n".join(page),
        "plan.schema.json": schema_text(*texts()),
        "exec_plan.5": page_of(*texts(), REFUSED),
    }
    for name, text in written.items():
        with open(os.path.join(HERE, name), "w", encoding="utf-8") as file:
            file.write(text)


if __name__ == "__main__":
    main()
