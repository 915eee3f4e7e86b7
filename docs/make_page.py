"""The manual page exec_plan(5), docs/exec_plan.5, which docs/make_plans.py writes: the settings, nodes, jobs and refusals
of a plan, with the words of docs/PLANS.md and the keys of docs/make_schema.py.
"""
import json
import os
import re
import textwrap

from make_schema import ELEMENT_JOBS, NODES, OTHER_JOBS, schema_of

WIDTH = 80
SENDERS = os.path.join(os.path.dirname(os.path.abspath(__file__)), "..", "samples", "senders.py")
TOP = r"""
.\" The manual page of plans, written by docs/make_plans.py: `man -l docs/exec_plan.5` shows it.
.TH EXEC_PLAN 5 2026-11-29 Hulgabe "File Formats"
.SH NAME
exec_plan \- a plan of exec_run: a sender expression in JSON
.SH DESCRIPTION
A plan is an object.
Its
.B root
is a node; a node is an object with the key
.BR do ,
its name, and further keys, each of which it needs.
So is a job, with the key
.BR job .
A key that isn't told here is refused.
A file has at most 1,048,576 bytes, and a plan 256 nodes (1,024 in version 2), a
.B bulk
counting nine; it is at most 56 nodes deep.
.BR exec_run (1)
runs a plan,
.BR exec_show (1)
draws it, or says where it is refused.
""".lstrip()

# what stands at the keys of nodes and jobs
KEYS = {
    "child, first, second": "A node.",
    "children": "An array of 2 to 64 nodes.",
    "bodies": "An array of 1 to 16 nodes.",
    "job": "A job.",
    "pick": "A job that gives a number.",
    "values": "An array of at most 64 constants: numbers, texts, and rows, which are arrays of at most 4,096 numbers.",
    "n, lo, hi": "A number: an integer of 64 bits. `1.0`, `1e2` and `-0` are none.",
    "text": "A text of at most 4,096 bytes in UTF-8.",
    "error": "The name of an error: 1 to 64 letters, digits, `-`, `_`, `.` or `@`.",
    "on": "`loop`, the run loop, or `pool`, the workers.",
    "turns": "A number from 0 to 1,000,000.",
    "query": "`stop` or `record`.",
    "of": "`int` or `text`.",
    "i": "A number from 0 to 63.",
    "else": "A number or a text.",
}

# what each refusal means
REFUSALS = {
    "P1 too long": "The file has more than 1,048,576 bytes.",
    "P2 not JSON": "The file is no UTF-8, no JSON, or nests more than 127 deep.",
    "P3 form": "A value has the wrong type, a key that is needed is missing, or the name of an error is none.",
    "P4 unknown name": "A key, node, job or other word isn't known; or it is one of another version, as `ahead` and "
    "`unstoppable` in a plan of version 1.",
    "P5 limit": "A number, a length or a count is outside its limits, or an `ahead` stands where none may.",
    "P6 kinds": "A job or node doesn't take what its child gives.",
    "P7 settings exclude each other": "A simple scope takes no stop request, and so no stop rule.",
}

FILES = r"""
.SH FILES
Below the prefix of the installation:
.TP
.I share/exec_run/plan.schema.json
A JSON Schema of plans, for editors.
""".lstrip()
IN_PYTHON = r"""
.TP
.I share/exec_run/senders.py
Writes plans by operators in Python.
""".lstrip()
SEE_ALSO = r"""
.SH SEE ALSO
.BR exec_run (1),
.BR exec_show (1).
Of the repository: docs/PLANS.md has each node and job with a plan, records, and
what they give.
""".lstrip()


def escaped(text):
    """The text for a line of the page; what stands between backquotes in bold."""
    text = text.replace("\\", "\\e").replace("-", "\\-")
    return re.sub(r"`([^`]+)`", r"\\fB\1\\fP", text)


def sentences(text):
    """The text in lines, a sentence beginning a line."""
    lines = []
    for sentence in re.split(r"(?<=[.:]) (?=[A-Z`\[])", text):
        lines += textwrap.wrap(escaped(sentence), WIDTH, break_long_words=False, break_on_hyphens=False)
    return "".join(("\\&" if line[0] in ".'" else "") + line + "\n" for line in lines)


def tagged(tag, text):
    return f".TP\n{tag}\n{sentences(text)}"


def named(name, keys, text):
    """A node or a job with its keys."""
    behind = f' " {escaped(", ".join(keys))}"' if keys else ""
    return tagged(f".{'BR' if keys else 'B'} {escaped(name)}{behind}", text)


def settings():
    """The keys of a plan, by the schema. Its words on versions 1 and 2 stand there too."""
    schema, found = schema_of({name: "" for name in NODES}, {name: "" for name in {**ELEMENT_JOBS, **OTHER_JOBS}}), []
    for key, said in schema["properties"].items():
        if key == "root":
            found.append(tagged(".B root", "A node."))
            continue
        if "enum" in said:
            *others, last = (f"`{value}`" for value in said["enum"])
            values = f"{', '.join(others)} or {last}"
        else:
            values = f"{said['minimum']:,} to {said['maximum']:,}"
        needed = f", `{said['default']}` where none is said" if "default" in said else ""
        optional = "" if key in schema["required"] or needed else ", or none"
        found.append(tagged(f".B {key}", f"{values}{needed}{optional}. {said['description']}"))
    return "".join(found)


def refusals(refused):
    """What is told of a plan that is none, and plans of which it is told."""
    found = []
    for name, words in REFUSALS.items():
        found.append(tagged(f".B {name}", words))
        for plan in [plan for told, plan in refused if told == name]:
            text = plan if isinstance(plan, str) else json.dumps(plan, separators=(",", ":"))
            found.append(f".IP\n.EX\n{escaped(text)}\n.EE\n")
    return "".join(found)


def page_of(nodes, jobs, refused):
    """The page, with these texts on nodes and jobs by their names, and plans that are refused, each behind what notes
    say of it."""
    parts = [TOP, ".SH SETTINGS\n", settings(), ".SH KEYS\n"]
    parts += [tagged(f".B {keys}", text) for keys, text in KEYS.items()]
    parts.append(".SH NODES\n")
    parts += [named(name, keys, nodes[name]) for name, keys in NODES.items()]
    parts.append(".SH JOBS\n")
    parts += [named(name, keys, jobs[name]) for name, keys in {**ELEMENT_JOBS, **OTHER_JOBS}.items()]
    parts.append(".SH REFUSALS\nA plan is refused for the first of these that holds, wherever in the file.\n")
    parts += [refusals(refused), FILES, IN_PYTHON if os.path.exists(SENDERS) else "", SEE_ALSO]
    return "".join(parts)
