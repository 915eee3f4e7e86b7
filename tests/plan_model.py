"""The definition of what a plan may complete with, once more, as sets: an independent reading that tests compare with.

A completion is a pair: ("value", data), ("error", name) or ("stopped", ()). A datum is an int, a text (str), a row (a
tuple of ints), or what stopped_as_optional gives: ("some", datum) or ("none",). Want of memory is allowed beside all of
them and stands in no set.
"""
import json
import re
from itertools import product

NEVER, MAY, STANDS = "never", "may", "stands"
STOPPED = ("stopped", ())
NUMBERS = 4_096
TEXT = 4_096
LEAST, MOST = -(2**63), 2**63 - 1


def value(*data):
    return ("value", data)


def error(name):
    return ("error", name)


def is_failure(completion):
    return completion[0] != "value"


# jobs


def fitting(number):
    """A number that fits 64 bits is a value."""
    return value(number) if LEAST <= number <= MOST else error("overflow")


def short_text(text):
    return value(text) if len(text.encode()) <= TEXT else error("too-long")


def quotient(number, by):
    """The quotient, cut towards zero."""
    return number // by if (number < 0) == (by < 0) else -(-number // by)


def at_index(job, index, number):
    """What an element job makes of one number at its index."""
    name = job["job"]
    if name == "within":
        return value(number) if job["lo"] <= number <= job["hi"] else error("out-of-range")
    if name == "div" and job["n"] == 0:
        return error("zero-divisor")
    made = {
        "add": lambda: number + job["n"], "sub": lambda: number - job["n"], "mul": lambda: number * job["n"],
        "div": lambda: quotient(number, job["n"]), "neg": lambda: -number, "index": lambda: number + index,
    }  # fmt: skip
    return fitting(made[name]())


def constants(values):
    return tuple(tuple(it) if isinstance(it, list) else it for it in values)


def apply(job, data):
    """What a job makes of data that it takes."""
    name = job["job"]
    made = {
        "fail": lambda: error(job["error"]),
        "iota": lambda: value(tuple(range(data[0]))) if 0 <= data[0] <= NUMBERS else error("out-of-range"),
        "sum": lambda: fitting(sum(sum(it) if isinstance(it, tuple) else it for it in data)),
        "append": lambda: short_text(data[0] + job["text"]),
        "join": lambda: short_text("".join(data)),
        "length": lambda: value(len(data[0].encode() if isinstance(data[0], str) else data[0])),
        "parse": lambda: parsed(data[0]),
        "show": lambda: value(str(data[0])),
        "give": lambda: value(*constants(job["values"])),
        "at": lambda: value(data[job["i"]]),
        "value_or": lambda: value(data[0][1] if data[0][0] == "some" else job["else"]),
        "pass": lambda: value(*data),
    }
    return made[name]() if name in made else at_index(job, 0, data[0])


def parsed(text):
    fits = re.fullmatch(r"-?[0-9]+", text) and LEAST <= int(text) <= MOST
    return value(int(text)) if fits else error("not-a-number")


def bulk(job, completion):
    """The row with the job applied to each number, or the failure of the least index."""
    if is_failure(completion):
        return completion
    made = [at_index(job, index, number) for index, number in enumerate(completion[1][0])]
    failed = [f"{it[1]}@{index}" for index, it in enumerate(made) if is_failure(it)]
    return error(failed[0]) if failed else value(tuple(it[1][0] for it in made))


# nodes


def channel(node):
    """The channel that a node listens to, and the data that it has there; None where the completion is none of it."""
    name = node["do"].rpartition("_")[2] if node["do"] != "then" else "value"
    return {
        "value": lambda it: it[1] if it[0] == "value" else None,
        "error": lambda it: (it[1],) if it[0] == "error" else None,
        "stopped": lambda it: () if it == STOPPED else None,
    }[name]


def body_at(bodies, number):
    return bodies[min(max(number, 0), len(bodies) - 1)]


def after_child(node, completion, below):
    """What a `then`, an `upon` or a let may complete with after this completion of its child."""
    data = channel(node)(completion)
    if data is None:
        return {completion}
    if "job" in node:
        return {apply(node["job"], data)}
    picked = apply(node["pick"], data)
    return {picked} if is_failure(picked) else below(body_at(node["bodies"], picked[1][0]), data)


def mapped(node, completion):
    """What a node with one child and no job of its own makes of the child's completion."""
    if node["do"] == "bulk":
        return bulk(node["job"], completion)
    if node["do"] == "stopped_as_optional":
        if completion == STOPPED:
            return value(("none",))
        return completion if is_failure(completion) else value(("some", completion[1][0]))
    return error(node["error"]) if completion == STOPPED else completion


def joins(ends):
    """Each child has a value."""
    values = ([data for kind, data in each if kind == "value"] for each in ends)
    return {value(*sum(chosen, ())) for chosen in product(*values)}


def fails(ends, others):
    """A child fails first, by `ends`; what the others end with then is of `others`."""
    found = set()
    for first, each in enumerate(ends):
        beside = [those for place, those in enumerate(others) if place != first]
        found |= {it for it in each if it[0] == "error"}
        if STOPPED in each:
            found |= {it for those in beside for it in those if it[0] == "error"}
            if all(any(it[0] != "error" for it in those) for those in beside):
                found.add(STOPPED)
    return found


def or_stopped(state, completions):
    return {NEVER: completions, MAY: completions | {STOPPED}, STANDS: {STOPPED}}[state]


def allowed(node, data, record, state):
    """The completions of a node under arguments, a record's number and a stop state."""
    do = node["do"]

    def child(key="child", under=None):
        return allowed(node[key], data, record, under or state)

    if do == "input":
        return {value(*data)}
    if do == "just":
        return {value(*constants(node["values"]))}
    if do in ("just_error", "just_stopped"):
        return {error(node["error"]) if do == "just_error" else STOPPED}
    if do in ("schedule", "delay"):
        return or_stopped(state, {value()})
    if do == "read_env" and node["query"] == "record":
        return {value(record)}
    if do == "read_env":
        return {NEVER: {value(0)}, MAY: {value(0), value(1)}, STANDS: {value(1)}}[state]
    if do in ("starts_on", "continues_on"):
        return or_stopped(state, child())
    if do == "unstoppable":
        return child(under=NEVER)
    if do == "when_all":
        ends = [allowed(it, data, record, state) for it in node["children"]]
        others = [allowed(it, data, record, MAY) for it in node["children"]]
        return or_stopped(state, joins(ends) | fails(ends, others))
    if do == "ahead":
        firsts, seconds = child("first"), child("second")
        failed = {it for it in seconds if is_failure(it)}
        values = [it for it in seconds if not is_failure(it)]
        return failed | {it if is_failure(it) else value(*it[1], *of[1]) for it in firsts for of in values}
    if do in ("bulk", "stopped_as_optional", "stopped_as_error"):
        return {mapped(node, it) for it in child()}

    def below(body, values):
        return allowed(body, values, record, state)

    return set().union(*(after_child(node, it, below) for it in child()))


# lines


def datum_text(datum):
    if isinstance(datum, int):
        return str(datum)
    if isinstance(datum, str):
        return json.dumps(datum)
    if datum and datum[0] in ("some", "none"):
        return " ".join([datum[0], *map(datum_text, datum[1:])])
    return "[" + ",".join(map(str, datum)) + "]"


def line(record, completion):
    """The line that is printed of a record."""
    kind, held = completion
    words = {"value": lambda: map(datum_text, held), "error": lambda: [held], "stopped": lambda: []}[kind]()
    return " ".join([str(record), kind, *words])
