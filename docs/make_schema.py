"""The JSON Schema of plans, docs/plan.schema.json, which docs/make_plans.py writes: each node and job with its keys
here, and with the words of docs/PLANS.md on it.
"""
import json

WIDTH = 120
DRAFT = "http://json-schema.org/draft-04/schema#"
ABOUT = (
    "A sender expression, with the kind of its records, its scope and its stop rules. What this schema refuses the "
    "program refuses. Beside it a plan's kinds must match; it has at most 256 nodes (1,024 in version 2), a bulk "
    "counting nine, and is at most 56 nodes deep; a text is counted in bytes; -0 is no number, and of a key that "
    "stands twice the last counts. It is of draft 4, in which 1.0 is no integer."
)


def of(name):
    return {"$ref": f"#/definitions/{name}"}


def one_of(*values):
    return {"enum": list(values)}


def integer(least, most):
    return {"type": "integer", "minimum": least, "maximum": most}


ANY = {}
JOB, NUMBER, ERROR, CONTEXT = of("job"), of("number"), of("error_name"), of("context")
BODIES = {"type": "array", "minItems": 1, "maxItems": 16}
LET = {"child": ANY, "pick": JOB, "bodies": BODIES}
UPON = {"child": ANY, "job": JOB}

# the keys of a node beside `do`; what stands at `child`, `bodies` and their kin is said once for all nodes
NODES = {
    "input": {},
    "just": {"values": of("constants")},
    "just_error": {"error": ERROR},
    "just_stopped": {},
    "schedule": {"on": CONTEXT},
    "delay": {"turns": integer(0, 1_000_000)},
    "read_env": {"query": one_of("stop", "record")},
    "then": UPON,
    "upon_error": UPON,
    "upon_stopped": UPON,
    "let_value": LET,
    "let_error": LET,
    "let_stopped": LET,
    "starts_on": {"on": CONTEXT, "child": ANY},
    "continues_on": {"on": CONTEXT, "child": ANY},
    "stopped_as_optional": {"of": one_of("int", "text"), "child": ANY},
    "stopped_as_error": {"error": ERROR, "child": ANY},
    "bulk": {"child": ANY, "job": of("element_job")},
    "when_all": {"children": {"type": "array", "minItems": 2, "maxItems": 64}},
    "unstoppable": {"child": ANY},
    "ahead": {"first": ANY, "second": ANY},
}

# the keys of a job beside `job`
ELEMENT_JOBS = {
    "add": {"n": NUMBER},
    "sub": {"n": NUMBER},
    "mul": {"n": NUMBER},
    "div": {"n": NUMBER},
    "neg": {},
    "within": {"lo": NUMBER, "hi": NUMBER},
    "index": {},
}
OTHER_JOBS = {
    "fail": {"error": ERROR},
    "iota": {},
    "sum": {},
    "append": {"text": of("text")},
    "join": {},
    "length": {},
    "parse": {},
    "show": {},
    "give": {"values": of("constants")},
    "at": {"i": integer(0, 63)},
    "value_or": {"else": {"anyOf": [NUMBER, of("text")]}},
    "pass": {},
}


def below(name, *keys):
    """The nodes at these keys are of the definition."""
    lists = ("bodies", "children")
    return {key: {"items": of(name)} if key in lists else of(name) for key in keys}


def named(*names):
    return {"properties": {"do": one_of(*names)}, "required": ["do"]}


def objects(key, table, texts):
    """An object for each name of the table, with its keys and no others."""
    return [
        {
            "title": name,
            "description": texts[name],
            "properties": {key: one_of(name), **keys},
            "required": sorted([key, *keys]),
            "additionalProperties": False,
        }
        for name, keys in table.items()
    ]


def definitions(nodes, jobs):
    return {
        "number": integer(-(2**63), 2**63 - 1),
        "text": {"type": "string", "maxLength": 4096, "description": "A text of at most 4,096 bytes in UTF-8."},
        "row": {"type": "array", "items": NUMBER, "maxItems": 4096},
        "constants": {
            "type": "array",
            "items": {"anyOf": [NUMBER, of("text"), of("row")]},
            "maxItems": 64,
            "description": "Numbers, texts, and rows of numbers.",
        },
        "error_name": {
            "type": "string",
            "minLength": 1,
            "maxLength": 64,
            "not": {"pattern": "[^A-Za-z0-9._@-]"},
            "description": "The name of an error: 1 to 64 letters, digits, `-`, `_`, `.` or `@`.",
        },
        "context": {**one_of("loop", "pool"), "description": "The run loop, or the pool of workers."},
        "element_job": {"type": "object", "oneOf": objects("job", ELEMENT_JOBS, jobs)},
        "job": {"type": "object", "anyOf": [of("element_job"), of("other_job")]},
        "other_job": {"type": "object", "oneOf": objects("job", OTHER_JOBS, jobs)},
        "node": {
            "type": "object",
            "oneOf": objects("do", NODES, nodes),
            "properties": below("node", "child", "bodies", "children", "first", "second"),
        },
        "of_version_1": {
            "not": named("unstoppable", "ahead"),
            "properties": below("of_version_1", "child", "bodies", "children"),
        },
        "well_placed": {
            "anyOf": [
                {
                    "not": named("when_all", "unstoppable", "ahead"),
                    "properties": below("well_placed", "child", "bodies"),
                },
                {"properties": below("without_ahead", "child", "bodies", "children", "first", "second")},
            ]
        },
        "without_ahead": {
            "not": named("ahead"),
            "properties": below("without_ahead", "child", "bodies", "children"),
        },
    }


def schema_of(nodes, jobs):
    """The schema, with these texts on nodes and jobs by their names."""
    stops = [{"required": ["stop_after"]}, {"properties": {"on_error": one_of("stop")}, "required": ["on_error"]}]
    return {
        "$schema": DRAFT,
        "title": "A plan of exec_run",
        "description": ABOUT,
        "type": "object",
        "properties": {
            "version": {
                "type": "integer",
                **one_of(1, 2),
                "description": "Version 2 has `unstoppable`, `ahead` and 1,024 nodes.",
            },
            "input": {**one_of("int", "text", "row"), "description": "The kind of the records."},
            "root": of("node"),
            "scope": {
                **one_of("simple", "counting"),
                "default": "counting",
                "description": "P3149: a counting scope takes a stop request, a simple one doesn't, and then no stop "
                "rule may be set.",
            },
            "stop_after": {
                **integer(1, 1_000_000),
                "description": "A stop is requested once so many records were read, before the last of them is "
                "started.",
            },
            "on_error": {
                **one_of("go", "stop"),
                "default": "go",
                "description": "Whether a stop is requested once a line with an error was written.",
            },
        },
        "required": ["version", "input", "root"],
        "additionalProperties": False,
        "oneOf": [
            {"properties": {"version": one_of(1), **below("of_version_1", "root")}},
            {"properties": {"version": one_of(2), **below("well_placed", "root")}},
        ],
        "not": {"properties": {"scope": one_of("simple")}, "required": ["scope"], "anyOf": stops},
        "definitions": definitions(nodes, jobs),
    }


def shown(value, indent=0, around=0):
    """The JSON text of a value, on one line where that has room."""
    line = json.dumps(value, ensure_ascii=False)
    if indent + around + len(line) <= WIDTH or not value or not isinstance(value, (dict, list)):
        return line
    inner = " " * (indent + 2)
    if isinstance(value, list):
        parts = [shown(it, indent + 2, 1) for it in value]
    else:
        parts = [f"{json.dumps(key)}: {shown(it, indent + 2, len(key) + 5)}" for key, it in value.items()]
    opened, closed = "[]" if isinstance(value, list) else "{}"
    return opened + "\n" + ",\n".join(inner + part for part in parts) + "\n" + " " * indent + closed


def schema_text(nodes, jobs):
    return shown(schema_of(nodes, jobs)) + "\n"
