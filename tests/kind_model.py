"""The kinds of the nodes of a plan, and why they don't match: a reading of its own, for tests/refusals.py.

A shape is a tuple of kinds, or None, which is never a value.
"""
MOST_DATA = 64
TAKES = {
    **dict.fromkeys("add sub mul div neg within iota show".split(), "int"), "append": "text", "parse": "text",
    "length": "text or row", "sum": "ints and rows", "join": "texts", "at": "more data than its i",
    "index": "the elements of a bulk", "fail": "any data", "give": "any data", "pass": "any data",
}  # fmt: skip
MAYBE = {"int": "optional-int", "text": "optional-text"}


def kind_of(constant):
    return "row" if isinstance(constant, list) else "text" if isinstance(constant, str) else "int"


def wanted_by(job):
    return MAYBE[kind_of(job["else"])] if job["job"] == "value_or" else TAKES[job["job"]]


def takes(job, kinds):
    name, wanted = job["job"], wanted_by(job)
    if name == "index":
        return False
    if name == "at":
        return job["i"] < len(kinds)
    among = {"ints and rows": ("int", "row"), "texts": ("text",)}.get(wanted)
    if among:
        return all(kind in among for kind in kinds)
    return wanted == "any data" or (len(kinds) == 1 and kinds[0] in wanted.split(" or "))


def gives(job, kinds):
    name = job["job"]
    if name in ("fail", "give", "at", "pass"):
        return {"fail": None, "give": tuple(kind_of(it) for it in job.get("values", [])),
                "at": kinds[job.get("i", 0) :][:1], "pass": kinds}[name]  # fmt: skip
    if name == "value_or":
        return (kind_of(job["else"]),)
    return ({"append": "text", "join": "text", "show": "text", "iota": "row"}.get(name, "int"),)


def text_of(shape):
    return "no value" if shape is None else " ".join(shape) or "no data"


def job_takes(job, giver, shape):
    return f"{job['job']} takes {wanted_by(job)}, {giver} gives {text_of(shape)}"


def common(shapes):
    return next((shape for shape in shapes if shape is not None), None)


def agree(shapes):
    return len({shape for shape in shapes if shape is not None}) < 2


class Kinds:
    """Reads a plan whose form, names and limits are right. `faults` has why kinds don't match, by paths, in the order of
    the nodes' numbers."""

    def __init__(self, plan):
        self.faults = []
        self.value(plan["root"], (plan["input"],), "root")

    def value(self, node, given, path):
        do, child = node["do"], None
        if "child" in node:
            child = self.value(node["child"], given, path + ".child")
        if do in ("when_all", "ahead"):
            keys = [f"children[{i}]" for i in range(len(node.get("children", [])))] or ["first", "second"]
            nodes = node.get("children") or [node["first"], node["second"]]
            shape, fault = self.joined([self.value(it, given, f"{path}.{key}") for key, it in zip(keys, nodes)])
        elif do.startswith("let_"):
            passed = {"let_value": child, "let_error": ("text",), "let_stopped": ()}[do]
            bodies = [self.value(it, passed, f"{path}.bodies[{i}]") for i, it in enumerate(node["bodies"])]
            shape, fault = self.let(node, passed, None if do == "let_value" else child, bodies)
        else:
            shape, fault = self.plain(node, given, child)
        if fault:
            self.faults.append((path, fault))
            return None
        return shape

    @staticmethod
    def joined(shapes):
        if None in shapes:
            return None, None
        shape = sum(shapes, ())
        few = len(shape) <= MOST_DATA
        return shape, None if few else "its children give more than the 64 data that a value may have"

    @staticmethod
    def let(node, passed, front, bodies):
        pick, giver = node["pick"], {"let_value": "its child", "let_error": "an error", "let_stopped": "a stop"}[node["do"]]
        if passed is not None and not takes(pick, passed):
            return None, job_takes(pick, giver, passed)
        picked = None if passed is None else gives(pick, passed)
        if picked not in (None, ("int",)):
            return None, f"a pick gives int, {pick['job']} gives {text_of(picked)}"
        wanted = common([front, *bodies])
        other = next((i for i, it in enumerate(bodies) if not agree([wanted, it])), None)
        if other is None:
            return wanted, None
        giver = "a body before it" if front is None else "its child"
        return None, f"bodies[{other}] gives {text_of(bodies[other])}, {giver} gives {text_of(wanted)}"

    @staticmethod
    def plain(node, given, child):
        do, job = node["do"], node.get("job")
        if do in ("upon_error", "upon_stopped"):
            giver, passed = ("an error", ("text",)) if do == "upon_error" else ("a stop", ())
            if not takes(job, passed):
                return None, job_takes(job, giver, passed)
            shape = gives(job, passed)
            if not agree([child, shape]):
                return None, f"{job['job']} gives {text_of(shape)}, its child gives {text_of(child)}"
            return common([child, shape]), None
        if do == "then":
            if child is None or takes(job, child):
                return None if child is None else gives(job, child), None
            return None, job_takes(job, "its child", child)
        if do in ("stopped_as_optional", "bulk"):
            wanted = node.get("of", "row")
            if child in (None, (wanted,)):
                return (MAYBE[wanted],) if do == "stopped_as_optional" else child, None
            return None, f"{do} takes {wanted}, its child gives {text_of(child)}"
        shapes = {"input": given, "just_error": None, "just_stopped": None, "read_env": ("int",)}
        if do == "just":
            return tuple(kind_of(it) for it in node["values"]), None
        return shapes.get(do, child if "child" in node else ()), None
