"""What exec_show is to say of a plan that is refused: a reading of its own of the plan language, which names the word that
is wrong, what was wanted there, and the place. It knows neither exec_show nor its definitions.
"""
import json
import re

from kind_model import Kinds

INT = range(-(2**63), 2**63)
NAME = re.compile(r"[A-Za-z0-9._@-]{1,64}")
LONG_NAME = re.compile(r"[A-Za-z0-9._@-]{65,}")
MOST_TEXT, MOST_NUMBERS, MOST_DATA, MOST_SHOWN, MOST_DEPTH = 4_096, 4_096, 64, 64, 56
CODES = {"form": "P3 form", "name": "P4 unknown name", "limit": "P5 limit"}
NUMBER = "an integer of 64 bits"
# what each key takes; a job's own name stands at `job` too
WANTED = {
    "do": "a string", "root": "a node", "child": "a node", "first": "a node", "second": "a node",
    "children": "an array of 2 to 64 nodes", "bodies": "an array of 1 to 16 nodes", "job": "a job", "pick": "a job",
    "values": "an array of at most 64 constants", "error": "a name of 1 to 64 letters, digits, -, _, . and @",
    "on": "loop or pool", "turns": "an integer from 0 to 1000000", "query": "stop or record", "of": "int or text",
    "n": NUMBER, "lo": NUMBER, "hi": NUMBER, "text": "a string of at most 4096 bytes", "i": "an integer from 0 to 63",
    "else": NUMBER + " or a string of at most 4096 bytes", "version": "1 or 2", "input": "int, text or row",
    "scope": "simple or counting", "stop_after": "an integer from 1 to 1000000", "on_error": "go or stop",
}  # fmt: skip
CONSTANT = NUMBER + ", a string of at most 4096 bytes or an array of at most 4096 integers"
# the keys of the nodes below a node, and its other key
BELOW = {
    "input": [], "just": [], "just_error": [], "just_stopped": [], "schedule": [], "delay": [], "read_env": [],
    **dict.fromkeys("then upon_error upon_stopped starts_on continues_on stopped_as_optional".split(), ["child"]),
    **dict.fromkeys("stopped_as_error bulk unstoppable".split(), ["child"]),
    **dict.fromkeys("let_value let_error let_stopped".split(), ["child", "bodies"]),
    "when_all": ["children"], "ahead": ["first", "second"],
}  # fmt: skip
OWN = {
    "just": "values", "just_error": "error", "schedule": "on", "delay": "turns", "read_env": "query", "then": "job",
    "upon_error": "job", "upon_stopped": "job", "let_value": "pick", "let_error": "pick", "let_stopped": "pick",
    "starts_on": "on", "continues_on": "on", "stopped_as_optional": "of", "stopped_as_error": "error", "bulk": "job",
}  # fmt: skip
LATER = ["unstoppable", "ahead"]
NODES = (
    "input just just_error just_stopped schedule delay read_env then upon_error upon_stopped let_value let_error "
    "let_stopped starts_on continues_on stopped_as_optional stopped_as_error bulk when_all"
).split()
# the keys of each job beside its name
JOBS = {
    **dict.fromkeys("add sub mul div".split(), ["n"]), "within": ["lo", "hi"], "fail": ["error"], "append": ["text"],
    **dict.fromkeys("neg index iota sum join length parse show pass".split(), []), "give": ["values"], "at": ["i"],
    "value_or": ["else"],
}  # fmt: skip
ELEMENTS = "add sub mul div neg within index".split()
ON_DATA = (
    "jobs on an int: add, sub, mul, div, neg, within, iota, show; on a text: append, parse, length; on a row: length; "
    "on ints and rows: sum; on texts: join; on an optional: value_or; on any data: at, fail, give, pass"
)
WORDS = {"on": ["loop", "pool"], "query": ["stop", "record"], "of": ["int", "text"], "input": ["int", "text", "row"],
         "scope": ["simple", "counting"], "on_error": ["go", "stop"]}  # fmt: skip
COUNTS = {"turns": (0, 1_000_000), "i": (0, 63), "stop_after": (1, 1_000_000)}
COUNTED = {"children": (2, 64), "bodies": (1, 16)}
SETTINGS = ["version", "input", "scope", "stop_after", "on_error"]
PLAN = ["input", "on_error", "root", "scope", "stop_after", "version"]


def own_keys(name):
    """The keys of a node beside its name."""
    return BELOW[name] + ([OWN[name]] if name in OWN else [])


def is_int(value):
    return isinstance(value, int) and not isinstance(value, bool) and value in INT


def size(text):
    return len(text.encode())


def shown(value):
    if is_int(value):
        return str(value)
    if isinstance(value, str):
        return f"a string of {size(value)} bytes" if size(value) > MOST_SHOWN else json.dumps(value, ensure_ascii=False)
    if isinstance(value, list):
        return f"an array of {len(value)}"
    kinds = ((dict, "an object"), (bool, "a boolean"), ((int, float), "another number"), (type(None), "null"))
    return next(word for kind, word in kinds if isinstance(value, kind))


def needs(who, key, value):
    return f'{who} needs the key "{key}"' if isinstance(value, dict) else f"{who} is an object, not {shown(value)}"


def wrong_at(who, key, value, wanted=None):
    if not isinstance(value, dict) or key not in value:
        return needs(who, key, value)
    return f'"{key}" takes {wanted or WANTED[key]}, not {shown(value[key])}'


def unknown_keys(known, value):
    return sorted((key for key in value if key not in known), key=str.encode) if isinstance(value, dict) else []


def constant_faults(value):
    if isinstance(value, list):
        form = {"form"} if not all(is_int(it) for it in value) else set()
        return form | ({"limit"} if len(value) > MOST_NUMBERS and not form else set())
    if isinstance(value, str):
        return {"limit"} if size(value) > MOST_TEXT else set()
    return set() if is_int(value) else {"form"}


def value_faults(key, value):
    """What is wrong with a value at a key that is no node and no job."""
    if key in WORDS:
        return {"form"} if not isinstance(value, str) else set() if value in WORDS[key] else {"name"}
    if key in COUNTS:
        return {"form"} if not is_int(value) else set() if COUNTS[key][0] <= value <= COUNTS[key][1] else {"limit"}
    if key in COUNTED:
        fewest, most = COUNTED[key]
        return {"form"} if not isinstance(value, list) else set() if fewest <= len(value) <= most else {"limit"}
    if key == "version":
        return {"form"} if not is_int(value) else set() if value in (1, 2) else {"name"}
    if key == "error":
        good = isinstance(value, str) and NAME.fullmatch(value)
        return set() if good else {"limit" if isinstance(value, str) and LONG_NAME.fullmatch(value) else "form"}
    if key == "values":
        if not isinstance(value, list):
            return {"form"}
        return set().union(*map(constant_faults, value)) | ({"limit"} if len(value) > MOST_DATA else set())
    if key in ("text", "else") and isinstance(value, str):
        return {"limit"} if size(value) > MOST_TEXT else set()
    return set() if key != "text" and is_int(value) else {"form"}


def faults_at(key, value):
    return value_faults(key, value[key]) if isinstance(value, dict) and key in value else {"form"}


def value_wrong(fault, who, key, value):
    """The first constant that is wrong, or the value itself."""
    if key == "values" and isinstance(value.get(key), list):
        for index, it in enumerate(value[key]):
            if fault in constant_faults(it):
                return f"values[{index}] takes {CONSTANT}, not {shown(it)}"
    return wrong_at(who, key, value)


def job_faults(value):
    if not isinstance(value, dict) or not isinstance(value.get("job"), str):
        return {"form"}
    if value["job"] not in JOBS:
        return {"name"}
    keys = {"name"} if unknown_keys(["job", *JOBS[value["job"]]], value) else set()
    return keys.union(*(faults_at(key, value) for key in JOBS[value["job"]]))


def job_wrong(fault, elements, value):
    if not isinstance(value, dict) or not isinstance(value.get("job"), str):
        return wrong_at("a job", "job", value, "a string")
    name = value["job"]
    if name not in JOBS:
        return f"no job {shown(name)}; " + ("jobs over elements: " + ", ".join(ELEMENTS) if elements else ON_DATA)
    unknown = unknown_keys(["job", *JOBS[name]], value)
    if fault == "name" and unknown:
        return f"unknown key {shown(unknown[0])}; {name} takes {', '.join(sorted(['job', *JOBS[name]]))}"
    wrong = next(key for key in JOBS[name] if fault in faults_at(key, value))
    return value_wrong(fault, name, wrong, value)


def known_nodes(version):
    return NODES if version == 1 else NODES + LATER


def parts_of(version, node):
    """The name of a node, if it is known, and each of its keys with what is wrong there."""
    name = node.get("do") if isinstance(node, dict) else None
    if not isinstance(name, str) or name not in known_nodes(version):
        return None, []
    parts = []
    for key in own_keys(name):
        if key not in node:
            parts.append((key, {"form"}))
        elif key in ("job", "pick"):
            parts.append((key, job_faults(node[key])))
        else:
            parts.append((key, set() if WANTED[key] == "a node" else value_faults(key, node[key])))
    return name, parts


def node_faults(version, node):
    if not isinstance(node, dict) or not isinstance(node.get("do"), str):
        return {"form"}
    name, parts = parts_of(version, node)
    if name is None:
        return {"name"}
    keys = {"name"} if unknown_keys(["do", *(key for key, _ in parts)], node) else set()
    return keys.union(*(faults for _, faults in parts))


def node_wrong(fault, version, node):
    if not isinstance(node, dict) or not isinstance(node.get("do"), str):
        return wrong_at("a node", "do", node)
    name, parts = parts_of(version, node)
    if name is None:
        told = shown(node["do"])
        return f"{told} is of version 2" if node["do"] in LATER else f"unknown node {told}; nodes: " + ", ".join(known_nodes(version))
    keys = ["do", *(key for key, _ in parts)]
    unknown = unknown_keys(keys, node)
    if fault == "name" and unknown:
        return f"unknown key {shown(unknown[0])}; {name} takes {', '.join(sorted(keys))}"
    key = next(key for key, faults in parts if fault in faults)
    if key in ("job", "pick") and key in node:
        return job_wrong(fault, name == "bulk", node[key])
    return value_wrong(fault, name, key, node)


def below(version, node, path):
    name, _ = parts_of(version, node)
    for key in BELOW.get(name, []):
        if key in COUNTED:
            values = node.get(key)
            yield from ((f"{path}.{key}[{i}]", it) for i, it in enumerate(values if isinstance(values, list) else []))
        elif key in node:
            yield f"{path}.{key}", node[key]


def walk(version, node, path="root"):
    yield path, node
    for place, it in below(version, node, path):
        yield from walk(version, it, place)


def settings_faults(plan):
    """What is wrong with each setting; two of them are needed."""
    stand = [key for key in SETTINGS if key in ("version", "input") or (isinstance(plan, dict) and key in plan)]
    return {key: faults_at(key, plan) for key in stand}


def settings_wrong(fault, plan):
    unknown = unknown_keys(PLAN, plan)
    if fault == "name" and unknown:
        return f"unknown key {shown(unknown[0])}; a plan takes {', '.join(PLAN)}"
    found = [key for key, faults in settings_faults(plan).items() if fault in faults]
    return wrong_at("a plan", (found + ["root"])[0], plan)


def depths(version, node, path="root", depth=1):
    yield depth, path, node
    for place, it in below(version, node, path):
        yield from depths(version, it, place, depth + 1)


def misplaced(version, node, path="root", barred=False):
    if node["do"] == "ahead" and barred:
        yield path
    bars = barred or node["do"] in ("ahead", "when_all", "unstoppable")
    for place, it in below(version, node, path):
        yield from misplaced(version, it, place, bars)


def node_count(version, node):
    return 9 if node["do"] == "bulk" else 1


def limits(version, plan):
    """The place and the reason of a limit that isn't one node's own."""
    deep = [path for depth, path, _ in depths(version, plan["root"]) if depth > MOST_DEPTH]
    barred = list(misplaced(version, plan["root"]))
    if deep:
        return f" at {deep[0]}", "the node stands more than 56 deep"
    if barred:
        return f" at {barred[0]}", "an ahead stands below a when_all, an unstoppable or another ahead"
    if sum(node_count(version, it) for _, it in walk(version, plan["root"])) > (256 if version == 1 else 1_024):
        return "", "there are more nodes than a plan may have: 256 in version 1, and else 1024"
    return None


def refusal(plan):
    """The line that says why a plan is refused; none where it isn't."""
    version = 1 if isinstance(plan, dict) and is_int(plan.get("version")) and plan["version"] == 1 else 2
    keys = PLAN if isinstance(plan, dict) else []
    own = [] if "root" in keys and "root" in plan else [{"form"}]
    own += settings_faults(plan).values()
    own += [{"name"}] if unknown_keys(PLAN, plan) else []
    nodes = list(walk(version, plan["root"])) if isinstance(plan, dict) and "root" in plan else []
    for fault, code in CODES.items():
        for path, node in nodes:
            if fault in node_faults(version, node):
                return f"refused: {code} at {path}: {node_wrong(fault, version, node)}\n"
        if any(fault in faults for faults in own):
            return f"refused: {code} in the plan's own keys: {settings_wrong(fault, plan)}\n"
    limit = limits(version, plan)
    if limit:
        return f"refused: P5 limit{limit[0]}: {limit[1]}\n"
    for path, node in nodes:
        if node["do"] == "bulk" and node["job"]["job"] not in ELEMENTS:
            told = "jobs over elements: " + ", ".join(ELEMENTS)
            return f"refused: P6 kinds at {path}: {shown(node['job']['job'])} is no job over elements; {told}\n"
    faults = Kinds(plan).faults
    if faults:
        return f"refused: P6 kinds at {faults[0][0]}: {faults[0][1]}\n"
    rules = [key for key, off in (("stop_after", None), ("on_error", "go")) if plan.get(key, off) != off]
    if plan.get("scope") == "simple" and rules:
        told = f'a simple scope takes no stop request, and "{rules[0]}" makes one'
        return f"refused: P7 settings exclude each other in the plan's own keys: {told}\n"
    return None
