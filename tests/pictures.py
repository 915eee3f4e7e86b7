#!/usr/bin/env python3
"""Reads the pictures that exec_show prints of plans made at random (random_plans.py), of their twins and of fans of
them, and compares each box and each arrow with the plan; spoils one to three nodes of each plan, and wants the place of
the first; and reads the images of the traces of schedules made at random, each heading, row and bar: whole, and cut to
some entries with one marked.

    tests/pictures.py [--program PATH] [--count N]     exec_show is the one that was built beside PATH, exec_run

Numbers, names, the nodes' own data and arrows must be those of the plan, equal neighbours must stand once, with their
count, and a box's colours and stop source must be what a walk over the plan finds. What exec_run's model of plans allows the root (plan_model.py) must be among what the root's box says. The last
line is `N passed, M failed`; the status is 1 where one failed.
"""
import argparse
import html
import json
import os
import random
import re
import subprocess
import sys
import tempfile
from xml.etree import ElementTree

import plan_model
from random_plans import OF_KIND, SECONDS, make_plan, twin_of
from run_cases import PROGRAM, beside, try_each

SEED = 4_077
COUNT = 60
PARTS = 8
# a context's name in the legend, what it says, the colour of a box and that of its border
LEGEND = [("either", "the loop or the pool", "#e6d5f5", "#7030a0"), ("pool", "the pool", "#ffe3c2", "#c05a00"),
          ("loop", "the loop", "#d0e4ff", "#1f5fbf")]  # fmt: skip
HEAD = [
    "digraph plan {", "  graph [ordering=out];", "  node [shape=box style=filled penwidth=3];",
    "  subgraph cluster_legend {",
    '    label="fill: where a node is started, border: where it completes\\nx2: two equal neighbours, drawn once";',
    *(f'    {name} [label="{says}" fillcolor="{fill}" color="{border}"];' for name, says, fill, border in LEGEND),
    "  }",
]  # fmt: skip
FILLS, BORDERS = ({colours[at]: colours[0] for colours in LEGEND} for at in (2, 3))
BOX = re.compile(
    r'  n(\d+) \[label="(\d+) (\w+)((?: \[|, )[^"\\]*?)?(?: x(\d+))?'
    r"((?:\\n(?:values|error|on|turns|query|job|pick|of)\b.*?)?)"
    r"\\n(no stop source|stop source of the scope|stop source of \d+)"
    r'(?:\\nset_value((?: [a-z-]+(?: x\d+)?)*))?(\\nset_error)?(\\nset_stopped)?" fillcolor="(#\w+)" color="(#\w+)"\];'
)
ARROW = re.compile(r'  n(\d+) -> n(\d+)(?: \[style=dashed label="body (\d+)(?: x(\d+))?"\])?;')
KINDS = {int: "int", str: "text", tuple: "row"}
# what is changed in a node that is then refused for a cause, or what it becomes
SPOILS = {
    "P3 form": [{"do": 1}, {"do": "then", "child": {"do": "input"}, "job": "add"}, {"do": "when_all", "children": 1}],
    "P4 unknown name": [{"do": "retry"}, {"also": 1}],
    "P5 limit": [{"do": "when_all", "children": []}],
}
SVG = "{http://www.w3.org/2000/svg}"
# the plans that the pages show, and their images, which dot made
TOP = os.path.dirname(os.path.dirname(os.path.abspath(__file__)))
PAGES = [
    (os.path.join(TOP, folder, name + ".json"), os.path.join(TOP, "docs", "pictures", name + ".svg"))
    for folder, name in (("samples", "fan_out"), ("docs/pictures", "lets"), ("docs/pictures", "fan"))
]
# the white ground, and what stands above the headings: the legend, and the word over the columns
LEGEND_SHAPES = 12
# the colours of the entries of a trace; the others are black
CLASS_OF = {
    **dict.fromkeys("arm end_run withdraw withdraw_own rouse".split(), "callback"),
    **dict.fromkeys("look request run seal_scan skip".split(), "scan"),
    **dict.fromkeys("enter mark_used leave close join seal".split(), "scope"),
}


class Box:
    """What is told of a node: its name, how many equal neighbours it stands for, its own data, where it begins and ends,
    its source, and its arrows."""

    def __init__(self, name, count, own, start, end, source):
        self.name, self.count, self.own, self.start, self.end, self.source = name, count, own, start, end, source
        self.below = []

    def told(self):
        return self.name, self.count, self.own, self.start, self.end, self.source, self.below


def children_of(node):
    """The children, and then the bodies."""
    keys = [key for key in ("child", "first", "second") if key in node]
    return [node[key] for key in keys] + node.get("children", []), node.get("bodies", [])


def folds(items):
    """Each run of equal neighbours: the index of its first, and how many they are."""
    starts = [at for at, it in enumerate(items) if at == 0 or items[at - 1] != it]
    return list(zip(starts, [after - at for at, after in zip(starts, [*starts[1:], len(items)])]))


def times(count):
    return f" x{count}" if count > 1 else ""


def folded(words):
    return "".join(f" {words[at]}{times(count)}" for at, count in folds(words))


def quoted(text):
    """A text as a label shows it, which is written as a string of Graphviz."""
    shown = "".join({'"': '\\"', "\\": "\\\\"}.get(it, f"\\u{ord(it):04x}" if it < " " else it) for it in text)
    return '"{}"'.format(shown).replace("\\", "\\\\").replace('"', '\\"').replace("&", "&amp;")


def datum(it):
    return quoted(it) if isinstance(it, str) else json.dumps(it, separators=(",", ":"))


def job_words(job):
    """A job: its name, and what it has beside the data."""
    if job["job"] == "give":
        return "give" + folded([datum(it) for it in job["values"]])
    keys = ("lo", "hi", "n", "i", "text", "else", "error")
    return " ".join([job["job"], *(datum(job[key]) for key in keys if key in job)])


def own_words(node):
    """What a box says of a node's own data."""
    for key in ("job", "pick"):
        if key in node:
            return f"\\n{key} {job_words(node[key])}"
    if "values" in node:
        return "\\nvalues" + folded([datum(it) for it in node["values"]])
    if "error" in node:
        return f"\\nerror {quoted(node['error'])}"
    return "".join(f"\\n{key} {node[key]}" for key in ("on", "turns", "query", "of") if key in node)


class Walk:
    """Walks over a plan as its reader does: children have smaller numbers than their parent, and so have the parts of a
    bulk, which are not drawn. Of equal neighbours the first is drawn."""

    def __init__(self, plan):
        self.boxes, self.numbers, self.size = {}, {}, 0
        self.number(plan["root"])
        self.draw(plan["root"], 1, frozenset(["loop"]), "stop source of the scope", True)

    def number(self, node):
        """Numbers the node and all below it: a node that stands at several places has several numbers."""
        below = [self.number(it) for it in sum(children_of(node), [])]
        self.size += PARTS if node["do"] == "bulk" else 0
        number, self.size = self.size, self.size + 1
        self.numbers.setdefault(id(node), []).append((number, below))
        return number

    def draw(self, node, count, start, source, shown, number=None):
        """Draws a node and all below it, where it is shown. The answer is where it completes."""
        do = node["do"]
        number, numbers = self.numbers[id(node)][0] if number is None else next(
            it for it in self.numbers[id(node)] if it[0] == number)  # fmt: skip
        children, bodies = children_of(node)
        # the loop starts the children of an ahead, and joins what they gave
        entered = {"starts_on": frozenset([node.get("on")]), "ahead": frozenset(["loop"])}.get(do, start)
        own = {"when_all": f"stop source of {number}", "unstoppable": "no stop source"}.get(do, source)
        # the first child of an ahead is spawned in the scope
        sources = ["stop source of the scope" if do == "ahead" and not at else own for at, _ in enumerate(children)]
        box = Box(do, count, own_words(node), name_of(start), None, source)
        if shown:
            self.boxes[number] = box
        counts = dict(folds(children))
        ends = [
            self.draw(it, counts.get(at, 0), entered, sources[at], shown and at in counts, numbers[at])
            for at, it in enumerate(children)
        ]
        end = frozenset().union(*ends) if ends else start
        behind, counts_of_bodies = end, dict(folds(bodies))
        for at, it in enumerate(bodies):
            body, drawn = numbers[len(children) + at], shown and at in counts_of_bodies
            end = end.union(self.draw(it, counts_of_bodies.get(at, 0), behind, own, drawn, body))
        on_loop = frozenset(["loop"])
        end = {"delay": on_loop, "ahead": on_loop, "bulk": end | {"pool"}}.get(do, end)
        end = frozenset([node["on"]]) if do in ("schedule", "continues_on") else end
        box.end = name_of(end)
        box.below = [(numbers[at], None, None) for at in sorted(counts)]
        box.below += [(numbers[len(children) + at], at, count) for at, count in sorted(counts_of_bodies.items())]
        return end


def name_of(contexts):
    """What the legend calls them."""
    return "either" if len(contexts) > 1 else min(contexts)


def read(text):
    """The boxes of a picture, and what each says of completions; or why it is none."""
    lines = text.split("\n")
    if lines[: len(HEAD)] != HEAD or lines[-2:] != ["}", ""]:
        return None, "a head, a legend and an end"
    boxes, says, last = {}, {}, None
    for line in lines[len(HEAD) : -2]:
        box, arrow = BOX.fullmatch(line), ARROW.fullmatch(line)
        if box and box[1] == box[2] and int(box[1]) not in boxes:
            last = int(box[1])
            boxes[last] = Box(box[3], int(box[5] or 1), box[6], FILLS.get(box[11]), BORDERS.get(box[12]), box[7])
            says[last] = (None if box[8] is None else unfolded(box[8].split()), box[9], box[10])
        elif arrow and int(arrow[1]) == last:
            at = None if arrow[3] is None else int(arrow[3])
            boxes[last].below.append((int(arrow[2]), at, None if at is None else int(arrow[4] or 1)))
        else:
            return None, f"a line that isn't {line!r}"
    return (boxes, says), None


def unfolded(words):
    """Words, each as often as the count behind it says."""
    all_words = []
    for word in words:
        all_words += all_words[-1:] * (int(word[1:]) - 1) if re.fullmatch(r"x\d+", word) else [word]
    return all_words


def kind_of(datum):
    if isinstance(datum, tuple) and datum[:1] in (("some",), ("none",)):
        return None
    return KINDS[type(datum)]


def is_said(completion, says):
    """Whether a box says that its node may complete so."""
    kinds, error, stopped = says
    if completion[0] != "value":
        return bool(error if completion[0] == "error" else stopped)
    told = [kind_of(it) for it in completion[1]]
    return kinds is not None and len(kinds) == len(told) and all(
        of == kind or (of is None and kind.startswith("optional-")) for of, kind in zip(told, kinds)
    )


def fault_of(plan, text):
    """What the picture should have been, where it isn't."""
    found, fault = read(text)
    if fault:
        return fault
    boxes, says = found
    wanted = Walk(plan).boxes
    if {number: it.told() for number, it in boxes.items()} != {number: it.told() for number, it in wanted.items()}:
        return {number: it.told() for number, it in wanted.items()}
    for datum in OF_KIND[plan["input"]]:
        data = (tuple(datum) if isinstance(datum, list) else datum,)
        for completion in plan_model.allowed(plan["root"], data, 1, plan_model.MAY):
            if not is_said(completion, says[max(boxes)]):
                return f"a root that may complete with {completion}"
    return None


def fan_of(dice, plan):
    """A `when_all` of the plan's root, some of whose neighbours are equal; and a let whose bodies are."""
    root, sizes = plan["root"], [1, 1, dice.randint(2, 9)]
    fan = [json.loads(json.dumps(root)) for _ in range(dice.choice(sizes))]
    fan.insert(dice.randint(0, len(fan)), {"do": "just", "values": dice.choices([7, 7, 7, "a\\b&c\t"], k=5)})
    let = {"do": "let_value", "child": {"do": "just", "values": [1]}, "pick": {"job": "pass"}}
    bodies = [{"do": "just", "values": [it]} for it in dice.choices([1, 2], k=5)]
    return {**plan, "version": 2, "root": {"do": "when_all", "children": [*fan, {**let, "bodies": bodies}]}}


def try_one(program, plan):
    with tempfile.TemporaryDirectory() as folder:
        path = os.path.join(folder, "plan.json")
        with open(path, "w", encoding="utf-8") as file:
            json.dump(plan, file)
        ran = subprocess.run([program, "plan", path], capture_output=True, text=True, timeout=SECONDS, check=False)
    fault = fault_of(plan, ran.stdout) if (ran.returncode, ran.stderr) == (0, "") else "an exit status of 0, and no notes"
    return [(json.dumps(plan), str(fault), f"{ran.returncode} {ran.stdout} {ran.stderr}")] if fault else []


def places(node, path="root"):
    """Each node with its path: before those below it, and these in order."""
    yield path, node
    for key in ("child", "first", "second"):
        if key in node:
            yield from places(node[key], f"{path}.{key}")
    for key in ("children", "bodies"):
        for index, below in enumerate(node.get(key, [])):
            yield from places(below, f"{path}.{key}[{index}]")


def spoilt(dice, plan):
    """The plan with one to three nodes that are refused for one cause, and how the line begins that says so."""
    plan, cause = json.loads(json.dumps(plan)), dice.choice(sorted(SPOILS))
    nodes = list(places(plan["root"]))
    chosen = sorted(dice.sample(range(len(nodes)), min(len(nodes), dice.randint(1, 3))))
    for at in chosen:
        _, node = nodes[at]
        change = dice.choice(SPOILS[cause])
        if len(change) > 1:
            node.clear()
        node.update(change)
    return plan, f"refused: {cause} at {nodes[chosen[0]][0]}: "


def try_place(program, plan, begins):
    """Compares how the line begins that says why and where the plan is refused."""
    with tempfile.TemporaryDirectory() as folder:
        path = os.path.join(folder, "plan.json")
        with open(path, "w", encoding="utf-8") as file:
            json.dump(plan, file)
        ran = subprocess.run([program, "plan", path], capture_output=True, text=True, timeout=SECONDS, check=False)
    came = (ran.returncode, ran.stderr, ran.stdout[: len(begins)])
    return [(json.dumps(plan), begins, f"{ran.returncode} {ran.stdout} {ran.stderr}")] if came != (1, "", begins) else []


def make_schedule(dice):
    """A schedule over a tree of a few nodes, in which each hand acts some hundred times."""
    nodes, blocks, hands = (dice.randint(1, most) for most in (5, 3, 3))
    lines = [f"exec {nodes} {blocks} {hands} counting 4"]
    for node in range(nodes):
        parent = "-" if node == nodes - 1 else dice.randint(node + 1, nodes - 1)
        lines.append(f"node {parent} {dice.choice(('plain', 'plain', 'source', 'unstoppable'))}")
    lines += [f"{dice.randrange(hands)} {dice.randrange(40)}" for _ in range(100 * hands)]
    return "".join(line + "\n" for line in lines)


def entries_of(text):
    """The numbers of blocks and of hands, and the entries: a hand and the words behind it."""
    opening, *lines = text.splitlines()
    nodes, blocks, hands = (int(word) for word in opening.split()[1:4])
    return blocks, hands, [(int(line.split()[0]), line.split()[1:]) for line in lines[nodes:]]


def ends_of(entries, row, words):
    """The row of the first of these words behind one, or the last."""
    return next((at for at in range(row + 1, len(entries)) if entries[at][1] == words), len(entries) - 1)


def runs_here(entries, row, place):
    """Whether the callback of a place is armed before this row."""
    about = [words for _, words in entries[:row] if words[0] in ("arm", "withdraw", "run") and words[-1] == place]
    return bool(about) and about[-1][0] == "arm"


def bars_of(entries):
    """The bars: a class, a block or a hand, the first row and the last, and a title."""
    for row, (hand, (kind, *rest)) in enumerate(entries):
        if kind == "claim":
            yield "block", int(rest[0]), row, ends_of(entries, row, ["release", *rest]), f"block {rest[0]}"
        if kind == "run" and runs_here(entries, row, rest[1]):
            yield "run", hand, row, ends_of(entries, row, ["end_run", rest[1]]), f"callback of {rest[1]}"


def shapes_of(text, first=1, last=10_000, refused=None):
    """What an image of a trace has to show: headings, bars and rows, each with its place."""
    blocks, hands, entries = entries_of(text)
    shown = range(first - 1, min(last, len(entries)))
    shapes = [("column", block, str(block)) for block in range(blocks)]
    shapes += [("lane", hand, 20 * len(shown) + 20, f"hand {hand}") for hand in range(hands)]
    for what, at, begins, ends, title in bars_of(entries):
        rows = [row for row in shown if begins <= row <= ends]
        if rows:
            shapes.append((what, at, rows[0] - shown.start, len(rows), title))
    for row in shown:
        hand, words = entries[row]
        mark = [(" refused", "refused", row - shown.start)] if row + 1 == refused else []
        shapes += [(what, at) for _, what, at in mark]
        says = f"{row + 1} {' '.join(words)}" + "".join(it[0] for it in mark)
        shapes.append((CLASS_OF.get(words[0], "life"), hand, row - shown.start, says))
    return blocks, hands, shapes


def whole(number, unit):
    """How often a unit is in a number, in which it goes."""
    times, rest = divmod(number, unit)
    if rest:
        raise ValueError(f"{number} isn't a multiple of {unit}")
    return times


def shapes_in(picture, blocks):
    """The shapes of an image of a trace of so many blocks, behind its legend."""
    top, shapes = ElementTree.fromstring(picture), []
    drawn = [it for it in top if it.tag in (SVG + "rect", SVG + "text")][LEGEND_SHAPES:]
    lanes, across = 24 + 20 * blocks, {}
    for it in drawn:
        x, y = int(it.get("x")), int(it.get("y"))
        what, high = it.get("class"), int(it.get("height", "0"))
        if it.tag == SVG + "text" and what is None:
            if x < lanes:
                shapes.append(("column", whole(x - 8, 20), it.text))
            else:
                hand = whole(x - 18 - lanes, 220)
                shapes.append(("lane", hand, across[hand], it.text))
        elif it.tag == SVG + "text":
            shapes.append((what, whole(x - 18 - lanes, 220), whole(y - 14 - 120, 20), it.text))
        elif what == "lane":
            across[whole(x - lanes, 220)] = high
        elif what == "refused":
            shapes.append((what, whole(y - 120, 20)))
        else:
            at = whole(x - 8, 20) if what == "block" else whole(x - 3 - lanes, 220)
            shapes.append((what, at, whole(y - 120, 20), whole(high, 20), it.find(SVG + "title").text))
    return len(across), shapes


def is_wide_enough(picture, hands, blocks):
    """Whether each text of an image ends within it, a character being eight wide, and each row stands in it."""
    top = ElementTree.fromstring(picture)
    wide, high = int(top.get("width")), int(top.get("height"))
    texts = [it for it in top if it.tag == SVG + "text"]
    fits = all(int(it.get("x")) + 8 * len(it.text) <= wide and int(it.get("y")) < high for it in texts)
    return fits and 24 + 20 * blocks + 220 * hands <= wide


def written(program, command, text):
    """What a command on a file of this text prints; it ends well and notes nothing."""
    with tempfile.TemporaryDirectory() as folder:
        path = os.path.join(folder, "file.txt")
        with open(path, "w", encoding="utf-8") as file:
            file.write(text)
        words = [program, *command[:1], path, *command[1:]]
        ran = subprocess.run(words, capture_output=True, text=True, timeout=SECONDS, check=False)
    if (ran.returncode, ran.stderr) != (0, ""):
        raise ValueError(f"{command} ended with {ran.returncode} {ran.stderr}")
    return ran.stdout


def cuts_of(dice, trace):
    """Words that ask for a part of a trace, and what the picture then has: a first and a last entry."""
    long = len(entries_of(trace)[2])
    first, last = sorted((dice.randint(1, long), dice.randint(1, long + 5)))
    return [([], {}), (["--from", str(first)], {"first": first}), (["--to", str(last)], {"last": last}),
            (["--from", str(first), "--to", str(last)], {"first": first, "last": last})]  # fmt: skip


def fault_of_image(program, trace, words, shown):
    picture = written(beside(program, "exec_show"), ["trace", *words], trace)
    blocks, hands, wanted = shapes_of(trace, **shown)
    if not is_wide_enough(picture, hands, blocks):
        return [(trace, f"{words}: an image in which all has room", picture[:400])]
    across, found = shapes_in(picture, blocks)
    if (hands, sorted(wanted, key=str)) == (across, sorted(found, key=str)):
        return []
    return [(trace, f"{words} {(hands, wanted)}", str((across, found)))]


def spoilt_trace(dice, trace):
    """The trace without one of its entries."""
    opening = 1 + int(trace.split()[1])
    lines = trace.splitlines(keepends=True)
    del lines[dice.randrange(opening, len(lines))]
    return "".join(lines)


def try_trace(program, schedule, seed):
    """Compares the pictures of a schedule's trace, and of one that is spoilt, with the trace, as exec_run writes it."""
    dice = random.Random(seed)
    try:
        trace = written(program, ["replay"], schedule)
        faults = sum((fault_of_image(program, trace, *cut) for cut in cuts_of(dice, trace)), [])
        broken = spoilt_trace(dice, trace)
        return faults + fault_of_image(program, broken, ["--refused"], {"refused": refused_in(program, broken)})
    except ValueError as fault:
        return [(schedule, "pictures", str(fault))]


def refused_in(program, trace):
    """The entry that exec_run refuses, if it does."""
    with tempfile.TemporaryDirectory() as folder:
        path = os.path.join(folder, "file.txt")
        with open(path, "w", encoding="utf-8") as file:
            file.write(trace)
        ran = subprocess.run([program, "check", path], capture_output=True, text=True, timeout=SECONDS, check=False)
    says = ran.stdout.split()
    return int(says[1]) if says[:1] == ["refused"] else None


def boxes_of(digraph):
    """The lines that a viewer sees in each box of a digraph, and its arrows."""
    labels = dict(re.findall(r'^ +(\w+) \[label="((?:[^"\\]|\\.)*)"', digraph, re.M))
    seen = {}
    for name, label in labels.items():
        lines = re.split(r"(?<!\\)\\n", label)
        seen[name] = [html.unescape(re.sub(r"\\(.)", r"\1", line)) for line in lines]
    return seen, sorted(re.findall(r"^  (n\d+ -> n\d+)", digraph, re.M))


def boxes_in(image):
    """The same of an image that dot made of a digraph."""
    seen, arrows = {}, []
    for group in ElementTree.fromstring(image).iter(SVG + "g"):
        title = group.find(SVG + "title")
        if group.get("class") == "node":
            seen[title.text] = [it.text.replace("\u00a0", " ") for it in group.iter(SVG + "text")]
        if group.get("class") == "edge":
            arrows.append(title.text.replace("->", " -> "))
    return seen, sorted(arrows)


def try_page(program, plan, image):
    """Compares an image of the pages with the picture of its plan."""
    with open(plan, encoding="utf-8") as file:
        wanted = boxes_of(written(program, ["plan"], file.read()))
    with open(image, encoding="utf-8") as file:
        found = boxes_in(file.read())
    return [(image, str(wanted), str(found))] if wanted != found else []


def run(program, count=COUNT):
    """Reads the pictures of the plans and of their twins, spoils these, and reads half as many traces. The answer is how
    many passed and how many failed."""
    traced, program = os.path.abspath(program), beside(os.path.abspath(program), "exec_show")
    dice = random.Random(SEED)
    chosen = []
    for number in range(count):
        plan = make_plan(dice)
        for title, one in ((f"plan {number}", plan), (f"plan {number}, its twin", twin_of(plan))):
            chosen.append((f"pictures.py: {title}", one))
    fans = [(f"{title}, a fan of it", fan_of(dice, one)) for title, one in chosen if '"ahead"' not in json.dumps(one)]
    cores = os.cpu_count() or 1
    broken = [(f"{title}, spoilt", spoilt(dice, one)) for title, one in chosen]
    schedules = [(f"pictures.py: trace {number}", (make_schedule(dice), number)) for number in range(count // 2)]
    pages = [(f"pictures.py: {os.path.basename(image)}", (plan, image)) for plan, image in PAGES]
    counts = [
        try_each(chosen + fans, lambda plan: try_one(program, plan), cores),
        try_each(broken, lambda made: try_place(program, *made), cores),
        try_each(schedules, lambda made: try_trace(traced, *made), cores),
        try_each(pages, lambda made: try_page(program, *made), cores),
    ]
    return sum(count[0] for count in counts), sum(count[1] for count in counts)


def main():
    parser = argparse.ArgumentParser(description="Reads pictures of plans and of traces made at random.")
    parser.add_argument("--program", default=PROGRAM, metavar="PATH")
    parser.add_argument("--count", default=COUNT, type=int, metavar="N")
    given = parser.parse_args()
    passed, failed = run(given.program, given.count)
    print(f"{passed} passed, {failed} failed")
    return 1 if failed else 0


if __name__ == "__main__":
    sys.exit(main())
