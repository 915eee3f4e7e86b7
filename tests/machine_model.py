#!/usr/bin/env python3
"""The rules of running operations once more, in Python, and the cases of tests/cases/machine.json.

    tests/machine_model.py        writes tests/cases/machine.json anew

The rules are those of docs/TRACES.md and docs/DEFINITIONS.md, written from the definitions and not from the program,
so that the two judge each other. Each case that is told by hand says itself what the program must answer, and the
model is asked whether it agrees; the random ones take their answer from the model.
"""
import json
import os
import random

HERE = os.path.dirname(os.path.abspath(__file__))
CASES = os.path.join(HERE, "cases", "machine.json")

KINDS = (
    "claim begin await rest take finish report release arm look request run end_run withdraw withdraw_own seal_scan "
    "skip rouse enter mark_used leave close join seal"
).split()
SCOPE = "scope"
RESTING = {"loop": "loop", "pool": "pool", "parked": "parked"}


class View:
    """What one hand knows. A name is (block, generation, node); a source is SCOPE or the name of its node."""

    def __init__(self):
        self.holds, self.starts, self.reports, self.finished, self.runs = set(), set(), set(), set(), set()
        self.scan = {}  # the sources that it scans, each with the number from which the scan goes on
        self.unlooked, self.seen = set(), set()
        self.made = self.making = self.refused = 0

    def has(self, x):
        return any(x in part for part in (self.holds, self.starts, self.reports, self.finished, self.runs))


class Machine:
    """The words as they read, and what each hand knows."""

    def __init__(self, nodes, blocks, hands, kind, most):
        self.nodes, self.blocks, self.kind, self.most = nodes, blocks, kind, most
        self.size = len(nodes)
        self.block = [[0, "free"] for _ in range(blocks)]
        self.control, self.phase, self.bits = {}, {}, {}
        self.scope = dict(used=0, closed=0, joining=0, joined=0, count=0)
        self.views = [View() for _ in range(hands)]

    # names and readings

    def name(self, place):
        return (place[0], self.block[place[0]][0], place[1])

    def beside(self, x, node):
        return (x[0], x[1], node)

    def is_place(self, place):
        return place[0] < self.blocks and place[1] < self.size

    def is_live(self, x):
        return self.block[x[0]] == [x[1], "open"]

    def word(self, x):
        return self.control.get(x, "idle") if self.is_live(x) else "idle"

    def callback(self, x):
        return self.phase.get(x, "never") if self.is_live(x) else "never"

    def source_bits(self, source):
        if source != SCOPE and not self.is_live(source):
            return frozenset()
        return self.bits.get(source, frozenset())

    def nearest(self, x):
        """The source on which a callback of x is registered, or none."""
        parent = self.nodes[x[2]][0]
        while parent is not None:
            if self.nodes[parent][1] == "source":
                return self.beside(x, parent)
            if self.nodes[parent][1] == "unstoppable":
                return None
            parent = self.nodes[parent][0]
        return SCOPE

    def source(self, at):
        return SCOPE if at == SCOPE else self.name(at)

    def is_source(self, at):
        return at == SCOPE or (self.is_place(at) and self.nodes[at[1]][1] == "source")

    def index(self, x):
        return x[0] * self.size + x[2]

    def is_next(self, view, source, x):
        """x is the first place of the source from where the view's scan goes on."""
        if source not in view.scan or self.nearest(x) != source:
            return False
        start = view.scan[source]
        between = range(start, self.index(x))
        hears = (self.nearest(self.name((i // self.size, i % self.size))) == source for i in between)
        return start <= self.index(x) and not any(hears)

    def is_past_all(self, view, source):
        rest = range(view.scan[source], self.size * self.blocks)
        return not any(self.nearest(self.name((i // self.size, i % self.size))) == source for i in rest)

    def children(self, x):
        return [n for n in range(self.size) if self.nodes[n][0] == x[2]]

    # what each step needs

    def leaves(self, v, x):
        return x in v.holds and x not in v.scan

    def allows(self, hand, event):
        v = self.views[hand]
        kind, rest = event[0], event[1:]
        needs = getattr(self, "may_" + kind)
        if kind in PLACED and not self.is_place(rest[0]):
            return False
        return bool(needs(hand, v, *rest))

    def may_claim(self, hand, v, b):
        return b < self.blocks and self.block[b][1] == "free"

    def may_begin(self, hand, v, p):
        return self.name(p) in v.starts

    def may_await(self, hand, v, p, children):
        x = self.name(p)
        fit = all(c in self.children(x) and self.word(self.beside(x, c)) == "idle" for c in children)
        return self.leaves(v, x) and len(children) >= 1 and len(set(children)) == len(children) and fit

    def may_rest(self, hand, v, p, to):
        return self.leaves(v, self.name(p))

    def may_take(self, hand, v, p):
        word = self.word(self.name(p))
        return word == "pool" or (word in ("loop", "parked") and hand == 0)

    def may_finish(self, hand, v, p):
        x = self.name(p)
        return self.leaves(v, x) and self.callback(x) not in ("armed", "running")

    def may_report(self, hand, v, p):
        x = self.name(p)
        parent = self.nodes[p[1]][0]
        return x in v.reports and parent is not None and self.beside(x, parent) not in v.scan

    def may_release(self, hand, v, b):
        return b < self.blocks and self.name((b, self.size - 1)) in v.finished

    def may_arm(self, hand, v, p):
        x = self.name(p)
        return x in v.holds and self.callback(x) == "never" and self.nearest(x) is not None

    def may_look(self, hand, v, at, after=None):
        if after is None:
            return self.is_source(at)
        if not self.is_place(after):
            return False
        x = self.name(after)
        return x in v.unlooked and self.nearest(x) == (SCOPE if at == SCOPE else self.name(at))

    def may_request(self, hand, v, at, failure):
        if not self.is_source(at):
            return False
        source = self.source(at)
        if at == SCOPE:
            first = not failure and hand == 0 and self.kind == "counting"
            reachable = True
        else:
            below = [self.beside(source, n) for n in self.children(source)]
            if failure:
                first = any(x in v.reports for x in below)
            else:
                begun = any(self.word(x) != "idle" for x in below)
                first = source in v.runs or (source in v.holds and not begun and self.nearest(source) in v.seen)
            reachable = any(v.has(self.beside(source, n)) for n in range(self.size))
        return first or (not failure and source in v.seen and reachable)

    def may_run(self, hand, v, at, p):
        if at != SCOPE and not self.is_place(at):
            return False
        x = self.name(p)
        return self.is_next(v, self.source(at), x) and x not in v.runs

    def may_end_run(self, hand, v, p):
        x = self.name(p)
        return x in v.runs and x not in v.scan

    def may_withdraw(self, hand, v, p):
        x = self.name(p)
        return x in v.holds and x not in v.runs and self.callback(x) in ("armed", "running", "ran")

    def may_withdraw_own(self, hand, v, p):
        return self.may_end_run(hand, v, p) and self.name(p) in v.holds

    def may_seal_scan(self, hand, v, at):
        return self.is_source(at) and self.source(at) in v.scan and self.is_past_all(v, self.source(at))

    def may_skip(self, hand, v, b):
        if b >= self.blocks or self.block[b][1] != "free":
            return False
        places = [self.name((b, n)) for n in range(self.size)]
        return any(self.is_next(v, SCOPE, x) and x not in v.runs for x in places)

    def may_rouse(self, hand, v, p):
        x = self.name(p)
        return self.word(x) == "parked" and (x in v.runs or hand == 0)

    def may_enter(self, hand, v):
        return v.making + v.refused == 0

    def may_mark_used(self, hand, v):
        return v.making >= 1

    def may_leave(self, hand, v):
        return v.made + v.refused >= 1

    def may_close(self, hand, v):
        return True

    def may_join(self, hand, v):
        return True

    def may_seal(self, hand, v, *expected):
        w = self.scope
        now = (w["used"], w["closed"], w["joining"], w["joined"], w["count"])
        return now == expected and w["joining"] and not w["joined"] and w["count"] == 0

    # what each step does

    def take_step(self, hand, event):
        getattr(self, "do_" + event[0])(self.views[hand], *event[1:])

    def do_claim(self, v, b):
        self.block[b][1] = "open"
        v.starts.add(self.name((b, self.size - 1)))

    def do_begin(self, v, p):
        x = self.name(p)
        v.starts.remove(x)
        v.holds.add(x)
        self.control[x] = ("busy", 0)

    def do_await(self, v, p, children):
        x = self.name(p)
        self.control[x] = ("busy", len(children))
        v.holds.remove(x)
        v.starts.update(self.beside(x, c) for c in children)

    def do_rest(self, v, p, to):
        x = self.name(p)
        self.control[x] = RESTING[to]
        v.holds.remove(x)

    def do_take(self, v, p):
        x = self.name(p)
        self.control[x] = ("busy", 0)
        v.holds.add(x)

    def do_finish(self, v, p):
        x = self.name(p)
        self.control[x] = "done"
        v.holds.remove(x)
        (v.finished if p[1] == self.size - 1 else v.reports).add(x)

    def do_report(self, v, p):
        x = self.name(p)
        parent = self.beside(x, self.nodes[p[1]][0])
        left = self.control[parent][1] - 1
        self.control[parent] = ("busy", left)
        v.reports.remove(x)
        if left == 0:
            v.holds.add(parent)

    def do_release(self, v, b):
        v.finished.remove(self.name((b, self.size - 1)))
        self.block[b] = [self.block[b][0] + 1, "free"]
        for view in self.views:
            view.unlooked = {x for x in view.unlooked if x[0] != b}
            view.seen = {s for s in view.seen if s == SCOPE or s[0] != b}

    def do_arm(self, v, p):
        self.phase[self.name(p)] = "armed"
        v.unlooked.add(self.name(p))

    def do_look(self, v, at, after=None):
        if "requested" in self.source_bits(self.source(at)):
            v.seen.add(self.source(at))
        if after is not None:
            v.unlooked.discard(self.name(after))

    def do_request(self, v, at, failure):
        source = self.source(at)
        bits = self.source_bits(source)
        if "requested" not in bits:
            v.scan[source] = 0
        self.bits[source] = bits | {"requested"} | ({"failed"} if failure else set())
        v.seen.add(source)

    def do_run(self, v, at, p):
        x = self.name(p)
        if self.callback(x) == "armed":
            self.phase[x] = "running"
            v.runs.add(x)
        else:
            v.scan[self.source(at)] = self.index(x) + 1

    def end_of_run(self, v, p, phase):
        x = self.name(p)
        self.phase[x] = phase
        v.runs.remove(x)
        v.scan[self.nearest(x)] = self.index(x) + 1

    def do_end_run(self, v, p):
        self.end_of_run(v, p, "ran")

    def do_withdraw(self, v, p):
        x = self.name(p)
        if self.callback(x) == "armed":
            self.phase[x] = "removed"
        else:
            v.seen.add(self.nearest(x))

    def do_withdraw_own(self, v, p):
        self.end_of_run(v, p, "removed")

    def do_seal_scan(self, v, at):
        source = self.source(at)
        self.bits[source] = self.source_bits(source) | {"scanned"}
        del v.scan[source]

    def do_skip(self, v, b):
        v.scan[SCOPE] = (b + 1) * self.size

    def do_rouse(self, v, p):
        self.control[self.name(p)] = "loop"

    def do_enter(self, v):
        w = self.scope
        if w["joined"] or w["closed"] or w["count"] >= self.most:
            v.refused += 1
        elif w["used"]:
            v.made += 1
        else:
            v.making += 1
        w["count"] += 1

    def do_mark_used(self, v):
        self.scope["used"] = 1
        v.making -= 1
        v.made += 1

    def do_leave(self, v):
        self.scope["count"] -= 1
        if v.refused:
            v.refused -= 1
        else:
            v.made -= 1

    def do_close(self, v):
        self.scope["closed"] = 1

    def do_join(self, v):
        self.scope["joining"] = 1

    def do_seal(self, v, *expected):
        self.scope["joined"] = 1

    # the steps of which a hand has the choice

    def candidates(self, hand):
        places = [(b, n) for b in range(self.blocks) for n in range(self.size)]
        sources = places + [SCOPE]
        w = self.scope
        listed = {kind: [] for kind in KINDS}
        for b in range(self.blocks):
            for kind in ("claim", "release", "skip"):
                listed[kind].append((kind, b))
        for p in places:
            for kind in PLACED - {"await", "rest"}:
                listed[kind].append((kind, p))
            x = self.name(p)
            fresh = tuple(c for c in self.children(x) if self.word(self.beside(x, c)) == "idle")
            listed["await"].append(("await", p, fresh))
            listed["rest"] += [("rest", p, to) for to in ("loop", "pool", "parked")]
        for s in sources:
            listed["look"] += [("look", s, p) for p in places]
            listed["request"] += [("request", s, failure) for failure in (False, True)]
            listed["run"] += [("run", s, p) for p in places]
            listed["seal_scan"].append(("seal_scan", s))
        for kind in ("enter", "mark_used", "leave", "close", "join"):
            listed[kind].append((kind,))
        listed["seal"].append(("seal", w["used"], w["closed"], w["joining"], w["joined"], w["count"]))
        return [event for kind in KINDS for event in listed[kind] if self.allows(hand, event)]


# the kinds whose first word is a place
PLACED = {"begin", "await", "rest", "take", "finish", "report", "arm", "end_run", "withdraw", "withdraw_own", "rouse"}


def spelled(part):
    if part is True or part is False:
        return "failure" if part else "plain"
    if isinstance(part, tuple) and part and part[0] == "children":
        return ",".join(map(str, part[1]))
    return f"{part[0]}.{part[1]}" if isinstance(part, tuple) else str(part)


def line_of(hand, event):
    parts = list(event)
    if event[0] == "await":
        parts[2] = ("children", event[2])
    return " ".join([str(hand)] + [spelled(part) for part in parts])


def read_event(line):
    """The hand and the event that a line says."""
    hand, kind, *rest = line.split(" ")

    def at(word):
        return SCOPE if word == SCOPE else tuple(map(int, word.split(".")))

    if kind in ("claim", "release", "skip", "seal"):
        return int(hand), (kind, *map(int, rest))
    if kind == "await":
        return int(hand), (kind, at(rest[0]), tuple(map(int, rest[1].split(","))))
    if kind == "rest":
        return int(hand), (kind, at(rest[0]), rest[1])
    if kind == "request":
        return int(hand), (kind, at(rest[0]), rest[1] == "failure")
    return int(hand), (kind, *map(at, rest))


def header(nodes, blocks, hands, kind, most):
    told = [f"node {'-' if parent is None else parent} {flag}" for parent, flag in nodes]
    return "\n".join([f"exec {len(nodes)} {blocks} {hands} {kind} {most}"] + told) + "\n"


def verdict(setup, lines):
    machine = Machine(*setup)
    for number, line in enumerate(lines, 1):
        hand, event = read_event(line)
        if not machine.allows(hand, event):
            return f"refused {number}"
        machine.take_step(hand, event)
    return f"ok {len(lines)}"


cases = []


def check_case(name, setup, lines, says=None):
    judged = verdict(setup, lines)
    assert says is None or says == judged, (name, says, judged)
    cases.append({
        "name": name,
        "words": ["check", "trace.txt"],
        "files": {"trace.txt": header(*setup) + "".join(line + "\n" for line in lines)},
        "out": judged + "\n",
        "notes": "",
        "status": 0 if judged.startswith("ok") else 1,
    })


def story(name, setup, text, *refusals):
    """A run told line by line, all of whose entries are steps. Each refusal is (after, line, why): where `line` stands
    in place of what comes after entry number `after`, it is refused."""
    lines = [line.strip() for line in text.strip().split("\n")]
    check_case(name, setup, lines, f"ok {len(lines)}")
    for after, line, why in refusals:
        check_case(f"{name}: refused, {why}", setup, lines[:after] + [line], f"refused {after + 1}")


def pairs(blocks, hands, kind, most, root="plain"):
    return ([(1, "plain"), (None, root)], blocks, hands, kind, most)


def stories():
    story("an operation of two nodes ends, and its block is given again", pairs(1, 2, "simple", 1), """
        0 claim 0
        0 begin 0.1
        0 await 0.1 0
        0 begin 0.0
        0 finish 0.0
        0 report 0.0
        0 finish 0.1
        0 release 0
        0 claim 0
        0 begin 0.1
        0 await 0.1 0
        """,
        (1, "0 claim 0", "the block is open"),
        (2, "0 await 0.1 0,0", "a child stands twice"),
        (2, "0 await 0.1 1", "a node is no child of its own"),
        (3, "0 begin 0.1", "the root has begun"),
        (5, "0 finish 0.1", "the child hasn't reported"),
        (6, "0 report 0.0", "the child has reported"),
        (7, "0 finish 0.1", "the root is done"),
        (8, "0 release 0", "the block is free"),
    )
    story("what a hand has of a node is its own", pairs(1, 2, "simple", 1), """
        1 claim 0
        1 begin 0.1
        1 await 0.1 0
        1 begin 0.0
        1 finish 0.0
        1 report 0.0
        1 finish 0.1
        1 release 0
        """,
        (1, "0 begin 0.1", "the start is owed by another hand"),
        (2, "0 finish 0.1", "the root is held by another hand"),
        (3, "0 begin 0.0", "the child's start is owed by another hand"),
        (5, "0 report 0.0", "the report is owed by another hand"),
        (7, "0 release 0", "the finished root is held by another hand"),
    )
    story("a node that rests is taken by a hand of its context", pairs(1, 2, "simple", 1), """
        0 claim 0
        0 begin 0.1
        0 rest 0.1 loop
        0 take 0.1
        0 rest 0.1 pool
        1 take 0.1
        1 rest 0.1 loop
        0 take 0.1
        0 rest 0.1 parked
        0 take 0.1
        """,
        (3, "1 take 0.1", "the loop is hand 0's"),
        (3, "0 finish 0.1", "it isn't held"),
        (6, "0 take 0.1", "it is held"),
        (9, "1 take 0.1", "what is parked is hand 0's to take"),
    )
    story("a removal waits for a running callback", pairs(2, 2, "counting", 1), """
        1 claim 0
        1 begin 0.1
        0 claim 1
        0 begin 1.1
        1 arm 0.1
        1 look scope 0.1
        0 request scope plain
        0 run scope 0.0
        0 run scope 0.1
        1 withdraw 0.1
        0 end_run 0.1
        1 withdraw 0.1
        0 run scope 1.0
        0 run scope 1.1
        0 seal_scan scope
        1 request scope plain
        0 arm 1.1
        0 look scope 1.1
        0 withdraw 1.1
        0 finish 1.1
        """,
        (4, "1 request scope plain", "the scope's request is hand 0's"),
        (5, "1 finish 0.1", "its callback is armed"),
        (6, "1 look scope 0.1", "it was looked after"),
        (8, "0 run scope 1.1", "another place is the next"),
        (9, "0 run scope 0.1", "it runs"),
        (9, "1 finish 0.1", "its callback runs"),
        (9, "0 withdraw 0.1", "hand 1 holds the node"),
        (10, "1 finish 0.1", "a removal that read running leaves it running"),
        (11, "0 end_run 0.1", "the run is over"),
        (12, "0 seal_scan scope", "two places are left"),
        (15, "0 seal_scan scope", "the scan is sealed"),
        (16, "1 seal_scan scope", "a request that isn't new begins no scan"),
        (18, "0 finish 1.1", "its callback is armed again"),
        (19, "0 withdraw 1.1", "it is removed"),
        (19, "0 arm 1.1", "a callback is registered once"),
    )
    story("a scan skips the free blocks in order", pairs(3, 1, "counting", 1), """
        0 claim 2
        0 begin 2.1
        0 await 2.1 0
        0 begin 2.0
        0 arm 2.0
        0 look scope 2.0
        0 request scope plain
        0 skip 0
        0 skip 1
        0 run scope 2.0
        0 end_run 2.0
        0 run scope 2.1
        0 seal_scan scope
        """,
        (7, "0 skip 1", "the next place is in block 0"),
        (9, "0 skip 2", "the block is open"),
        (10, "0 seal_scan scope", "a callback runs"),
        (11, "0 seal_scan scope", "one place is left"),
    )
    story("a node beside an unstoppable one is armed", pairs(1, 1, "counting", 1, "unstoppable"), """
        0 claim 0
        0 begin 0.1
        0 arm 0.1
        0 await 0.1 0
        0 begin 0.0
        """,
        (5, "0 arm 0.0", "no request reaches below an unstoppable node"),
    )
    story("a forwarded request is removed from inside its own run", pairs(1, 1, "counting", 1, "source"), """
        0 claim 0
        0 begin 0.1
        0 arm 0.1
        0 look scope 0.1
        0 request scope plain
        0 run scope 0.1
        0 request 0.1 plain
        0 run 0.1 0.0
        0 seal_scan 0.1
        0 withdraw_own 0.1
        0 seal_scan scope
        """,
        (4, "0 request 0.1 plain", "none is to be passed on yet"),
        (4, "0 withdraw_own 0.1", "its callback doesn't run"),
        (6, "0 run scope 0.0", "it hears the root's source"),
        (7, "0 withdraw_own 0.1", "its own source is scanned"),
        (7, "0 end_run 0.1", "its own source is scanned still"),
        (9, "0 withdraw 0.1", "the hand runs it itself"),
    )
    story("a failed child requests a stop of its siblings", pairs(1, 1, "simple", 1, "source"), """
        0 claim 0
        0 begin 0.1
        0 await 0.1 0
        0 begin 0.0
        0 finish 0.0
        0 request 0.1 failure
        0 run 0.1 0.0
        0 seal_scan 0.1
        0 report 0.0
        """,
        (4, "0 request 0.1 failure", "no child is done"),
        (5, "0 request 0.1 plain", "no request is passed on"),
        (6, "0 report 0.0", "the hand scans the parent's source"),
        (9, "0 request scope plain", "a simple scope has no source"),
        (9, "0 request 0.1 failure", "no report is owed"),
    )
    story("a scope is joined once its last association left", pairs(1, 2, "counting", 2), """
        0 enter
        0 mark_used
        0 enter
        0 enter
        0 leave
        0 close
        0 enter
        0 leave
        0 join
        0 leave
        0 leave
        0 seal 1 1 1 0 0
        0 enter
        0 leave
        """,
        (4, "0 mark_used", "two are as many as the scope takes"),
        (4, "0 enter", "the third leaves before the next"),
        (7, "0 mark_used", "a closed scope makes none"),
        (9, "0 seal 1 1 1 0 2", "two associations are left"),
        (10, "0 seal 1 1 1 0 1", "one is left"),
        (10, "0 seal 1 1 1 0 0", "the word counts one"),
        (12, "0 seal 1 1 1 1 0", "it is joined"),
        (13, "0 mark_used", "a joined scope makes none"),
        (14, "0 leave", "none is left"),
    )
    story("an association between the last leave and the seal is made", pairs(1, 2, "counting", 2), """
        0 enter
        0 mark_used
        0 join
        0 leave
        1 enter
        1 leave
        0 seal 1 0 1 0 0
        """,
        (2, "1 leave", "the association is hand 0's"),
        (3, "0 seal 1 0 1 0 0", "the association is left"),
        (5, "0 seal 1 0 1 0 0", "the word is another"),
        (5, "0 seal 1 0 1 0 1", "its association is left"),
        (6, "0 seal 1 1 1 0 0", "the scope isn't closed"),
        (6, "0 seal 0 0 1 0 0", "the scope is used"),
    )
    story("a scope is open while its first association is in the making", pairs(1, 2, "counting", 2), """
        0 enter
        1 enter
        1 mark_used
        0 mark_used
        0 leave
        1 leave
        0 enter
        """,
        (1, "0 leave", "it isn't made yet"),
        (1, "0 enter", "one is in the making"),
        (1, "0 seal 0 0 0 0 1", "the scope isn't joining"),
        (4, "0 mark_used", "it is made"),
        (7, "0 mark_used", "a used scope makes it at once"),
    )
    for before, after, name in (
        ((), ("join", "seal 0 1 1 0 0"), "unused"),
        (("enter", "mark_used", "leave"), ("join", "seal 1 1 1 0 0"), "open"),
        (("enter", "mark_used", "leave", "join"), ("seal 1 1 1 0 0",), "open and joining"),
        (("enter", "mark_used", "leave", "close"), ("join", "seal 1 1 1 0 0"), "closed"),
        (("enter", "mark_used", "leave", "close", "join"), ("seal 1 1 1 0 0",), "closed and joining"),
        (("close",), ("join", "seal 0 1 1 0 0"), "unused and closed"),
        (("join", "seal 0 0 1 0 0"), ("enter", "leave", "close"), "joined"),
    ):
        lines = [f"0 {word}" for word in (*before, "close", *after)]
        check_case(f"a scope that is {name} is closed, and all else stays", pairs(1, 2, "simple", 2), lines, f"ok {len(lines)}")
        last = lines[:-1] + [lines[-1].replace("seal 1 1", "seal 1 0").replace("seal 0 1", "seal 0 0")]
        if name == "joined":
            last = lines[:-2] + ["0 mark_used"]
        check_case(f"a scope that is {name} is closed: refused, it was", pairs(1, 2, "simple", 2), last, f"refused {len(last)}")
    story("a parked node is roused by hand 0", pairs(1, 2, "counting", 1), """
        1 claim 0
        1 begin 0.1
        1 rest 0.1 parked
        0 rouse 0.1
        0 take 0.1
        """,
        (2, "0 rouse 0.1", "it is held"),
        (3, "1 rouse 0.1", "hand 1 doesn't run its callback"),
        (4, "0 rouse 0.1", "it is ready in the loop"),
        (4, "1 take 0.1", "the loop is hand 0's"),
    )
    story("a parked node is roused by the hand that runs its callback", ([(1, "plain"), (None, "source")], 1, 2, "simple", 1), """
        0 claim 0
        0 begin 0.1
        0 await 0.1 0
        0 begin 0.0
        0 arm 0.0
        0 look 0.1 0.0
        0 rest 0.0 parked
        0 take 0.0
        """,
        (7, "1 rouse 0.0", "hand 1 doesn't run its callback"),
    )


TREES = {
    "one node": [(None, "plain")],
    "a chain of three": [(1, "plain"), (2, "plain"), (None, "plain")],
    "a wide tree": [(2, "plain"), (2, "plain"), (5, "source"), (4, "plain"), (5, "unstoppable"), (None, "plain")],
}
# with these seeds the three schedules together take steps of all kinds
SEEDS = {"one node": 22, "a chain of three": 19, "a wide tree": 2}
# the kinds after which little else can happen
RARE = {"close": 150, "join": 150}


def pick(dice, events):
    weights = [1 / RARE.get(event[0], 1) for event in events]
    return dice.choices(range(len(events)), weights)[0]


def schedules(taken):
    """Schedules whose choices are thrown, and the traces that the model makes of them."""
    for name, nodes in TREES.items():
        dice = random.Random(SEEDS[name])
        setup = (nodes, 2, 2, "counting", 3)
        machine = Machine(*setup)
        choices, entries = [], []
        for _ in range(400):
            hand = dice.randrange(2)
            events = machine.candidates(hand)
            at = pick(dice, events)
            choices.append(f"{hand} {at + len(events) * dice.randrange(3)}\n")
            entries.append(line_of(hand, events[at]) + "\n")
            assert read_event(entries[-1].strip()) == (hand, events[at])
            taken.add(events[at][0])
            machine.take_step(hand, events[at])
        cases.append({
            "name": f"a thrown schedule gives the trace of the rules: {name}",
            "words": ["replay", "schedule.txt"],
            "files": {"schedule.txt": header(*setup) + "".join(choices)},
            "out": header(*setup) + "".join(entries),
            "notes": "",
            "status": 0,
        })


def any_event(dice, machine):
    """An event that mostly is no step, with places, sources and children that are there."""
    kind = dice.choice(KINDS)

    def place():
        return (dice.randrange(machine.blocks), dice.randrange(machine.size))

    def source():
        return SCOPE if dice.randrange(3) == 0 else place()

    if kind in ("claim", "release", "skip"):
        return (kind, dice.randrange(machine.blocks))
    if kind == "await":
        return (kind, place(), tuple(dice.randrange(machine.size) for _ in range(dice.randrange(1, 4))))
    if kind == "rest":
        return (kind, place(), dice.choice(("loop", "pool", "parked")))
    if kind == "look":
        return (kind, source(), place()) if dice.randrange(2) else (kind, source())
    if kind == "request":
        return (kind, source(), dice.random() < 0.5)
    if kind == "run":
        return (kind, source(), place())
    if kind == "seal_scan":
        return (kind, source())
    if kind == "seal":
        return (kind, *(dice.randrange(2) for _ in range(4)), dice.randrange(3))
    return (kind, place()) if kind in PLACED else (kind,)


def refusals():
    """Traces with steps of all kinds, and one last entry of each kind that is none."""
    dice = random.Random(7)
    setup = (TREES["a wide tree"], 2, 2, "counting", 3)
    wanted = {kind: 2 for kind in KINDS if kind not in ("close", "join")}
    while wanted:
        machine, lines = Machine(*setup), []
        for _ in range(dice.randrange(8, 40)):
            hand = dice.randrange(2)
            events = machine.candidates(hand)
            event = events[pick(dice, events)]
            lines.append(line_of(hand, event))
            machine.take_step(hand, event)
        hand, event = dice.randrange(2), any_event(dice, machine)
        if event[0] not in wanted or machine.allows(hand, event):
            continue
        count = wanted.pop(event[0]) - 1
        if count:
            wanted[event[0]] = count
        check_case(f"a thrown trace is refused at its {event[0]}, {'first' if count else 'second'}", setup,
                   lines + [line_of(hand, event)], f"refused {len(lines) + 1}")


def texts():
    """Traces and schedules as texts: what they may be, and the first line at which they go wrong."""
    opening = "exec 2 1 1 counting 1\nnode 1 plain\nnode - plain\n"

    def text_case(name, word, text, says, pieces=None):
        file = "trace.txt" if word == "check" else "schedule.txt"
        case = {"name": name, "words": [word, file]}
        case.update({"pieces": {file: pieces}} if pieces else {"files": {file: text}})
        good = not says.startswith("trace refused")
        case.update({"out": says if good else "", "notes": "" if good else says + "\n", "status": 0 if good else 3})
        cases.append(case)

    for number, text in enumerate((
        "", "exec 1 1 1 counting 1", "exec 1 1 1 counting\nnode - plain\n", "exec 1 1 1 other 1\nnode - plain\n",
        "exec 01 1 1 counting 1\nnode - plain\n", "exec 1 1 1 counting 1 \nnode - plain\n",
        "exec  1 1 1 counting 1\nnode - plain\n", "exec 1 1 1 counting 1 1\nnode - plain\n",
        "exec 0 1 1 counting 1\n", "exec 129 1 1 counting 1\n", "exec 1 0 1 counting 1\nnode - plain\n",
        "exec 1 9 1 counting 1\nnode - plain\n", "exec 1 1 0 counting 1\nnode - plain\n",
        "exec 1 1 9 counting 1\nnode - plain\n", "exec 1 1 1 counting 0\nnode - plain\n",
        "exec 1 1 1 counting 65536\nnode - plain\n",
    ), 1):
        text_case(f"a first line that isn't of the form, {number}", "check", text, "trace refused: line 1")
    for number, (text, line) in enumerate((
        ("exec 2 1 1 simple 1\nnode 1 plain\n", 3), ("exec 2 1 1 simple 1\nnode 1 plain\nnode - plain", 3),
        ("exec 2 1 1 simple 1\nnode 1 other\nnode - plain\n", 2),
        ("exec 2 1 1 simple 1\nnode 2 plain\nnode - plain\n", 2),
        ("exec 2 1 1 simple 1\nnode 0 plain\nnode - plain\n", 2),
        ("exec 2 1 1 simple 1\nnode 1 source\nnode 1 unstoppable\n", 3),
        ("exec 2 1 1 simple 1\nnode 0 plain\nnode plain\n", 3),
    ), 1):
        text_case(f"a line of a node that goes wrong, {number}", "check", text, f"trace refused: line {line}")
    for number, entry in enumerate((
        "", "0", "0 ", "0 other", "0 claim", "0 claim 00", "0 claim +0", "0 claim 4294967296", "0 claim 0 ", "0 Claim 0",
        "1 claim 0", "0 claim 1", "0 begin 0", "0 begin 0.2", "0 begin 1.0", "0 await 0.1 ", "0 await 0.1 0,",
        "0 await 0.1 2", "0 rest 0.1 queue", "0 look", "0 look scope 0.2", "0 request scope", "0 run 0.2 0.0",
        "0 seal 0 0 0 0 x", "0 seal 0 0 0 2 0", "0 enter 0", "0 enter\r", "0  enter", " 0 enter",
    ), 1):
        text_case(f"an entry that goes wrong, {number}", "check", f"{opening}{entry}\n", "trace refused: line 4")
    for number, choice in enumerate((
        "", "0", "0 ", "0 x", "0 00", "0 +1", "0 4294967296", "0 0 0", "0 0 ", "0  0", " 0 0", "0 0\r", "1 0", "0 claim 0",
    ), 1):
        text_case(f"a choice that goes wrong, {number}", "replay", f"{opening}{choice}\n", "trace refused: line 4")
    whole = "0 claim 0\n0 begin 0.1\n0 await 0.1 0\n0 begin 0.0\n0 finish 0.0\n0 report 0.0\n0 finish 0.1\n0 release 0"
    text_case("a last line without a line feed", "check", f"{opening}{whole}", "trace refused: line 11")
    text_case("that line with its line feed", "check", f"{opening}{whole}\n", "ok 8\n")
    text_case("an opening alone", "check", opening, "ok 0\n")
    for word in ("check", "replay"):
        text_case(f"a text of one byte more is too long: {word}", word, "", "trace refused: too long", [["\n", 1048577]])
        text_case(f"a text of the most bytes is read: {word}", word, "", "trace refused: line 1", [["\n", 1048576]])
    nodes = ["exec 128 8 8 simple 65535\n", ["node 127 plain\n", 127], "node - plain\n"]
    text_case("the greatest numbers of an opening", "check", "", "ok 1\n", nodes + ["7 claim 7\n"])
    text_case("a greatest node", "check", "", "trace refused: line 130", nodes + ["7 begin 7.128\n"])
    text_case("the most entries of a trace", "check", "", "ok 10000\n", [opening, ["0 close\n", 10000]])
    text_case("an entry more", "check", "", "trace refused: line 10004", [opening, ["0 close\n", 10001]])
    text_case("a choice more", "replay", "", "trace refused: line 10004", [opening, ["0 0\n", 10001]])
    closes = "exec 1 1 2 simple 1\nnode - plain\n"
    # hand 1 may claim, enter, close or join: 4,294,967,295 is 3 of four
    text_case("the greatest choice", "replay", f"{closes}1 4294967295\n", f"{closes}1 join\n")


def each_kind():
    """Each kind where it is a step, and where it is none, on an operation of a parent and its child."""
    setup = pairs(1, 1, "counting", 1)
    for kind, text in (
        ("a rest in the loop", "0 claim 0/0 begin 0.1/0 rest 0.1 loop/0 take 0.1"),
        ("a rest in the pool", "0 claim 0/0 begin 0.1/0 rest 0.1 pool/0 take 0.1"),
        ("a rest aside", "0 claim 0/0 begin 0.1/0 rest 0.1 parked/0 rouse 0.1/0 take 0.1"),
        ("a removal before the run", "0 claim 0/0 begin 0.1/0 arm 0.1/0 look scope 0.1/0 withdraw 0.1"),
        ("a removal from inside the run", "0 claim 0/0 begin 0.1/0 arm 0.1/0 look scope/0 request scope plain/"
         "0 run scope 0.0/0 run scope 0.1/0 withdraw_own 0.1"),
        ("the life of a scope", "0 enter/0 mark_used/0 leave/0 close/0 join/0 seal 1 1 1 0 0"),
    ):
        lines = text.split("/")
        check_case(f"{kind} is taken", setup, lines, f"ok {len(lines)}")
    for text in (
        "0 claim 0/0 claim 0", "0 begin 0.1", "0 await 0.1 0", "0 rest 0.1 loop", "0 take 0.1", "0 finish 0.1",
        "0 report 0.0", "0 release 0", "0 arm 0.1", "0 look scope 0.1", "0 request 0.1 failure", "0 run scope 0.0",
        "0 end_run 0.1", "0 withdraw 0.1", "0 withdraw_own 0.1", "0 seal_scan scope", "0 skip 0", "0 rouse 0.1",
        "0 enter/0 enter", "0 mark_used", "0 leave", "0 seal 0 0 0 0 0",
    ):
        lines = text.split("/")
        check_case(f"a first `{lines[-1][2:]}` is refused", setup, lines, f"refused {len(lines)}")
    siblings = ([(2, "plain"), (2, "plain"), (None, "source")], 1, 1, "counting", 1)
    story("a child that failed reports after the scan for its siblings", siblings, """
        0 claim 0
        0 begin 0.2
        0 await 0.2 0,1
        0 begin 0.0
        0 finish 0.0
        0 request 0.2 failure
        0 run 0.2 0.0
        0 run 0.2 0.1
        0 seal_scan 0.2
        0 report 0.0
        """,
        (6, "0 report 0.0", "the scan isn't over"),
    )
    story("a callback that runs keeps its operation", ([(None, "plain")], 1, 2, "counting", 1), """
        1 claim 0
        1 begin 0.0
        1 arm 0.0
        1 look scope 0.0
        0 request scope plain
        0 run scope 0.0
        1 withdraw 0.0
        0 end_run 0.0
        1 finish 0.0
        1 release 0
        0 seal_scan scope
        """,
        (6, "1 finish 0.0", "what the callback reads would be gone under it"),
    )


def main():
    stories()
    each_kind()
    texts()
    taken = set()
    schedules(taken)
    assert taken == set(KINDS), set(KINDS) - taken
    refusals()
    names = [case["name"] for case in cases]
    assert len(set(names)) == len(names), [name for name in names if names.count(name) > 1]
    with open(CASES, "w") as file:
        file.write("[\n" + ",\n".join(json.dumps(case) for case in cases) + "\n]\n")
    print(f"{len(cases)} cases")


if __name__ == "__main__":
    main()
