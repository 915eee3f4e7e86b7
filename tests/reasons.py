#!/usr/bin/env python3
"""Asks exec_show why an entry of a trace is refused, or what is open at its end, and compares what it says with a model
of its own: over the traces of tests/cases/machine.json, over those with an entry changed, added, moved or left out, and
over traces that are told by hand, so that each sentence of docs/TRACES.md comes at least once.

    tests/reasons.py [--program PATH] [--count N]     exec_show is the one that was built beside PATH, exec_run

The machine is that of machine_model.py. A sentence is found here by what docs/TRACES.md says of it, and the entry since
which it is so by trying the sentence's fact in each state before. The last line is `N passed, M failed`; the status is
1 where one failed.
"""
import argparse
import copy
import json
import os
import random
import subprocess
import sys
import tempfile

from machine_model import KINDS, PLACED, SCOPE, Machine, header, line_of, read_event, spelled
from run_cases import CASES, PROGRAM, beside, try_each

SEED = 9_091
COUNT = 300
SECONDS = 120
# what each sentence has that no other has; each must come at least once
SENTENCES = (
    "has no stop source", "the block is open", "lies in a free block", "isn't awaited",
    "owes its start", "is held by hand", "waits for 1 child", "waits for 2 children", "rests in the loop",
    "rests in the pool", "is parked", "owes its report", "its report was made", "holds it as the finished root",
    "no callback of it is registered", "its callback is armed", "its callback runs on hand", "its callback has run",
    "its callback is removed", "hears no stop source", "hears the scope's source", "hears the source of", " scans ",
    "doesn't scan", "goes on with", "has passed all places", "a child is named twice", "isn't a child of it",
    "no arming of it to look after", "no failure requests a stop", "a simple scope has no stop source",
    "has seen no request there", "owes no report of a child", "no request to pass on", "doesn't run its callback",
    "has an association in the making", "that is being refused", "no association in the making",
    "no association to leave", "the scope's word is", "not joining", ", joined", "with associations", "nothing open",
    "open: block", "callback 0.", "scan of scope", "scan of 0.", "1 association", "2 associations", "1 entry taken",
)  # fmt: skip

DOES_NOT = "doesn't scan"


class Judge(Machine):
    """The machine, and why it refuses a step: a fact is a name with what it is about, and is tried again in other
    states."""

    def scope_word(self):
        return tuple(self.scope[key] for key in ("used", "closed", "joining", "joined", "count"))

    def who(self, part, x):
        return next((hand for hand, v in enumerate(self.views) if x in getattr(v, part)), None)

    def standing(self, p):
        state, x = self.block[p[0]][1], self.name(p)
        if state != "open":
            return f"lies in a {state} block"
        word = self.word(x)
        if word == "idle":
            hand = self.who("starts", x)
            return "hasn't begun, and " + ("isn't awaited" if hand is None else f"hand {hand} owes its start")
        if word == "done":
            if p[1] == self.size - 1:
                return f"is done, and hand {self.who('finished', x)} holds it as the finished root"
            hand = self.who("reports", x)
            return "is done, and " + ("its report was made" if hand is None else f"hand {hand} owes its report")
        if word in ("loop", "pool", "parked"):
            rest = "is parked" if word == "parked" else f"rests in the {word}"
            return rest + ("" if word == "pool" else ", for hand 0 to take")
        left = word[1]
        return f"waits for {left} child{'' if left == 1 else 'ren'}" if left else f"is held by hand {self.who('holds', x)}"

    def called_back(self, p):
        x = self.name(p)
        return {
            "never": "no callback of it is registered",
            "armed": "its callback is armed",
            "running": f"its callback runs on hand {self.who('runs', x)}",
            "ran": "its callback has run",
            "removed": "its callback is removed",
        }[self.callback(x)]

    def heard(self, p):
        nearest = self.nearest(self.name(p))
        return None if nearest is None else SCOPE if nearest == SCOPE else (p[0], nearest[2])

    def scanning(self, hand, at):
        return (at == SCOPE or self.is_place(at)) and self.source(at) in self.views[hand].scan

    def next_place(self, hand, at):
        places = [(b, n) for b in range(self.blocks) for n in range(self.size)]
        view, source = self.views[hand], self.source(at)
        return next((p for p in places if self.is_next(view, source, self.name(p))), None)

    def is_so(self, fact):
        """Whether the fact holds in this state."""
        what, *about = fact
        if what == "block":
            return self.block[about[0]][1] == about[1]
        if what == "stands":
            return self.standing(about[0]) == about[1]
        if what == "callback":
            return self.called_back(about[0]) == about[1]
        if what == "scans":
            return self.scanning(*about)
        if what == "scans not":
            return not self.scanning(*about)
        if what == "next":
            return self.scanning(*about[:2]) and self.next_place(*about[:2]) == about[2]
        if what == "word":
            return self.scope_word() == about[0]
        if what == "making":
            return self.views[about[0]].making >= 1
        if what == "refused":
            return self.views[about[0]].making == 0 and self.views[about[0]].refused >= 1
        if what == "runs not":
            return self.name(about[1]) not in self.views[about[0]].runs
        if what == "not":  # the event isn't a step of the hand
            return not self.allows(*about)
        return True  # what the tree or the entry itself says

    def scan_fact(self, hand, at):
        return ("next", hand, at, self.next_place(hand, at)) if self.scanning(hand, at) else ("scans not", hand, at)

    def why(self, hand, event):
        """The fact of the first need that doesn't hold."""
        kind, *rest = event
        v = self.views[hand]
        return getattr(self, "why_" + kind)(hand, v, *rest)

    def stands(self, p):
        return ("stands", p, self.standing(p))

    def calls(self, p):
        return ("callback", p, self.called_back(p))

    def unheld(self, hand, v, p):
        x = self.name(p)
        return self.stands(p) if x not in v.holds else ("scans", hand, p) if x in v.scan else None

    def why_claim(self, hand, v, b):
        return ("block", b, self.block[b][1])

    def why_begin(self, hand, v, p):
        return self.stands(p)

    def why_await(self, hand, v, p, children):
        if (fact := self.unheld(hand, v, p)) is not None:
            return fact
        if len(set(children)) < len(children):
            return ("twice",)
        for child in children:
            if self.nodes[child][0] != p[1]:
                return ("no child", child)
            if self.word(self.name((p[0], child))) != "idle":
                return self.stands((p[0], child))
        return None

    def why_rest(self, hand, v, p, to):
        return self.unheld(hand, v, p)

    def why_take(self, hand, v, p):
        return self.stands(p)

    def why_finish(self, hand, v, p):
        return self.unheld(hand, v, p) or self.calls(p)

    def why_report(self, hand, v, p):
        return self.stands(p) if self.name(p) not in v.reports else ("scans", hand, (p[0], self.nodes[p[1]][0]))

    def why_release(self, hand, v, b):
        return self.stands((b, self.size - 1))

    def why_arm(self, hand, v, p):
        if self.name(p) not in v.holds:
            return self.stands(p)
        return self.calls(p) if self.callback(self.name(p)) != "never" else ("hears", p, None)

    def why_look(self, hand, v, at, after=None):
        if after is None:
            return ("no source", at)
        if self.heard(after) != at:
            return ("hears", after, self.heard(after))
        return ("not", hand, ("look", at, after))

    def why_request(self, hand, v, at, failure):
        return ("not", hand, ("request", at, failure)) if self.is_source(at) else ("no source", at)

    def why_run(self, hand, v, at, p):
        return self.calls(p) if self.name(p) in v.runs else self.scan_fact(hand, at)

    def why_end_run(self, hand, v, p):
        return self.calls(p) if self.name(p) not in v.runs else ("scans", hand, p)

    def why_withdraw(self, hand, v, p):
        return self.stands(p) if self.name(p) not in v.holds else self.calls(p)

    def why_withdraw_own(self, hand, v, p):
        return self.stands(p) if self.may_end_run(hand, v, p) else self.why_end_run(hand, v, p)

    def why_seal_scan(self, hand, v, at):
        return self.scan_fact(hand, at) if self.is_source(at) else ("no source", at)

    def why_skip(self, hand, v, b):
        return ("block", b, self.block[b][1]) if self.block[b][1] != "free" else self.scan_fact(hand, SCOPE)

    def why_rouse(self, hand, v, p):
        return self.stands(p) if self.word(self.name(p)) != "parked" else ("runs not", hand, p)

    def why_enter(self, hand, v):
        return ("making", hand) if v.making else ("refused", hand)

    def why_mark_used(self, hand, v):
        return ("not", hand, ("mark_used",))

    def why_leave(self, hand, v):
        return ("not", hand, ("leave",))

    def why_seal(self, hand, v, *expected):
        return ("word", self.scope_word())

    def left_open(self):
        """All that is open."""
        places = [(b, n) for b in range(self.blocks) for n in range(self.size)]
        sources = [at for at in places if self.is_source(at)] + [SCOPE]
        found = [f"block {b}" for b in range(self.blocks) if self.block[b][1] == "open"]
        found += [f"callback {spelled(p)}" for p in places if self.callback(self.name(p)) in ("armed", "running")]
        bits = {at: self.source_bits(self.source(at)) for at in sources}
        found += [f"scan of {spelled(at)}" for at in sources if "requested" in bits[at] and "scanned" not in bits[at]]
        count = self.scope["count"]
        return found + ([f"{count} association{'' if count == 1 else 's'}"] if count else [])


def own_place(event):
    """What `it` is in a sentence on the event."""
    kind, *rest = event
    places = [part for part in rest if isinstance(part, tuple) and kind != "await"]
    return rest[0] if kind == "await" else places[-1] if places else None


def sentence(fact, own):
    what, *about = fact
    hand = about[0] if about else None

    def named(place):
        return "it" if place == own else spelled(place)

    def source(at):
        return "the scope's source" if at == SCOPE else f"the source of {spelled(at)}"

    if what == "block":
        return f"the block is {about[1]}"
    if what == "stands":
        return f"{named(about[0])} {about[1]}"
    if what == "callback":
        return about[1]
    if what == "hears":
        return f"{named(about[0])} hears " + ("no stop source" if about[1] is None else source(about[1]))
    if what in ("scans", "scans not"):
        return f"hand {hand} {'scans' if what == 'scans' else DOES_NOT} {source(about[1])}"
    if what == "next":
        goes_on = "has passed all places" if about[2] is None else f"goes on with {spelled(about[2])}"
        return f"the scan of hand {hand} {goes_on}"
    if what == "no source":
        return f"{named(about[0])} has no stop source"
    if what == "word":
        *bits, count = about[0]
        _, _, joining, joined = bits
        reading = ", not joining" if not joining else ", joined" if joined else ", with associations" if count else ""
        return "the scope's word is " + " ".join(map(str, about[0])) + reading
    if what == "not":
        kind, *rest = about[1]
        if kind == "request":
            at, failure = rest
            if at == SCOPE:
                return ("no failure requests a stop of the scope" if failure else "a simple scope has no stop source"
                        if hand == 0 else f"hand {hand} has seen no request there, and hand 0 makes the first")  # fmt: skip
            return f"hand {hand} " + ("owes no report of a child of it" if failure else "has no request to pass on to it")
        return f"hand {hand} has no " + {
            "look": "arming of it to look after", "mark_used": "association in the making", "leave": "association to leave"
        }[kind]  # fmt: skip
    return {
        "twice": "a child is named twice",
        "no child": f"node {hand} isn't a child of it",
        "making": f"hand {hand} has an association in the making",
        "refused": f"hand {hand} has an association that is being refused",
        "runs not": f"hand {hand} doesn't run its callback",
    }[what]


def wanted(text):
    """What is to be said of a trace, and the status."""
    lines = text.split("\n")[:-1]
    _, size, blocks, hands, kind, most = lines[0].split(" ")
    size = int(size)
    nodes = []
    for line in lines[1 : size + 1]:
        _, parent, flag = line.split(" ")
        nodes.append((None if parent == "-" else int(parent), flag))
    machine, before = Judge(nodes, int(blocks), int(hands), kind, int(most)), []
    for number, line in enumerate(lines[size + 1 :], 1):
        hand, event = read_event(line)
        if not machine.allows(hand, event):
            fact, since = machine.why(hand, event), number - 1
            while since and before[since - 1].is_so(fact):
                since -= 1
            told = f" since entry {since}" if since else ""
            said = sentence(fact, own_place(event))
            return f"entry {number}, line {size + 1 + number}: {line}: {said}{told}\n", 1
        before.append(copy.deepcopy(machine))
        machine.take_step(hand, event)
    count, found = len(lines) - size - 1, ", ".join(machine.left_open())
    return f"{count} entr{'y' if count == 1 else 'ies'} taken; " + (f"open: {found}" if found else "nothing open") + "\n", 0


def any_event(dice, nodes, blocks):
    """An event of any kind, which names only what is there."""
    kind = dice.choice(KINDS)

    def place():
        return (dice.randrange(blocks), dice.randrange(len(nodes)))

    def source():
        return dice.choice([SCOPE, place()])

    if kind in ("claim", "release", "skip"):
        return (kind, dice.randrange(blocks))
    if kind == "await":
        return (kind, place(), tuple(dice.randrange(len(nodes)) for _ in range(dice.randint(1, 2))))
    if kind == "rest":
        return (kind, place(), dice.choice(["loop", "pool", "parked"]))
    if kind == "look":
        return (kind, source()) if dice.random() < 0.5 else (kind, source(), place())
    if kind == "request":
        return (kind, source(), dice.random() < 0.3)
    if kind == "run":
        return (kind, source(), place())
    if kind == "seal_scan":
        return (kind, source())
    if kind == "seal":
        return (kind, *(dice.randrange(2) for _ in range(4)), dice.randrange(3))
    return (kind, place()) if kind in PLACED else (kind,)


def spoilt(dice, text):
    """The trace with an entry left out, twice, at another place, by another hand, or another event in its place."""
    lines = text.split("\n")[:-1]
    size, blocks, hands = (int(word) for word in lines[0].split(" ")[1:4])
    nodes, entries = lines[1 : size + 1], lines[size + 1 :]
    at = dice.randrange(len(entries) + 1) if entries else 0
    how = dice.randrange(5) if at < len(entries) else 4
    if how == 0:
        del entries[at]
    elif how == 1:
        entries.insert(dice.randrange(len(entries) + 1), entries[at])
    elif how == 2:
        entries.insert(dice.randrange(len(entries)), entries.pop(at))
    elif how == 3:
        entries[at] = f"{dice.randrange(hands)} {entries[at].split(' ', 1)[1]}"
    else:
        entries[at:] = [line_of(dice.randrange(hands), any_event(dice, nodes, blocks))]
    return "".join(line + "\n" for line in lines[: size + 1] + entries)


def grown(dice):
    """A trace of steps that hands take as they may, and one more that is any."""
    size = dice.randint(1, 4)
    nodes = [(dice.randrange(n + 1, size) if n + 1 < size else None, dice.choice(["plain", "source", "unstoppable"]))
             for n in range(size)]  # fmt: skip
    setup = nodes, dice.randint(1, 2), dice.randint(1, 3), dice.choice(["simple", "counting"]), dice.randint(1, 2)
    machine, lines = Judge(*setup), []
    for _ in range(dice.randrange(60)):
        hand = dice.randrange(setup[2])
        may = machine.candidates(hand)
        rare = [event for event in may if event[0] in ("close", "join", "seal")]
        may = [event for event in may if event not in rare or dice.random() < 0.1] or may
        event = dice.choice(may)
        machine.take_step(hand, event)
        lines.append(line_of(hand, event))
    lines.append(line_of(dice.randrange(setup[2]), any_event(dice, nodes, setup[1])))
    return header(*setup) + "".join(line + "\n" for line in lines)


# traces that are told by hand, of two nodes each with a source, one block, three hands and a counting scope of one
# association: each ends by an entry with a sentence that is rare
TOLD = (
    "0 enter;1 enter;1 enter",
    "0 enter;0 enter",
    "0 enter;0 mark_used;1 enter",
    "0 join;0 seal 0 0 1 0 0;0 seal 0 0 1 1 0",
    "0 enter;0 join;0 seal 0 0 1 0 0",
    "1 request scope plain",
    "0 request scope failure",
    "0 claim 0;0 begin 0.1;0 arm 0.1;0 look scope 0.1;0 request scope plain;0 run scope 0.1;0 request 0.1 plain;"
    "0 end_run 0.1",
    "0 claim 0;0 begin 0.1;0 arm 0.1;0 look scope 0.1;0 request scope plain;0 run scope 0.1;0 request 0.1 plain",
    "0 claim 0;0 begin 0.1;0 rest 0.1 parked;1 rouse 0.1",
    "0 claim 0;0 begin 0.1;0 await 0.1 0;0 begin 0.0;0 finish 0.0;0 report 0.0;0 report 0.0",
    "0 claim 0;0 begin 0.1;0 finish 0.1;1 finish 0.1",
    "0 claim 0;0 begin 0.1;0 arm 0.1;0 withdraw 0.1;0 arm 0.1",
    "0 claim 0;0 begin 0.1;0 await 0.1 0;0 begin 0.0;0 arm 0.0;0 look scope 0.0",
    "0 request scope plain;0 skip 0;0 skip 0",
    "0 claim 0",
)


def told():
    for lines in TOLD:
        yield header([(1, "source"), (None, "source")], 1, 3, "counting", 1) + lines.replace(";", "\n") + "\n"
    yield header([(None, "plain")], 1, 1, "simple", 1) + "0 request scope plain\n"
    yield header([(2, "plain"), (2, "plain"), (None, "plain")], 1, 1, "simple", 1) + (
        "0 claim 0\n0 begin 0.2\n0 await 0.2 0,1\n0 finish 0.2\n"
    )
    yield header([(1, "plain"), (None, "unstoppable")], 1, 1, "counting", 2) + (
        "0 claim 0\n0 begin 0.1\n0 await 0.1 0\n0 begin 0.0\n0 arm 0.0\n"
    )
    yield header([(None, "plain")], 1, 2, "counting", 2) + "0 enter\n1 enter\n"


def try_trace(program, text):
    with tempfile.TemporaryDirectory() as folder:
        path = os.path.join(folder, "trace.txt")
        with open(path, "w", encoding="utf-8") as file:
            file.write(text)
        ran = subprocess.run([program, "why", path], capture_output=True, text=True, timeout=SECONDS, check=False)
    found, right = (ran.stdout, ran.returncode, ran.stderr), (*wanted(text), "")
    return [(text, str(right), str(found))] if found != right else []


def run(program, count=COUNT):
    """Asks why of each trace. The answer is how many passed and how many failed."""
    program, dice = beside(os.path.abspath(program), "exec_show"), random.Random(SEED)
    with open(os.path.join(CASES, "machine.json"), encoding="utf-8") as file:
        cases = [it for it in json.load(file) if it["words"][0] == "check" and it["status"] in (0, 1)]
    known = [it["files"]["trace.txt"] for it in cases if "trace.txt" in it.get("files", {})]
    traces = known + list(told()) + [grown(dice) for _ in range(count)]
    traces += [spoilt(dice, dice.choice(traces)) for _ in range(count)]
    chosen = [(f"reasons.py: trace {number}", text) for number, text in enumerate(traces)]
    passed, failed = try_each(chosen, lambda text: try_trace(program, text), os.cpu_count() or 1)
    said = "".join(wanted(text)[0] for text in traces)
    for words in SENTENCES:
        if words not in said:
            print(f"FAILED  reasons.py: no trace has the sentence `{words}`")
            failed += 1
    return passed, failed


def main():
    parser = argparse.ArgumentParser(description="Asks why entries of traces are refused.")
    parser.add_argument("--program", default=PROGRAM, metavar="PATH")
    parser.add_argument("--count", default=COUNT, type=int, metavar="N")
    given = parser.parse_args()
    passed, failed = run(given.program, given.count)
    print(f"{passed} passed, {failed} failed")
    return 1 if failed else 0


if __name__ == "__main__":
    sys.exit(main())
