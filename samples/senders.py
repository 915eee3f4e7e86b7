#!/usr/bin/env python3
"""Plans by operators, as P2300 writes senders: `input_ | then(add(1))` is a node, and `plan(node)` a plan file's dict.

    ./senders.py 'input_ | then(mul(119)) | then(div(100))'    prints the plan of this sender
    from senders import *                                      in a program of one's own

Nodes, jobs and keys are those of plan files. `a | b` is the node b over the sender a. The arguments of a node stand at
its keys in the order of TAKES; `*key` takes all that are left. Names that Python has are written `input_` and `sum_`.
"""
import json
import sys

TAKES = {
    "do": "input_; just *values; just_error error; just_stopped; schedule on; delay turns; read_env query; then job; "
    "upon_error job; upon_stopped job; let_value pick *bodies; let_error pick *bodies; let_stopped pick *bodies; "
    "starts_on on child; continues_on on; stopped_as_optional of; stopped_as_error error; bulk job; "
    "when_all *children; unstoppable; ahead first second",
    "job": "add n; sub n; mul n; div n; neg; within lo hi; index; fail error; iota; sum_; append text; join; length; "
    "parse; show; give *values; at i; value_or else; pass_",
}
WITHOUT_ARGUMENTS = "input_ just_stopped unstoppable neg index iota sum_ join length parse show pass_".split()


class Node(dict):
    """A node or a job, as its JSON has it."""

    def __or__(self, node):
        return Node(node, child=self)


def made(what, name, keys):
    """The function that makes the nodes or jobs of this name."""
    fixed, rest = [key for key in keys if key[0] != "*"], [key[1:] for key in keys if key[0] == "*"]

    def node(*given):
        if len(given) < len(fixed) or (len(given) > len(fixed) and not rest):
            raise TypeError(f"{name} takes {' '.join(keys) or 'no arguments'}")
        listed = {key: list(given[len(fixed):]) for key in rest}
        return Node({what: name.rstrip("_")}, **dict(zip(fixed, given)), **listed)

    return node


for what, lines in TAKES.items():
    for name, *keys in map(str.split, lines.split(";")):
        globals()[name] = made(what, name, keys)() if name in WITHOUT_ARGUMENTS else made(what, name, keys)


def plan(root, input="int", version=None, **settings):
    """A plan of this root. Without a version it is 2 where a node needs that."""
    later = '"do": "unstoppable"' in json.dumps(root) or '"do": "ahead"' in json.dumps(root)
    return {"version": version or (2 if later else 1), "input": input, "root": root, **settings}


if __name__ == "__main__":
    print(json.dumps(plan(eval(sys.argv[1])), separators=(",", ":")))
