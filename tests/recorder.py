#!/usr/bin/env python3
"""Tries the recorder samples/exec_trace.hpp: the program judges the runs that it recorded, and so do the rules in
machine_model.py.

    tests/recorder.py [--program PATH] [WORD..]     all of them, or those with a WORD in their sentence

samples/stop_race.cpp records std::stop_callback on two threads, in some hundred runs each: as libstdc++ has it, and
with a destructor that doesn't wait. Where g++ isn't installed this is told and skipped. The last line is `N passed, M
failed`; the status is 1 where one failed.
"""
import os
import sys
import tempfile

import machine_model
from check_docs import TOP, text_of
from room import ended, try_those
from run_cases import main
from streams import Wrong, expect

SAMPLES = os.path.join(TOP, "samples")
RECORDER = os.path.join("samples", "exec_trace.hpp")
RUNS = 200
MOST_LINES = 100

# A root with a source over a plain node and an unstoppable one, each with a child, in blocks 1 and 2 of three. Hand 0
# requests of the scope, and passes the request on from inside block 1's callback.
TREE = """
#include <iostream>
#include "exec_trace.hpp"
using exec_trace::scan;

int main() {
    exec_trace::recorder trace{{{2}, {3}, {4}, {4, "unstoppable"}, {-1, "source"}}, 3, 2};
    for (const char* entry : {"claim 1", "begin 1.4", "arm 1.4", "look scope 1.4", "await 1.4 2,3", "begin 1.2"})
        trace.step(1, entry, [] {});
    for (const char* entry : {"arm 1.2", "look 1.4 1.2", "claim 2", "begin 2.4", "claim 0", "begin 0.4"})
        trace.step(1, entry, [] {});
    for (const char* entry : {"finish 0.4", "release 0"}) trace.step(1, entry, [] {});
    std::scoped_lock held(trace);
    scan of_scope(trace, 0, exec_trace::scope), of_root(trace, 0, {1, 4});
    trace.write(0, "request scope plain");
    of_scope.run({1, 4});
    trace.write(0, "request 1.4 plain");
    of_root.run({1, 2});
    of_root.end_run({1, 2});
    of_root.seal();
    of_scope.end_run({1, 4});
    of_scope.seal();
    trace.unlock();
    trace.print(std::cout);
    trace.lock();
}
"""
SCANS = """\
0 request scope plain
0 skip 0
0 run scope 1.4
0 request 1.4 plain
0 run 1.4 1.0
0 run 1.4 1.2
0 end_run 1.2
0 run 1.4 1.3
0 seal_scan 1.4
0 end_run 1.4
0 run scope 2.4
0 seal_scan scope
"""


class Built:
    """A folder with a program of C++ that was built there, whose runs are judged."""

    def __init__(self, program, source):
        self.folder, self.program = tempfile.TemporaryDirectory(), program
        self.exe, self.trace = (os.path.join(self.folder.name, name) for name in ("recorded", "trace.txt"))
        command = ["g++", "-std=c++20", "-O2", "-Wall", "-Wextra", "-Werror", "-pthread", f"-I{SAMPLES}"]
        ran = ended([*command, "-x", "c++", source, "-o", self.exe])
        expect("what g++ says", (0, ""), (ran.returncode, ran.stderr))

    def __enter__(self):
        return self

    def __exit__(self, *_):
        self.folder.cleanup()

    def recorded(self, *words):
        """The entries of a run, and what the program says of them. The rules of the model must say the same."""
        ran = ended([self.exe, *words])
        expect("how the run ends", (0, ""), (ran.returncode, ran.stderr))
        with open(self.trace, "w", encoding="utf-8") as file:
            file.write(ran.stdout)
        said = ended([self.program, "check", self.trace]).stdout.strip()
        head, *lines = ran.stdout.splitlines()
        count, blocks, hands, kind, most = head.split()[1:]
        told = [line.split()[1:] for line in lines[: int(count)]]
        nodes = [(None if parent == "-" else int(parent), flag) for parent, flag in told]
        entries = lines[int(count) :]
        setup = (nodes, int(blocks), int(hands), kind, int(most))
        expect(f"what the program says of {' '.join(words)}", machine_model.verdict(setup, entries), said)
        return entries, said


def meanwhile(entries, entry):
    """The numbers, from 1, of these entries of hand 1 while hand 0 runs the callback."""
    if "0 run scope 0.0" not in entries or "0 end_run 0.0" not in entries:
        return []
    begun, over = entries.index("0 run scope 0.0"), entries.index("0 end_run 0.0")
    return [at + 1 for at in range(begun, over) if entries[at] == f"1 {entry} 0.0"]


def runs_of(program, *words):
    with Built(program, os.path.join(SAMPLES, "stop_race.cpp")) as built:
        return [built.recorded(*words, str(seed)) for seed in range(1, RUNS + 1)]


def a_destructor_that_waits_is_always_taken(program):
    met = 0
    for entries, said in runs_of(program):
        expect("what is said", f"ok {len(entries)}", said)
        met += bool(meanwhile(entries, "withdraw"))
    if not met:
        raise Wrong("runs in which a callback is destroyed while it runs", "some", "none")


def a_destructor_that_does_not_wait_is_refused(program):
    refused = 0
    for entries, said in runs_of(program, "hasty"):
        early = meanwhile(entries, "finish")
        expect("what is said", f"refused {early[0]}" if early else f"ok {len(entries)}", said)
        refused += bool(early)
    if not refused:
        raise Wrong("runs that are refused", "some", "none")


def a_scan_goes_through_trees_and_skips_free_blocks(program):
    with tempfile.NamedTemporaryFile("w", suffix=".cpp") as source:
        source.write(TREE)
        source.flush()
        with Built(program, source.name) as built:
            entries, said = built.recorded()
    expect("what is said", f"ok {len(entries)}", said)
    expect("the entries of hand 0", SCANS.splitlines(), [entry for entry in entries if entry[0] == "0"])


def the_recorder_is_short(_):
    lines = len(text_of(RECORDER).splitlines())
    if lines > MOST_LINES:
        raise Wrong(f"how many lines {RECORDER} has", f"at most {MOST_LINES}", str(lines))


TESTS = [
    (a_destructor_that_waits_is_always_taken, ("g++",)),
    (a_destructor_that_does_not_wait_is_refused, ("g++",)),
    (a_scan_goes_through_trees_and_skips_free_blocks, ("g++",)),
    (the_recorder_is_short, ()),
]


def run(program, words=()):
    """Runs the tests. The answer is how many passed and how many failed."""
    return try_those("recorder.py", TESTS, program, words)


if __name__ == "__main__":
    sys.exit(main("Tries the recorder of samples/exec_trace.hpp.", run))
