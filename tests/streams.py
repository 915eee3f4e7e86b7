#!/usr/bin/env python3
"""Runs the program on streams and files that a table of cases can't say: pipes that stay open or are closed, a word
that isn't UTF-8, threads that can't be started, more bytes than a run takes.

    tests/streams.py [--program PATH] [WORD..]     all of them, or those with a WORD in their sentence

The last line is `N passed, M failed`; the status is 1 where one failed.
"""
import itertools
import json
import os
import resource
import select
import subprocess
import sys
import tempfile
import threading
import time
import tty

from run_cases import main, shown, try_each

SECONDS = 120
QUIET = 0.3
READ_FAULT, WRITE_FAULT, LIMIT = 5, 6, 7
MOST_RECORDS = 1_000_000
MOST_BYTES = 268_435_456
LONGEST_LINE = 131_072
LITTLE_ROOM = 20_000_000

ADD_ONE = {"do": "then", "child": {"do": "input"}, "job": {"job": "add", "n": 1}}
RUN = ("run", "plan.json")


def plan_of(root, **settings):
    return json.dumps({"version": 1, "input": "int", **settings, "root": root}).encode()


def summary_of(values, total):
    return f"records {values} values {values} errors 0 stopped 0 out-of-memory 0 bad 0 sum {total}\n".encode()


class Wrong(Exception):
    """Something isn't as it should be: what, what was wanted, what came."""


def expect(what, wanted, got):
    if wanted != got:
        as_text = lambda it: shown(it) if isinstance(it, bytes) else repr(it)
        raise Wrong(what, as_text(wanted), as_text(got))


class Started:
    """A run of the program that goes on, over pipes where nothing else is said."""

    def __init__(self, program, *words, plan=plan_of(ADD_ONE), stdin=subprocess.PIPE, stdout=subprocess.PIPE):
        self.folder = tempfile.TemporaryDirectory()
        with open(os.path.join(self.folder.name, "plan.json"), "wb") as file:
            file.write(plan)
        self.process = subprocess.Popen(
            [program, *words], cwd=self.folder.name, stdin=stdin, stdout=stdout, stderr=subprocess.PIPE
        )

    def __enter__(self):
        return self

    def __exit__(self, *_):
        self.process.kill()
        self.process.wait()
        for stream in (self.process.stdin, self.process.stdout, self.process.stderr):
            if stream:
                try:
                    stream.close()
                except OSError:
                    pass
        self.folder.cleanup()

    def give(self, text):
        self.process.stdin.write(text)
        self.process.stdin.flush()

    def comes(self, wanted):
        """Output gives these bytes next."""
        got, out, until = b"", self.process.stdout, time.monotonic() + SECONDS
        while len(got) < len(wanted) and select.select([out], [], [], max(0, until - time.monotonic()))[0]:
            more = os.read(out.fileno(), len(wanted) - len(got))
            if not more:
                break
            got += more
        expect("out so far", wanted, got)

    def is_quiet(self):
        """Output gives nothing for a moment."""
        if select.select([self.process.stdout], [], [], QUIET)[0]:
            expect("out so far", b"", os.read(self.process.stdout.fileno(), 1024))

    def close_input(self):
        self.process.stdin.close()
        self.process.stdin = None

    def ends(self, status, out=b"", notes=b""):
        """The program writes this as its rest, and ends so, whether or not its input was closed."""
        guard = threading.Timer(SECONDS, self.process.kill)
        guard.start()
        try:
            got = self.process.stdout.read() if self.process.stdout else b""
            told = self.process.stderr.read()
            ended = self.process.wait()
        finally:
            guard.cancel()
        expect("out", out, got)
        expect("notes", notes, told)
        expect("status", status, ended)


def fed(started, pieces):
    """Gives the pieces on a thread, until the program reads no more of them."""

    def give():
        try:
            for piece in pieces:
                started.process.stdin.write(piece)
            started.process.stdin.close()
        except (OSError, ValueError):
            pass

    thread = threading.Thread(target=give, daemon=True)
    thread.start()
    return thread


def zeros(length):
    """A line of so many bytes, its line feed among them, that is the number 0."""
    return b"0" * (length - 1) + b"\n"


def a_line_comes_while_the_input_stays_open(program):
    with Started(program, *RUN) as started:
        for number, (line, value) in enumerate([(b"5\n", b"6"), (b"-1\n", b"0"), (b"7\n", b"8")], 1):
            started.give(line)
            started.comes(b"%d value %s\n" % (number, value))
        started.close_input()
        started.ends(0)


def all_lines_in_flight_come_before_a_read_that_waits(program):
    with Started(program, *RUN, "--window", "256") as started:
        started.give(b"5\n6\nx\n")
        started.comes(b"1 value 6\n2 value 7\n3 bad-record\n")
        started.close_input()
        started.ends(1)


def a_line_that_has_begun_waits_for_its_end(program):
    with Started(program, *RUN) as started:
        started.give(b"5\n1")
        started.comes(b"1 value 6\n")
        started.is_quiet()
        started.give(b"2\n3")
        started.comes(b"2 value 13\n")
        started.close_input()
        started.ends(0, b"3 value 4\n")


def a_summary_comes_at_the_end(program):
    with Started(program, *RUN, "--summary") as started:
        started.give(b"5\n")
        started.is_quiet()
        started.close_input()
        started.ends(0, summary_of(1, 6))


def a_stop_on_the_first_error_is_made_before_more_is_read(program):
    plan = plan_of({"do": "starts_on", "on": "loop", "child": ADD_ONE}, on_error="stop")
    with Started(program, *RUN, plan=plan) as started:
        started.give(b"9223372036854775807\n")
        started.comes(b"1 error overflow\n")
        started.give(b"1\n")
        started.comes(b"2 stopped\n")
        started.close_input()
        started.ends(1)


def gen_waits_for_no_input(program):
    with Started(program, "gen", "plan.json", "3") as started:
        started.ends(0, summary_of(3, 47568))


def threads_that_cannot_be_started_are_not_needed(program):
    # room for no more than one stack
    little = lambda: resource.setrlimit(resource.RLIMIT_AS, (LITTLE_ROOM, LITTLE_ROOM))
    with tempfile.TemporaryDirectory() as folder:
        with open(os.path.join(folder, "plan.json"), "wb") as file:
            file.write(plan_of({"do": "starts_on", "on": "pool", "child": ADD_ONE}))
        words = [program, "gen", "plan.json", "3", "--workers", "16"]
        ran = subprocess.run(words, cwd=folder, capture_output=True, preexec_fn=little, timeout=SECONDS, check=False)
    expect("out", summary_of(3, 47_568), ran.stdout)
    expect("status", 0, ran.returncode)


def a_refusal_waits_for_no_input(program):
    with Started(program, *RUN, plan=plan_of({"do": "retry"})) as started:
        started.ends(3, notes=b"plan refused: P4 unknown name\n")


def a_pipe_that_nobody_reads_is_a_write_fault(program):
    reader, writer = os.pipe()
    os.close(reader)
    with os.fdopen(writer, "wb") as pipe, Started(program, *RUN, stdout=pipe) as started:
        started.give(b"5\n")
        started.close_input()
        started.ends(WRITE_FAULT, notes=b"write fault\n")


def after_a_lost_write_nothing_more_is_read(program):
    with Started(program, *RUN) as started:
        fed(started, itertools.repeat(b"0\n" * 4096))
        started.comes(b"1 value 1\n")
        started.process.stdout.close()
        started.process.stdout = None
        started.ends(WRITE_FAULT, notes=b"write fault\n")


def an_input_that_fails_at_once_is_a_read_fault(program):
    folder = os.open("/", os.O_RDONLY)
    try:
        with Started(program, *RUN, stdin=folder) as started:
            started.ends(READ_FAULT, notes=b"read fault\n")
        with Started(program, *RUN, "--summary", stdin=folder) as started:
            started.ends(READ_FAULT, summary_of(0, 0), b"read fault\n")
    finally:
        os.close(folder)


def lines_that_were_read_before_a_read_fault_are_written(program):
    # a terminal's own side fails once the other side is closed
    terminal, other = os.openpty()
    try:
        tty.setraw(other)
        os.write(other, b"5\n-1\n7")
        os.close(other)
        with Started(program, *RUN, stdin=terminal) as started:
            started.ends(READ_FAULT, b"1 value 6\n2 value 0\n", b"read fault\n")
    finally:
        os.close(terminal)


def a_word_that_is_not_utf_8_is_a_fault_of_usage(program):
    with Started(program) as started:
        usage = started.process.stderr.read()
    for words in ([*RUN, b"\xff"], [b"run", b"\xff"], [b"\xff"]):
        with Started(program, *words) as started:
            started.ends(2, notes=usage)


def a_plan_may_come_through_a_pipe_with_a_name(program):
    plan = plan_of(ADD_ONE)
    with tempfile.TemporaryDirectory() as folder:
        path = os.path.join(folder, "pipe")
        os.mkfifo(path)
        # to open it for writing alone would wait for a program that opens it
        with os.fdopen(os.open(path, os.O_RDWR), "wb", buffering=0) as pipe, Started(program, "run", path) as started:
            pipe.write(plan[:9])
            time.sleep(QUIET)
            pipe.write(plan[9:])
            pipe.close()
            started.give(b"5\n")
            started.close_input()
            started.ends(0, b"1 value 6\n")


def bytes_up_to_the_limit_are_taken(program):
    count = MOST_BYTES // LONGEST_LINE
    with Started(program, *RUN, "--summary") as started:
        fed(started, [zeros(LONGEST_LINE)] * count)
        started.ends(0, summary_of(count, count))


def a_byte_beyond_the_limit_ends_the_run(program):
    count = MOST_BYTES // LONGEST_LINE
    with Started(program, *RUN, "--summary") as started:
        fed(started, [zeros(LONGEST_LINE)] * count + [b"1"])
        started.ends(LIMIT, summary_of(count, count), b"limit\n")


def a_line_that_the_limit_cuts_is_no_record(program):
    count = MOST_BYTES // LONGEST_LINE
    with Started(program, *RUN, "--summary") as started:
        fed(started, [b"0\n"] + [zeros(LONGEST_LINE)] * count)
        started.ends(LIMIT, summary_of(count, count), b"limit\n")


def each_of_the_most_records_has_its_line_and_a_byte_more_is_the_limit(program):
    lines = b"".join(b"%d value 1\n" % number for number in range(1, MOST_RECORDS + 1))
    for last in (b"0\n", b"0"):
        with Started(program, *RUN) as started:
            fed(started, [b"0\n" * MOST_RECORDS, last])
            started.ends(LIMIT, lines, b"limit\n")


TESTS = [
    a_line_comes_while_the_input_stays_open,
    all_lines_in_flight_come_before_a_read_that_waits,
    a_line_that_has_begun_waits_for_its_end,
    a_summary_comes_at_the_end,
    a_stop_on_the_first_error_is_made_before_more_is_read,
    gen_waits_for_no_input,
    threads_that_cannot_be_started_are_not_needed,
    a_refusal_waits_for_no_input,
    a_pipe_that_nobody_reads_is_a_write_fault,
    after_a_lost_write_nothing_more_is_read,
    an_input_that_fails_at_once_is_a_read_fault,
    lines_that_were_read_before_a_read_fault_are_written,
    a_word_that_is_not_utf_8_is_a_fault_of_usage,
    a_plan_may_come_through_a_pipe_with_a_name,
    bytes_up_to_the_limit_are_taken,
    a_byte_beyond_the_limit_ends_the_run,
    a_line_that_the_limit_cuts_is_no_record,
    each_of_the_most_records_has_its_line_and_a_byte_more_is_the_limit,
]


def attempt(test, program):
    """What differs in this test, if something does."""
    try:
        test(program)
    except Wrong as wrong:
        return [wrong.args]
    except OSError as fault:
        return [("start", "a run over these streams", str(fault))]
    return []


def run(program, words=()):
    """Runs the tests. The answer is how many passed and how many failed."""
    program = os.path.abspath(program)
    chosen = []
    for test in TESTS:
        sentence = test.__name__.replace("_", " ")
        if not words or any(word in sentence for word in words):
            chosen.append((f"streams.py: {sentence}", test))
    return try_each(chosen, lambda test: attempt(test, program), len(TESTS))


if __name__ == "__main__":
    sys.exit(main("Runs the program on streams and files that a table can't say.", run))
