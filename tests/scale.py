#!/usr/bin/env python3
"""Tries docs/SCALE.md: its commands on parts of a stream, with small numbers, and exec_join, the program that joins.
Commands below the headings of engines have tests/engines.py.

    tests/scale.py [--program PATH] [WORD..]     all of them, or those with a WORD in their sentence

A test whose tools aren't installed is told and skipped. The last line is `N passed, M failed`; the status is 1 where
one failed.
"""
import os
import re
import sys

from check_docs import text_of
from room import Room, try_those
from run_cases import beside, main
from streams import Wrong, expect

REFUSED = 3
# what docs/SCALE.md says for a run's limit, and what stands for it here
SMALLER = {"1000000": "7", "1000001": "8", "2000000": "14"}
ONE_RUN = {"lines": "run plan.json", "summary": "run plan.json --summary"}
# the headings whose commands aren't run here
ELSEWHERE = ("GNU parallel", "Slurm", "Dask", "Hadoop and Spark")
USAGE = "usage: exec_join lines [--dealt] PART..\nusage: exec_join summary PART..\n"

WHOLE = "records 2 values 1 errors 1 stopped 0 out-of-memory 0 bad 0 sum 5\n"
NO_SUMMARIES = [
    "",
    "\n",
    "1 value 6\n",
    WHOLE.rstrip("\n"),
    WHOLE + "\n",
    WHOLE.replace("values 1", "values 2"),
    WHOLE.replace("values 1 errors 1", "values 0 errors 2"),
    WHOLE.replace("records 2", "records 02"),
    WHOLE.replace("sum 5", "sum -0"),
    WHOLE.replace("sum 5", "sum 5.0"),
    WHOLE.replace("errors 1", "errors -1"),
    WHOLE.replace("bad", "bad-record"),
    WHOLE.replace(" ", "  "),
    WHOLE.replace("sum 5", "sum " + "9" * 1000),
]


class JoinRoom(Room):
    """A room with parts."""

    def part(self, name, text, status):
        """What a run over a part left."""
        self.write(f"{name}.out", text)
        self.write(f"{name}.status", status)


def blocks():
    """Each block of commands in docs/SCALE.md that is run, with the heading above it. Blocks that call `part.sh` have
    the one that makes it before them."""
    cutting = ""
    for section in text_of(os.path.join("docs", "SCALE.md")).split("\n## ")[1:]:
        if not section.startswith(ELSEWHERE):
            for block in re.findall(r"```sh\n(.*?)```", section, re.S):
                block = re.sub(r"\d{7}", lambda number: SMALLER[number[0]], block)
                if "cat > part.sh" in block:
                    cutting = block
                else:
                    yield section.split("\n")[0], (cutting if "part.sh" in block else "") + block


def streams_of_records():
    """Records that are all values, and records of which one is bad, one an error, and the last has no line feed."""
    numbers = [str(7919 * number % 100003 - 50000) for number in range(31)]
    yield "\n".join(numbers) + "\n"
    numbers[6], numbers[12] = "x", "9223372036854775807"
    yield "\n".join(numbers)


def the_commands_of_the_page_on_parts_write_what_one_run_writes(program):
    found = list(blocks())
    expect("how many blocks the page has", 7, len(found))
    for records in streams_of_records():
        for heading, block in found:
            with JoinRoom(program) as room:
                room.write("records", records)
                ran = room.run(block)
                name = re.search(r"> (lines|summary)$", block, re.M)[1]
                words = "gen plan.json 14" if "exec_run gen" in block else ONE_RUN[name]
                one = room.run(f"exec_run {words} < records")
                expect(f"{heading}: notes", "", ran.stderr)
                expect(f"{heading}: {name}", one.stdout, room.read(name))
                expect(f"{heading}: the status", one.returncode, ran.returncode)


def joined(room, what, words, one):
    """Joins parts, and compares what is written with what one run writes."""
    ran = room.run(f"exec_join {words}")
    expect(f"{what}: notes", one.stderr, ran.stderr)
    expect(f"{what}: the lines", one.stdout, ran.stdout)
    expect(f"{what}: the status", one.returncode, ran.returncode)


def parts_joined_are_what_one_run_writes(program):
    split = "split -d -a 2 {} --filter 'exec_run run plan.json {} > $FILE.out; echo $? > $FILE.status' - x < records"
    ways = [
        ("-l 7", "", "lines x00 x01 x02 x03 x04"),
        ("-n r/5", "", "lines --dealt x00 x01 x02 x03 x04"),
        ("-n r/1", "", "lines --dealt x00"),
        ("-l 7", "--summary", "summary x00 x01 x02 x03 x04"),
        ("-n r/5", "--summary", "summary x04 x03 x02 x01 x00"),
    ]
    for records in streams_of_records():
        for cut, option, words in ways:
            with JoinRoom(program) as room:
                room.write("records", records)
                room.run(split.format(cut, option))
                joined(room, f"{cut} {words}", words, room.run(f"exec_run run plan.json {option} < records"))


def rows_longer_than_what_is_held_at_first_are_joined(program):
    plan = '{"version":1,"input":"row","root":{"do":"input"}}'
    with JoinRoom(program, plan=plan) as room:
        for part in ("a", "b"):
            room.write(part, "".join(f"[{','.join([number] * 4000)}]\n" for number in ("123456", "-1234567", "x")))
            room.run(f"exec_run run plan.json < {part} > {part}.out; echo $? > {part}.status")
        joined(room, "long rows", "lines a b", room.run("cat a b | exec_run run plan.json"))


def records_without_memory_make_the_status_4(program):
    with JoinRoom(program) as room:
        room.part("a", "1 value 5\n2 out-of-memory\n", "4\n")
        room.part("b", "1 stopped\n", "1\n")
        ran = room.run("exec_join lines b a b")
        told = (ran.stdout, ran.stderr, ran.returncode)
        lines = "1 stopped\n2 value 5\n3 out-of-memory\n4 stopped\n"
        expect("lines", (lines, "out of memory\n", 4), told)


def refusal(room, commands, what, note):
    ran = room.run(commands)
    expect(f"{what}: the note", f"refused: {note}\n", ran.stderr)
    expect(f"{what}: the status", REFUSED, ran.returncode)
    expect(f"{what}: out", "", ran.stdout)


def a_part_that_is_not_whole_is_refused(program):
    changes = [
        ("echo 7 > b.status", "b.status: the status is 7, and not 0, 1 or 4"),
        ("rm b.status", "b.status: No such file or directory"),
        ("rm b.out", "b.out: No such file or directory"),
        (": > b.status", "b.status: the status is missing, and not 0, 1 or 4"),
        ("echo 1 > b.status", "b.status: the status is 1, but the lines of b.out say 0"),
        ("echo 4 > b.status; : > b.out", "b.status: the status is 4, but the lines of b.out say 0"),
        ("sed -i 2d b.out", "b.out: line 2 isn't that of record 2"),
        ("sed -i 's/^2 value/2 valued/' b.out", "b.out: line 2 isn't that of record 2"),
        ("sed -i 's/^2 value.*/2 error/' b.out", "b.out: line 2 isn't that of record 2"),
        ("sed -i 's/^2/02/' b.out", "b.out: line 2 isn't that of record 2"),
        ("printf '4 value' >> b.out", "b.out: line 4 isn't that of record 4"),
        ("printf '\\n' >> b.out", "b.out: line 4 isn't that of record 4"),
        ("exec_run gen plan.json 3 > b.out", "b.out: line 1 isn't that of record 1"),
        ("head -c 9000000 /dev/zero > b.out", "b.out: line 1 isn't that of record 1"),
    ]
    for change, note in changes:
        with JoinRoom(program) as room:
            room.run("for part in a b; do seq 3 | exec_run run plan.json > $part.out; echo $? > $part.status; done")
            expect("the status of whole parts", 0, room.run("exec_join lines a b").returncode)
            room.run(change)
            refusal(room, "exec_join lines a b", change, note)
    with JoinRoom(program) as room:
        room.run("for n in 1 2 3 5; do seq $n | exec_run run plan.json > $n.out; echo $? > $n.status; done")
        note = "3.out: line 2 wasn't dealt in turn: 1.out has ended before"
        refusal(room, "exec_join lines --dealt 1 3", "parts that weren't dealt", note)
        note = "5.out: line 4 wasn't dealt in turn: 2.out has ended before"
        refusal(room, "exec_join lines --dealt 3 5 2", "a line more than was dealt", note)


def what_is_no_summary_is_refused(program):
    with JoinRoom(program) as room:
        for text in NO_SUMMARIES:
            room.part("part", text, "1\n")
            ran = room.run("exec_join summary part")
            expect(f"{text!r}: the status", REFUSED, ran.returncode)
            expect(f"{text!r}: out", "", ran.stdout)
            if not ran.stderr.startswith("refused: part.out: "):
                raise Wrong(f"{text!r}: the note", "refused: part.out: ..", ran.stderr)
        room.part("part", WHOLE, "5\n")
        note = "part.status: the status is 5, and not 0, 1 or 4"
        refusal(room, "exec_join summary part", "a part with a read fault", note)
        room.part("part", WHOLE, "0\n")
        note = "part.status: the status is 0, but the lines of part.out say 1"
        refusal(room, "exec_join summary part", "another status", note)
        large = str(2**127 - 1)
        room.part("part", WHOLE.replace("sum 5", f"sum {large}"), "1\n")
        refusal(room, "exec_join summary part part", "a large sum", "part.out: the sums with its numbers are too large")
        room.part("part", WHOLE, "1\n")
        commands = "exec_join summary part part > sum.out; echo $? > sum.status; exec_join summary part sum"
        ran = room.run(commands)
        expect("a sum of sums", WHOLE.replace("2", "6").replace(" 1", " 3").replace("5", "15"), ran.stdout)
        expect("its status", 1, ran.returncode)


def words_that_ask_for_nothing_are_told(program):
    wrong = ("", "lines", "lines --dealt", "lines --help", "lines a -", "lines a --dealt", "summary", "summary -", "sum a")
    with JoinRoom(program) as room:
        for words in wrong:
            ran = room.run(f"exec_join {words}")
            expect(f"{words}: told", (2, "", USAGE), (ran.returncode, ran.stdout, ran.stderr))


def an_output_that_is_full_is_a_write_fault(program):
    with JoinRoom(program) as room:
        room.part("part", "1 value 5\n", "0\n")
        for words in ("lines part", "lines --dealt part"):
            ran = room.run(f"exec_join {words} > /dev/full")
            expect(f"{words}: told", (6, "write fault\n"), (ran.returncode, ran.stderr))


# the tests, each with the tools that it wants
ON_PARTS = ("bash", "split", "xargs", "mktemp", "sed", "seq", "awk")
TESTS = [
    (the_commands_of_the_page_on_parts_write_what_one_run_writes, ON_PARTS),
    (parts_joined_are_what_one_run_writes, ON_PARTS),
    (rows_longer_than_what_is_held_at_first_are_joined, ("bash",)),
    (records_without_memory_make_the_status_4, ("bash",)),
    (a_part_that_is_not_whole_is_refused, ON_PARTS),
    (what_is_no_summary_is_refused, ("bash",)),
    (words_that_ask_for_nothing_are_told, ("bash",)),
    (an_output_that_is_full_is_a_write_fault, ("bash",)),
]


def run(program, words=()):
    """Runs the tests. The answer is how many passed and how many failed."""
    return try_those("scale.py", TESTS, program, words)


if __name__ == "__main__":
    sys.exit(main("Tries docs/SCALE.md and the program that joins parts.", run))
