#!/usr/bin/env python3
"""Runs parts of a stream on engines that are really there: GNU parallel, also over ssh, Slurm and Dask.

    tests/engines.py [--program PATH] [WORD..]     all of them, or those with a WORD in their sentence

The commands are those of docs/SCALE.md with smaller parts. What they print and how they end, by the `exec_join` that
was built beside PATH, is compared with one run over all records. Some runs are killed in the middle of their part:
`exec_join` must refuse the part until it was run again. tests/servers.py starts the servers that this wants.

A test whose tools aren't installed is told and skipped. The last line is `N passed, M failed`; the status is 1 where
one failed.
"""
import glob
import os
import re
import signal
import sys

from check_docs import text_of
from room import try_those
from run_cases import main
from scale import streams_of_records
from servers import NODES, SERVERS, Site, end, link_of, parent_of, python_with_dask
from streams import Wrong, expect

KILLED = 128 + signal.SIGKILL
# what ssh ends with where its connection is lost
CONNECTION = 255
HERE = "-j 4"
OVER_SSH = f'--sshlogin {",".join(f"4/{node}" for node in NODES)} --workdir "$PWD"'
PARALLEL, SLURM, DASK = "GNU parallel", "Slurm", "Dask"


def commands(heading, with_word):
    """The block below this heading of docs/SCALE.md that has this word."""
    for section in text_of(os.path.join("docs", "SCALE.md")).split("\n## ")[1:]:
        if section.startswith(heading):
            for block in re.findall(r"```sh\n(.*?)```", section, re.S):
                if with_word in block:
                    return block
    raise Wrong("docs/SCALE.md", f"a block with {with_word} below {heading}", "none")


def cut(site, records):
    """Cuts the file into parts of so many records, by the commands of the page."""
    ran = site.run(commands("Parts of a file", "part.sh").replace("1000000", str(records)))
    expect("cutting", ("", "", 0), (ran.stdout, ran.stderr, ran.returncode))


def expect_joined(site, ran, what="lines"):
    """These commands printed what one run prints, and ended as it does."""
    one = site.one[what]
    expect(what, (one.stdout, one.returncode), (site.read(what), ran.returncode))


def expect_quiet(ran):
    expect("notes", "", ran.stderr)
    return ran


def expect_refused(site, part):
    """The part isn't whole yet, and is refused, with the others beside it."""
    ran = site.run("exec_join lines parts/x???")
    expect("the status of parts that aren't whole", 3, ran.returncode)
    if not ran.stderr.startswith(f"refused: {part}.status: "):
        raise Wrong("the note on parts that aren't whole", f"refused: {part}.status: ..", ran.stderr)


def many_records():
    """Records of which one is bad, and one an error."""
    numbers = [str(7919 * number % 100003 - 50000) for number in range(5000)]
    numbers[1234], numbers[4321] = "x", "9223372036854775807"
    return "\n".join(numbers)


def parts_that_parallel_cuts_are_joined_without_any_warning(program):
    block = commands(PARALLEL, "--pipe")
    for records in streams_of_records():
        with Site(program, records) as site:
            expect_joined(site, expect_quiet(site.run(block.replace("1m", "60"))))
            expect("that there are several parts", True, os.path.exists(site.path("parts/3.out")))
    with Site(program, many_records()) as site:
        site.serve_ssh()
        expect_joined(site, expect_quiet(site.run(block.replace("1m", "4k").replace(HERE, OVER_SSH))))


def no_part_that_parallel_cuts_is_longer_than_a_block(program):
    for records in ("\n" * 5000, many_records()):
        with Site(program, records) as site:
            site.run(commands(PARALLEL, "--pipe").replace("exec_run run plan.json", "wc -c").replace("1m", "1k"))
            sizes = [int(site.read(name)) for name in glob.glob("parts/*.out", root_dir=site.name)]
            expect("that parts aren't longer", True, max(sizes) <= 1000)
            expect("what all parts have", len(records), sum(sizes))


def parts_of_a_file_are_run_by_parallel(program):
    for records in streams_of_records():
        with Site(program, records) as site:
            cut(site, 4)
            expect_joined(site, expect_quiet(site.run(commands(PARALLEL, HERE))))


def parts_of_a_file_are_run_by_parallel_on_hosts_behind_ssh(program):
    with Site(program, many_records()) as site:
        server = site.serve_ssh()
        cut(site, 500)
        expect_joined(site, expect_quiet(site.run(commands(PARALLEL, "--sshlogin"))))
        expect("the hosts of the log", set(NODES), {fields[1] for fields in log_of(site)})
        expect("that each part had its key taken", 10, site.notes(server).count("Accepted publickey"))


def a_part_that_is_run_twice_at_once_is_whole_in_the_end(program):
    with Site(program, many_records()) as site:
        cut(site, 1000)
        expect_joined(site, expect_quiet(site.run(commands("Parts of a file", "xargs -P 4"))))
        whole = site.read("parts/x001.out")
        [held] = site.hold("parts/x001")
        lost = site.start("sh", "part.sh", held.name)
        site.until("the run has begun", held.wrote)
        held.put_back()
        expect_refused(site, held.name)
        expect("what stands in its file meanwhile", whole, site.read("parts/x001.out"))
        expect("the status of the other run", 0, site.run(f"sh part.sh {held.name}").returncode)
        expect("the lines", site.one["lines"].stdout, lines_of(site))
        held.give_rest()
        expect("the status of the lost run", 0, site.status_of(lost))
        expect("the lines afterwards", site.one["lines"].stdout, lines_of(site))


def lines_of(site):
    return site.run("exec_join lines parts/x???").stdout


def log_of(site):
    """The fields of each line of parallel's log."""
    return [line.split("\t") for line in site.read("parts/log").splitlines()[1:]]


def halted(site, block, slots, ending):
    """Runs parts by parallel, as many at once as it has slots for, and ends one of them by this in its middle. The
    answer is that part and parallel's status."""
    cut(site, 5000 // (slots + 2))
    first, *others = site.hold(*(f"parts/x{number:03}" for number in range(1, slots + 1)))
    begun = site.start("bash", "-c", block)
    for part in (first, *others):
        site.until("the runs have begun", part.wrote)
    first.put_back()
    end(ending(first))
    site.until("parallel halts", lambda: "Starting no more jobs" in site.notes(begun))
    for part in others:
        part.give_rest()
        part.put_back()
    status = site.status_of(begun)
    expect("how many parts were begun", slots + 1, len(log_of(site)))
    expect_refused(site, first.name)
    return first, status


def expect_resumed(site, block):
    """The same commands once more run the second part again, and those that weren't begun."""
    expect_joined(site, site.run(block))
    parts = [fields[0] for fields in log_of(site)]
    expect("which parts were run twice", ["2"], sorted(set(it for it in parts if parts.count(it) > 1)))


def a_killed_run_halts_parallel_and_is_run_again(program):
    block = commands(PARALLEL, HERE)
    with Site(program, many_records()) as site:
        first, status = halted(site, block, 4, lambda part: part.pid)
        expect("how parallel ends", KILLED, status)
        site.run(block.replace("--resume-failed", "--resume"))
        expect_refused(site, first.name)
        expect_resumed(site, block)


def a_connection_that_is_lost_halts_parallel(program):
    block = commands(PARALLEL, "--sshlogin")
    with Site(program, many_records()) as site:
        site.serve_ssh()
        first, status = halted(site, block, 8, session_of)
        expect("how parallel ends", CONNECTION, status)
        expect_resumed(site, block)
        # the run that was lost with its connection goes on, and ends without harm
        first.give_rest()
        site.until("the lost run ends", first.is_over)
        expect("the lines afterwards", site.one["lines"].stdout, lines_of(site))


def session_of(part):
    """The server's process for the connection over which the part is run."""
    pid = part.pid
    while os.path.basename(link_of(pid, "exe")) != "sshd":
        pid = parent_of(pid)
    return pid


def parallel_that_is_killed_goes_on_where_it_was(program):
    block = commands(PARALLEL, HERE)
    with Site(program, many_records()) as site:
        cut(site, 500)
        held = site.hold(*(f"parts/x{number:03}" for number in range(2, 6)))
        begun = site.start("bash", "-c", block)
        for part in held:
            site.until("the runs have begun", part.wrote)
        for pid in site.left():
            end(pid)
        site.status_of(begun)
        for part in held:
            part.put_back()
        expect_refused(site, held[0].name)
        expect_joined(site, site.run(block))
        expect("which parts the log has", set(map(str, range(1, 11))), {fields[0] for fields in log_of(site)})
        expect("that it has each once", 10, len(log_of(site)))


def tasks_of_slurm_run_parts_on_two_nodes(program):
    block = commands(SLURM, "sbatch")
    with Site(program, many_records()) as site:
        site.serve_slurm()
        cut(site, 1000)
        ran = expect_quiet(site.run(block))
        expect("what is printed", "Submitted batch job 1\n", ran.stdout)
        expect_joined(site, ran)
        expect("the notes of the runs", [""] * 5, [site.read(f"parts/{task}.notes") for task in range(5)])
        expect("the nodes", set(NODES), set(re.findall(r" NodeList=(\S+)", site.run("scontrol show job").stdout)))
        expect_joined(site, site.run(block.replace("ID)'", "ID) --summary'").replace("lines", "summary")), "summary")
        site.write("plan.json", "{}")
        expect("the status of sbatch where tasks fail", 3, site.run(block.replace("exec_join", "echo")).returncode)
        expect("that nothing is joined then", site.one["lines"].stdout, site.read("lines"))


def a_task_of_slurm_that_was_killed_is_run_again(program):
    block = commands(SLURM, "sbatch")
    with Site(program, many_records()) as site:
        site.serve_slurm()
        cut(site, 1000)
        [held] = site.hold("parts/x003")
        begun = site.start("bash", "-c", block)
        site.until("the run has begun", held.wrote)
        held.put_back()
        expect("scancel", 0, site.run("scancel 1_3").returncode)
        expect("that sbatch tells it", True, site.status_of(begun) != 0)
        expect("that nothing is joined", False, os.path.exists(site.path("lines")))
        expect_refused(site, held.name)
        expect_joined(site, site.run(block.replace("0-4", "3")))


def with_dask(block):
    """The commands by a Python that has Dask."""
    return block.replace("samples/dask_records.py", f"{python_with_dask()} samples/dask_records.py")


def two_workers_of_dask_run_parts_at_once(program):
    for records in streams_of_records():
        with Site(program, records) as site:
            cut(site, 7)
            expect_joined(site, site.run(with_dask(commands(DASK, "> lines"))))
    with Site(program, many_records()) as site:
        site.serve_dask(python_with_dask())
        cut(site, 500)
        block = with_dask(commands(DASK, "--scheduler-file"))
        expect_joined(site, site.run(block), "summary")
        held = site.hold("parts/x000", "parts/x001")
        begun = site.start("bash", "-c", block)
        for part in held:
            site.until("the runs have begun", part.begun)
        expect("how many workers run parts at once", 2, len({parent_of(part.pid) for part in held}))
        for part in held:
            part.give_rest()
            part.put_back()
        expect("the status", site.one["summary"].returncode, site.status_of(begun))


def a_part_whose_worker_of_dask_was_killed_is_run_again(program):
    with Site(program, many_records()) as site:
        site.serve_dask(python_with_dask())
        cut(site, 500)
        [held] = site.hold("parts/x003")
        block = with_dask(commands(DASK, "> lines")).replace("plan.json", "--scheduler-file scheduler.json plan.json")
        begun = site.start("bash", "-c", block)
        site.until("the run has begun", held.wrote)
        held.put_back()
        end(parent_of(held.pid))
        site.status_of(begun)
        expect("lines", site.one["lines"].stdout, site.read("lines"))
        # the run whose worker is gone goes on, and ends without harm
        held.give_rest()
        site.until("the lost run ends", held.is_over)
        expect("the lines afterwards", site.one["lines"].stdout, lines_of(site))


def a_run_that_was_killed_is_named_by_the_script_for_dask(program):
    with Site(program, many_records()) as site:
        cut(site, 500)
        [held] = site.hold("parts/x003")
        block = with_dask(commands(DASK, "> lines"))
        begun = site.start("bash", "-c", block)
        site.until("the run has begun", held.wrote)
        held.put_back()
        end(held.pid)
        expect("the status", 1, site.status_of(begun))
        note = f"parts/x003: exec_run ended with status {KILLED}\n"
        expect("that the part is named", True, note in site.notes(begun))
        expect_refused(site, held.name)
        expect_joined(site, site.run(block.replace("parts/x??? &&", "parts/x003 &&")))


CUTS = ("bash", "split", "mktemp")
PARALLELS = (*CUTS, "parallel")
OVER = (*PARALLELS, "ssh", "ssh-keygen", f"{SERVERS}/sshd")
SLURMS = (*CUTS, "sbatch", *(f"{SERVERS}/{name}" for name in ("munged", "slurmctld", "slurmd")))


def tests():
    """The tests, each with the tools that it wants."""
    dasks = (*CUTS, python_with_dask() or "a Python with dask and distributed")
    return [
        (a_part_that_is_run_twice_at_once_is_whole_in_the_end, (*CUTS, "xargs")),
        (parts_that_parallel_cuts_are_joined_without_any_warning, OVER),
        (no_part_that_parallel_cuts_is_longer_than_a_block, PARALLELS),
        (parts_of_a_file_are_run_by_parallel, PARALLELS),
        (parts_of_a_file_are_run_by_parallel_on_hosts_behind_ssh, OVER),
        (a_killed_run_halts_parallel_and_is_run_again, PARALLELS),
        (a_connection_that_is_lost_halts_parallel, OVER),
        (parallel_that_is_killed_goes_on_where_it_was, PARALLELS),
        (tasks_of_slurm_run_parts_on_two_nodes, SLURMS),
        (a_task_of_slurm_that_was_killed_is_run_again, SLURMS),
        (two_workers_of_dask_run_parts_at_once, dasks),
        (a_part_whose_worker_of_dask_was_killed_is_run_again, dasks),
        (a_run_that_was_killed_is_named_by_the_script_for_dask, dasks),
    ]


def run(program, words=()):
    """Runs the tests. The answer is how many passed and how many failed."""
    return try_those("engines.py", tests(), program, words)


if __name__ == "__main__":
    sys.exit(main("Runs parts of a stream on GNU parallel, Slurm and Dask.", run))
