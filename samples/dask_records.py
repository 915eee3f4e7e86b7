#!/usr/bin/env python3
"""Runs the parts of a stream on the workers of Dask, each by a run of exec_run.

    samples/dask_records.py PLAN PART..                           on two worker processes that are started here
    samples/dask_records.py --workers N PLAN PART..               on N of them
    samples/dask_records.py --scheduler-file FILE PLAN PART..     on those of a scheduler that wrote FILE

With --summary before PLAN each part is run with --summary. What the run over the part NAME wrote stands in NAME.out
once it has ended, and its exit status in NAME.status: `exec_join lines PART..` or `exec_join summary PART..` joins
them. PLAN and the parts are files that every worker sees, and exec_run is on the path of each. A part whose worker is
lost is run again on another one. The exit status is 0 where all runs came to the end of their parts, and else 1, with
a note for each that didn't; 2 is for words that ask for nothing. It wants the packages dask and distributed.
docs/SCALE.md shows how it is called.
"""
import argparse
import contextlib
import os
import subprocess
import sys
import tempfile

from dask import bag
from distributed import Client

NOT_WHOLE = 1
# the statuses of runs that came to the end of their records
ENDS = (0, 1, 4)


def run_part(part, command):
    """Runs a part on a worker. The answer is the exit status, which is 128 and its number for a signal.

    A worker that was lost may go on with a part that another does again. So each writes a file of its own, and gives
    it the part's name at the end.
    """
    with contextlib.suppress(FileNotFoundError):
        os.unlink(f"{part}.status")
    folder, name = os.path.split(part)
    with open(part, "rb") as records, tempfile.NamedTemporaryFile(dir=folder, prefix=f"{name}.", delete=False) as out:
        ended = subprocess.run(command, stdin=records, stdout=out, check=False).returncode
    os.replace(out.name, f"{part}.out")
    status = ended if ended >= 0 else 128 - ended
    with open(f"{part}.status", "w", encoding="utf-8") as file:
        print(status, file=file)
    return status


def run_parts(client, parts, command):
    """Runs all parts, each a partition of a bag. The answer is their exit statuses, in order."""
    paths = bag.from_sequence(map(os.path.abspath, parts), npartitions=len(parts))
    return client.compute(paths.map(run_part, command=command)).result()


def client_of(given, folder):
    if given.scheduler_file:
        return Client(scheduler_file=given.scheduler_file)
    return Client(
        n_workers=given.workers, threads_per_worker=1, processes=True, dashboard_address=None, local_directory=folder
    )


def main():
    parser = argparse.ArgumentParser(description="Runs the parts of a stream on the workers of Dask.")
    where = parser.add_mutually_exclusive_group()
    where.add_argument("--workers", type=int, default=2, metavar="N")
    where.add_argument("--scheduler-file", metavar="FILE")
    parser.add_argument("--summary", action="store_true")
    parser.add_argument("plan", metavar="PLAN")
    parser.add_argument("parts", nargs="+", metavar="PART")
    given = parser.parse_args()
    command = ["exec_run", "run", os.path.abspath(given.plan), *(["--summary"] if given.summary else [])]
    with tempfile.TemporaryDirectory() as folder, client_of(given, folder) as client:
        statuses = run_parts(client, given.parts, command)
    failed = [(part, status) for part, status in zip(given.parts, statuses) if status not in ENDS]
    for part, status in failed:
        print(f"{part}: exec_run ended with status {status}", file=sys.stderr)
    return NOT_WHOLE if failed else 0


if __name__ == "__main__":
    sys.exit(main())
