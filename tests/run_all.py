#!/usr/bin/env python3
"""Runs the tables of cases, the streams, spoilt plans and random ones over each build of the program, and over that of
exec_show beside it; reads its pictures (tests/pictures.py), what it says of refused plans (tests/refusals.py) and of
refused entries (tests/reasons.py), and its plans as text (tests/notation.py); refuses the program memory
(tests/refused_memory.py), and looks at what it keeps (tests/kept_memory.py); tries what is handed out beside it
(tests/pages.py, tests/completions.py, tests/scale.py, tests/engines.py, tests/recorder.py); counts what is hard to read (tests/house.py); and checks the documents:
docs/PLANS.md, docs/exec_plan.5 and docs/plan.schema.json must be what docs/make_plans.py writes with that build.

    tests/run_all.py [--gate STATUS] [PROGRAM..]

Without a PROGRAM these are the builds that `rt ci` leaves: by LLVM, and by Rattle's own compiler where that compiled
it. STATUS is how `rt ci` ended: where it isn't 0 that counts as one failure more, so that the last line tells it too.
That line is `N passed, M failed`; the status is 1 where something failed.
"""
import argparse
import os
import shutil
import subprocess
import sys
import tempfile

import check_docs
import completions
import engines
import house
import kept_memory
import mutate_plans
import notation
import pages
import pictures
import random_plans
import reasons
import recorder
import refusals
import refused_memory
import run_cases
import scale
import streams

BUILDS = ("", ".by-rattle")
WRITTEN = tuple(os.path.join("docs", name) for name in ("PLANS.md", "exec_plan.5", "plan.schema.json"))


def builds():
    """The program as it was built. The first build must be there."""
    first, *others = (run_cases.PROGRAM + ending for ending in BUILDS)
    return [first, *filter(os.path.isfile, others)]


def cookbook(program):
    """Writes docs/PLANS.md and the schema anew in a copy. The answer is how many checks passed and how many failed."""
    with tempfile.TemporaryDirectory() as folder:
        for name in ("docs", "samples", "tests"):
            shutil.copytree(os.path.join(check_docs.TOP, name), os.path.join(folder, name))
        command = [sys.executable, "docs/make_plans.py", os.path.abspath(program)]
        made = subprocess.run(command, cwd=folder, capture_output=True, check=False)
        if made.returncode:
            print(f"FAILED  docs/make_plans.py: {made.stderr.decode(errors='replace').strip()[-400:]}")
            return 0, len(WRITTEN)
        failed = 0
        for kept in WRITTEN:
            with open(os.path.join(folder, kept), encoding="utf-8") as file:
                if file.read() != check_docs.text_of(kept):
                    print(f"FAILED  {kept} isn't what docs/make_plans.py writes with {program}")
                    failed += 1
    return len(WRITTEN) - failed, failed


def main():
    parser = argparse.ArgumentParser(description="Runs all tests over the program.")
    parser.add_argument("--gate", type=int, default=0, metavar="STATUS")
    parser.add_argument("programs", nargs="*", metavar="PROGRAM")
    given = parser.parse_args()
    counts = []
    for program in given.programs or builds():
        if not os.access(program, os.X_OK):
            print(f"FAILED  there is no program {program}")
            counts.append((0, 1))
            continue
        scripts = (
            run_cases, streams, mutate_plans, random_plans, pictures, refusals, reasons, notation, refused_memory, pages,
            kept_memory, completions, scale, engines, recorder
        )  # fmt: skip
        found = [it.run(program) for it in scripts]
        found.append(cookbook(program))
        print(f"{program}: {sum(it[0] for it in found)} tests passed, {sum(it[1] for it in found)} not")
        counts += found
    counts.append(check_docs.run())
    counts.append(house.run())
    if given.gate:
        print(f"FAILED  rt ci ended with status {given.gate}: see its last lines above")
        counts.append((0, 1))
    passed, failed = (sum(column) for column in zip(*counts))
    print(f"{passed} passed, {failed} failed")
    return 1 if failed or not passed else 0


if __name__ == "__main__":
    sys.exit(main())
