#!/usr/bin/env python3
"""Runs the program on 100 plans that are spoilt at random, from a fixed seed: none may make it crash.

    tests/mutate_plans.py [--program PATH]

The plans are those of the cases that `run` takes. Each is spoilt in its tree, where parts that stand at the same key
change places, and every third in its bytes too. The program must end with a status that it has and the notes that
belong to it, and print a line for each record where it runs. The last line is `N passed, M failed`; the status is 1 where one failed.
"""
import argparse
import glob
import json
import os
import random
import re
import subprocess
import sys
import tempfile

from run_cases import PROGRAM

HERE = os.path.dirname(os.path.abspath(__file__))
SEED = 20_260
COUNT = 100
RECORDS = b"0\n-7\nx\n"
NUMBERS = [0, 1, -1, 63, 64, 4096, 1_000_001, 2**63 - 1, 2**63, 1.5, None, "", [], {}]


def plans():
    """The plans of all cases that run one, those aside that stand there as text or in pieces."""
    cases = []
    for name in sorted(glob.glob(os.path.join(HERE, "cases", "*.json"))):
        with open(name, encoding="utf-8") as file:
            cases += [case for case in json.load(file) if case["words"][:1] == ["run"] and case["status"] < 2]
    found = [case.get("files", {}).get("plan.json") for case in cases]
    return [plan for plan in found if isinstance(plan, dict)]


def parts_of(value):
    """Where a value's parts stand: pairs of an object or array and a key of it."""
    keys = list(value) if isinstance(value, dict) else range(len(value)) if isinstance(value, list) else []
    for key in keys:
        yield value, key
        yield from parts_of(value[key])


def spoil_tree(dice, plan, others):
    """Changes one to three parts of a plan: most to one of another plan at the same key, some to a number, or away."""
    plan = json.loads(json.dumps(plan))
    for _ in range(dice.randint(1, 3)):
        holder, key = dice.choice(list(parts_of(plan)) or [(plan, "root")])
        like = [donor[other] for donor, other in parts_of(dice.choices(others, k=20)) if other == key]
        change = dice.randrange(20)
        if change == 0:
            holder.pop(key, None) if isinstance(holder, dict) else holder.pop(key)
        elif change == 1 or not like:
            holder[key] = dice.choice(NUMBERS)
        else:
            holder[key] = json.loads(json.dumps(dice.choice(like)))
    return json.dumps(plan, separators=(",", ":")).encode()


def spoil_bytes(dice, text):
    """Changes one to four bytes of a text, puts some in, takes some out, or breaks it off."""
    text = bytearray(text)
    for _ in range(dice.randint(1, 4)):
        at = dice.randrange(len(text) + 1)
        change = dice.randrange(4)
        if change == 0:
            text[at : at + 1] = bytes([dice.randrange(256)])
        elif change == 1:
            text[at:at] = dice.choice([b"{", b"}", b"[", b"]", b",", b":", b'"', b"\\", b"-0", b"1e400", b"null"])
        elif change == 2:
            del text[at : at + dice.randint(1, 8)]
        else:
            text[at:] = text[dice.randrange(len(text) + 1) :]
    return bytes(text)


def fault_of(status, out, notes):
    """What is wrong with how a run ended, if something is."""
    if status == 3:
        return None if re.fullmatch(rb"plan refused: P[1-7] [a-zA-Z ]+\n", notes) and not out else "a refusal"
    if status in (0, 1):
        numbers = [line.split(b" ")[0] for line in out.splitlines()]
        return None if numbers == [b"1", b"2", b"3"] and not notes else "the lines"
    return "the status"


def run(program):
    """Runs the spoilt plans. The answer is how many passed and how many failed."""
    program = os.path.abspath(program)
    dice = random.Random(SEED)
    good = plans()
    failed = 0
    with tempfile.TemporaryDirectory() as folder:
        path = os.path.join(folder, "plan.json")
        for number in range(COUNT):
            text = spoil_tree(dice, dice.choice(good), good)
            if number % 3 == 0:
                text = spoil_bytes(dice, text)
            with open(path, "wb") as file:
                file.write(text)
            ran = subprocess.run([program, "run", path], input=RECORDS, capture_output=True, timeout=60)
            fault = fault_of(ran.returncode, ran.stdout, ran.stderr)
            if fault:
                failed += 1
                print(f"FAILED  mutate_plans.py: plan {number}, {text!r}: {fault}")
                print(f"        came {ran.returncode} {ran.stdout!r} {ran.stderr!r}")
    return COUNT - failed, failed


def main():
    parser = argparse.ArgumentParser(description="Runs the program on plans that are spoilt at random.")
    parser.add_argument("--program", default=PROGRAM, metavar="PATH")
    passed, failed = run(parser.parse_args().program)
    print(f"{passed} passed, {failed} failed")
    return 1 if failed else 0


if __name__ == "__main__":
    sys.exit(main())
