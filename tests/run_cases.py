#!/usr/bin/env python3
"""Runs the program on tables of cases, and compares what it writes, and how it ends, exactly.

    tests/run_cases.py [--program PATH] [WORD..]     all cases, or those with a WORD in their file's name or their own

Each file of tests/cases is a JSON list of cases. A case is an object:

    name      a sentence, no two alike in a file
    words     what the program is called with
    program   another program of crates.txt that is called, as it was built beside PATH; exec_run where none is said
    files     the files that lie where it runs: a text as it is, any other JSON value written compactly
    pieces    files by pieces: a list of texts, and of [text, N] for N times that text
    bytes     files by their bytes, in hexadecimal
    input     standard input, a text or pieces; none where it isn't said. Or `repeat`, {"line": "0", "times": 3} for
              "0\n" three times; or `input_bytes`, in hexadecimal
    full      "out", "notes" or a list of both: that stream is a device without room
    memory    how many KiB of data the program may have
    out       what standard output has, a text or pieces
    notes     what standard error has, likewise
    status    the exit status

A case that isn't of this form is a failure. The last line is `N passed, M failed`; the status is 1 where one failed.
"""
import argparse
import json
import os
import re
import subprocess
import sys
import tempfile
from concurrent.futures import ThreadPoolExecutor

HERE = os.path.dirname(os.path.abspath(__file__))
CASES = os.path.join(HERE, "cases")
PROGRAM = os.path.join(os.path.dirname(HERE), "crates", "exec_run", "out", "exec_run")
SECONDS = 120
RUNS = "exec_run"
MOST_SHOWN = 400
FULL = ("out", "notes")

# the keys of a case with the type of each
NEEDED = {"name": str, "words": list, "out": (str, list), "notes": (str, list), "status": int}
FURTHER = {
    "program": str, "files": dict, "pieces": dict, "bytes": dict, "input": (str, list), "repeat": dict,
    "input_bytes": str, "full": (str, list), "memory": int,
}  # fmt: skip


class Malformed(Exception):
    """A case isn't of the form."""


def want(holds, why):
    if not holds:
        raise Malformed(why)


def of_type(value, types):
    return isinstance(value, types) and not isinstance(value, bool)


def without_twins(pairs):
    """An object of JSON whose keys all differ."""
    made = {}
    for key, value in pairs:
        want(key not in made, f"the key {key} stands twice")
        made[key] = value
    return made


def joined(pieces):
    """The text that this is: a text itself, or pieces."""
    if isinstance(pieces, str):
        return pieces
    want(of_type(pieces, list) and pieces, "pieces are a list")
    text = ""
    for piece in pieces:
        if isinstance(piece, str):
            text += piece
            continue
        want(of_type(piece, list) and len(piece) == 2, "a piece is a text, or a text and how often it stands")
        want(of_type(piece[0], str) and of_type(piece[1], int) and piece[1] >= 0, "a piece is a text and how often")
        text += piece[0] * piece[1]
    return text


def unhexed(digits):
    try:
        return bytes.fromhex(digits)
    except (TypeError, ValueError):
        raise Malformed("bytes are hexadecimal digits") from None


def files_of(case):
    """The bytes of each file by its name."""
    files = {}
    for name, value in case.get("files", {}).items():
        compact = value if isinstance(value, str) else json.dumps(value, separators=(",", ":"), ensure_ascii=False)
        files[name] = compact.encode()
    for name, pieces in case.get("pieces", {}).items():
        want(name not in files, f"{name} is given twice")
        files[name] = joined(pieces).encode()
    for name, digits in case.get("bytes", {}).items():
        want(name not in files, f"{name} is given twice")
        files[name] = unhexed(digits)
    for name in files:
        want(name and not name.startswith("/") and ".." not in name.split("/"), f"{name} isn't below the folder")
    return files


def input_of(case):
    want(sum(key in case for key in ("input", "repeat", "input_bytes")) <= 1, "there is one input at most")
    if "repeat" in case:
        repeat = case["repeat"]
        want(set(repeat) == {"line", "times"}, "`repeat` is a line and how many times it stands")
        want(of_type(repeat["line"], str) and of_type(repeat["times"], int), "`repeat` is a line and a number")
        return (repeat["line"] + "\n").encode() * repeat["times"]
    if "input_bytes" in case:
        return unhexed(case["input_bytes"])
    return joined(case.get("input", "")).encode()


def check_form(case):
    want(of_type(case, dict), "a case is an object")
    for key, types in NEEDED.items():
        want(key in case, f"`{key}` isn't said")
        want(of_type(case[key], types), f"`{key}` has another type")
    for key in case.keys() - NEEDED.keys():
        want(key in FURTHER, f"`{key}` is no key of a case")
        want(of_type(case[key], FURTHER[key]), f"`{key}` has another type")
    for key in ("out", "notes"):
        joined(case[key])
    want(all(of_type(word, str) for word in case["words"]), "words are texts")
    want(re.search(r"\w", case["name"]), "a name is a sentence")
    want(0 <= case["status"] <= 255, "a status is from 0 to 255")


def beside(program, name):
    """The program of this name, in the same build as exec_run is here."""
    folder, ending = os.path.dirname(program), os.path.basename(program).removeprefix(RUNS)
    return os.path.join(os.path.dirname(os.path.dirname(folder)), name, os.path.basename(folder), name + ending)


def command_of(program, case):
    """The command that runs the case."""
    command = [beside(program, case["program"]) if "program" in case else program, *case["words"]]
    if "memory" in case:
        command = ["sh", "-c", f'ulimit -c 0; ulimit -d {case["memory"]}; exec "$0" "$@"', *command]
    return command


def differences(case, out, notes, status):
    """Says of each thing that isn't as the case wants it what was wanted and what came."""
    found = []
    for what, got in (("out", out), ("notes", notes)):
        wanted = joined(case[what]).encode()
        if got != wanted:
            found.append((what, shown(wanted), shown(got)))
    if status != case["status"]:
        found.append(("status", str(case["status"]), str(status) if status >= 0 else f"signal {-status}"))
    return found


def shown(text):
    """The text on one line, cut where it is long."""
    cut = text if len(text) <= MOST_SHOWN else text[:MOST_SHOWN]
    rest = f" and {len(text) - len(cut):,} bytes more" if len(text) > len(cut) else ""
    return repr(cut.decode(errors="backslashreplace")) + rest


def run_case(program, case):
    """Runs one case. The answer is what differs: what it is, what was wanted and what came."""
    try:
        check_form(case)
        files, given = files_of(case), input_of(case)
        full = [case["full"]] if isinstance(case.get("full"), str) else case.get("full", [])
        want(all(stream in FULL for stream in full), "`full` is out, notes or both")
    except Malformed as fault:
        return [("form", "a case of the form", str(fault))]
    with tempfile.TemporaryDirectory() as folder, open("/dev/full", "wb") as device:
        for name, text in files.items():
            path = os.path.join(folder, name)
            os.makedirs(os.path.dirname(path), exist_ok=True)
            with open(path, "wb") as file:
                file.write(text)
        out, notes = (device if stream in full else subprocess.PIPE for stream in FULL)
        try:
            ran = subprocess.run(
                command_of(program, case), cwd=folder, input=given, stdout=out, stderr=notes, timeout=SECONDS
            )
        except subprocess.TimeoutExpired:
            return [("time", f"an end within {SECONDS} seconds", "none")]
        except OSError as fault:
            return [("start", "a program that starts", str(fault))]
    return differences(case, ran.stdout or b"", ran.stderr or b"", ran.returncode)


def cases_of(path):
    """The cases of a file, or the case that says what is wrong with it."""
    try:
        with open(path, encoding="utf-8") as file:
            cases = json.load(file, object_pairs_hook=without_twins)
        want(of_type(cases, list) and cases, "a file is a list of cases")
        names = [case.get("name") for case in cases if of_type(case, dict)]
        for name in names:
            want(names.count(name) == 1, f"two cases have the name {name}")
        return cases
    except (ValueError, OSError, Malformed) as fault:
        return [{"name": f"the file itself: {fault}"}]


def tell(title, found):
    print(f"FAILED  {title}")
    for what, wanted, got in found:
        print(f"  {what}\n    wanted  {wanted}\n    got     {got}")


def try_each(chosen, attempt, threads):
    """Tries these side by side, each a title and what is tried, and tells what is found at those that fail. The answer
    is how many passed and how many failed."""
    with ThreadPoolExecutor(threads) as pool:
        answers = list(pool.map(lambda it: attempt(it[1]), chosen))
    for (title, _), found in zip(chosen, answers):
        if found:
            tell(title, found)
    failed = sum(1 for found in answers if found)
    return len(chosen) - failed, failed


def run(program, words=()):
    """Runs the cases of all files. The answer is how many passed and how many failed."""
    program = os.path.abspath(program)
    chosen = []
    for name in sorted(os.listdir(CASES)):
        for case in cases_of(os.path.join(CASES, name)):
            title = f"{name}: {case.get('name') if of_type(case, dict) else case}"
            if not words or any(word in title for word in words):
                chosen.append((title, case))
    return try_each(chosen, lambda case: run_case(program, case), 2 * (os.cpu_count() or 1))


def main(description, tests):
    """The whole of a script that runs tests over a program: all, or those with one of the words. None is a failure."""
    parser = argparse.ArgumentParser(description=description)
    parser.add_argument("--program", default=PROGRAM, metavar="PATH")
    parser.add_argument("words", nargs="*", metavar="WORD")
    given = parser.parse_args()
    passed, failed = tests(given.program, given.words)
    if passed + failed == 0:
        print("nothing was found to run")
        failed = 1
    print(f"{passed} passed, {failed} failed")
    return 1 if failed else 0


if __name__ == "__main__":
    sys.exit(main("Runs the program on tables of cases.", run))
