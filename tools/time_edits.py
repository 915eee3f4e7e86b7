#!/usr/bin/env python3
"""Tells what a crate's must-fail edits cost, and writes out the searches that they break.

    tools/time_edits.py CRATE [EDIT..]      as in tools/time_edits.py table_words never_joins
    tools/time_edits.py --answer CRATE      then gives each goal that an edit breaks an answer, where it has none

A line for each edit tells the seconds of a processor that its check takes, and the goals that fail and have no answer.
As `rt must-fail` does, it checks the crate once, begun with what `rt check` kept, and each edit over that. The libraries
below the crate are those that `rt check` left in their out/ folders.

An answer is `search rules`, or where that proves nothing `grind (arith, common_steps)`. A goal that neither proves, or
that stands in the edit's text alone, gets none. docs/DECISIONS.md says why goals are answered so.
"""
import os
import re
import shutil
import subprocess
import sys
import tempfile

sys.path.insert(0, os.path.join(os.path.dirname(os.path.dirname(os.path.abspath(__file__))), "docs"))
import make_rooms

CRATES = os.path.join(make_rooms.TOP, "crates")
KIT = "/opt/rattle"
ANSWERS = {"search rules": [("Rattle.std.proofs.Common", "rules")]}
ANSWERS["grind (arith, common_steps)"] = [
    ("Rattle.std.proofs.Common", "arith"),
    ("Rattle.std.proofs.lemmas.Grind", "common_steps"),
]


def stands_on():
    rooms = make_rooms.rooms_of(make_rooms.text_of("crates.txt"))
    return {name: libraries for _, _, crates in rooms for name, libraries in crates}


def below(crate, known):
    """The crates of the repository below this one, each after those that it stands on."""
    found = []
    for name in known[crate]:
        if name in known:
            found += [it for it in [*below(name, known), name] if it not in found]
    return found


def command(crate, kept):
    """The check of a crate, as rt would call it in the crate's folder."""
    known = stands_on()
    built = {name: os.path.join(CRATES, name, "out", "rlib", f"{name}.rlib") for name in known}
    root = "main" if os.path.exists(os.path.join(CRATES, crate, "src", "main.rt")) else "lib"
    words = [f"{KIT}/bin/rattle", "check", "--crate-name", crate, f"src/{root}.rt"]
    for name in ["std", *known[crate]]:
        words += ["--extern", f"{name}=" + built.get(name, f"{KIT}/rlibs/{name}.rlib")]
    for folder in [f"{KIT}/rlibs", *(os.path.dirname(built[name]) for name in below(crate, known))]:
        words += ["-L", f"dependency={folder}"]
    words += ["--antt-project", f"{KIT}/rattle/logic/antt-project.json", "--logic-built", f"{KIT}/logic_built"]
    return [*words, "--links", f"{crate}=", "--jobs", "1", "--incremental", kept]


def check(crate, folder, kept):
    """Checks what stands in the folder. Gives the seconds of a processor, what was said, and the status."""
    with tempfile.TemporaryFile("w+", errors="replace") as said:
        ran = subprocess.Popen(command(crate, kept), cwd=folder, stdout=said, stderr=subprocess.STDOUT)
        _, status, used = os.wait4(ran.pid, 0)
        ran.returncode = os.waitstatus_to_exitcode(status)
        said.seek(0)
        return used.ru_utime + used.ru_stime, said.read(), ran.returncode


def write(path, text):
    with open(path, "w", encoding="utf-8") as file:
        file.write(text)


def apply_edit(edit, folder):
    """Changes the files in the folder as the edit says."""
    path = old = None
    for line in make_rooms.text_of(edit).splitlines():
        if line.startswith("file: "):
            path = os.path.join(folder, line[len("file: ") :].strip())
        elif line.startswith("old: "):
            old = line[len("old: ") :]
        elif line.startswith("new:"):
            new = line[len("new:") :].removeprefix(" ")
            write(path, make_rooms.text_of(path).replace(old, new))


def open_goals(said):
    """The goals that were searched in vain: by the file of their answers, each with the names that an answer binds."""
    unproved, found, path = {}, {}, None
    for line in said.splitlines():
        failed = re.match(r"fn \S+: no proof: expected answers in \./(\S+); `search` did not prove (.*)", line)
        offer = re.match(r"help: .*?\./(proofs/\S+?/Answers\.antt)", line)
        hole = re.match(r"    (\S+) ([^=]*) = \?$", line)
        if failed:
            unproved[failed[1]] = re.findall(r"`([^`]+)`", failed[2])
        elif offer:
            path = offer[1]
        elif hole and hole[1] in unproved.get(path, ()):
            found.setdefault(path, {})[hole[1]] = hole[2]
    return found


def with_import(text, module, name):
    line = re.search(rf"^use {re.escape(module)}\.\{{([^}}]*)\}}", text, re.M)
    if not line:
        return f"use {module}.{{{name}}}\n{text}"
    names = [it.strip() for it in line[1].split(",")]
    return text if name in names else f"{text[: line.end(1)]}, {name}{text[line.end(1) :]}"


def with_answer(text, crate, path, goal, binds, answer):
    """The file of answers with one more."""
    goals = ".".join(["Rattle", crate, *path.split("/")[:-1], "Goals"])
    if f"use {goals} as goal" not in text:
        at = max((it.end() for it in re.finditer(r"^use .*\n", text, re.M)), default=0)
        text = f"{text[:at]}use {goals} as goal\n{text[at:]}"
    for module, name in ANSWERS[answer]:
        text = with_import(text, module, name)
    return text.rstrip("\n") + f"\n\npub {goal} : goal.{goal}\n{goal} {binds} = {answer}\n"


def write_answers(crate, path, before, answers):
    """Writes the file as it was before, with these answers besides; where neither has any, there is none."""
    file, text = os.path.join(CRATES, crate, path), before
    for goal, (binds, answer) in answers.items():
        text = with_answer(text, crate, path, goal, binds, answer)
    if text:
        os.makedirs(os.path.dirname(file), exist_ok=True)
        write(file, text)
    elif os.path.exists(file):
        os.remove(file)
        os.removedirs(os.path.dirname(file))


def answer_goals(crate, kept, found):
    """Gives each goal the first answer that proves it, and none where none does. The status is that of the last check."""
    folder = os.path.join(CRATES, crate)
    files = {path: os.path.join(folder, path) for path in found}
    before = {path: make_rooms.text_of(file) if os.path.exists(file) else "" for path, file in files.items()}
    left = {(path, goal): [*ANSWERS] for path, goals in found.items() for goal in goals}
    while True:
        for path, goals in found.items():
            answers = {it: (binds, left[path, it][0]) for it, binds in goals.items() if left[path, it]}
            write_answers(crate, path, before[path], answers)
        subprocess.run(["rt", "fmt"], cwd=folder, stdout=subprocess.DEVNULL, check=False)
        _, said, status = check(crate, folder, kept)
        refused = {it for it in re.findall(r"^\./(\S+?):\d+:\d+: error: `([^`]+)`: ", said, re.M) if left.get(it)}
        if not refused:
            break
        for it in refused:
            left[it].pop(0)
    for (path, goal), answers in left.items():
        print(f"{path} {goal}: {answers[0] if answers else 'no answer'}")
    return status


def copy_or_link(one, other):
    """As rt does: a check replaces a checked module, and never writes into it."""
    return os.link(one, other) if one.endswith(".oantt") else shutil.copy2(one, other)


def time_edits(crate, names, kept):
    """Checks each edit, or those named, over what the crate's own check kept, and gives the goals that they leave open."""
    folder, every = os.path.join(CRATES, crate), {}
    for name in sorted(os.listdir(os.path.join(folder, "must-fail"))):
        if not name.endswith(".edit") or names and name.removesuffix(".edit") not in names:
            continue
        with tempfile.TemporaryDirectory(prefix="edit-") as room:
            for part in ("src", "specs", "proofs"):
                if os.path.isdir(os.path.join(folder, part)):
                    shutil.copytree(os.path.join(folder, part), os.path.join(room, part))
            shutil.copytree(kept, os.path.join(room, "kept"), copy_function=copy_or_link)
            apply_edit(os.path.join(folder, "must-fail", name), room)
            seconds, said, status = check(crate, room, os.path.join(room, "kept"))
        found = open_goals(said)
        goals = ", ".join(goal for it in found.values() for goal in it) or "none without an answer"
        verdict = "refused" if status == 1 and "logic=not-proved" in said else f"NOT REFUSED (status {status})"
        print(f"{crate}/{name.removesuffix('.edit')}: {verdict}, {seconds:.1f} s, {goals}", flush=True)
        for path, it in found.items():
            every.setdefault(path, {}).update(it)
    return every


def main(words):
    answers = "--answer" in words
    crate, *names = [it for it in words if it != "--answer"] or [""]
    if crate not in stands_on() or not os.path.isdir(os.path.join(CRATES, crate, "must-fail")):
        print(__doc__)
        return 2
    folder = os.path.join(CRATES, crate)
    with tempfile.TemporaryDirectory(prefix="kept-") as room:
        kept, own = os.path.join(room, "kept"), os.path.join(folder, "out", "incremental")
        shutil.copytree(own, kept) if os.path.isdir(own) else os.mkdir(kept)
        seconds, said, status = check(crate, folder, kept)
        print(f"{crate}: {seconds:.1f} s, and over what it kept {check(crate, folder, kept)[0]:.1f} s", flush=True)
        if status:
            print(said)
            return 1
        found = time_edits(crate, names, kept)
        return answer_goals(crate, kept, found) if answers and found else 0


if __name__ == "__main__":
    sys.exit(main(sys.argv[1:]))
