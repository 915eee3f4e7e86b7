#!/usr/bin/env python3
"""Proves programs and the libraries below them, side by side, and leaves each program in its crate's out/.

    tools/prove_programs.py PROGRAM..      as in tools/prove_programs.py exec_run exec_show

It is `rt ci` on a copy that holds these crates alone, without their must-fail edits. What it proves is kept beside the
kit, and so `make test` doesn't prove it again; nor does it prove what was proved before. The status is that of `rt ci`.
"""
import os
import shutil
import subprocess
import sys
import tempfile

sys.path.insert(0, os.path.join(os.path.dirname(os.path.dirname(os.path.abspath(__file__))), "docs"))
import make_rooms


def crates_below(names):
    """These crates and all below them that the repository has."""
    rooms = make_rooms.rooms_of(make_rooms.text_of("crates.txt"))
    known = {name: stands_on for _, _, crates in rooms for name, stands_on in crates}
    found, left = set(), list(names)
    while left:
        name = left.pop()
        if name in known and name not in found:
            found.add(name)
            left += known[name]
    return found


def copy_crates(names, to):
    """What `rt ci` reads of these crates."""
    lines = make_rooms.text_of("crates.txt").splitlines(keepends=True)
    with open(os.path.join(to, "crates.txt"), "w", encoding="utf-8") as file:
        file.writelines(it for it in lines if it.split(":")[0].split()[:1] and it.split(":")[0].split()[0] in names)
    shutil.copy2(os.path.join(make_rooms.TOP, "HANDLES"), to)
    for name in names:
        aside = shutil.ignore_patterns("out", "must-fail")
        shutil.copytree(os.path.join(make_rooms.TOP, "crates", name), os.path.join(to, "crates", name), ignore=aside)


def main(words):
    if not words or any(word.startswith("-") for word in words):
        print(__doc__)
        return 2
    with tempfile.TemporaryDirectory(prefix="prove-") as folder:
        copy_crates(crates_below(words), folder)
        status = subprocess.run(["rt", "ci"], cwd=folder, check=False).returncode
        for name in words:
            built, out = (os.path.join(top, "crates", name, "out") for top in (folder, make_rooms.TOP))
            if os.path.isfile(os.path.join(built, name)):
                os.makedirs(out, exist_ok=True)
                # (as of now, so that make takes it for newer than the sources)
                shutil.copy(os.path.join(built, name), out)
    return status


if __name__ == "__main__":
    sys.exit(main(sys.argv[1:]))
