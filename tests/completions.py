#!/usr/bin/env python3
"""Tries the completion of the words of exec_run and exec_show in bash, zsh and fish, each in that shell: the same
lines, and what comes.

    tests/completions.py [--program PATH] [WORD..]     all of them, or those with a WORD in their sentence

A shell that isn't installed is told and skipped. The last line is `N passed, M failed`; the status is 1 where one
failed.
"""
import os
import pty
import re
import select
import shutil
import subprocess
import sys
import tempfile
import time

from check_docs import TOP, text_of
from room import ended, try_those
from run_cases import beside, main
from streams import SECONDS, Wrong, expect

# of each program: a line behind its name, and what comes; fish shows options only behind a `-`, and what `=` joins whole
ROWS = {
    "exec_run": [
        ("", "run gen replay check"),
        ("re", "replay"),
        ("ne", ""),
        ("run ", "plan.json plan.old trace.txt"),
        ("run plan", "plan.json plan.old"),
        ("check t", "trace.txt"),
        ("check trace.txt ", ""),
        ("replay ", "plan.json plan.old trace.txt"),
        ("run plan.json ", "--workers --window --order --summary", ""),
        ("run --s", "--summary"),
        ("run --summary --", "--workers --window --order"),
        ("run --summary plan.j", "plan.json"),
        ("run --workers 5 ", "plan.json plan.old trace.txt"),
        ("run plan.json --window ", ""),
        ("run plan.json --window 5 --w", "--workers"),
        ("run plan.json --window=5 ", "--workers --order --summary", ""),
        ("run plan.json --window=5 --", "--workers --order --summary"),
        ("run --order ", "fifo lifo"),
        ("run --order l", "lifo"),
        ("run --order=", "fifo lifo", "--order=fifo --order=lifo"),
        ("run --order=l", "lifo", "--order=lifo"),
        ("gen plan.json ", ""),
        ("gen plan.json 5 ", "--workers --window --order", ""),
        ("gen plan.json 5 --", "--workers --window --order"),
        ("gen --", "--workers --window --order"),
    ],
    "exec_show": [
        ("", "plan trace why write text"),
        ("p", "plan"),
        ("t", "trace text"),
        ("w", "why write"),
        ("x", ""),
        ("plan ", "plan.json plan.old trace.txt"),
        ("plan plan.j", "plan.json"),
        ("trace t", "trace.txt"),
        ("trace trace.txt ", "--refused --from --to", ""),
        ("trace trace.txt --f", "--from"),
        ("trace trace.txt --from ", ""),
        ("trace trace.txt --from 3 --", "--refused --to"),
        ("write plan.o", "plan.old"),
        ("text plan.j", "plan.json"),
        ("why t", "trace.txt"),
        ("why trace.txt ", ""),
        ("check t", ""),
    ],
}
FILES = ("plan.json", "plan.old", "trace.txt")

# completes each line of the file `rows` as one who types it and a tab, and writes what comes into `answers`
ZSH = r"""
PROMPT= RPROMPT=
fpath=(FUNCTIONS $fpath)
autoload -Uz compinit && compinit -D -u
setopt no_auto_menu no_list_ambiguous no_beep
compadd() {
    local -a hits
    if [[ ${@[1,(i)(-|--)]} != *-(O|A|D)\ * ]]; then
        builtin compadd -A hits "$@"
        found+=($hits)
    fi
    builtin compadd "$@"
}
try-rows() {
    local row
    while IFS= read -r row; do
        BUFFER="PROGRAM $row" CURSOR=$(( $#row + SIZE )) found=()
        zle complete-word
        print -r -- ${(u)found}
    done < ROWS > ANSWERS
    exit
}
zle -N try-rows
bindkey '^T' try-rows
: > READY
"""


def completion(shell, of="exec_run"):
    return os.path.join(TOP, "completions", f"{of}.{shell}")


def folder_of_files(work):
    """What the work gives in a folder with a few files, and with another for its own."""
    with tempfile.TemporaryDirectory() as folder, tempfile.TemporaryDirectory() as own:
        for name in FILES:
            open(os.path.join(folder, name), "w", encoding="utf-8").close()
        return work(folder, own)


def check_answers(of, answers, which=1):
    expect(f"how many answers for {of}", len(ROWS[of]), len(answers))
    for row, came in zip(ROWS[of], answers):
        expect(f"after `{of} {row[0]}`", sorted(row[min(which, len(row) - 1)].split()), sorted(came.split()))


def each_program(completes):
    """The same over each program."""
    for of in ROWS:
        completes(of)


def bash_completes(_):
    """bash cuts a line at blanks and at `=`."""
    each_program(completes_in_bash)


def completes_in_bash(of):
    script = f"source {completion('bash', of)}\n"
    script += f"complete=$(complete -p {of} | sed 's/.*-F \\([^ ]*\\).*/\\1/')\n"
    for line, *_ in ROWS[of]:
        words = re.findall(r"=|[^ =]+", line) + ([""] if not line or line[-1] == " " else [])
        quoted = " ".join(f"'{word}'" for word in words)
        script += f"COMP_WORDS=({of} {quoted}); COMP_CWORD={len(words)}; COMPREPLY=(other)\n"
        script += f'$complete {of}; echo "${{COMPREPLY[*]}}"\n'
    ran = folder_of_files(lambda folder, _: ended(["bash", "-c", script], cwd=folder))
    expect("notes", "", ran.stderr)
    check_answers(of, ran.stdout.split("\n")[:-1])


def fish_completes(_):
    each_program(completes_in_fish)


def completes_in_fish(of):
    script = f"source {completion('fish', of)}\n"
    for line, *_ in ROWS[of]:
        script += f"echo (complete -C '{of} {line}' | string replace -r '\\t.*' '')\n"

    def work(folder, own):
        return ended(["fish", "--no-config", "-c", script], cwd=folder, env={**os.environ, "HOME": own})

    ran = folder_of_files(work)
    expect("notes", "", ran.stderr)
    check_answers(of, ran.stdout.split("\n")[:-1], 2)


def typed(folder, script, ready):
    """Lets zsh on a terminal of its own read the script, and presses its key once it is ready. Waits for its end."""
    ours, theirs = pty.openpty()
    command, environment = ["zsh", "-f", "-i"], {**os.environ, "TERM": "dumb"}
    shell = subprocess.Popen(command, stdin=theirs, stdout=theirs, stderr=theirs, cwd=folder, env=environment,
                             start_new_session=True)  # fmt: skip
    os.close(theirs)
    os.write(ours, f" source {script}\n".encode())
    until, pressed = time.monotonic() + SECONDS, False
    while shell.poll() is None and time.monotonic() < until:
        try:
            if select.select([ours], [], [], 0.05)[0]:
                os.read(ours, 65536)
        except OSError:
            break
        if not pressed and os.path.exists(ready):
            time.sleep(0.2)
            os.write(ours, b"\x14")
            pressed = True
    if shell.poll() is None:
        shell.kill()
    shell.wait()
    os.close(ours)


def zsh_completes(_):
    each_program(completes_in_zsh)


def completes_in_zsh(of):
    def work(folder, own):
        text = ZSH.replace("PROGRAM", of).replace("SIZE", str(len(of) + 1))
        paths = {name: os.path.join(own, name) for name in ("FUNCTIONS", "ROWS", "ANSWERS", "READY")}
        for name, path in paths.items():
            text = text.replace(name, path)
        os.mkdir(paths["FUNCTIONS"])
        shutil.copy(completion("zsh", of), os.path.join(paths["FUNCTIONS"], f"_{of}"))
        script = os.path.join(own, "script")
        for path, said in ((script, text), (paths["ROWS"], "".join(f"{line}\n" for line, *_ in ROWS[of]))):
            with open(path, "w", encoding="utf-8") as file:
                file.write(said)
        typed(folder, script, paths["READY"])
        if not os.path.exists(paths["ANSWERS"]):
            raise Wrong("answers of zsh", "a file", "none")
        with open(paths["ANSWERS"], encoding="utf-8") as file:
            return file.read().split("\n")[:-1]

    check_answers(of, folder_of_files(work))


def each_completion_knows_the_words_of_the_usage_note(program):
    for of in ROWS:
        usage = ended([beside(program, of)]).stderr
        for shell in ("bash", "zsh", "fish"):
            known = text_of(os.path.join("completions", f"{of}.{shell}"))
            for word in sorted(set(re.findall(rf"--\w+|(?<={of} )\w+|\w+(?=\|)|(?<=\|)\w+", usage))):
                told = rf"(?:--|-l ){word[2:]}\b" if word.startswith("--") else rf"(?<![\w-]){word}\b"
                if not re.search(told, known):
                    raise Wrong(f"a word of {of} in the completion of {shell}", word, "none")


TESTS = [
    (bash_completes, ("bash", "sed")),
    (zsh_completes, ("zsh",)),
    (fish_completes, ("fish",)),
    (each_completion_knows_the_words_of_the_usage_note, ()),
]


def run(program, words=()):
    """Runs the tests. The answer is how many passed and how many failed."""
    return try_those("completions.py", TESTS, program, words)


if __name__ == "__main__":
    sys.exit(main("Tries the completions in their shells.", run))
