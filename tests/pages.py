#!/usr/bin/env python3
"""Tries what is handed out beside the programs: their manual pages, what `make install` puts where, the script that
measures, and the commands on README.md and the pages of docs/.

    tests/pages.py [--program PATH] [WORD..]     all of them, or those with a WORD in their sentence

A command on a page stands in a block `console`, behind `$ `, and below it what it prints. Each block is run, one after
another in a folder of its own for each page, with the programs on the path and samples/ beside it; `$ cat FILE` of a
file that isn't there makes it. An image on a page is what a command there writes to a file of its name. Commands that take long stand in blocks `sh`, where each `make` must be one of the
Makefile. docs/SCALE.md has tests/scale.py, docs/PLANS.md is written by docs/make_plans.py, and completions have
tests/completions.py.

A test or block whose tools aren't installed is told and skipped. The last line is `N passed, M failed`; the status is 1
where one failed.
"""
import filecmp
import os
import re
import shutil
import stat
import sys
import tempfile

from check_docs import TOP, documents, text_of
from completions import completion
from room import Room, ended, try_those
from run_cases import beside, main
from streams import Wrong, expect

PAGE, SHOWS_PAGE, JOINS_PAGE, PLANS_PAGE = PAGES = [
    os.path.join("docs", name) for name in ("exec_run.1", "exec_show.1", "exec_join.1", "exec_plan.5")
]
SCHEMA, SENDERS = (os.path.join(TOP, name) for name in ("docs/plan.schema.json", "samples/senders.py"))
MEASURE = os.path.join(TOP, "bench", "measure.py")
# tools that a new user may not have: a block that calls one is skipped where it isn't installed
OTHERS = ("jq", "mawk", "parallel")


def plain_page(page=PAGE):
    """The page's lines without macros and fonts."""
    page = re.sub(r"\\f[BIRP]|^\.(?:B|I|BI|BR|IR|TP|TQ|EX|EE|nf|fi|SH)\b ?", "", text_of(page), flags=re.M)
    return re.sub(" +", " ", unescaped(page).replace('"', ""))


def unescaped(text):
    return text.replace("\\-", "-").replace("\\e", "\\")


def usage_of(program):
    return ended([program]).stderr.splitlines()


def the_pages_have_no_warnings(_):
    for page in PAGES:
        for command in (["man", "--warnings", "-l", page], ["groff", "-ww", "-man", "-z", page]):
            ran = ended(command, cwd=TOP)
            expect(" ".join(command), (0, ""), (ran.returncode, ran.stderr))


def the_pages_are_clean_by_mandoc(_):
    for page in PAGES:
        ran = ended(["mandoc", "-T", "lint", page], cwd=TOP)
        expect(f"mandoc -T lint {page}", (0, ""), (ran.returncode, ran.stdout))


def the_pages_say_each_line_of_the_usage_notes(program):
    shows, joins = beside(program, "exec_show"), beside(program, "exec_join")
    for of, page, count in ((program, PAGE, 4), (shows, SHOWS_PAGE, 5), (joins, JOINS_PAGE, 2)):
        lines = [line.removeprefix("usage: ") for line in usage_of(of)]
        expect(f"how many commands {page} has", count, len(lines))
        synopsis = plain_page(page).split("SYNOPSIS")[1].split("DESCRIPTION")[0]
        expect(f"the synopsis of {page}", lines, synopsis.strip().split("\n"))


def the_page_tells_of_each_word(program):
    behind = plain_page().split("DESCRIPTION")[1]
    for word in sorted(set(re.findall(r"--\w+|\b[A-Za-z]+\b", " ".join(usage_of(program)).replace("exec_run", "")))):
        if word != "usage" and not re.search(rf"(?<![\w-]){word}\b", behind):
            raise Wrong("a word on the page", word, "none")


def the_page_has_each_refusal_and_status(_):
    page, plans = plain_page(), text_of(os.path.join("docs", "PLANS.md"))
    refusals = set(re.findall(r"`(plan refused: P\d [^`]+)`", plans))
    expect("how many refusals docs/PLANS.md tells", 7, len(refusals))
    notes = ["out of memory", "read fault", "write fault", "limit", "trace refused: line N", "trace refused: too long"]
    for note in sorted(refusals) + notes:
        if f"\n{note}\n" not in page:
            raise Wrong("a note on the page", note, "none")
    statuses = re.findall(r"^(\d)$", page.split("EXIT STATUS")[1].split("DIAGNOSTICS")[0], re.M)
    expect("statuses", list("01234567"), statuses)


def the_page_of_plans_has_each_node_job_setting_and_refusal(_):
    page, plans = plain_page(PLANS_PAGE), text_of(os.path.join("docs", "PLANS.md"))
    names = re.findall(r"^### `(\w+)`$", plans, re.M) + re.findall(r"^\| `(\w+)` \|", plans, re.M)
    refusals = re.findall(r"`plan refused: (P\d [^`]+)`", plans)
    for name in (*names, *refusals):
        if not re.search(rf"^{name}(?: [a-z, ]+)?$", page, re.M):
            raise Wrong(f"a node, job, setting or refusal in {PLANS_PAGE}", name, "none")
    if len(names) < 40 or len(set(refusals)) != 7:
        raise Wrong("how many names and refusals docs/PLANS.md has", "40 or more, 7", f"{len(names)}, {len(refusals)}")


def the_page_has_each_large_limit_of_the_other_pages(_):
    limits, number = plain_page().split("LIMITS")[1].split("EXIT STATUS")[0], r"(?<![\d,])\d{1,3}(?:,\d{3})+(?![\d,])"
    plans, traces = (text_of(os.path.join("docs", name)) for name in ("PLANS.md", "TRACES.md"))
    told = re.findall(number, plans.split("## Nodes")[0] + traces.split("## What a check says")[0])
    numbers_of_32_bits = "4,294,967,295"
    for limit in sorted(set(told) - {numbers_of_32_bits}):
        if not re.search(rf"(?<![\d,]){limit}(?![\d,]*\d)", limits):
            raise Wrong("a limit on the page", limit, "none")


def commands_of(block):
    """The commands of a block, each with what the page says that it prints."""
    found = []
    for line in block.splitlines(keepends=True):
        if line.startswith("$ "):
            found.append([line[2:], ""])
        elif found and found[-1][0].endswith("\\\n"):
            found[-1][0] += line
        else:
            found[-1][1] += line
    return found


def printed(room, block):
    """The block as it is where its commands print what they print, all in one shell."""
    script, written = "", 0
    for command, shown in commands_of(block):
        made = re.fullmatch(r"cat ([\w.]+)\n", command)
        if made and not os.path.exists(room.path(made[1])):
            room.write(made[1], shown)
        script += f"status=$?; echo '\x1e'; (exit $status)\n{command}"
        written += 1
    parts = room.run(script).stdout.split("\x1e\n")[1:]
    expect("how many commands were run", written, len(parts))
    return "".join(f"$ {command}{out}" for (command, _), out in zip(commands_of(block), parts))


def the_examples_of_the_pages_are_what_the_programs_print(program):
    for page in (PAGE, SHOWS_PAGE, JOINS_PAGE):
        examples = text_of(page).split(".SH EXAMPLES\n.EX\n")[1].split(".EE")[0]
        block = unescaped(re.sub(r"\\f[BP]", "", examples))
        with Room(program) as room:
            expect(f"the examples of {page}", block, printed(room, block))


def the_commands_on_the_pages_print_what_the_pages_say(program):
    found = 0
    for page in documents():
        with Room(program) as room:
            for block in re.findall(r"^```console\n(.*?)^```", text_of(page), re.S | re.M):
                found += 1
                missing = [tool for tool in OTHERS if re.search(rf"\b{tool} ", block) and not shutil.which(tool)]
                if missing:
                    print(f"skipped pages.py: a block of {page}: {', '.join(missing)} isn't installed")
                else:
                    expect(f"a block of {page}", block, printed(room, block))
            for image in re.findall(r"!\[[^]]*\]\((\w+\.svg)\)", text_of(page)):
                expect(f"{image} of {page}", text_of(os.path.join("docs", image)), room.read(image))
    if found < 9:
        raise Wrong("how many blocks the pages have", "9 or more", str(found))


def each_make_on_the_pages_is_one_of_the_makefile(_):
    known = re.findall(r"^(\w+):", text_of("Makefile"), re.M)
    for page in documents():
        for target in sorted(set(re.findall(r"(?:^|`)make (\w+)\b", text_of(page), re.M))):
            if target not in known:
                raise Wrong(f"`make {target}` of {page}", "a target of the Makefile", "none")


def the_script_that_measures_finds_what_is_due(program):
    ran = ended([sys.executable, MEASURE, program, "--smaller", "1000", "--rounds", "1", "--no-instructions"])
    expect("notes", (0, ""), (ran.returncode, ran.stderr))
    for work in ("add 1", "plan G", "rows of 4,096"):
        if not re.search(rf"^{work} +exec_run ", ran.stdout, re.M):
            raise Wrong("a row of the table", work, ran.stdout)


def made(folder, *words):
    """`make` of its own, whatever an outer one was called with."""
    outside = ("MAKEFLAGS", "MFLAGS", "MAKELEVEL", "PREFIX", "DESTDIR", "PROGRAM", "SHOWS", "JOINS")
    kept = {name: value for name, value in os.environ.items() if name not in outside}
    return ended(["make", "-s", "-C", TOP, *words, f"DESTDIR={folder}"], env=kept)


def files_below(folder):
    found = [os.path.join(above, name) for above, _, names in os.walk(folder) for name in names]
    return sorted(os.path.relpath(path, folder) for path in found)


def make_install_puts_its_files_and_make_uninstall_takes_them_away(program):
    for prefix, words in (("usr/local", []), ("opt/exec", ["PREFIX=/opt/exec"])):
        puts, shows, joins = {}, beside(program, "exec_show"), beside(program, "exec_join")
        for name, built, page in (("exec_run", program, PAGE), ("exec_show", shows, SHOWS_PAGE)):
            puts[f"{prefix}/bin/{name}"] = (built, 0o755)
            puts[f"{prefix}/share/man/man1/{name}.1"] = (os.path.join(TOP, page), 0o644)
            puts[f"{prefix}/share/bash-completion/completions/{name}"] = (completion("bash", name), 0o644)
            puts[f"{prefix}/share/zsh/site-functions/_{name}"] = (completion("zsh", name), 0o644)
            puts[f"{prefix}/share/fish/vendor_completions.d/{name}.fish"] = (completion("fish", name), 0o644)
        puts[f"{prefix}/bin/exec_join"] = (joins, 0o755)
        puts[f"{prefix}/share/man/man1/exec_join.1"] = (os.path.join(TOP, JOINS_PAGE), 0o644)
        puts[f"{prefix}/share/man/man5/exec_plan.5"] = (os.path.join(TOP, PLANS_PAGE), 0o644)
        for path in filter(os.path.isfile, (SCHEMA, SENDERS)):
            puts[f"{prefix}/share/exec_run/{os.path.basename(path)}"] = (path, 0o644)
        with tempfile.TemporaryDirectory() as folder:
            ran = made(folder, "install", f"PROGRAM={program}", f"SHOWS={shows}", f"JOINS={joins}", *words)
            expect("make install", (0, ""), (ran.returncode, ran.stderr))
            expect("the files", sorted(puts), files_below(folder))
            for name, (source, mode) in puts.items():
                path = os.path.join(folder, name)
                expect(f"the mode of {name}", oct(mode), oct(stat.S_IMODE(os.stat(path).st_mode)))
                expect(f"whether {name} is a copy", True, filecmp.cmp(path, source, shallow=False))
            ran = made(folder, "uninstall", *words)
            expect("make uninstall", (0, ""), (ran.returncode, ran.stderr))
            expect("the files then", [], files_below(folder))


def make_install_builds_nothing(_):
    with tempfile.TemporaryDirectory() as folder:
        ran = made(folder, "install", f"PROGRAM={folder}/none")
        expect("whether it ends well", False, ran.returncode == 0)
        note = f"no program at {folder}/none: `make programs` proves and builds it"
        expect("the note's first line", note, ran.stderr.split("\n")[0])
        expect("the files", [], files_below(folder))


TESTS = [
    (the_pages_have_no_warnings, ("man", "groff")),
    (the_pages_are_clean_by_mandoc, ("mandoc",)),
    (the_pages_say_each_line_of_the_usage_notes, ()),
    (the_page_tells_of_each_word, ()),
    (the_page_has_each_refusal_and_status, ()),
    (the_page_of_plans_has_each_node_job_setting_and_refusal, ()),
    (the_page_has_each_large_limit_of_the_other_pages, ()),
    (the_examples_of_the_pages_are_what_the_programs_print, ("bash",)),
    (the_commands_on_the_pages_print_what_the_pages_say, ("bash", "awk", "grep")),
    (each_make_on_the_pages_is_one_of_the_makefile, ()),
    (the_script_that_measures_finds_what_is_due, ()),
    (make_install_puts_its_files_and_make_uninstall_takes_them_away, ("make", "install")),
    (make_install_builds_nothing, ("make",)),
]


def run(program, words=()):
    """Runs the tests. The answer is how many passed and how many failed."""
    return try_those("pages.py", TESTS, program, words)


if __name__ == "__main__":
    sys.exit(main("Tries the manual pages, make install, the script that measures, and the commands on the pages.", run))
