"""What the scripts over pages, completions and parts of streams share: a folder in which commands are run."""
import os
import shutil
import subprocess
import tempfile

from check_docs import TOP
from run_cases import beside, try_each
from streams import ADD_ONE, SECONDS, Wrong, attempt, plan_of


def ended(command, **settings):
    """The command at its end: its status, and what it wrote."""
    try:
        return subprocess.run(command, capture_output=True, text=True, timeout=SECONDS, check=False, **settings)
    except subprocess.TimeoutExpired:
        raise Wrong(" ".join(command), f"an end within {SECONDS} seconds", "none") from None


class Room:
    """A folder with the samples, a plan, and the programs on the path, where commands are run."""

    def __init__(self, program, plan=plan_of(ADD_ONE).decode()):
        self.folder = tempfile.TemporaryDirectory()
        self.name = self.folder.name
        os.mkdir(self.path("bin"))
        os.symlink(program, self.path("bin/exec_run"))
        for name in ("exec_show", "exec_join"):
            os.symlink(beside(program, name), self.path(f"bin/{name}"))
        os.symlink(os.path.join(TOP, "samples"), self.path("samples"))
        self.write("plan.json", plan)

    def __enter__(self):
        return self

    def __exit__(self, *_):
        self.folder.cleanup()

    def path(self, name):
        return os.path.join(self.name, name)

    def write(self, name, text):
        with open(self.path(name), "w", encoding="utf-8") as file:
            file.write(text)

    def read(self, name):
        with open(self.path(name), encoding="utf-8") as file:
            return file.read()

    def run(self, commands, given=""):
        path = f"{self.path('bin')}:{os.environ['PATH']}"
        return ended(["bash", "-c", commands], cwd=self.name, env={**os.environ, "PATH": path}, input=given)


def try_those(script, tests, program, words):
    """Runs a script's tests, each with the tools that it wants; those whose tools aren't installed are told and
    skipped. The answer is how many passed and how many failed."""
    program = os.path.abspath(program)
    chosen = []
    for test, tools in tests:
        sentence = test.__name__.replace("_", " ")
        missing = [tool for tool in tools if not shutil.which(tool)]
        if words and not any(word in sentence for word in words):
            continue
        if missing:
            print(f"skipped {script}: {sentence}: {', '.join(missing)} isn't installed")
        else:
            chosen.append((f"{script}: {sentence}", test))
    return try_each(chosen, lambda test: attempt(test, program), len(tests))
