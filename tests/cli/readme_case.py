"""The examples of README.md as a case: what each command of its console blocks prints is what stands below it.

A console block is fenced as ```console. A line `$ COMMAND` begins a command, which goes on behind a line that ends with
a backslash; what follows, up to the next command, is what it prints on standard output. All commands run in their
order, in one shell and one temporary folder, which has the launchers of the repository and a copy of its examples.
Those that run all tests or prove the program are left out. A command that can't be started fails in any case.
"""

import os
import pathlib
import re
import shutil
import subprocess
import tempfile

from cases import TOP, compare
from programs import PROGRAMS, program

SECONDS = 900
LEFT_OUT = re.compile(r"(bash )?(\./)?(\.ci/run|tests/run)\b|.* --prove\b")
HELPERS = ["ltfs_put", "ltfs_get"]
# The shell ends with 126 and 127 what can't be started, and a launcher with 125.
NOT_STARTED = range(125, 128)
# A command, and then how it ended, which the next one may ask for.
STEP = """\
{{ {command}
}} < /dev/null > "$APART/{number}" 2> "$APART/{number}.said"
ended=$?; echo "$ended" > "$APART/{number}.status"; (exit "$ended")
"""


def commands_of(text):
    """Returns each command of the console blocks, with the number of its line and what stands below it."""
    commands, inside, goes_on = [], False, False
    for number, line in enumerate(text.splitlines(), 1):
        if line.startswith("```"):
            inside, goes_on = line.strip() == "```console", False
        elif not inside:
            continue
        elif line.startswith("$ "):
            commands.append([number, line[2:], ""])
        elif goes_on:
            commands[-1][1] += "\n" + line
        elif commands:
            commands[-1][2] += line + "\n"
        goes_on = inside and line.endswith("\\") and (goes_on or line.startswith("$ "))
    return [it for it in commands if not LEFT_OUT.match(it[1])]


def furnish(where):
    """Puts into a folder what the commands find at the top of the repository."""
    shutil.copytree(TOP / "examples", where / "examples")
    for name in PROGRAMS:
        (where / name).symlink_to(program(name))
    for name in HELPERS:
        if (TOP / name).exists():
            (where / name).symlink_to(TOP / name)


def compare_step(apart, number, command, wanted):
    """Returns what a command printed otherwise than it stands below it."""
    what = f"README.md, line {number}, {command}"
    status, said = apart / f"{number}.status", apart / f"{number}.said"
    if not status.exists():
        return [f"{what}: it was not run to its end"]
    found = compare(what, wanted, (apart / str(number)).read_text(errors="backslashreplace"))
    if int(status.read_text()) in NOT_STARTED:
        found.append(f"{what}: it ends with {status.read_text()}")
    if found and said.stat().st_size:
        found.append("standard error:\n" + said.read_text(errors="replace"))
    return found


def run_readme():
    """Runs the case, and returns what was printed otherwise than it stands there."""
    commands = commands_of((TOP / "README.md").read_text(encoding="utf-8"))
    if not commands:
        return ["README.md has no console block with a command"]
    with tempfile.TemporaryDirectory() as made:
        where, apart = pathlib.Path(made, "here"), pathlib.Path(made, "apart")
        where.mkdir()
        apart.mkdir()
        furnish(where)
        script = "".join(STEP.format(command=command, number=number) for number, command, _ in commands)
        (apart / "script").write_text(script)
        shell = subprocess.run(["bash", str(apart / "script")], cwd=where, env={**os.environ, "APART": str(apart)},
                               stdin=subprocess.DEVNULL, stderr=subprocess.PIPE, timeout=SECONDS)
        found = []
        for step in commands:
            found += compare_step(apart, *step)
        if shell.stderr:
            found.append("the shell says:\n" + shell.stderr.decode(errors="replace"))
        return found
