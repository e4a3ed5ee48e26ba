"""A case of the command line, which is a folder of these files; all but `words` may be missing.

    about     what the case shows, in one sentence
    words     the commands, one a line: `ltfs_server` or `index_tool` and words, split as a shell splits them; any bytes
    stdin     standard input of the last command, and stdin.1, stdin.2 .. those of the others by number; else empty
    stdout    what all commands print, one after the other; else nothing
    status    how each command ends, one a line; else each with 0
    before    what the folder `tape` holds that stands where the commands run: a folder, or a file with the path of one
              from the top of the repository, or with the word `none` where there is no `tape`; else `tape` is empty
    after     what `tape` holds afterwards, byte by byte: a folder, or a file with the word `same` where nothing may
              change; else that isn't looked at
    streams   of the last command, a line for each: `stdin folder` (it can't be read), `stdout full` (nothing can be
              written to it), `stdout closed`
    through   what is printed goes through this program before it is compared
    proved    why the case is tried with the proved program alone, or with one that LTFS_SERVER or INDEX_TOOL names

A file with the ending .py or .sh in place of one without is a program, for Python or bash, that prints what the file
would hold; `through` is always one, and before.sh or before.py writes into `tape`. Programs run where the commands do,
and TOP is the top of the repository in their environment.
"""

import os
import pathlib
import shlex
import shutil
import subprocess
import sys
import tempfile

from cases import TOP, NotTried, compare
from programs import is_checked, program

SECONDS = 900
RUNNERS = {".py": sys.executable, ".sh": "bash"}


def run_program(path, where, **how):
    """Runs a program of the case, and returns what it prints."""
    words = [RUNNERS[path.suffix], str(path)]
    env = {**os.environ, "TOP": str(TOP), "PYTHONDONTWRITEBYTECODE": "1"}
    return subprocess.run(words, cwd=where, env=env, check=True, stdout=subprocess.PIPE, timeout=SECONDS, **how).stdout


def program_of(folder, name):
    """Returns the program that stands in place of the file, or None."""
    return next((it for it in (folder / f"{name}{ending}" for ending in RUNNERS) if it.exists()), None)


def told(folder, name, where):
    """Returns what a file of the case holds, or None where it is missing."""
    source = program_of(folder, name)
    if source:
        return run_program(source, where, stdin=subprocess.DEVNULL)
    path = folder / name
    return path.read_bytes() if path.is_file() else None


def make_tape(folder, where):
    tape, before = where / "tape", folder / "before"
    if before.is_dir():
        shutil.copytree(before, tape)
    elif before.is_file():
        source = before.read_text().strip()
        if source != "none":
            shutil.copytree(TOP / source, tape)
    else:
        tape.mkdir()
        source = program_of(folder, "before")
        if source:
            run_program(source, where, stdin=subprocess.DEVNULL)


def files_of(folder):
    """Returns the files of a folder and of those in it, by their paths, with their bytes."""
    return {str(it.relative_to(folder)): it.read_bytes() for it in sorted(folder.rglob("*")) if it.is_file()}


def start(words, stdin, streams, where, printed, said):
    """Runs a command with its streams, and returns how it ended."""
    if streams.get("stdout") == "closed":
        words = ["bash", "-c", 'exec "$@" >&-', "bash", *words]
    how = {"cwd": where, "stderr": said, "timeout": SECONDS, "stdout": printed}
    full = open("/dev/full", "wb") if streams.get("stdout") == "full" else None
    source = os.open(where, os.O_RDONLY) if streams.get("stdin") == "folder" else None
    try:
        if full:
            how["stdout"] = full
        if source is not None:
            return subprocess.run(words, stdin=source, **how).returncode
        return subprocess.run(words, input=stdin, **how).returncode
    finally:
        if full:
            full.close()
        if source is not None:
            os.close(source)


def commands_of(folder):
    """Returns the words of each command of the case."""
    return [shlex.split(line) for line in (folder / "words").read_text(errors="surrogateescape").splitlines() if line]


def run_commands(folder, where, apart):
    """Runs the commands of the case. Returns how they ended, and the paths of what they printed and said."""
    lines = commands_of(folder)
    streams = told(folder, "streams", where) or b""
    streams = dict(line.split(" ") for line in streams.decode().splitlines())
    statuses, printed, said = [], apart / "printed", apart / "said"
    with open(printed, "wb") as out, open(said, "wb") as errors:
        for nth, (name, *words) in enumerate(lines, 1):
            is_last = nth == len(lines)
            stdin = told(folder, "stdin" if is_last else f"stdin.{nth}", where) or b""
            statuses.append(start([program(name), *words], stdin, streams if is_last else {}, where, out, errors))
            out.seek(0, os.SEEK_END)
            errors.seek(0, os.SEEK_END)
    return statuses, printed, said


def compare_tape(folder, before, after):
    """Returns what differs in `tape` from what the case wants there."""
    wanted = folder / "after"
    if wanted.is_file():
        if wanted.read_text().strip() != "same":
            raise ValueError("after is neither a folder nor the word same")
        wanted = before
    elif wanted.is_dir():
        wanted = files_of(wanted)
    else:
        return []
    none = "no such file"
    return [it for name in sorted({*wanted, *after})
            for it in compare(f"tape/{name}", wanted.get(name, none), after.get(name, none))]


def run_case(folder):
    """Runs the case of a folder, and returns what came otherwise than it is wanted."""
    why = folder / "proved"
    if why.exists() and any(is_checked(line[0]) for line in commands_of(folder)):
        return NotTried(why.read_text().strip())
    with tempfile.TemporaryDirectory() as made:
        where, apart = pathlib.Path(made, "here"), pathlib.Path(made, "apart")
        where.mkdir()
        apart.mkdir()
        make_tape(folder, where)
        before = files_of(where / "tape") if (folder / "after").is_file() else {}
        statuses, printed, said = run_commands(folder, where, apart)
        wanted = [int(word) for word in (told(folder, "status", where) or b"").split()] or [0] * len(statuses)
        found = compare("status", " ".join(map(str, wanted)), " ".join(map(str, statuses)))
        through = program_of(folder, "through")
        if through:
            with open(printed, "rb") as source:
                came = run_program(through, where, stdin=source)
        else:
            came = printed.read_bytes()
        found += compare("output", told(folder, "stdout", where) or b"", came)
        if (folder / "after").exists():
            found += compare_tape(folder, before, files_of(where / "tape"))
        if found and said.stat().st_size:
            found.append("standard error:\n" + said.read_text(errors="replace"))
        return found
