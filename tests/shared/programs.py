"""Which programs the tests run: the launchers at the top, or what LTFS_SERVER and INDEX_TOOL name in their place."""

import os
import subprocess

from cases import TOP, chosen, run_group

# Each program, and words with which it reads nothing but an empty input.
PROGRAMS = {"ltfs_server": "plain", "index_tool": "check"}
# How a launcher ends that could neither find nor build its program.
NOT_STARTED = 125


def program(name):
    named = os.environ.get(name.upper())
    return os.path.abspath(named) if named else str(TOP / name)


def is_checked(name):
    """Whether the launcher runs a checked program, which is far slower, in place of the proved one."""
    return not os.environ.get(name.upper()) and not proved(name)


def build(names=PROGRAMS):
    """Runs each program once, side by side, so that a launcher builds what is not built. Returns what they said that
    can't be started."""
    how = {"stdin": subprocess.DEVNULL, "stdout": subprocess.DEVNULL, "stderr": subprocess.PIPE}
    try:
        started = [subprocess.Popen([program(name), PROGRAMS[name]], **how) for name in names]
    except OSError as error:
        return str(error)
    said = [(it.communicate()[1].decode(errors="replace"), it.returncode) for it in started]
    return "".join(text for text, status in said if status == NOT_STARTED)


def run_group_of_programs(cases, words):
    """Runs a group whose cases run the programs, once these are built. Returns the status."""
    names = chosen(cases, words)
    wrong = build() if names else ""
    if wrong:
        print(f"{wrong}\n0 passed, {len(names)} failed", flush=True)
        return 1
    return run_group(cases, words)


def proved(name):
    """Returns the path of the proved program, or None where it isn't built or a source is newer."""
    path = TOP / "crates" / name / "out" / name
    if not os.access(path, os.X_OK):
        return None
    sources = [TOP / "crates.txt"]
    for folder in ("src", "specs", "proofs"):
        sources += (it for it in TOP.glob(f"crates/*/{folder}/**/*") if it.is_file())
    built = path.stat().st_mtime_ns
    return None if any(it.stat().st_mtime_ns > built for it in sources) else str(path)
