"""Clones of the work tree in temporary folders, and runs of its programs there."""

import functools
import os
import pathlib
import pty
import shutil
import subprocess
import tempfile
import threading
import time

TOP = pathlib.Path(__file__).resolve().parents[2]
TEMPORARY = tempfile.TemporaryDirectory(prefix="launch tests é-")
WORK = pathlib.Path(TEMPORARY.name)
WORK.chmod(0o755)
# No run waits longer than this.
LIMIT = 900
NOBODY = 65_534
FIRST_LOG = (TOP / "examples/first.log").read_bytes()
FIRST_SCRIPT = (TOP / "examples/first.script").read_bytes()
UUID = "30a91a08-daae-48d1-ae75-69804e61d2ea"


class Ran:
    """How a run ended: its status, what it wrote, and how long it took."""

    def __init__(self, status, out, err, seconds=0.0):
        self.status, self.out, self.err, self.seconds = status, out, err, seconds

    def lines(self):
        return self.err.decode(errors="backslashreplace").splitlines()


def environment(**more):
    """The environment of a run: this one, but with a cache and temporary files of the tests' own."""
    return {**os.environ, "XDG_CACHE_HOME": str(folder("cache")), **{name: str(it) for name, it in more.items()}}


def folder(name):
    """A folder for the tests, which is made where it is missing."""
    path = WORK / name
    path.mkdir(exist_ok=True)
    return path


def fresh_folder():
    return pathlib.Path(tempfile.mkdtemp(dir=WORK))


def without_rt():
    """The path to programs without the folders that have the kit's command."""
    return os.pathsep.join(it for it in os.environ["PATH"].split(os.pathsep) if not os.access(f"{it}/rt", os.X_OK))


def clone(name, is_wanted=lambda _: True):
    """Makes a clone of the work tree as it stands, with nothing that was built."""
    path = WORK / name
    listed = ["git", "ls-files", "-z", "--cached", "--others", "--exclude-standard"]
    names = subprocess.run(listed, cwd=TOP, capture_output=True, check=True).stdout.decode().split("\0")
    for it in filter(None, names):
        if is_wanted(it) and (TOP / it).is_file():
            (path / it).parent.mkdir(parents=True, exist_ok=True)
            shutil.copy(TOP / it, path / it)
    return path


def run(words, cwd, given=b"", env=None, **more):
    """Runs the words, and returns how that ended. `given` is the standard input, its bytes or a file."""
    how = {"input": given} if isinstance(given, bytes) else {"stdin": given}
    begun = time.monotonic()
    out = {"stdout": subprocess.PIPE, "stderr": subprocess.PIPE, **more}
    done = subprocess.run(words, cwd=cwd, env=env or environment(), timeout=LIMIT, **how, **out)
    return Ran(done.returncode, done.stdout, done.stderr, time.monotonic() - begun)


def run_at_terminal(words, cwd, given=b"", env=None, meanwhile=None, **more):
    """The same with a terminal for standard error. `meanwhile` is called with the process."""
    here, there = pty.openpty()
    how = {"stdin": subprocess.PIPE, "stdout": subprocess.PIPE, **more}
    with subprocess.Popen(words, cwd=cwd, env=env or environment(), stderr=there, **how) as process:
        os.close(there)
        said = []
        reading = threading.Thread(target=read_terminal, args=[here, said])
        reading.start()
        if meanwhile:
            meanwhile(process)
        out = process.communicate(given if how["stdin"] == subprocess.PIPE else None, timeout=LIMIT)[0]
        reading.join()
    os.close(here)
    return Ran(process.returncode, out, b"".join(said).replace(b"\r\n", b"\n"))


def await_program(process):
    """Waits until a child of this launcher is the program that it runs."""
    limit = time.monotonic() + LIMIT
    while time.monotonic() < limit:
        for it in pathlib.Path("/proc").glob("[0-9]*"):
            try:
                words, parent = (it / "cmdline").read_bytes(), (it / "stat").read_text().rpartition(")")[2].split()[1]
            except OSError:
                continue
            if parent == str(process.pid) and (b"/launch/built/" in words or b"/out/" in words):
                return
        time.sleep(0.1)


def read_terminal(here, said):
    while True:
        try:
            piece = os.read(here, 65_536)
        except OSError:
            return
        if not piece:
            return
        said.append(piece)


def once(function):
    """Calls the function once, whoever comes first, and gives each caller what it returned."""
    cached = functools.lru_cache(maxsize=None)(function)
    lock = threading.Lock()

    def called():
        with lock:
            return cached()

    return called


def is_kept(where, name):
    """Whether a program is there to be run in a clone with no build."""
    return b"not built" not in run([f"./{name}", "--version"], where).out


@once
def first_runs():
    """Two runs at the same time in a fresh clone, on two processors, beside what a build that was cut off left."""
    where = clone("first runs")
    left = where / "launch/built/.building-ltfs_server-left"
    left.mkdir(parents=True)
    for it in (left / "kept", where / "launch/built/ltfs_server-0000000000000000"):
        it.write_text("#!/bin/sh\necho half made\n")
        it.chmod(0o755)
    both, begun = [], {"preexec_fn": lambda: os.sched_setaffinity(0, sorted(os.sched_getaffinity(0))[:2])}
    words = ["./ltfs_server", "plain"]
    threads = [threading.Thread(target=lambda: both.append(run(words, where, FIRST_SCRIPT, **begun))) for _ in "12"]
    for it in threads:
        it.start()
    for it in threads:
        it.join()
    return where, both


def as_reader(where, *own):
    """How somebody runs a program who can't write this clone, but these folders."""
    if os.geteuid() == 0:
        for it in own:
            os.chown(it, NOBODY, NOBODY)
        return {"user": NOBODY, "group": NOBODY, "extra_groups": []}
    subprocess.run(["chmod", "-R", "a-w", where], check=True)
    return {}


@once
def unwritable_runs():
    """Two runs of somebody else in a clone that they can't write, and one where they have no folder of their own."""
    where = clone("unwritable")
    cache, temporary = folder("their cache"), folder("their temporary files")
    how = as_reader(where, cache, temporary)
    env = environment(HOME="/nonexistent", XDG_CACHE_HOME=cache, TMPDIR=temporary)
    nowhere = environment(HOME="/nonexistent", XDG_CACHE_HOME="/nonexistent", TMPDIR=temporary)
    words, given = ["./index_tool", "check"], (where / "examples/archive.xml").read_bytes()
    return where, cache, temporary, [run(words, where, given, it, **how) for it in (env, env, nowhere)]


@once
def ready():
    """A clone with both programs: those of the work tree, or the checked ones that other cases build."""
    where = clone("ready")
    (where / "launch/built").mkdir(exist_ok=True)
    for it in TOP.glob("launch/built/*-*"):
        shutil.copy(it, where / "launch/built")
    for name in ("ltfs_server", "index_tool"):
        if b", proved\n" in run([f"./{name}", "--version"], TOP).out:
            (where / f"crates/{name}/out").mkdir()
            shutil.copy(TOP / f"crates/{name}/out/{name}", where / f"crates/{name}/out")
    if not is_kept(where, "ltfs_server"):
        for it in (first_runs()[0] / "launch/built").glob("ltfs_server-*"):
            shutil.copy(it, where / "launch/built")
    if not is_kept(where, "index_tool"):
        for it in (unwritable_runs()[1] / "ltfs_server").glob("index_tool-*"):
            shutil.copy(it, where / "launch/built")
    return where


def with_index_tool(name):
    """A clone with the checked program of index_tool, neither an optimised nor a proved one."""
    where = clone(name)
    (where / "launch/built").mkdir(exist_ok=True)
    for it in (ready() / "launch/built").glob("index_tool-*"):
        if not it.name.endswith("-optimised"):
            shutil.copy(it, where / "launch/built")
    if not is_kept(where, "index_tool"):
        for it in (unwritable_runs()[1] / "ltfs_server").glob("index_tool-*"):
            shutil.copy(it, where / "launch/built")
    return where


def volume(where):
    """A folder with an empty volume."""
    path = fresh_folder()
    ran = run([where / "ltfs_server", "format", path, "TAPE01", UUID, "--block", "65536"], where)
    if ran.status:
        raise RuntimeError(f"format ended with {ran.status}: {ran.lines()}")
    return path


def processes_of(path):
    """The processes that were given a word with this path, or work in it."""
    found = []
    for it in pathlib.Path("/proc").glob("[0-9]*"):
        try:
            words, place = (it / "cmdline").read_bytes(), os.readlink(it / "cwd")
        except OSError:
            continue
        if int(it.name) != os.getpid() and (os.fsencode(path) in words or place.startswith(str(path))):
            found.append(int(it.name))
    return found
