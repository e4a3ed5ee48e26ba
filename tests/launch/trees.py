"""Folders of one's own, put into a volume with all below them and got out of it."""

import fcntl
import os
import pathlib
import re
import shutil
import signal
import socket
import subprocess
import threading
import time

import images
from cases import compare
from clones import TOP, environment, fresh_folder, ready, run, run_at_terminal, volume
from files import some_bytes

OWN_NAME = b"/.ltfs_put-"
LEFT_OUT = 10


def put(folder, path, file, *options, where=None, **more):
    return run([(where or ready()) / "ltfs_put", *options, folder, path, file], fresh_folder(), **more)


def get(folder, path, file, *options, where=None, **more):
    return run([(where or ready()) / "ltfs_get", *options, folder, path, file], fresh_folder(), **more)


def told(ran):
    """The lines of standard error but for the one that says which program runs."""
    return [it for it in ran.lines() if not it.startswith("ltfs_server: ")]


def make(files):
    """A folder with these files, each by its path; what ends in a slash is a directory."""
    top = fresh_folder()
    for path, content in files.items():
        (top / path).parent.mkdir(parents=True, exist_ok=True)
        if path.endswith("/"):
            (top / path).mkdir(exist_ok=True)
        else:
            (top / path).write_bytes(content)
    return top


def tree_of(top):
    """What each file of a folder holds, and None for each directory, by the path."""
    top, found = os.fsencode(top), {}
    for folder, folders, names in os.walk(top):
        for it in folders:
            found[os.path.relpath(os.path.join(folder, it), top)] = None
        for it in names:
            with open(os.path.join(folder, it), "rb") as file:
                found[os.path.relpath(os.path.join(folder, it), top)] = file.read()
    return found


def listed(folder):
    """The lines that tell the nodes of a volume."""
    return run(["./ltfs_server", "list", folder], ready()).out.splitlines()[:-1]


def compare_tree(folder, path, wanted, of):
    """Gets the tree at a path of the volume, and compares it with what is wanted."""
    copy = fresh_folder() / "copy"
    ran = get(folder, path, copy)
    found = compare(f"status of the get {of}", [0, []], [ran.status, told(ran)])
    left = [it for it in listed(folder) if OWN_NAME in it]
    return found + compare(f"names of files that aren't whole {of}", [], left) + compare_files(wanted, copy, of)


def compare_files(wanted, copy, of):
    came = tree_of(copy)
    found = compare(f"paths {of}", sorted(wanted), sorted(came))
    return found + compare(f"files that differ {of}", [], [it for it in wanted if wanted[it] != came.get(it)])


SOME = {
    "a/b/c/deep": b"deep", "empty/": b"", "a/none": b"", "zeros": bytes(200_000), "ends in zeros": b"x" + bytes(70_000),
    "pieces": some_bytes(200_000), "100%": b"1", "\u00e9 \u65e5": b"2", "tab\there": b"3", ".hidden/-x": b"4",
}


def there_and_back():
    """A tree comes back as it was; one that is put over it replaces its files, and leaves all else."""
    folder, top = volume(ready()), make(SOME)
    ran = put(folder, "/tree", top, "--verify")
    found = compare("status of the put", [0, [], b""], [ran.status, told(ran), ran.out])
    found += compare_tree(folder, "/tree", tree_of(top), "at first")
    ran = put(folder, "/tree/", make({"a/none": b"some", "zeros": b"", "new/x": b"y"}))
    found += compare("status of the put over it", [0, []], [ran.status, told(ran)])
    wanted = {**tree_of(top), b"a/none": b"some", b"zeros": b"", b"new": None, b"new/x": b"y"}
    found += compare_tree(folder, "/tree", wanted, "behind a put over it")
    copy = make({"kept": b"kept", "a/none": b"old", "zeros": b"old"})
    ran = get(folder, "/tree", copy, "--verify")
    found += compare("status of a get over files", [0, []], [ran.status, told(ran)])
    found += compare_files({**wanted, b"kept": b"kept"}, copy, "of a get over files")
    ran = put(folder, "/", make({"at the root": b"r"}))
    found += compare("status of a put to the root", [0, []], [ran.status, told(ran)])
    return found + compare_tree(folder, "/", {**{b"tree/" + it: wanted[it] for it in wanted}, b"tree": None,
                                              b"at the root": b"r"}, "of the root")


def left_out():
    """What can't be on a volume is listed at the end, and all else is copied."""
    folder, top = volume(ready()), make({"plain": b"p", "sub/x": b"x", "e\u0301.txt": b"n", "caf\u0065\u0301/in": b"i",
                                         ".ltfs_put-0123456789abcdef": b"o", "taken": b"t", "held/in": b"h"})
    (top / "link").symlink_to("plain")
    (top / "sub/loop").symlink_to("..")
    os.mkfifo(top / "pipe")
    with socket.socket(socket.AF_UNIX) as it:
        it.bind(os.path.relpath(top / "socket"))
    (pathlib.Path(os.fsdecode(os.fsencode(top) + b"/\xff"))).write_bytes(b"f")
    given = b"1 mkdir /tree\n1 mkdir /tree/taken\n1 create /tree/held\n"
    run(["./ltfs_server", "serve", folder], ready(), given)
    composes = "its name isn't composed, which is Unicode's normal form C; '{}' would do, and --normalize uses that"
    wanted = {
        ".ltfs_put-0123456789abcdef": "its name is of the form that ltfs_put gives to what isn't whole yet",
        "cafe\u0301": composes.format("caf\u00e9"), "e\u0301.txt": composes.format("\u00e9.txt"),
        "held": "a file stands in its place on the volume", "link": "it is a symbolic link", "pipe": "it is a pipe",
        "socket": "it is a socket", "sub/loop": "it is a symbolic link",
        "taken": "a directory stands in its place on the volume", "\\xff": "its name isn't UTF-8",
    }
    ran = put(folder, "/tree", top)
    lines = told(ran)
    found = compare("status", LEFT_OUT, ran.status)
    found += compare("first line", ["ltfs_put: all was copied but what follows:"], lines[:1])
    found += compare("lines", sorted(f"ltfs_put: {top}/{it}: {why}" for it, why in wanted.items()), sorted(lines[1:]))
    stands = {b"held": b"", b"plain": b"p", b"sub": None, b"sub/x": b"x", b"taken": None}
    found += compare_tree(folder, "/tree", stands, "of the rest")
    ran = put(folder, "/tree", top, "--normalize")
    found += compare("status with --normalize", LEFT_OUT, ran.status)
    found += compare("lines that are left", len(wanted) - 2 + 1, len(told(ran)))
    stands = {**stands, "\u00e9.txt".encode(): b"n", "caf\u00e9".encode(): None, "caf\u00e9/in".encode(): b"i"}
    return found + compare_tree(folder, "/tree", stands, "with --normalize")


def same_when_composed():
    """Of two names that are one when they are composed the second one is left out."""
    folder, top = volume(ready()), make({"e\u0301": b"decomposed", "\u00e9": b"composed"})
    ran = put(folder, "/tree", top, "--normalize")
    lines = ["ltfs_put: all was copied but what follows:",
             f"ltfs_put: {top}/\u00e9: its name is that of another one here once both are composed"]
    found = compare("how it ends", [LEFT_OUT, lines], [ran.status, told(ran)])
    return found + compare_tree(folder, "/tree", {"\u00e9".encode(): b"decomposed"}, "of the first")


def left_out_of_a_get():
    """So it is with a get: what can't have its place is listed, and all else comes."""
    folder, long = volume(ready()), "\u65e5" * 200
    ran = put(folder, "/", make({"file": b"f", "dir/x": b"x", "taken/y": b"y", "link/z": b"z"}))
    found = compare("status of the put", 0, ran.status)
    given = "".join(f"1 create /dir/{'%E6%97%A5' * 200}\n" for _ in "1").encode()
    run(["./ltfs_server", "serve", folder], ready(), given)
    copy = make({"file/here": b"h", "taken": b"t"})
    (copy / "link").symlink_to("file")
    ran = get(folder, "/", copy)
    lines = ["ltfs_get: all was copied but what follows:",
             f"ltfs_get: /dir/{long}: it can't be written: File name too long",
             "ltfs_get: /file: what stands in its place is no file",
             "ltfs_get: /link: what stands in its place is no directory",
             "ltfs_get: /taken: what stands in its place is no directory"]
    found += compare("how it ends", LEFT_OUT, ran.status) + compare("lines", lines, told(ran))
    found += compare("what stands through the link", ["here"], os.listdir(copy / "file"))
    found += compare("the file", b"x", (copy / "dir/x").read_bytes())
    volumes = fresh_folder()
    subprocess.run(["cp", "-r", ready() / "examples/archive", volumes / "tape"], check=True)
    ran = get(volumes / "tape", "/", volumes / "copy")
    lines = [lines[0], "ltfs_get: /latest: it is a symbolic link"]
    found += compare("how the get of a link ends", [LEFT_OUT, lines], [ran.status, told(ran)])
    return found + compare_files({b"docs": None, b"docs/read me.txt": b"hello"}, volumes / "copy", "beside a link")


def failures():
    folder, here, found = volume(ready()), fresh_folder(), []
    top = make({"x": b"x"})
    run(["./ltfs_server", "serve", folder], ready(), b"1 create /file\n1 mkdir /dir\n1 create /dir/x\n")
    (here / "file").write_bytes(b"as it was")
    for ran, status, line in (
        (put(folder, "/no/tree", top), 9,
         "ltfs_put: /no/tree can't be put: the directory in which it is to stand isn't there"),
        (put(folder, "/file", top), 9,
         "ltfs_put: /file can't be put: it is a file on the volume, and FILE is a folder"),
        (put(folder, "/file/x", top), 9,
         "ltfs_put: /file/x can't be put: the directory in which it is to stand isn't there"),
        (put(folder, "/e\u0301", top), 9, "ltfs_put: /e\u0301 can't be put: its name isn't composed, which is Unicode's"
         " normal form C; '\u00e9' would do, and --normalize uses that"),
        (put(folder, "tree", top), 2, "ltfs_put: PATH is '/', or '/NAME' once or more, in UTF-8, and tree isn't"),
        (put(fresh_folder(), "/", top), 3, "ltfs_put: the folder holds no volume that can be read (volume Vol1 ip)"),
        (put(folder, "/", top, "--wait", "soon"), 1, "usage: ltfs_put [--verify] [--normalize] [--wait SECONDS] DIR"
         " PATH FILE; 'ltfs_put --help' tells more"),
        (get(folder, "/dir", here / "file"), 6, f"ltfs_get: /dir can't be got: it is a directory, and {here}/file is"
         " none"),
        (get(folder, "/dir", here / "no/copy"), 6, "ltfs_get: FILE can't be written: No such file or directory"),
        (get(folder, "/no", here), 9, "ltfs_get: /no can't be got: nothing stands there (0 1.0 no NotFound, stat /no)"),
    ):
        found += compare(f"how {line} ends", [status, line], [ran.status, told(ran)[-1]])
    return found + compare("the file that stood there", b"as it was", (here / "file").read_bytes())


# In place of the server: it notes each run of `serve` in a file, and in the run of this number, before or behind it,
# ends the program that has begun it, or makes a change of its own.
BETWEEN = """#!/usr/bin/env python3
import os, pathlib, signal, subprocess, sys
runs, words, begun_by = pathlib.Path(os.environ["RUNS"]), sys.argv[1:], os.getppid()
given = sys.stdin.buffer.read()
number = len(runs.read_bytes()) + 1 if runs.exists() else 1

def meddle(when):
    if words[0] == "serve" and os.environ.get("MEDDLES") == f"{when} {number}":
        if "CHANGE" in os.environ:
            serve = [os.environ["SERVER"], "serve", words[1]]
            subprocess.run(serve, input=os.environb[b"CHANGE"], stdout=subprocess.DEVNULL, stderr=subprocess.DEVNULL)
        elif b"ltfs_" in pathlib.Path(f"/proc/{begun_by}/cmdline").read_bytes():
            os.kill(begun_by, int(os.environ.get("SIGNAL", signal.SIGKILL)))
            sys.exit(1)

meddle("before")
ran = subprocess.run([os.environ["SERVER"], *words], input=given, stdout=subprocess.PIPE, stderr=subprocess.DEVNULL)
if words[0] == "serve":
    with open(runs, "ab") as file:
        file.write(b".")
meddle("behind")
sys.stdout.buffer.write(ran.stdout)
sys.exit(ran.returncode)
"""


def between():
    """A folder with the two programs beside this server, the file in which it notes its runs, and the environment."""
    where = fresh_folder()
    (where / "launch").mkdir()
    for it in [*TOP.glob("launch/*.py"), TOP / "ltfs_put", TOP / "ltfs_get"]:
        shutil.copy(it, where / it.relative_to(TOP))
    (where / "ltfs_server").write_text(BETWEEN)
    (where / "ltfs_server").chmod(0o755)
    runs = where / "runs"
    return where, runs, lambda **more: environment(SERVER=ready() / "ltfs_server", RUNS=runs, **more)


def many_files(count, **more):
    return make({**more, **{f"new/f{it:05}": b"%d" % it for it in range(count)}})


def few_runs():
    """Six hundred small files go in in three runs of `serve`: written, written and moved, moved; and come in one."""
    where, runs, env = between()
    folder, top = volume(ready()), many_files(600)
    ran = put(folder, "/tree", top, where=where, env=env())
    found = compare("status of the put", [0, []], [ran.status, told(ran)])
    found += compare("runs of the put", 3, len(runs.read_bytes()))
    runs.unlink()
    copy = fresh_folder() / "copy"
    ran = get(folder, "/tree", copy, where=where, env=env())
    found += compare("status of the get", [0, []], [ran.status, told(ran)])
    found += compare("runs of the get", 1, len(runs.read_bytes()) - 1)
    return found + compare_files(tree_of(top), copy, "that came back")


def killed():
    """A put that is killed before or behind a run leaves each file as it was or as it is to be; a second one completes
    it, and leaves nothing else."""
    where, runs, env = between()
    old = {f"f{it}": b"old" for it in range(3)}
    top, found = many_files(600, **{it: b"new" for it in old}), []
    before = volume(ready())
    found += compare("status of the first put", 0, put(before, "/tree", make(old)).status)
    wanted = tree_of(top)
    for when in ("before 1", "behind 1", "before 2", "behind 2", "before 3", "behind 3"):
        folder = fresh_folder() / "tape"
        subprocess.run(["cp", "-r", before, folder], check=True)
        runs.write_bytes(b"")
        ran = put(folder, "/tree", top, where=where, env=env(MEDDLES=when))
        found += compare(f"how the put killed {when} ends", -signal.SIGKILL, ran.status)
        copy = fresh_folder() / "copy"
        found += compare(f"status of the get behind {when}", 0, get(folder, "/tree", copy).status)
        came = tree_of(copy)
        torn = [it for it in came if OWN_NAME[1:] not in it and came[it] not in (wanted[it], old.get(os.fsdecode(it)))]
        found += compare(f"files that are neither, killed {when}", [], torn)
        lost = [it for it in old if os.fsencode(it) not in came]
        found += compare(f"files that are lost, killed {when}", [], lost)
        ran = put(folder, "/tree", top)
        found += compare(f"status of the second put behind {when}", [0, []], [ran.status, told(ran)])
        found += compare_tree(folder, "/tree", wanted, f"behind {when}")
    return found


def get_ended():
    """A get that a signal ends, whichever it is, leaves the file that stood there and no other."""
    where, runs, env = between()
    folder, found = volume(ready()), []
    found += compare("status of the put", 0, put(folder, "/tree", make({"a": b"a", "b": b"b"})).status)
    for number in (signal.SIGINT, signal.SIGTERM, signal.SIGHUP, signal.SIGKILL):
        for path, file in (("/tree/a", "file"), ("/tree", "")):
            runs.write_bytes(b"")
            here = make({"file": b"as it was"})
            ran = get(folder, path, here / file, where=where, env=env(MEDDLES="behind 1", SIGNAL=int(number)))
            ends = [-9] if number == signal.SIGKILL else [128 + number]
            found += compare(f"how the get of {path} ends by {number}", ends, [ran.status])
            found += compare(f"what is left by {number}", {b"file": b"as it was"}, tree_of(here))
    return found


def progress():
    """At a terminal files, bytes, rate and the time that is left are shown, and at last how much all is."""
    folder, top = volume(ready()), make({"a": bytes(2**20), "b/c": b"c"})
    shown = r"\rltfs_{}: 2 of 2 files, 1\.0 of 1\.0 MiB, [\d.]+ MiB/s, 0:00 left *\n"
    found = []
    for name, words in (("put", [folder, "/tree", top]), ("get", [folder, "/tree", fresh_folder() / "copy"])):
        ran = run_at_terminal([ready() / f"ltfs_{name}", *words], fresh_folder())
        found += compare(f"status of the {name}", 0, ran.status)
        is_shown = bool(re.search(shown.format(name).encode() + rb"\Z", ran.err))
        found += compare(f"whether the {name} shows it", True, is_shown)
        begins = f"ltfs_{name}: 0 of 2 files, 0.0 of 1.0 MiB".encode()
        found += compare(f"whether the {name} shows the first", True, begins in ran.err)
    (fresh := make({"link/x": b"x"}) / "link/y").symlink_to("x")
    ran = run_at_terminal([ready() / "ltfs_put", folder, "/tree", fresh.parent], fresh_folder())
    lines = ["ltfs_put: all was copied but what follows:", f"ltfs_put: {fresh}: it is a symbolic link"]
    return found + compare("last lines where one is left out", lines, ran.lines()[-2:])


def changed_between():
    """Whoever changes the volume between two runs of a put, or of a get, is noticed and told."""
    where, runs, env = between()
    top, found = many_files(600), []
    begins = ": another program has changed the volume meanwhile, so what was copied may not be whole; copy it again"
    for copy, change, when in ((put, "1 mkdir /other\n", "behind 1"),
                               (put, "1 remove /tree/new/f00000\n", "behind 2"),
                               (get, "1 mkdir /more\n", "before 2")):
        folder, name = volume(ready()), copy.__name__
        if copy == get:
            put(folder, "/tree", make({"x": b"x"}))
        runs.write_bytes(b"")
        ran = copy(folder, "/tree", top if copy == put else fresh_folder() / "copy", where=where,
                   env=env(MEDDLES=when, CHANGE=change))
        found += compare(f"status of the {name}, changed {when}", 9, ran.status)
        found += compare(f"its line, changed {when}", [f"ltfs_{name}{begins}"], [it.split(" (")[0] for it in told(ran)])
    return found


def one_file_between():
    """So it is with one file, also where somebody removes what is written of it."""
    where, runs, env = between()
    folder, file = volume(ready()), fresh_folder() / "file"
    file.write_bytes(some_bytes(9_000_000))
    found = []
    for when in ("behind 1", "behind 2", "behind 3"):
        runs.write_bytes(b"")
        ran = put(folder, "/file", file, where=where, env=env(MEDDLES=when, CHANGE="1 mkdir /x\n1 remove /x\n"))
        found += compare(f"status, changed {when}", 9, ran.status)
        found += compare(f"its line, changed {when}", True, "has changed the volume meanwhile" in told(ran)[-1])
    runs.write_bytes(b"")
    ran = put(folder, "/file", file, where=where, env=env())
    found += compare("how a put ends then", [0, []], [ran.status, told(ran)])
    return found + compare("what stands there", [b"d", b"f"], [it[:1] for it in listed(folder)])


def other_program():
    """A volume of another program, of which only the index partition has the newest index, is no changed one."""
    folder, found = fresh_folder() / "tape", []
    subprocess.run(["cp", "-r", ready() / "examples/photos", folder], check=True)
    before = run(["./ltfs_server", "list", folder], ready()).out
    copy = fresh_folder() / "copy"
    ran = get(folder, "/", copy)
    found += compare("status of a get", [LEFT_OUT if b"\nl " in before else 0], [ran.status])
    files = [it.split(b" ")[3] for it in before.splitlines() if it.startswith(b"f ")]
    found += compare("files", len(files), sum(it is not None for it in tree_of(copy).values()))
    shutil.rmtree(folder)
    subprocess.run(["cp", "-r", ready() / "examples/photos", folder], check=True)
    for top in (make({}), make({"x": b"x"}), make({"x": b"y", "q/": b""})):
        ran = put(folder, "/", top)
        found += compare("how a put ends", [0, []], [ran.status, told(ran)])
    return found


def two_puts():
    """Two puts at once to one path both end well, one behind the other; or one is told that it had to wait too long."""
    folder, here, found = volume(ready()), fresh_folder(), []
    for name, byte in (("a", b"a"), ("b", b"b")):
        (here / name).write_bytes(byte * 3 + some_bytes(9_000_000, 5))
    words = [ready() / "ltfs_put", "--wait", "300", folder, "/file"]
    both = [subprocess.Popen([*words, here / it], env=environment(), stderr=subprocess.DEVNULL) for it in "ab"]
    found += compare("statuses", [0, 0], [it.wait(timeout=300) for it in both])
    get(folder, "/file", here / "copy")
    are_same = [(here / "copy").read_bytes() == (here / it).read_bytes() for it in "ab"]
    found += compare("whether it is one of the two", 1, sum(are_same))
    found += compare("nodes", 2, len(listed(folder)))
    with open(folder / "cm.img", "rb") as held:
        fcntl.flock(held, fcntl.LOCK_EX)  # as a put has it from its begin to its end
        ran = put(folder, "/file", here / "a", "--wait", "0.2")
    line = f"ltfs_put: another ltfs_put copies into {folder}: let it end, or wait longer by --wait"
    return found + compare("how one ends that waits too long", [4, [line]], [ran.status, told(ran)])


def in_use():
    """A folder that is in use is waited for, as long as `--wait` says, and then that is told."""
    folder, top = volume(ready()), make({"x": b"x"})
    handle = os.open(folder, os.O_RDONLY)
    fcntl.flock(handle, fcntl.LOCK_EX)
    line = f"another program uses {folder}: let it end, or wait longer by --wait (drive 0 1)"
    found = []
    for name, words in (("put", [folder, "/tree", top]), ("get", [folder, "/", fresh_folder() / "copy"]),
                        ("put", [folder, "/file", top / "x"])):
        ran = run([ready() / f"ltfs_{name}", "--wait=0.3", *words], fresh_folder())
        found += compare(f"how the {name} ends", [4, f"ltfs_{name}: {line}"], [ran.status, told(ran)[-1]])
    letting = threading.Timer(2, lambda: os.close(handle))
    letting.start()
    ran = put(folder, "/tree", top)
    letting.join()
    found += compare("how it ends where it is free in time", [0, []], [ran.status, told(ran)])
    return found + compare("whether it waited", True, ran.seconds > 1.5)


CASES = {
    "trees/there_and_back": there_and_back,
    "trees/left_out": left_out,
    "trees/same_when_composed": same_when_composed,
    "trees/left_out_of_a_get": left_out_of_a_get,
    "trees/failures": failures,
    "trees/few_runs": few_runs,
    "trees/killed": killed,
    "trees/get_ended": get_ended,
    "trees/progress": progress,
    "trees/changed_between": changed_between,
    "trees/one_file_between": one_file_between,
    "trees/other_program": other_program,
    "trees/two_puts": two_puts,
    "trees/in_use": in_use,
}
