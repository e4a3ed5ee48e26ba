"""Files of one's own, put into a volume and got out of it."""

import hashlib
import os
import random
import re
import signal
import subprocess
import time

from cases import compare
from clones import clone, environment, fresh_folder, processes_of, ready, run, run_at_terminal, volume

MIB = 2**20


def some_bytes(count, seed=1):
    return random.Random(seed).randbytes(count) if hasattr(random.Random, "randbytes") else os.urandom(count)


def put(folder, path, file, given=b"", **more):
    return run([ready() / "ltfs_put", folder, path, file], fresh_folder(), given, **more)


def get(folder, path, *file, **more):
    return run([ready() / "ltfs_get", folder, path, *file], fresh_folder(), **more)


def copy_and_compare(folder, path, file, of):
    """Puts the file, gets it into another one, and compares the two."""
    ran, copy = put(folder, path, file), fresh_folder() / "copy"
    found = compare(f"status of the put of {of}", 0, ran.status) + compare("its output", b"", ran.out)
    ran = get(folder, path, copy)
    found += compare(f"status of the get of {of}", 0, ran.status) + compare("its output", b"", ran.out)
    same = copy.exists() and digest(copy) == digest(file)
    return found + compare(f"whether {of} came back as it was", True, same)


def digest(file):
    with file.open("rb") as it:
        return hashlib.sha256(it.read()).hexdigest()


def sums(folder):
    """What each file of the folder holds."""
    return {it.name: digest(it) for it in folder.iterdir()}


def sizes():
    folder, here, found = volume(ready()), fresh_folder(), []
    for count in (0, 1, 2, 65_536, 65_537, MIB):
        file = here / str(count)
        file.write_bytes(some_bytes(count))
        found += copy_and_compare(folder, f"/{count}", file, f"{count} bytes")
    listed = run(["./ltfs_server", "list", folder], ready()).out.decode().splitlines()
    return found + compare("lines of the volume", 8, len(listed))


def names():
    folder, here, found = volume(ready()), fresh_folder(), []
    run(["./ltfs_server", "serve", folder], ready(), b"1 mkdir /a%20b\n")
    for name in ("x y  z", "100%", "%41", "é", "日本", "-x", "--help", "'\"\\$`*?", "tab\there"):
        file = here / "file"
        file.write_bytes(name.encode())
        found += copy_and_compare(folder, f"/a b/{name}", file, name)
    ran = run(["./ltfs_server", "serve", folder], ready(), b"1 list /a%20b\n")
    wanted = ("0 1.0 names 9 f:%09 f:%09")[:13]
    found += compare("how the listing begins", wanted, ran.out.decode()[:13])
    return found + compare("whether it has `A`", False, b"f:A" in ran.out)


def repeated():
    """Pieces of one byte repeated, and of zeros, at the front, in the middle and at the end."""
    folder, here, found = volume(ready()), fresh_folder(), []
    ones, some, zeros = b"\xff" * 200_000, some_bytes(65_536), bytes(131_072)
    for name, pieces in {
        "ones": [ones],
        "zeros": [zeros],
        "zeros and a byte": [zeros, b"x"],
        "zeros in the middle": [some, zeros, some],
        "zeros at the end": [some, ones, zeros, b"\0"],
        "fewer zeros": [zeros[:100]],
    }.items():
        (here / name).write_bytes(b"".join(pieces))
        found += copy_and_compare(folder, "/file", here / name, name)
    return found


def two_scripts():
    """A file of more bytes than a script can have in hexadecimal."""
    folder, file = volume(ready()), fresh_folder() / "file"
    file.write_bytes(some_bytes(9 * MIB + 1))
    return copy_and_compare(folder, "/file", file, "9 MiB and a byte")


def large_file():
    """A file of 200 MiB, the most of it zeros, so that the checked program gets through it in time."""
    file = fresh_folder() / "file"
    with file.open("wb") as it:
        it.write(some_bytes(100_000))
        it.seek(128 * MIB - 50_000)
        it.write(some_bytes(100_000, 2))
        it.truncate(200 * MIB)
    return file


def large():
    """200 MiB are put. The proved program gets them back; of the checked one three pieces are read, since it takes
    a second or more for each MiB."""
    folder, file = volume(ready()), large_file()
    if b", proved\n" in run(["./ltfs_server", "--version"], ready()).out:
        return copy_and_compare(folder, "/file", file, "200 MiB")
    found = compare("status of the put", 0, put(folder, "/file", file).status)
    given, pieces = b"1 stat /file\n", []
    for at in (0, 128 * MIB - 60_000, 200 * MIB - 200_000):
        given += b"1 read /file %d 200000\n" % at
        with file.open("rb") as it:
            it.seek(at)
            pieces.append(it.read(200_000).hex())
    lines = run(["./ltfs_server", "serve", folder], ready(), given).out.decode().splitlines()
    found += compare("length", str(200 * MIB), lines[0].split()[4])
    return found + compare("whether the pieces are the same", pieces, [it.split()[-1] for it in lines[1:4]])


# In place of the server: it answers `stat` and `read` from a plain file, and its time changes where it is told so.
STAND_IN = """#!/usr/bin/env python3
import os, sys
with open(os.environ["STANDS_FOR"], "rb") as file:
    for nth, line in enumerate(sys.stdin):
        words = line.split()
        if words[1] == "stat":
            when = os.getpid() if "CHANGES" in os.environ else 1
            print(f"{nth} 1.{nth} file 2 {os.fstat(file.fileno()).st_size} {when}")
        else:
            file.seek(int(words[3]))
            piece = file.read(int(words[4]))
            print(f"{nth} 1.{nth} bytes {len(piece)} {piece.hex()}".rstrip())
print("closed 1 0 0")
"""


def many_runs():
    """200 MiB come back in several runs, and a file that changes between two of them is refused."""
    where, file, copy = clone("many runs"), large_file(), fresh_folder() / "copy"
    (where / "ltfs_server").write_text(STAND_IN)
    words = ["./ltfs_get", "tape", "/file", copy]
    ran = run(words, where, env=environment(STANDS_FOR=file, CHANGES=1))
    found = compare("status where it changes", 9, ran.status) + compare("a copy", False, copy.exists())
    told = "ltfs_get: /file can't be got: it changed while it was read (0 1.0 file 2 209715200 "
    found += compare("its lines", [told], [it[:len(told)] for it in ran.lines()])
    ran = run(words, where, env=environment(STANDS_FOR=file))
    found += compare("status", 0, ran.status) + compare("standard error", [], ran.lines())
    return found + compare("whether it came back as it was", digest(file), digest(copy))


def replaced():
    """What a file held is replaced by less, and a directory is not replaced."""
    folder, here = volume(ready()), fresh_folder()
    (here / "long").write_bytes(some_bytes(70_000))
    (here / "short").write_bytes(b"short")
    found = copy_and_compare(folder, "/file", here / "long", "the first")
    found += copy_and_compare(folder, "/file", here / "short", "the second")
    run(["./ltfs_server", "serve", folder], ready(), b"1 mkdir /dir\n")
    ran = put(folder, "/dir", here / "short")
    found += compare("status of a put over a directory", 9, ran.status)
    told = "ltfs_put: /dir can't be put: a directory stands there (0 1.0 no IsDir, write /dir)"
    return found + compare("its line", told, ran.lines()[-1])


def standard_streams():
    folder = volume(ready())
    given = some_bytes(100_000)
    found = compare("status of the put", 0, put(folder, "/file", "-", given).status)
    ran = get(folder, "/file")
    found += compare("status of the get", 0, ran.status)
    return found + compare("whether it is the same", True, ran.out == given)


def failures():
    """A sentence with the volume's own line behind, and the status: the run's own, or 9 where a call was refused."""
    folder, empty, here, found = volume(ready()), fresh_folder(), fresh_folder(), []
    file = here / "file"
    file.write_bytes(b"x")
    put(folder, "/here", file)
    no_path = "PATH is '/', or '/NAME' once or more, in UTF-8, and"
    missing, is_dir, no_volume = "nothing stands there", "a directory stands there", "the folder holds no volume"
    put_words, get_words = "[--verify] [--normalize] [--wait SECONDS]", "[--verify] [--wait SECONDS]"
    for ran, status, line in (
        (put(folder, "/no/x", file), 9,
         "ltfs_put: /no/x can't be put: its directory isn't there (1 1.1 no NotFound, list /no)"),
        (put(folder, "/here/x", file), 9,
         "ltfs_put: /here/x can't be put: a part of its path is no directory (1 1.1 no NotDir, list /here)"),
        (put(folder, "/", file), 9, f"ltfs_put: / can't be put: {is_dir} (0 1.0 no IsDir, write /)"),
        (put(folder, "/e\u0301", file), 9, "ltfs_put: /e\u0301 can't be put: its name isn't composed, which is"
         " Unicode's normal form C; '\u00e9' would do, and --normalize uses that"),
        (put(folder, "x", file), 2, f"ltfs_put: {no_path} x isn't"),
        (put(folder, b"/\xff", file), 2, f"ltfs_put: {no_path} /\\xff isn't"),
        (put(empty, "/x", file), 3, f"ltfs_put: {no_volume} that can be read (volume Vol1 ip)"),
        (put(empty / "missing", "/x", file), 4, "ltfs_put: the drive over the folder failed (drive 0 1)"),
        (put(folder, "/x", here / "missing"), 5, "ltfs_put: FILE can't be read: No such file or directory"),
        (get(folder, "/x"), 9, f"ltfs_get: /x can't be got: {missing} (0 1.0 no NotFound, stat /x)"),
        (get(folder, "/"), 9, f"ltfs_get: / can't be got: {is_dir} (1 1.1 no IsDir, read /)"),
        (get(empty, "/x"), 3, f"ltfs_get: {no_volume} that can be read (volume Vol1 ip)"),
        (get(folder, "/here", here / "no/x"), 6, "ltfs_get: FILE can't be written: No such file or directory"),
        (get(folder, "/here", here), 6, "ltfs_get: FILE can't be written: Is a directory"),
        (run([ready() / "ltfs_put", folder], here), 1,
         f"usage: ltfs_put {put_words} DIR PATH FILE; 'ltfs_put --help' tells more"),
        (run([ready() / "ltfs_get"], here), 1,
         f"usage: ltfs_get {get_words} DIR PATH [FILE]; 'ltfs_get --help' tells more"),
    ):
        found += compare(f"status where {line}", status, ran.status) + compare("last line", line, ran.lines()[-1])
    full = run([ready() / "ltfs_get", folder, "/here"], here, stdout=open("/dev/full", "wb"))
    return found + compare("status of a get into a full disk", 6, full.status)


def left_as_it_was():
    """A get changes neither the volume, nor, where it fails, the file that stands there; and it leaves no other."""
    folder, here = volume(ready()), fresh_folder()
    (here / "file").write_bytes(b"as it was")
    put(folder, "/file", here / "file")
    before = sums(folder)
    found = compare("status", 0, get(folder, "/file", here / "copy").status)
    found += compare("the volume's files", before, sums(folder))
    found += compare("status of another", 9, get(folder, "/missing", here / "file").status)
    found += compare("the file that stood there", b"as it was", (here / "file").read_bytes())
    return found + compare("files", ["copy", "file"], sorted(os.listdir(here)))


def told_to_stop():
    """A put that is cut off ends its run, and the volume can still be read."""
    folder, file = volume(ready()), fresh_folder() / "file"
    file.write_bytes(some_bytes(7 * MIB))
    words = [ready() / "ltfs_put", folder, "/file", file]
    process = subprocess.Popen(words, env=environment(), stdin=subprocess.DEVNULL, stderr=subprocess.PIPE)
    time.sleep(2)
    process.send_signal(signal.SIGTERM)
    err = process.communicate(timeout=60)[1].decode().splitlines()
    found = compare("processes that are left", [], processes_of(folder))
    if process.returncode == 0:
        return found  # the proved program may be done by then
    found += compare("status", 143, process.returncode) + compare("last line", "ltfs_put: cut off", err[-1])
    return found + compare("status of a list", 0, run(["./ltfs_server", "list", folder], ready()).status)


def progress():
    folder, file = volume(ready()), fresh_folder() / "file"
    file.write_bytes(bytes(MIB))
    found, shown = [], rb"\rltfs_%s: 1\.0 of 1\.0 MiB, [\d.]+ MiB/s, 0:00 left *\n"
    for name in ("put", "get"):
        ran = run_at_terminal([ready() / f"ltfs_{name}", folder, "/file", file], fresh_folder())
        found += compare(f"status of a {name}", 0, ran.status)
        is_shown = bool(re.search(shown % name.encode() + rb"\Z", ran.err))
        found += compare(f"whether {shown} is shown at the end", True, is_shown)
    return found


CASES = {
    "large": large,
    "many_runs": many_runs,
    "two_scripts": two_scripts,
    "sizes": sizes,
    "names": names,
    "repeated": repeated,
    "replaced": replaced,
    "standard_streams": standard_streams,
    "failures": failures,
    "left_as_it_was": left_as_it_was,
    "told_to_stop": told_to_stop,
    "progress": progress,
}
