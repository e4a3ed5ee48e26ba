"""What ltfs_get does: one file, or a directory with all below it."""

import errno
import hashlib
import os
import stat
import sys

import local_files
import reading
import scripts
import volume
from local_files import NewFile
from progress import Progress
from scripts import Call, Script, escaped
from volume import REFUSED, Failure, shown

UNWRITABLE = 6
# Where these are met nothing more can be written.
NO_MORE = (errno.ENOSPC, errno.EDQUOT, errno.EROFS, errno.EIO)
# So many files that are whole wait for their places, each of them open.
AT_ONCE = 200
DIFFERS = "what stands there isn't what the volume gave"


class IsDirectory(Exception):
    """PATH is a directory of the volume."""


def get(asked, folder, path, file=None):
    runs = volume.Runs("ltfs_get", folder, asked.wait)
    try:
        if file is None:
            copy_to(runs, volume.path_of(path), sys.stdout.buffer)
            return 0
        return get_into(runs, asked, path, file)
    except OSError as error:
        what = "standard output" if file is None else "FILE"
        raise Failure(f"{what} can't be written: {error.strerror}", UNWRITABLE) from error
    finally:
        local_files.remove_standing()


def get_into(runs, asked, path, file):
    is_folder = os.path.isdir(file)
    at = volume.path_of(path.rstrip("/") or "/" if is_folder else path)
    if not (is_folder and is_directory(runs, at)) and write_file(runs, asked, at, file):
        return 0
    if not is_folder and os.path.exists(file):
        refuse(at, f"it is a directory, and {shown(file)} is none", UNWRITABLE)
    return get_folder(runs, asked, at, os.fsencode(file))


def refuse(path, why, status=REFUSED):
    raise Failure(f"{shown(path)} can't be got: {why}", status)


def is_directory(runs, path):
    """Whether what stands at the path is a directory."""
    call, script = Call(b"stat %s" % escaped(path)), Script()
    script.add(0, call)
    for it in runs.replies(script):
        if not it.is_done():
            refuse(path, volume.reason(it))
    return call.reply.startswith(b"dir ")


def copy_to(runs, path, sink, takes_directory=False):
    """Writes the bytes of the file to the sink, in runs that each see first that it is still the same, and returns the
    sum of these bytes."""
    progress, digest = Progress("ltfs_get"), hashlib.sha256()
    facts, length, done = None, None, 0
    while length is None or done < length:
        end = done + scripts.ALL_BYTES if length is None else min(length, done + scripts.ALL_BYTES)
        script = Script()
        for call in [Call(b"stat %s" % escaped(path)), *scripts.read_calls(escaped(path), done, end)]:
            script.add(0, call)
        runs.generation, is_directory = None, False
        for call in runs.replies(script):
            is_directory |= takes_directory and call.reply.startswith(b"dir ")
            if is_directory:
                continue
            if not call.is_done():
                refuse(path, volume.reason(call))
            elif call.reply.startswith(b"file "):
                if facts not in (None, call.reply):
                    refuse(path, f"it changed while it was read ({call.told()})")
                facts, length = call.reply, int(call.reply.split(b" ")[2])
                progress.whole = length
            elif call.reply.startswith(b"bytes ") and call.reply != b"bytes 0":
                piece = bytes.fromhex(call.reply.split(b" ")[2].decode())
                sink.write(piece)
                digest.update(piece)
                done += len(piece)
        if is_directory:
            raise IsDirectory
        progress.tell(done)
    sink.flush()
    progress.end()
    return digest.digest()


def write_file(runs, asked, path, file):
    """Writes the file apart, and gives it its name when it is whole. What is no plain file is written as it is. Returns
    whether it is a file, and no directory."""
    place = os.path.realpath(file)
    if os.path.exists(place) and not os.path.isfile(place):
        with open(place, "wb") as sink:
            copy_to(runs, path, sink)
        return True
    new = NewFile(place)
    try:
        digest = copy_to(runs, path, new.file, takes_directory=True)
        local_files.put_in_place([new])
    except IsDirectory:
        return False
    finally:
        new.close()
    if "--verify" in asked.flags and local_files.digest_of(place) != digest:
        refuse(path, DIFFERS)
    return True


class Fetched(reading.Wanted):
    """A file of the volume, and the place where it is to stand."""

    def __init__(self, path, length, place):
        super().__init__(path, length)
        self.place, self.new = place, None

    def write(self):
        """Writes apart what came of it in the last run, and returns how many bytes these were."""
        count, pieces = 0, self.pieces()
        try:
            if not self.problem:
                self.new = self.new or NewFile(self.place)
                count = sum(map(self.new.file.write, pieces))
        except OSError as error:
            if error.errno in NO_MORE:
                raise
            self.problem = f"it can't be written: {error.strerror}"
        if self.problem and self.new:
            self.new.close()
        self.came = {}
        return count


class Places:
    """Where each node below a directory of the volume is to stand in a folder, of which the directories are made."""

    def __init__(self, found, path, folder):
        self.files, self.left_out, self.made, self.refused = [], [], [], set()
        if not os.path.isdir(folder):
            self.make(folder)
        prefix = b"/" if path == b"/" else path + b"/"
        for at, kind in found.kinds.items():
            if at.startswith(prefix) and at != path:
                self.meet(at, kind, os.path.join(folder, at[len(prefix):]), found.lengths.get(at))
        for it in sorted({os.path.dirname(it) for it in self.made}):
            local_files.make_safe(it)

    def meet(self, path, kind, place, length):
        """Makes a directory, and sees that a file can have its place. What lies below one that isn't made goes without
        saying."""
        if os.path.dirname(path) in self.refused:
            self.refused.add(path)
            return
        try:
            why = self.make(place) if kind == b"d" else see_place(kind, place)
        except OSError as error:
            if error.errno in NO_MORE:
                raise
            why = f"it can't be written: {error.strerror}"
        if why:
            self.refused.add(path)
            self.left_out.append((path, why))
        elif kind == b"f":
            self.files.append(Fetched(path, length, place))

    def make(self, place):
        try:
            os.mkdir(place)
            self.made.append(place)
        except FileExistsError:
            if not stat.S_ISDIR(os.lstat(place).st_mode):
                return "what stands in its place is no directory"
        return None


def see_place(kind, place):
    """Why a node that is no directory can't have its place."""
    if kind == b"l":
        return "it is a symbolic link"
    try:
        is_free = stat.S_ISREG(os.lstat(place).st_mode)
    except FileNotFoundError:
        is_free = True
    return None if is_free else "what stands in its place is no file"


def get_folder(runs, asked, path, folder):
    found = runs.listing()
    if found.kinds.get(path) != b"d":
        refuse(path, "it is no directory any more")
    places = Places(found, path, os.path.realpath(folder))
    files = places.files
    progress, done = Progress("ltfs_get", sum(it.length for it in files), len(files)), 0
    progress.tell(0)
    for came in reading.read_files(runs, files):
        whole = []
        for it in came:
            done += it.write()
            if it.is_asked and not it.problem:
                whole.append(it.new)
            if len(whole) == AT_ONCE:
                put_in_place(whole)
                whole = []
        put_in_place(whole)
        progress.tell(done, sum(it.is_asked for it in files))
    progress.end()
    problems = [(it.path, it.problem) for it in files if it.problem]
    status = volume.tell_left_out("ltfs_get", [*places.left_out, *problems])
    if "--verify" in asked.flags:
        see_same([it for it in files if not it.problem])
    return status


def put_in_place(files):
    local_files.put_in_place(files)
    for it in files:
        it.close()


def see_same(files):
    """Reads what stands in the folder now, and compares it with what the volume gave."""
    wrong = [(it.place, DIFFERS) for it in files if local_files.digest_of(it.place) != it.digest.digest()]
    if wrong:
        volume.tell_left_out("ltfs_get", wrong, "these differ:")
        raise Failure(f"{len(wrong):,} of {len(files):,} files aren't as the volume gave them", REFUSED)
