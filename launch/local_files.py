"""Files of this machine: what a folder holds, files that may change while they are read, and files written apart."""

import concurrent.futures
import errno
import hashlib
import math
import os
import secrets
import stat

import scripts

KINDS = {
    stat.S_IFLNK: "it is a symbolic link",
    stat.S_IFIFO: "it is a pipe",
    stat.S_IFSOCK: "it is a socket",
    stat.S_IFCHR: "it is a device",
    stat.S_IFBLK: "it is a device",
}
# So many files at a time are made safe, which costs a disk less than one after the other.
DISK_CALLS = 16
# The user's mask can be asked for only by setting another one.
MASK = os.umask(0o077)
os.umask(MASK)
# Names of files that are written apart, and have not taken their places.
standing = set()


class LeftOut(Exception):
    """Why one file or directory isn't copied."""


def unreadable(error):
    return LeftOut(f"it can't be read: {error.strerror}")


def entries_of(folder):
    """What a folder holds, in the order of the bytes of the names: the name, whether it is a directory, and the length
    of a file; or in their place why it can't be copied. No link is followed."""
    try:
        with os.scandir(folder) as them:
            entries = sorted(them, key=lambda it: it.name)
    except OSError as error:
        raise unreadable(error) from error
    for entry in entries:
        try:
            facts = entry.stat(follow_symlinks=False)
        except OSError as error:
            yield entry.name, unreadable(error)
            continue
        kind = stat.S_IFMT(facts.st_mode)
        if kind in KINDS:
            yield entry.name, LeftOut(KINDS[kind])
        else:
            yield entry.name, None if kind == stat.S_IFDIR else facts.st_size


class Source:
    """A file that is read from its front to its end. Behind that `has_changed` tells whether it has changed meanwhile,
    and `digest` is that of its bytes."""

    def __init__(self, file, is_watched=True):
        self.file, self.is_watched, self.digest = file, is_watched, hashlib.sha256()
        self.before = self.facts()

    def __enter__(self):
        return self

    def __exit__(self, *_):
        self.file.close()

    def facts(self):
        it = os.fstat(self.file.fileno())
        return it.st_mode, it.st_size, it.st_mtime_ns, it.st_ctime_ns

    def is_plain(self):
        return stat.S_ISREG(self.before[0])

    def length(self):
        """Its length before it was read, where it is a plain file."""
        return self.before[1] if self.is_plain() else None

    def pieces(self):
        """Yields its pieces, all but the last one of the size that a write may have. Of one that grows no more is read
        than it had."""
        left = self.length() or math.inf
        while left > 0:
            try:
                piece = self.file.read(min(left, scripts.WRITE_BYTES))
            except OSError as error:
                raise unreadable(error) from error
            if not piece:
                return
            left -= len(piece)
            self.digest.update(piece)
            yield piece

    def has_changed(self):
        return self.is_watched and self.is_plain() and self.facts() != self.before


def open_plain(path):
    """Opens a plain file to be read, and nothing else."""
    try:
        handle = os.open(path, os.O_RDONLY | os.O_NOFOLLOW | os.O_NONBLOCK)
    except OSError as error:
        raise unreadable(error) from error
    source = Source(open(handle, "rb"))
    if source.is_plain():
        return source
    source.file.close()
    raise LeftOut("it is no plain file any more")


class NewFile:
    """A file that is written apart, and takes its place once it is whole and safe. Where the file system can have a
    file without a name, it has none until then; so nothing is left of it, however this program ends."""

    def __init__(self, place):
        self.place = os.fsencode(place)
        self.folder = os.path.dirname(self.place) or b"."
        self.name = None
        self.handle = self.open_without_name()
        if self.handle is None:
            self.handle = os.open(self.take_name(), os.O_CREAT | os.O_EXCL | os.O_RDWR, 0o600)
        self.file = open(self.handle, "r+b")

    def open_without_name(self):
        """Where it can't be, or could have no name later, the file is none."""
        if os.path.isdir("/proc/self/fd"):
            try:
                return os.open(self.folder, os.O_TMPFILE | os.O_RDWR, 0o600)
            except OSError:
                pass
        return None

    def take_name(self):
        self.name = os.path.join(self.folder, b".ltfs_get-" + secrets.token_hex(8).encode())
        standing.add(self.name)
        return self.name

    def make_safe(self):
        """Gives it its mode, and has its bytes on the disk."""
        try:
            mode = os.stat(self.place).st_mode & 0o777
        except OSError:
            mode = 0o666 & ~MASK
        os.fchmod(self.handle, mode)
        self.file.flush()
        os.fsync(self.handle)

    def take_place(self):
        """Gives it the name of its place, in one step."""
        if self.name is None:
            try:
                self.link(self.place)
                return
            except FileExistsError:
                self.link(self.take_name())
        os.rename(self.name, self.place)
        standing.discard(self.name)

    def link(self, name):
        # With a folder the call is one that follows the link in /proc to the file.
        folder = os.open(self.folder, os.O_RDONLY | os.O_DIRECTORY)
        try:
            os.link(f"/proc/self/fd/{self.handle}", name, src_dir_fd=folder, follow_symlinks=True)
        finally:
            os.close(folder)

    def close(self):
        self.file.close()
        if self.name in standing:
            remove_standing([self.name])


def digest_of(path):
    """The sum of the bytes of a file, or nothing where it can't be read."""
    digest = hashlib.sha256()
    try:
        with open(path, "rb") as file:
            for piece in iter(lambda: file.read(scripts.READ_BYTES), b""):
                digest.update(piece)
    except OSError:
        return b""
    return digest.digest()


def remove_standing(names=None):
    """Removes files that have not taken their places, and that have a name."""
    for name in list(standing if names is None else names):
        try:
            os.unlink(name)
        except FileNotFoundError:
            pass
        standing.discard(name)


def make_safe(folder):
    """Has the names of a folder on the disk."""
    handle = os.open(folder, os.O_RDONLY | os.O_DIRECTORY)
    try:
        os.fsync(handle)
    except OSError as error:
        if error.errno != errno.EINVAL:  # a file system that has no such call
            raise
    finally:
        os.close(handle)


def put_in_place(files):
    """Gives files their places, with their folders on the disk before and behind that."""
    with concurrent.futures.ThreadPoolExecutor(DISK_CALLS) as pool:
        list(pool.map(NewFile.make_safe, files))
    folders = sorted({it.folder for it in files})
    for it in folders:
        make_safe(it)
    for it in files:
        it.take_place()
    for it in folders:
        make_safe(it)
