"""What ltfs_put and ltfs_get share: runs of ltfs_server over the volume in a folder, and how they end."""

import contextlib
import fcntl
import os
import pathlib
import signal
import subprocess
import sys
import threading
import time

import scripts
from progress import say

TOP = pathlib.Path(__file__).resolve().parents[1]
# Where a call was refused, or the volume was changed by another program.
REFUSED = 9
# Where all was copied but what is listed.
LEFT_OUT = 10
SIGNALS = (signal.SIGINT, signal.SIGTERM, signal.SIGHUP)
WAIT = 10
# How a command ends that can't have its claim of the folder, and how often it is begun again where the folder is free
# by the time that is seen.
NO_CLAIM = b"drive 0 1"
SPARE = 5

ENDS = {
    1: "the folder is none that ltfs_server takes",
    2: "the path is of no form",
    3: "the folder holds no volume that can be read",
    4: "the drive over the folder failed",
    5: "the server could not read its script",
    6: "the server could not write its log",
    7: "there was too little memory",
    8: "the volume has too little space for its index",
}
REASONS = {
    b"no BadName": "its name can't be one on a volume",
    b"no Root": "it is the root",
    b"no NotFound": "nothing stands there",
    b"no NotDir": "a part of its path is no directory",
    b"no IsDir": "a directory stands there",
    b"no IsLink": "a symbolic link stands there",
    b"no Exists": "something stands there already",
    b"no NotEmpty": "a directory that isn't empty stands there",
    b"no TooLong": "it is longer than a file of a volume may be",
    b"no TooMany": "the volume has as many files and directories as it may have",
    b"no Damaged": "the volume has lost bytes of it",
    b"no BadKey": "an attribute can't have such a key",
    b"no NoKey": "it has no such attribute",
    b"no ManyKeys": "it has as many attributes as it may have",
    b"no Locked": "the volume is locked",
    b"no ReadOnly": "it, or the directory in which it stands, is read-only",
    b"full": "the volume is full",
    b"fault": "the drive failed",
    b"nomemory": "there was too little memory",
}


class Failure(Exception):
    """Why all was not copied: a line, and the status to end with."""

    def __init__(self, line, status):
        super().__init__(line)
        self.line, self.status = line, status


def reason(call, why=None):
    """Why a call was refused, with the volume's line behind."""
    first = call.reply.split(b" ", 1)[0]
    return f"{why or REASONS.get(call.reply) or REASONS.get(first, 'it was refused')} ({call.told()})"


def shown(path):
    """A path as a person may see it, also where a byte of it is none of a text."""
    text = path.decode(errors="backslashreplace") if isinstance(path, bytes) else str(path)
    return "".join(it if it.isprintable() else it.encode("unicode_escape", "backslashreplace").decode() for it in text)


def path_of(word):
    """The path that a word of the command line names, in bytes."""
    path = os.fsencode(word)
    names = path.split(b"/")[1:] if path != b"/" else []
    try:
        path.decode()
    except UnicodeDecodeError:
        names = [b""]
    if not path.startswith(b"/") or not all(names):
        raise Failure(f"PATH is '/', or '/NAME' once or more, in UTF-8, and {shown(path)} isn't", 2)
    return path


@contextlib.contextmanager
def only_copier(folder, wait):
    """Sees that no other ltfs_put copies into the folder meanwhile. The lock is on a file of the image, since the
    server's own is on the folder."""
    try:
        handle = os.open(os.path.join(folder, "cm.img"), os.O_RDONLY)
    except OSError:
        yield  # the server tells what is wrong there
        return
    try:
        who = f"another ltfs_put copies into {shown(folder)}"
        await_turn("ltfs_put", who, lambda: has_lock(handle, fcntl.LOCK_EX), time.monotonic() + wait)
        yield
    finally:
        os.close(handle)


def await_turn(name, who, is_free, until, more=""):
    """Waits up to a moment while somebody else works there, and returns whether somebody did."""
    told = False
    while not is_free():
        if time.monotonic() >= until:
            raise Failure(f"{who}: let it end, or wait longer by --wait{more}", 4)
        if not told and sys.stderr.isatty():
            say(name, f"{who}; this one waits")
        told = True
        time.sleep(0.05)
    return told


def has_lock(handle, kind):
    try:
        fcntl.flock(handle, kind | fcntl.LOCK_NB)
    except BlockingIOError:
        return False
    except OSError:
        pass  # a file system without locks
    return True


def is_claimed(folder, kind):
    """Whether another program's claim on the folder keeps one of this kind off."""
    try:
        handle = os.open(folder, os.O_RDONLY | os.O_DIRECTORY)
    except OSError:
        return False
    try:
        return not has_lock(handle, kind)
    finally:
        os.close(handle)


class Listing:
    """The tree of a volume: the kind and the length of each node by its path, `d`, `f` or `l`."""

    def __init__(self):
        self.kinds, self.lengths = {}, {}

    def take(self, line):
        words = line.split(b" ")
        if words[0] == b"f" and len(words) == 4:
            path = scripts.unescaped(words[3])
            self.kinds[path], self.lengths[path] = b"f", int(words[2])
        elif words[0] in (b"d", b"l") and len(words) >= 3:
            self.kinds[scripts.unescaped(words[2])] = words[0]


class Runs:
    """Runs of the server over the volume in a folder. What the launcher says is passed on once."""

    def __init__(self, name, folder, wait=WAIT):
        self.name, self.folder, self.wait = name, folder, wait
        self.said = set()
        self.generation = self.server = None
        self.may_rise = False

    def listing(self):
        """The tree of the volume. Every later run has to go on from its generation. Where no run of this copy closed
        the volume in it, the next one may do so in a new one, since both partitions need not have had its index."""
        found, before = Listing(), self.generation
        for line in self.lines("list", fcntl.LOCK_SH):
            if line.startswith(b"generation "):
                self.generation = int(line.split(b" ")[1])
            else:
                found.take(line)
        self.may_rise = self.generation != before
        return found

    def replies(self, script):
        """Runs the calls, and yields each one as its reply comes. Behind the last one it is seen that nobody else has
        changed the volume since the run before."""
        closed = None
        for line in self.lines("serve", fcntl.LOCK_EX, script.text()):
            if line.startswith(b"closed "):
                closed = int(line.split(b" ")[1])
                continue
            call = script.take(line)
            if call:
                yield call
        before, self.generation = self.generation, closed
        may_rise, self.may_rise = self.may_rise, False
        if before is not None and closed not in script.generations(before, may_rise):
            raise Failure("another program has changed the volume meanwhile, so what was copied may not be whole;"
                          f" copy it again (generation {before}, and behind the next run {closed})", REFUSED)

    def lines(self, command, claim, script=b""):
        """Runs a command, and yields the lines that it prints. A folder that is in use is waited for."""
        until, spare = time.monotonic() + self.wait, SPARE
        while True:
            nth, line = -1, b""
            for nth, line in enumerate(self.lines_of_run(command, script)):
                yield line
            status = self.server.returncode
            if status == 0:
                return
            if nth != 0 or line != NO_CLAIM or not os.path.isdir(self.folder):
                raise self.failure(status, line)
            if not self.await_claim(claim, until):
                spare -= 1
                if spare == 0:
                    raise self.failure(status, line)
                time.sleep(0.05)

    def await_claim(self, claim, until):
        """Waits while another program has the folder, and returns whether one had it."""
        who = f"another program uses {shown(self.folder)}"
        return await_turn(self.name, who, lambda: not is_claimed(self.folder, claim), until, f" ({NO_CLAIM.decode()})")

    def failure(self, status, line):
        if status < 0:
            return Failure(f"signal {-status} ended ltfs_server", 128 - status)
        line = line.decode(errors="backslashreplace")
        return Failure(f"{ENDS.get(status, 'ltfs_server could not be run')} ({line or f'status {status}'})", status)

    def lines_of_run(self, command, script):
        words = [str(TOP / "ltfs_server"), command, self.folder]
        pipes = {"stdin": subprocess.PIPE, "stdout": subprocess.PIPE, "stderr": subprocess.PIPE}
        try:
            self.server = subprocess.Popen(words, **pipes)
        except OSError as error:
            raise Failure(f"ltfs_server can't be run: {error.strerror}", 125) from error
        with self.server:
            try:
                passing = threading.Thread(target=self.pass_on, args=[self.server.stderr], daemon=True)
                passing.start()
                self.send(script)
                for line in self.server.stdout:
                    yield line.rstrip(b"\n")
                self.server.wait()
                passing.join()
            except BaseException:
                # A server that still reads must not take a part of a script for the whole.
                self.server.terminate()
                raise

    def send(self, script):
        try:
            self.server.stdin.write(script)
            self.server.stdin.close()
        except BrokenPipeError:
            pass  # it ended before it had read all, and says why

    def pass_on(self, lines):
        for line in lines:
            if line not in self.said:
                self.said.add(line)
                sys.stderr.buffer.write(line)
                sys.stderr.flush()


def tell_left_out(name, left_out, head="all was copied but what follows:"):
    """Lists what was left out, and returns the status for that."""
    if not left_out:
        return 0
    say(name, head, *(f"{shown(path)}: {why}" for path, why in left_out))
    return LEFT_OUT


def tell_version(name):
    """Prints what the launcher of the server tells of itself, with this name. Returns the status."""
    ran = subprocess.run([str(TOP / "ltfs_server"), "--version"], stdout=subprocess.PIPE)
    print(ran.stdout.decode(errors="replace").replace("ltfs_server", name, 1), end="")
    return ran.returncode


def end_with(name, copy, *words):
    """Copies, and returns the status with which the program ends. Where it is told to stop, the run is ended."""
    def stop(number, _):
        for it in SIGNALS:
            signal.signal(it, signal.SIG_IGN)
        raise Failure("cut off", 128 + number)

    for it in SIGNALS:
        signal.signal(it, stop)
    try:
        return copy(*words)
    except Failure as failure:
        say(name, failure.line)
        return failure.status
