#!/usr/bin/env python3
"""Runs `serve` with odd ends of its standard output; looks at what is printed, how it ends and what the folder holds.

usage: odd_sinks.py PROGRAM FAILING.SO

FAILING.SO is built from failing.c. Standard output is closed, full, a file at the limit of its length, a file of a file
system without space, a pipe, a socket and a terminal whose other end goes away within a run, a pipe that nobody reads
for a second, a socket that doesn't block and is read slowly, a terminal, and a sink that takes one byte at a time. What
is printed has to be a front of a log, all of it with status 0 and what had room with 6. Nothing is written behind a
write that failed. In any case all calls were made and the volume was closed: `list` tells each file, and a serving
without calls tells the same generation and changes no byte.
"""
import argparse
import fcntl
import os
import pathlib
import pty
import re
import resource
import shutil
import signal
import socket
import subprocess
import sys
import tempfile
import time

TIME = "2024-01-02T03:04:05.000000000Z"
UUID = "30a91a08-daae-48d1-ae75-69804e61d2ea"
LINE = re.compile(r"(\d+) (\d+)\.(\d+) (.+)")
CLOSED = re.compile(r"closed (\d+) \d+ \d+")
F_SETPIPE_SZ = 1031
ROOM = 4096
LIMIT = 1 << 22
SECONDS = 60


def calls_of(who, files):
    """The calls of a session, each with its reply, and the files with their lengths. Two lines are longer than what is
    written at once."""
    calls, lengths = [], {}
    for nth in range(files):
        name, length = f"/s{who:02}f{nth:02}", 1 + (who * 977 + nth * 3701) % 3000
        if who == 1 and nth < 2:
            length = 20_000
        lengths[name] = length
        calls += [(f"create {name}", "ok"), (f"write {name} 0 fill:{who:02x}:{length}", "ok"),
                  (f"read {name} 0 {length}", f"bytes {length} " + f"{who:02x}" * length)]
        if nth % 2:
            calls.append(("sync", "synced"))
    return calls, lengths


class Trial:
    def __init__(self, program, library, where, sessions, files):
        self.program, self.library, self.where, self.tried, self.wrong = program, library, where, 0, 0
        self.replies, self.files = {}, {}
        for who in range(1, sessions + 1):
            self.replies[who], lengths = calls_of(who, files)
            self.files.update(lengths)
        self.script = "".join(f"{who} {call}\n" for calls in zip(*self.replies.values())
                              for who, (call, _) in zip(self.replies, calls)).encode()
        self.folder, self.formatted, self.told = where / "tape", where / "formatted", where / "told"
        self.formatted.mkdir()
        self.run("format", self.formatted, "TAPE01", UUID, "--block", "4096", "--at", TIME)

    def run(self, command, folder, *words):
        done = subprocess.run([self.program, command, str(folder), *words], stdin=subprocess.DEVNULL,
                              capture_output=True, text=True, timeout=SECONDS)
        return done.returncode, done.stdout

    def begin(self, sink, prepare=None, more=()):
        """A serving whose standard output this is."""
        shutil.rmtree(self.folder, ignore_errors=True)
        shutil.copytree(self.formatted, self.folder)
        self.told.unlink(missing_ok=True)
        env = {"PATH": os.environ["PATH"], "LD_PRELOAD": self.library, "FOLDER": str(self.folder), "LINES": "yes",
               "TOLD": str(self.told), **dict(more)}
        with tempfile.TemporaryFile() as script:
            script.write(self.script)
            script.seek(0)
            return subprocess.Popen([self.program, "serve", str(self.folder), "--at", TIME], stdin=script, env=env,
                                    stdout=sink, stderr=subprocess.DEVNULL, preexec_fn=prepare)

    def wrong_text(self, text, whole):
        """What is wrong with a text that is to be a log, or the front of one."""
        *lines, rest = text.split("\n")
        made = dict.fromkeys(self.replies, 0)
        for place, line in enumerate(lines):
            if sum(made.values()) == sum(map(len, self.replies.values())):
                return None if CLOSED.fullmatch(line) and lines[place + 1:] == [] and not rest else f"it ends {line!r}"
            words = LINE.fullmatch(line)
            if not words or int(words[1]) != place:
                return f"line {place} is {line[:80]!r}"
            who, nth = int(words[2]), int(words[3])
            if nth != made[who] or words[4] != self.replies[who][nth][1]:
                return f"line {place} is {line[:80]!r}"
            made[who] += 1
        nexts = [f"{len(lines)} {who}.{nth} {self.replies[who][nth][1]}\n" for who, nth in made.items()
                 if nth < len(self.replies[who])] or ["closed "]
        if whole:
            return "lines are missing"
        return None if any(it.startswith(rest) for it in nexts) else f"a torn line {rest[:80]!r}"

    def length_of_lines(self):
        """How long the lines of all calls are, in whatever order they come."""
        lines = [f" {who}.{nth} {reply}\n" for who, calls in self.replies.items()
                 for nth, (_, reply) in enumerate(calls)]
        return sum(len(str(place)) + len(line) for place, line in enumerate(lines))

    def listed(self):
        """How `list` ends, the files that it tells with their lengths, and its last line."""
        status, printed = self.run("list", self.folder)
        lines = [line.split(" ") for line in printed.splitlines()]
        return status, {words[3]: int(words[2]) for words in lines if words[0] == "f"}, " ".join(lines[-1])

    def lost_files(self, text):
        """The files whose writes stand in front of a `synced` in a text, and that aren't found."""
        written, synced = set(), set()
        for line in text.split("\n")[:-1]:
            words = LINE.fullmatch(line)
            if not words:
                break
            verb, *rest = self.replies[int(words[2])][int(words[3])][0].split(" ")
            if verb == "write":
                written.add(rest[0])
            synced |= written if verb == "sync" else set()
        _, files, _ = self.listed()
        return [name for name in synced if files.get(name) != self.files[name]]

    def wrong_folder(self):
        """What is wrong with the folder of a run that is to have made all calls and closed the volume."""
        status, files, last = self.listed()
        if status or files != self.files:
            return f"list ends with {status}, and tells {len(files)} files of {len(self.files)}"
        generation = last.split(" ")[1]
        before = {path.name: path.read_bytes() for path in self.folder.iterdir()}
        status, closed = self.run("serve", self.folder, "--at", TIME)
        if (status, closed) != (0, f"closed {generation} 0 0\n"):
            return f"of generation {generation} a further serving ends with {status}: {closed!r}"
        after = {path.name: path.read_bytes() for path in self.folder.iterdir()}
        return None if after == before else "a further serving changes the folder"

    def judge(self, what, run, text, status, has_room=None):
        """Counts what is wrong with a run that had this status to end with, and is to have printed this much."""
        came, text = run.wait(SECONDS), text.decode(errors="backslashreplace")
        writes = re.sub(r"[^SPF]", "", self.told.read_text())
        faults = [
            None if came == status else f"it ends with {came}",
            self.wrong_text(text, status == 0),
            None if has_room in (None, len(text)) else f"{len(text)} bytes are printed, not {has_room}",
            None if writes.count("F") == (status == 6) and not re.search("F.", writes) else f"its writes are {writes}",
            self.wrong_folder(),
        ]
        self.tried += 1
        for fault in filter(None, faults):
            self.wrong += 1
            print(f"{len(self.replies)} sessions, {what}: {fault}")


def read_all(end, piece=1 << 16, most=None):
    """What comes from the other end of a sink, up to so many bytes."""
    text = b""
    while most is None or len(text) < most:
        try:
            came = os.read(end, piece if most is None else min(piece, most - len(text)))
        except OSError:  # a terminal that nobody has any more
            came = b""
        if not came:
            break
        text += came
    return text


def small_pipe():
    ours, theirs = os.pipe()
    fcntl.fcntl(theirs, F_SETPIPE_SZ, ROOM)
    return ours, theirs


def small_socket():
    ours, theirs = socket.socketpair()
    for end in (ours, theirs):
        end.setsockopt(socket.SOL_SOCKET, socket.SO_SNDBUF, ROOM)
    return ours.detach(), theirs.detach()


KINDS = {"pipe": small_pipe, "socket": small_socket, "terminal": pty.openpty}


def as_printed(kind, text):
    """What was printed, of what came: a terminal puts a carriage return in front of each line feed."""
    return text.replace(b"\r\n", b"\n").removesuffix(b"\r") if kind == "terminal" else text


def try_closed(trial):
    trial.judge("closed", trial.begin(None, lambda: os.close(1)), b"", 6, 0)
    with open("/dev/full", "wb") as full:
        trial.judge("full", trial.begin(full), b"", 6, 0)


def at_limit(action=signal.SIG_IGN):
    signal.signal(signal.SIGXFSZ, action)
    resource.setrlimit(resource.RLIMIT_FSIZE, (LIMIT, LIMIT))


def try_limit(trial):
    """A file that may get only so many bytes longer. The files of the cartridge are far shorter than the limit."""
    path = trial.where / "printed"
    for room in (0, 1, 25, 60_000):
        with open(path, "wb") as file:
            file.truncate(LIMIT - room)
        with open(path, "ab") as file:
            run = trial.begin(file, at_limit)
            run.wait(SECONDS)
        trial.judge(f"{room} bytes below its limit", run, path.read_bytes()[LIMIT - room:], 6, room)


def try_signal(trial):
    """The same where the system ends the run by its signal, as it does unless that is ignored."""
    path, room = trial.where / "printed", trial.length_of_lines() - 60
    with open(path, "wb") as file:
        file.truncate(LIMIT - room)
    with open(path, "ab") as file:
        ended = trial.begin(file, lambda: at_limit(signal.SIG_DFL)).wait(SECONDS)
    text = path.read_bytes()[LIMIT - room:].decode()
    fault, lost = trial.wrong_text(text, False), trial.lost_files(text)
    trial.tried += 1
    if (ended, len(text)) != (-signal.SIGXFSZ, room) or fault or lost or " synced\n" not in text:
        trial.wrong += 1
        print(f"{len(trial.replies)} sessions, by the signal of a limit: it ends with {ended}, {len(text)} bytes of "
              f"{room} are printed, {fault}, and {lost} are lost")


def try_small_disk(trial):
    """A file system of one and of ten pages, in a space of names of its own."""
    size = os.sysconf("SC_PAGE_SIZE")
    mounted = trial.where / "disk"
    mounted.mkdir(exist_ok=True)
    for pages in (1, 10):
        mount = f'mount -t tmpfs -o size={pages * size} none "$1" && : > "$1/printed" && echo mounted && read -r _'
        holder = subprocess.Popen(["unshare", "--mount", "--map-root-user", "sh", "-c", mount, "sh", str(mounted)],
                                  stdin=subprocess.PIPE, stdout=subprocess.PIPE, stderr=subprocess.DEVNULL, text=True)
        if holder.stdout.readline() != "mounted\n":
            holder.wait()
            print("not tried on a small file system, which can't be mounted here")
            return
        path = f"/proc/{holder.pid}/root{mounted}/printed"
        with open(path, "wb") as file:
            run = trial.begin(file)
            run.wait(SECONDS)
        trial.judge(f"a disk of {pages} pages", run, pathlib.Path(path).read_bytes(), 6, pages * size)
        holder.communicate("\n")


def try_leaving(trial):
    """The other end takes so many bytes and goes away."""
    for kind, make in KINDS.items():
        for most in (0, 1, 45_000):
            ours, theirs = make()
            if most == 0:
                os.close(ours)
            run = trial.begin(theirs)
            os.close(theirs)
            text = read_all(ours, most=most) if most else b""
            if most:
                os.close(ours)
            has_room = None if kind == "terminal" else most
            trial.judge(f"a {kind} of which {most} bytes are read", run, as_printed(kind, text), 6, has_room)


def try_waiting(trial):
    """Nobody reads for a second: the run waits, and nothing is lost."""
    ours, theirs = small_pipe()
    run = trial.begin(theirs)
    os.close(theirs)
    time.sleep(1)
    if run.poll() is not None:
        trial.wrong += 1
        print(f"a run ends with {run.returncode} while nobody reads its pipe")
    text = read_all(ours)
    os.close(ours)
    trial.judge("a pipe that nobody reads for a second", run, text, 0)


def try_slow(trial):
    """Ends that don't block and are read by small pieces; and a sink that takes one byte at a time."""
    for kind, make in KINDS.items():
        ours, theirs = make()
        os.set_blocking(theirs, False)
        run = trial.begin(theirs)
        os.close(theirs)
        text = as_printed(kind, read_all(ours, piece=100))
        os.close(ours)
        trial.judge(f"a {kind} that doesn't block", run, text, 0)
    run = trial.begin(subprocess.PIPE, None, {"BYTE": "yes"}.items())
    trial.judge("one byte at a time", run, run.communicate()[0], 0)


def main():
    words = argparse.ArgumentParser()
    words.add_argument("program")
    words.add_argument("library")
    asked = words.parse_args()
    tried = wrong = 0
    for sessions, files in ((1, 8), (16, 2)):
        with tempfile.TemporaryDirectory() as where:
            trial = Trial(asked.program, os.path.abspath(asked.library), pathlib.Path(where), sessions, files)
            for step in (try_closed, try_limit, try_signal, try_small_disk, try_leaving, try_waiting, try_slow):
                step(trial)
        tried, wrong = tried + trial.tried, wrong + trial.wrong
    print(f"{tried} runs, {wrong} wrong")
    return 1 if wrong else 0


if __name__ == "__main__":
    sys.exit(main())
