#!/usr/bin/env python3
"""Kills `serve` in front of each of its calls on the folder, and compares what it had printed with what is found then.

usage: printed_lines.py PROGRAM FAILING.SO [--files N] [--sessions N,N..] [--seeds N,N..]

FAILING.SO is built from failing.c. Each session makes files of its own, with a sync behind each second one; with a seed
other than 0 it writes them in some pieces, reads some of them, and synchronises by chance. What a run had printed when
it was killed is a front of a log: lines in the order of places, the last of which may be torn. Every file whose writes
are told as done before a printed `synced` has to be found by `list`, with that length or a later one. Of one session
that was killed in front of a write, these files are all that is found: a flush that is done is told before the next
command, and nothing of the next one counts yet.

In a run that isn't killed each write with lines of a sync comes directly behind the flush of an index: behind the calls
that make the index durable, and the three pairs of a write and a sync that set the header. No further index is written
in front of it.

Then a run of one session is stopped in front of each call and not killed: the lines of the calls in front of the sync
that goes on stand in the pipe, no more and no fewer, and once it goes on the rest follows. `tail -f` of a file shows
them while the run stands still.
"""
import argparse
import os
import pathlib
import random
import re
import select
import shutil
import signal
import subprocess
import sys
import tempfile
import time

TIME = "2024-01-02T03:04:05.000000000Z"
UUID = "30a91a08-daae-48d1-ae75-69804e61d2ea"
LINE = re.compile(r"(\d+) (\d+)\.(\d+) (ok|synced|bytes \d+ [0-9a-f]+)")
FLUSHED = re.compile(r"xl*sl*(?:wl*sl*){3}S")
SECONDS = 20


def length(who, k):
    return 1 + (who * 977 + k * 3701) % 9000


def calls_of(who, files):
    """The calls of a session: for each the words behind the session, and the file with the length that it gets."""
    for k in range(files):
        name = f"/s{who:02}f{k:03}"
        yield f"create {name}", None
        yield f"write {name} 0 fill:61:{length(who, k)}", (name, length(who, k))
        if k % 2 or k == files - 1:
            yield "sync", None


def calls_by(chance, who, files):
    """The same by chance."""
    for k in range(files):
        name, size = f"/s{who:02}f{k:03}", 0
        yield f"create {name}", None
        for _ in range(chance.randrange(1, 4)):
            more = chance.choice((1, 100, 4096, 9000, 20_000))
            yield f"write {name} {size} fill:61:{more}", (name, size + more)
            size += more
        if chance.random() < 0.3:
            yield f"read {name} {chance.randrange(size)} 50", None
        if chance.random() < 0.5:
            yield "sync", None
    yield "sync", None


class Trial:
    def __init__(self, program, library, where, sessions, files, seed=0):
        self.program, self.library = program, library
        chance = random.Random(seed)
        self.calls = {who: list(calls_by(chance, who, files) if seed else calls_of(who, files))
                      for who in range(1, sessions + 1)}
        self.lengths = {}
        for name, size in (it for mine in self.calls.values() for _, it in mine if it):
            self.lengths.setdefault(name, []).append(size)
        longest = max(map(len, self.calls.values()))
        self.script = "".join(f"{who} {mine[nth][0]}\n" for nth in range(longest) for who, mine in self.calls.items()
                              if nth < len(mine))
        self.folder, self.formatted, self.told = where / "tape", where / "formatted", where / "told"
        self.formatted.mkdir()
        subprocess.run([program, "format", str(self.formatted), "TAPE01", UUID, "--block", "4096", "--at", TIME],
                       stdout=subprocess.DEVNULL, check=True)

    def begin(self, call, how, more=(), out=subprocess.PIPE):
        shutil.rmtree(self.folder, ignore_errors=True)
        shutil.copytree(self.formatted, self.folder)
        self.told.unlink(missing_ok=True)
        env = {"PATH": os.environ["PATH"], "LD_PRELOAD": self.library, "CALL": str(call), "HOW": how,
               "TOLD": str(self.told), "FOLDER": str(self.folder), **dict(more)}
        with tempfile.TemporaryFile("w+") as script:
            script.write(self.script)
            script.seek(0)
            return subprocess.Popen([self.program, "serve", str(self.folder), "--at", TIME], stdin=script, env=env,
                                    stdout=out, stderr=subprocess.DEVNULL)

    def synced_files(self, text):
        """The files that have to be found by what was printed, and how many syncs were; or what is wrong with it."""
        done, found, syncs = {}, {}, 0
        for place, line in enumerate(text.split("\n")[:-1]):
            words = LINE.fullmatch(line)
            if not words:
                return (found, syncs) if line.startswith("closed ") else f"line {place} is {line!r}"
            if int(words[1]) != place:
                return f"line {place} is of place {words[1]}"
            file = self.calls[int(words[2])][int(words[3])][1]
            if file:
                done[file[0]] = file[1]
            if words[4] == "synced":
                found.update(done)
                syncs += 1
        return found, syncs

    def wrong(self, text, exact=False):
        """How many syncs were printed, and what is wrong with what is found, if anything."""
        wanted = self.synced_files(text)
        if isinstance(wanted, str):
            return 0, wanted
        listed = subprocess.run([self.program, "list", str(self.folder)], capture_output=True, text=True)
        if listed.returncode:
            return wanted[1], f"list ends with {listed.returncode}: {listed.stdout}"
        files = {words[3]: int(words[2]) for words in (line.split(" ") for line in listed.stdout.splitlines())
                 if words[0] == "f"}
        if exact:
            return wanted[1], None if files == wanted[0] else f"found are {files}, printed as synced {wanted[0]}"
        lost = {name: size for name, size in wanted[0].items()
                if files.get(name) not in self.lengths[name][self.lengths[name].index(size):]}
        return wanted[1], f"printed as synced and not found: {lost}" if lost else None


def not_behind_flush(trial):
    """How many writes with lines of syncs there were, and how many of these or of the indexes don't go together. The
    last index is that of the close."""
    trial.begin(0, "kill", {"LINES": "yes"}.items()).communicate()
    order = trial.told.read_text().replace("P", "")
    writes = order.count("S")
    return writes, abs(writes - len(FLUSHED.findall(order))) + abs(order.count("x") - 1 - writes)


def kill_each(trial):
    """Returns how many kills there were, how many syncs were printed in all, and how many runs went wrong."""
    whole = trial.begin(0, "kill").communicate()[0].decode()
    letters, printed, wrong = trial.told.read_text(), 0, 0
    if trial.wrong(whole)[1]:
        return len(letters), printed, 1
    for call, letter in enumerate(letters, 1):
        text = trial.begin(call, "kill").communicate()[0].decode()
        syncs, fault = trial.wrong(text, len(trial.calls) == 1 and letter == "w")
        printed += syncs
        if fault:
            wrong += 1
            print(f"killed in front of call {call} ({letter}): {fault}")
    return len(letters), printed, wrong


def stands_in(pipe):
    """What stands in a pipe, without waiting for more."""
    text = b""
    while select.select([pipe], [], [], 0)[0]:
        piece = os.read(pipe.fileno(), 1 << 16)
        if not piece:
            break
        text += piece
    return text


def await_stop(run):
    os.waitid(os.P_PID, run.pid, os.WSTOPPED | os.WEXITED | os.WNOWAIT)


def hold_each(trial):
    """Of one session, returns how many lines stood in the pipe in front of each call, and how many runs went wrong."""
    whole = trial.begin(0, "kill").communicate()[0]
    letters, wrong, seen = trial.told.read_text(), 0, []
    for call in range(1, len(letters) + 1):
        run = trial.begin(call, "hold")
        await_stop(run)
        early = stands_in(run.stdout)
        run.send_signal(signal.SIGCONT)
        late = run.communicate()[0]
        seen.append(early.count(b"\n"))
        if early + late != whole or run.returncode:
            wrong += 1
            print(f"held in front of call {call}: {early + late!r} and {run.returncode}")
    # Writes are put off until a sync, so the folder is called by the mount, by each sync and by the close.
    calls = [words for words, _ in trial.calls[1]]
    stands = [0, *(nth for nth, words in enumerate(calls) if words == "sync"), len(calls)]
    if sorted(set(seen)) != stands or seen != sorted(seen):
        wrong += 1
        print(f"lines that stood in the pipe in front of each call: {seen}")
    return seen, wrong


def follow(trial, call, count):
    """How many runs went wrong of one that is held in front of a call, while `tail -f` has to show so many lines."""
    path = trial.folder.with_name("printed")
    with open(path, "wb") as out:
        run = trial.begin(call, "hold", out=out)
    tail = subprocess.Popen(["tail", "-c", "+1", "-f", str(path)], stdout=subprocess.PIPE)
    text, until = b"", time.monotonic() + SECONDS
    await_stop(run)
    while text.count(b"\n") < count and time.monotonic() < until:
        text += stands_in(tail.stdout)
        time.sleep(0.01)
    shown = text.count(b"\n")
    run.send_signal(signal.SIGCONT)
    run.wait()
    while text != path.read_bytes() and time.monotonic() < until:
        text += stands_in(tail.stdout)
        time.sleep(0.01)
    tail.kill()
    tail.communicate()
    wanted = path.read_bytes()
    if shown == count and text == wanted and run.returncode == 0 and not trial.wrong(wanted.decode())[1]:
        return 0
    print(f"tail -f shows {shown} lines of {count}, then {text!r} of {wanted!r}; the run ends with {run.returncode}")
    return 1


def try_one(trial, seed):
    """Returns how many runs of a script went wrong."""
    sessions = len(trial.calls)
    calls, printed, wrong = kill_each(trial)
    print(f"{sessions} sessions, seed {seed}: killed in front of {calls} calls, {printed} printed syncs, {wrong} wrong")
    if seed:
        return wrong + (printed == 0)
    writes, apart = not_behind_flush(trial)
    print(f"{sessions} sessions: {writes} writes of syncs, {apart} not behind their flush")
    wrong += (printed == 0) + (writes == 0) + apart
    if sessions == 1:
        seen, bad = hold_each(trial)
        first = next((count for count in seen if count), 0)
        wrong += bad + (first == 0 or follow(trial, seen.index(first) + 1, first))
    return wrong


def main():
    words = argparse.ArgumentParser()
    words.add_argument("program")
    words.add_argument("library")
    words.add_argument("--files", type=int, default=4)
    words.add_argument("--sessions", default="1,4,16")
    words.add_argument("--seeds", default="0")
    asked = words.parse_args()
    library, wrong = os.path.abspath(asked.library), 0
    for seed in map(int, asked.seeds.split(",")):
        for sessions in map(int, asked.sessions.split(",")):
            with tempfile.TemporaryDirectory() as where:
                trial = Trial(asked.program, library, pathlib.Path(where), sessions, asked.files, seed)
                wrong += try_one(trial, seed)
    print(f"{wrong} wrong")
    return 1 if wrong else 0


if __name__ == "__main__":
    sys.exit(main())
