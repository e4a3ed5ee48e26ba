#!/usr/bin/env python3
"""Kills `serve` at moments by chance, and looks at what the folder stands for then.

usage: kill_serve.py PROGRAM [--rounds N] [--seed N] [--sessions N] [--longest SECONDS]

The script makes 320 files, those of each session one after the other, with a sync behind each ten of a session.
Whenever it was killed, `list` has to tell each session's first files with their whole lengths, of which the last may
be empty where another session's sync came between its two calls; with one session they are the files up to some sync.
A serving without calls closes the volume, and `list` tells the same then. A killed process loses nothing that it
handed to the system, so this says nothing of a machine that stops.
"""
import argparse
import collections
import random
import subprocess
import sys
import tempfile
import time

TIME = "2024-01-02T03:04:05.000000000Z"
UUID = "30a91a08-daae-48d1-ae75-69804e61d2ea"
FILES = 320


def length(k):
    return 1 + k * 37 % 9000


def name(who, k):
    return f"/s{who:02}f{k:04}"


def script(sessions):
    lines = []
    for k in range(FILES // sessions):
        for who in range(1, sessions + 1):
            lines += [f"{who} create {name(who, k)}", f"{who} write {name(who, k)} 0 fill:{k % 256:02x}:{length(k)}"]
            if k % 10 == 9:
                lines.append(f"{who} sync")
    return "".join(line + "\n" for line in lines)


def misses(listed, sessions):
    """What is wrong of the files that are listed, if anything."""
    files = [(words[3], int(words[2])) for words in (line.split(" ") for line in listed) if words[0] == "f"]
    left = dict(files)
    for who in range(1, sessions + 1):
        mine = [file for file in files if file[0].startswith(name(who, 0)[:5])]
        wanted = [(name(who, k), length(k)) for k in range(len(mine))]
        if sessions > 1 and mine and mine[-1][1] == 0:
            wanted[-1] = (wanted[-1][0], 0)
        if mine != wanted:
            return "other files than the first ones"
        for path, _ in mine:
            del left[path]
    if left:
        return "files of no session"
    if sessions == 1 and len(files) % 10:
        return "the files of no sync"
    return None


def run(program, words, text=""):
    done = subprocess.run([program, *words], input=text, capture_output=True, text=True)
    return done.returncode, done.stdout.splitlines()


def judge(program, rng, folder, text, sessions, longest):
    """How many files there are, and what is wrong, if anything."""
    run(program, ["format", folder, "TAPE01", UUID, "--block", "4096", "--at", TIME])
    serving = subprocess.Popen([program, "serve", folder, "--at", TIME], stdin=subprocess.PIPE,
                               stdout=subprocess.DEVNULL, text=True)
    serving.stdin.write(text)
    serving.stdin.close()
    time.sleep(rng.uniform(0.005, longest))
    serving.kill()
    serving.wait()
    status, listed = run(program, ["list", folder])
    if status:
        return 0, f"list ends with {status}: {listed}"
    count = sum(line.startswith("f ") for line in listed)
    fault = misses(listed, sessions)
    if fault:
        return count, fault
    status, closed = run(program, ["serve", folder, "--at", TIME])
    if status:
        return count, f"it isn't closed again: {closed}"
    if run(program, ["list", folder])[1][:-1] != listed[:-1]:
        return count, "closing it again changes the tree"
    return count, None


def main():
    words = argparse.ArgumentParser()
    words.add_argument("program")
    words.add_argument("--rounds", type=int, default=100)
    words.add_argument("--seed", type=int, default=1)
    words.add_argument("--sessions", type=int, default=1)
    words.add_argument("--longest", type=float, default=0.2)
    asked = words.parse_args()
    rng = random.Random(asked.seed)
    text, counts, wrong = script(asked.sessions), collections.Counter(), 0
    for n in range(asked.rounds):
        with tempfile.TemporaryDirectory() as folder:
            count, fault = judge(asked.program, rng, folder, text, asked.sessions, asked.longest)
        counts[count] += 1
        if fault:
            wrong += 1
            print(f"round {n}: {fault}")
    print(f"{asked.rounds} rounds, {wrong} wrong, {len(counts)} different counts of files")
    return 1 if wrong else 0


if __name__ == "__main__":
    sys.exit(main())
