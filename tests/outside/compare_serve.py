#!/usr/bin/env python3
"""Serves random scripts on cartridges and compares every reply with that of the plain tree.

usage: compare_serve.py PROGRAM [--rounds N] [--seed N]

Each round formats a folder, with or without a policy, and serves one to four scripts of up to 16 sessions on it, one
after the other. Sessions run in threads, so the log says in which order their calls came: it has to have each
session's calls once and in order, and the plain tree runs the lines of all scripts in the order of the logs. All
replies have to be the same, a `full` alone apart, behind which a round ends; and what `list` prints at the end has to
be the tree that the plain run's own calls tell.
"""
import argparse
import random
import subprocess
import sys
import tempfile

TIME = "2024-01-02T03:04:05.000000000Z"
UUID = "30a91a08-daae-48d1-ae75-69804e61d2ea"
NAMES = ["a", "b", "c.txt", "d.txt", "%25", "x%20y", "\u00e9", "z" * 255]
KEYS = ["k", "user.note", "%00", "\u00e9"]
# Of so many nodes the attributes are asked for at the end.
MOST_ASKED = 60


def path(rng, depth=3):
    return "".join("/" + rng.choice(NAMES) for _ in range(rng.randint(1, depth)))


def call(rng):
    verb = rng.choices(
        ["mkdir", "create", "write", "truncate", "read", "list", "stat", "rename", "remove", "sync", "setx", "getx",
         "dropx", "readonly", "lock", "unlock", "permlock"],
        [60, 100, 220, 40, 160, 30, 40, 40, 40, 60, 80, 60, 20, 40, 5, 15, 1],
    )[0]
    if verb in ("mkdir", "create", "stat", "remove"):
        return f"{verb} {path(rng)}"
    if verb == "list":
        return f"list {rng.choice(['/', path(rng, 2)])}"
    if verb == "write":
        offset = rng.choice([0, 0, 3, 4096, 5000, 65536, 100000])
        count = rng.choice([0, 1, 5, 4096, 4097, 20000, 65536])
        byte = rng.randint(0, 255)
        return f"write {path(rng)} {offset} fill:{byte:02x}:{count}"
    if verb == "truncate":
        return f"truncate {path(rng)} {rng.choice([0, 2, 4097, 70000])}"
    if verb == "read":
        return f"read {path(rng)} {rng.choice([0, 1, 4095, 65530])} {rng.choice([0, 1, 10, 5000, 200000])}"
    if verb == "rename":
        return f"rename {path(rng)} {path(rng)}"
    if verb == "setx":
        return f"setx {path(rng)} {rng.choice(KEYS)} fill:{rng.randint(0, 255):02x}:{rng.choice([0, 1, 300, 9000])}"
    if verb in ("getx", "dropx"):
        return f"{verb} {path(rng)} {rng.choice(KEYS)}"
    if verb == "readonly":
        return f"readonly {rng.choice(['/', path(rng)])} {rng.choice(['true', 'false'])}"
    return verb


def run(program, words, script=""):
    done = subprocess.run([program, *words], input=script.encode(), capture_output=True)
    return done.returncode, done.stdout.decode()


def replies(log):
    return [line.split(" ", 2)[2] for line in log]


def in_order(script, log):
    """The lines of a script in the order of a log, or None where the log isn't one of all its calls."""
    calls = {}
    for line in script:
        calls.setdefault(line.split(" ")[0], []).append(line)
    made = dict.fromkeys(calls, 0)
    ordered = []
    for place, line in enumerate(log):
        at, session, _ = line.split(" ", 2)
        who, nth = session.split(".")
        if int(at) != place or who not in calls or int(nth) != made[who] or made[who] == len(calls[who]):
            return None
        ordered.append(calls[who][made[who]])
        made[who] += 1
    return ordered if len(ordered) == len(script) else None


def switches(lines):
    """How often another session comes next."""
    return sum(a.split(" ")[0] != b.split(" ")[0] for a, b in zip(lines, lines[1:]))


def judge(program, rng, folder):
    """What is wrong, if anything, and how often another session came next."""
    words = ["format", folder, "TAPE01", UUID, "--block", str(rng.choice([4096, 8192, 65536])), "--at", TIME]
    if rng.random() < 0.5:
        words += ["--ip-size", str(rng.choice([0, 100, 5000, 1000000]))]
        if rng.random() < 0.5:
            words += ["--ip-names", rng.choice(["*.txt", "*.txt/a", "?"])]
    status, told = run(program, words)
    if status:
        return f"format: {told}", 0
    whole, generation, switched = [], 1, 0
    for _ in range(rng.randint(1, 4)):
        sessions = rng.choice([1, 2, 4, 16])
        script = [f"{rng.randint(1, sessions)} {call(rng)}" for _ in range(rng.randint(0, 60))]
        status, told = run(program, ["serve", folder, "--at", TIME], "".join(line + "\n" for line in script))
        lines = told.splitlines()
        if status or not lines[-1].startswith("closed "):
            return f"serve: status {status}, {lines[-1:]}", switched
        ordered = in_order(script, lines[:-1])
        if ordered is None:
            return "the log isn't one of all calls", switched
        switched += switches(ordered)
        whole += ordered
        fault, full = compare(program, whole, ordered, replies(lines[:-1]))
        if fault or full:
            return fault, switched
        newest = int(lines[-1].split()[1])
        if newest < generation:
            return "the generation falls", switched
        generation = newest
    return judge_end(program, folder, whole, generation), switched


def compare(program, whole, ordered, got):
    """What differs from the plain tree in the last calls, and whether one found no space, behind which none is
    compared."""
    status, told = run(program, ["plain", "--at", TIME], "".join(line + "\n" for line in whole))
    if status:
        return f"plain: {told[-200:]}", False
    wanted = replies(told.splitlines()[:-1])[len(whole) - len(ordered):]
    for line, reply, want in zip(ordered, got, wanted):
        if reply.startswith("full "):
            return None, True
        if reply != want:
            return f"{line}: {reply[:80]} in place of {want[:80]}", False
    return None, False


def judge_end(program, folder, whole, generation):
    """What is wrong of the tree that is left, if anything."""
    status, told = run(program, ["list", folder])
    if status:
        return f"list: {told}"
    listed = told.splitlines()
    if not listed[-1].startswith(f"generation {generation} b "):
        return f"list ends with {listed[-1]}"
    # Every file is read whole by a script without changes, on the cartridge and on the plain tree.
    files = [line.split(" ") for line in listed[:-1] if line.startswith("f ")]
    reading = [f"1 read {name} 0 {min(int(size), 1048576)}" for _, _, size, name in files]
    reading += [f"1 stat {line.split(' ')[3 if line[0] == 'f' else 2]}" for line in listed[1:-1]]
    reading += [f"1 list {line.split(' ')[2]}" for line in listed[:-1] if line.startswith("d ")]
    paths = [line.split(" ")[3 if line[0] == "f" else 2] for line in listed[:-1]]
    reading += [f"1 getx {name} {key}" for name in paths[:MOST_ASKED] for key in KEYS]
    # A write of no bytes is refused where a file is read-only, and else changes nothing.
    reading += [f"1 write {name} 0 hex:" for _, _, _, name in files]
    text = "".join(line + "\n" for line in reading)
    status, served = run(program, ["serve", folder, "--at", TIME], text)
    behind, plain = run(program, ["plain", "--at", TIME], "".join(line + "\n" for line in whole) + text)
    if status or behind:
        return f"reading: {status} {behind}"
    if replies(served.splitlines()[:-1]) != replies(plain.splitlines()[len(whole) : -1]):
        return "files read otherwise than on the plain tree"
    if served.splitlines()[-1].split()[1] != str(generation):
        return "reading made a generation"
    return None


def main():
    words = argparse.ArgumentParser()
    words.add_argument("program")
    words.add_argument("--rounds", type=int, default=100)
    words.add_argument("--seed", type=int, default=1)
    asked = words.parse_args()
    wrong = switched = 0
    for n in range(asked.rounds):
        rng = random.Random(asked.seed * 1000003 + n)
        with tempfile.TemporaryDirectory() as folder:
            fault, count = judge(asked.program, rng, folder)
        switched += count
        if fault:
            wrong += 1
            print(f"round {n}: {fault}")
    print(f"{asked.rounds} rounds, {wrong} wrong, another session came next {switched} times")
    return 1 if wrong else 0


if __name__ == "__main__":
    sys.exit(main())
