#!/usr/bin/env python3
"""Compare a mount and a listing with a plain program that reads the same files once.

usage: compare_mount.py READ_ONCE FOLDER ROUNDS PROGRAM..

READ_ONCE is read_once.rs built with rustc, FOLDER has a cartridge, and each PROGRAM is `mount_timing` or `ltfs_server`,
which lists. All run in turn, so many rounds. Tells of each the least time by the clock and of the processor (user and
system) with their ratios to READ_ONCE, and the most memory.
"""
import os
import subprocess
import sys
import time


def command(program, folder):
    """What is run of a program, by its name."""
    words = ["list"] if "ltfs_server" in os.path.basename(program) else []
    return [os.path.abspath(program), *words, folder]


def run(words):
    """Milliseconds by the clock and of the processor, and megabytes, of one run."""
    begun = time.monotonic()
    process = subprocess.Popen(words, stdin=subprocess.DEVNULL, stdout=subprocess.DEVNULL)
    _, status, used = os.wait4(process.pid, 0)
    process.returncode = status
    if status != 0:
        sys.exit(f"{words} ended with {status}")
    return (time.monotonic() - begun) * 1000, (used.ru_utime + used.ru_stime) * 1000, used.ru_maxrss * 1024 / 1e6


def main():
    peer, folder, rounds = sys.argv[1], sys.argv[2], int(sys.argv[3])
    commands = [command(program, folder) for program in [peer, *sys.argv[4:]]]
    runs = [[] for _ in commands]
    for _ in range(rounds):
        for words, costs in zip(commands, runs):
            costs.append(run(words))
    base = [min(cost[k] for cost in runs[0]) for k in range(2)]
    for words, costs in zip(commands, runs):
        clock, spent = (min(cost[k] for cost in costs) for k in range(2))
        print(
            f"{os.path.basename(words[0]):14} clock {clock:5.0f} ms, {clock / base[0]:.2f}   "
            f"processor {spent:5.0f} ms, {spent / base[1]:.2f}   memory {max(cost[2] for cost in costs):4.0f} MB"
        )


main()
