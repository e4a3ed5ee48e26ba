#!/usr/bin/env python3
"""Compares the processor time of `serve` over a folder with that of a plain program that appends to a file.

usage: speed_serve.py PROGRAM PEER [--rounds N]

PEER is bench/plain.rs. Each script is run on a volume that was just formatted, with blocks of 4,096 bytes, and by the
peer, in turn; the least of all rounds is printed, user and system. `serve` runs the sessions in threads and the peer runs
them line by line, so replies are compared session by session: each session has a file of its own.
"""
import argparse
import os
import subprocess
import tempfile

TIME = "2024-01-02T03:04:05.000000000Z"
UUID = "30a91a08-daae-48d1-ae75-69804e61d2ea"


def files(calls, sessions, every):
    """Writes of 4,096 bytes at the end of a file for each session, with a sync of each after so many."""
    lines = [f"{who} create /s{who}" for who in range(1, sessions + 1)]
    for n in range((calls - sessions) // sessions):
        for who in range(1, sessions + 1):
            if every and n % every == every - 1:
                lines.append(f"{who} sync")
            else:
                lines.append(f"{who} write /s{who} {n * 4096} fill:{n % 256:02x}:4096")
    return lines


def reading(calls, sessions):
    """As many reads of what was written before a sync as there were writes. Each session reads its own file."""
    half = files(calls // 2, sessions, 0) + [f"{who} sync" for who in range(1, sessions + 1)]
    return half + [
        f"{who} read /s{who} {n * 4096} 4096"
        for n in range((calls // 2 - sessions) // sessions)
        for who in range(1, sessions + 1)
    ]


SCRIPTS = {
    "writes": files(10_000, 16, 0),
    "syncs": files(10_000, 16, 64),
    "reads": reading(10_000, 16),
    "small": files(1_250, 2, 0),
}


def by_session(log):
    """The replies of a log without its last line, each with its session and number."""
    return sorted(line.split(b" ", 2)[1:] for line in log.splitlines()[:-1])


def seconds(words, text, cwd):
    before = os.times()
    done = subprocess.run(words, input=text, capture_output=True, cwd=cwd, check=True)
    after = os.times()
    return (after.children_user + after.children_system) - (before.children_user + before.children_system), done.stdout


def main():
    words = argparse.ArgumentParser()
    words.add_argument("program")
    words.add_argument("peer")
    words.add_argument("--rounds", type=int, default=9)
    asked = words.parse_args()
    ours, peer = os.path.abspath(asked.program), os.path.abspath(asked.peer)
    for name, lines in SCRIPTS.items():
        text = "".join(line + "\n" for line in lines).encode()
        least = [9e9, 9e9]
        for _ in range(asked.rounds):
            with tempfile.TemporaryDirectory() as folder:
                tape = f"{folder}/tape"
                os.mkdir(tape)
                subprocess.run([ours, "format", tape, "TAPE01", UUID, "--block", "4096", "--at", TIME], check=True,
                               stdout=subprocess.DEVNULL)
                served = seconds([ours, "serve", tape, "--at", TIME], text, folder)
                plain = seconds([peer, TIME, "append", f"{folder}/journal"], text, folder)
            least = [min(least[0], served[0]), min(least[1], plain[0])]
            if by_session(served[1]) != by_session(plain[1]):
                print(f"{name}: the logs differ")
                break
        print(f"{name}: {len(lines)} calls, ours {least[0] * 1000:.0f} ms, plain {least[1] * 1000:.0f} ms, "
              f"{least[0] / max(least[1], 1e-9):.2f}")


if __name__ == "__main__":
    main()
