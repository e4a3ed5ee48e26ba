#!/usr/bin/env python3
"""Times `make`, eight sessions in threads, on one, two and more processors, beside the same calls in one session.

usage: speed_make.py PROGRAM [--count N] [--rounds N]

Each run is on a volume in a folder that was just formatted, with blocks of 4,096 bytes. Of all rounds the least is printed:
time by the clock, processor time (user and system), and the most memory. `serve` runs the calls of `make 128` as those of
one session, which may have 1,024; each session's calls keep their order. So it does 1,024 calls of 16 sessions: those of
`make 64`, and the same once more in other folders.
"""
import argparse
import os
import subprocess
import tempfile
import time

from gen_script import make_shape

TIME = "2024-01-02T03:04:05.000000000Z"
UUID = "30a91a08-daae-48d1-ae75-69804e61d2ea"


def dealt(calls, sessions):
    """The script in which the calls of several sessions are one's where fewer are told."""
    return "".join(f"{(int(who) - 1) % sessions + 1} {call}\n" for who, call in calls).encode()


def eight():
    """The calls of `make 128`."""
    return [line.split(" ", 1) for line in make_shape(128)]


def sixteen():
    """The calls of `make 64`, and beside each the same of another session in a folder of its own."""
    calls = [line.split(" ", 1) for line in make_shape(64)]
    return [both for who, call in calls for both in ((who, call), (str(int(who) + 8), call.replace("/s", "/t")))]


def run(words, text):
    """Time by the clock, processor time, memory in MiB, and what is printed."""
    begun = time.monotonic()
    with tempfile.TemporaryFile() as given, tempfile.TemporaryFile() as told:
        given.write(text)
        given.seek(0)
        child = subprocess.Popen(words, stdin=given, stdout=told)
        _, status, used = os.wait4(child.pid, 0)
        wall = time.monotonic() - begun
        child.returncode = os.waitstatus_to_exitcode(status)
        told.seek(0)
        if child.returncode:
            raise SystemExit(f"{words}: status {child.returncode}, {told.read()[-200:]}")
        return (wall, used.ru_utime + used.ru_stime, used.ru_maxrss / 1024), told.read()


def measure(program, words, text, processors, rounds):
    """The least of all rounds, each on a fresh volume, and the last line that is printed."""
    least, last = (9e9, 9e9, 9e9), set()
    for _ in range(rounds):
        with tempfile.TemporaryDirectory() as folder:
            subprocess.run([program, "format", folder, "TAPE01", UUID, "--block", "4096", "--at", TIME], check=True,
                           stdout=subprocess.DEVNULL)
            pinned = ["taskset", "-c", f"0-{processors - 1}", program, words[0], folder, *words[1:], "--at", TIME]
            took, told = run(pinned, text)
        least = tuple(map(min, least, took))
        last.add(told.splitlines()[-1].decode())
    return least, last


def main():
    words = argparse.ArgumentParser()
    words.add_argument("program")
    words.add_argument("--count", type=int, default=1024)
    words.add_argument("--rounds", type=int, default=5)
    asked = words.parse_args()
    program = os.path.abspath(asked.program)
    rows = [(f"make {asked.count}", ["make", str(asked.count)], b"")]
    rows.append(("make 128", ["make", "128"], b""))
    rows += [(f"serve, calls of 8 sessions by {n}", ["serve"], dealt(eight(), n)) for n in (8, 1)]
    rows += [(f"serve, calls of 16 sessions by {n}", ["serve"], dealt(sixteen(), n)) for n in (16, 1)]
    have = os.cpu_count() or 1
    for name, command, text in rows:
        for processors in [n for n in (1, 2, 4, 8) if n <= have]:
            (wall, used, memory), last = measure(program, command, text, processors, asked.rounds)
            lines = "; " + " or ".join(sorted(last)) if command[0] == "make" else ""
            print(f"{name}, {processors} processors: {wall * 1000:.0f} ms by the clock, {used * 1000:.0f} ms of processor "
                  f"time, {memory:.0f} MiB{lines}", flush=True)


if __name__ == "__main__":
    main()
