#!/usr/bin/env python3
"""Compare the turn lock with a mutex, each around one list that threads append to.

usage: compare.py [ROUNDS] [TURNS] [BEFORE..]

Builds turns/ (its files end in .in, so that they are no part of the repository's crates) beside crates/turn_lock in a
folder of its own, proved as any program, and turns.rs with rustc. Runs both in turn with 1, 2, 4 and 16 threads, with
empty turns and with a hundredth of as many turns of 20,000 steps, some 40 microseconds. Checks that each list has all
entries, and prints what a turn took in the middle round of each, in microseconds by the clock and of the processors.
The words BEFORE stand before each program that is run, as `chrt -r 1`, so that other work takes no processor from it.
"""
import os
import shutil
import subprocess
import sys
import tempfile
from statistics import median

HERE = os.path.dirname(os.path.abspath(__file__))
ROOT = os.path.dirname(os.path.dirname(HERE))
THREADS = [1, 2, 4, 16]
LONG = 20_000


def build(folder):
    """The program over the turn lock and the one over a mutex."""
    shutil.copytree(os.path.join(ROOT, "crates", "turn_lock"), os.path.join(folder, "crates", "turn_lock"), ignore=shutil.ignore_patterns("out"))
    shutil.copy(os.path.join(ROOT, "HANDLES"), folder)
    program = os.path.join(folder, "crates", "turns")
    for where, _, names in os.walk(os.path.join(HERE, "turns")):
        made = os.path.join(program, os.path.relpath(where, os.path.join(HERE, "turns")))
        os.makedirs(made, exist_ok=True)
        for name in names:
            shutil.copy(os.path.join(where, name), os.path.join(made, name.removesuffix(".in")))
    with open(os.path.join(folder, "crates.txt"), "w") as out:
        out.write("turn_lock: atomic_table crossbeam_utils\nturns: turn_lock\n")
    subprocess.run(["rt", "run", "--", "1", "1", "1"], cwd=program, check=True, stdout=subprocess.DEVNULL)
    peer = os.path.join(folder, "peer")
    subprocess.run(["rustc", "-C", "opt-level=3", "-C", "target-cpu=native", "-o", peer, os.path.join(HERE, "turns.rs")], check=True)
    return os.path.join(program, "out", "turns"), peer


def measure(before, program, threads, turns, steps):
    """Microseconds a turn of one run: by the clock, and of the processors."""
    with subprocess.Popen([*before, program, str(threads), str(turns), str(steps)], stdout=subprocess.PIPE, text=True) as run:
        entries, nanos = map(int, run.stdout.read().split())
        _, status, usage = os.wait4(run.pid, 0)
        run.returncode = status
    assert status == 0 and entries == turns // threads * threads, f"{program}: {entries} entries of {turns}"
    return nanos / 1e3 / entries, (usage.ru_utime + usage.ru_stime) * 1e6 / entries


def middle(rounds):
    """The middle one of each figure."""
    return " ".join(f"{median(figures):9.3f}" for figures in zip(*rounds))


def compare(before, programs, rounds, turns):
    """A line for each kind of turn and number of threads: clock and processors of each program."""
    for steps in [0, LONG]:
        for threads in THREADS:
            runs = {name: [] for name in programs}
            for _ in range(rounds):
                for name, program in programs.items():
                    runs[name].append(measure(before, program, threads, turns if steps == 0 else turns // 100, steps))
            print(f"{steps:6} steps {threads:3} threads   " + "   ".join(f"{name} {middle(runs[name])}" for name in programs), flush=True)


def main():
    rounds = int(sys.argv[1]) if len(sys.argv) > 1 else 9
    turns = int(sys.argv[2]) if len(sys.argv) > 2 else 400_000
    with tempfile.TemporaryDirectory() as folder:
        subprocess.run(["git", "init", "-q", folder], check=True)
        ours, peer = build(folder)
        compare(sys.argv[3:], {"turn lock": ours, "mutex": peer}, rounds, turns)


if __name__ == "__main__":
    main()
