#!/usr/bin/env python3
"""Compare the tree with a plain one in Rust.

usage: compare_tree.py OURS PEER [RUNS [SHAPE...]]

OURS is `tree_speed`, PEER is tree.rs built with rustc. Each run does a thing in many rounds, in which the calls alone
are timed, and tells the least time of a round by the clock. Both run in turn. Of each program the least of all its runs
counts, and the ratios of the runs that belong together are told beside, the lowest and the highest. What both print has
to be the same.
"""
import os
import subprocess
import sys

SIZES = [1000, 16384, 65536]
SHAPES = ["wide", "rising", "deep", "mixed"]
CALLS = ["make", "find", "rename", "remove"]
INDEX_SHAPES = ["wide", "deep", "mixed", "chain"]


def run(program, shape, nodes, rounds, what):
    """What a run prints, its least time of a round in microseconds, and its memory in KiB."""
    words = [program, shape, str(nodes), str(rounds), what, "clock"]
    with subprocess.Popen(words, stdout=subprocess.PIPE, text=True) as process:
        printed, least = process.stdout.read().splitlines()
        _, _, used = os.wait4(process.pid, 0)
        process.returncode = 0
    return printed, int(least.split()[0]), used.ru_maxrss


def rounds_of(shape, nodes):
    if shape == "deep":
        return max(2, 20_000 // nodes)
    return max(6, 400_000 // nodes)


def compare(programs, shape, nodes, what, runs):
    """Measures a thing in both programs, and tells how they compare."""
    times = [[], []]
    for _ in range(runs):
        said = set()
        for program, taken in zip(programs, times):
            printed, least, _ = run(program, shape, nodes, rounds_of(shape, nodes), what)
            said.add(printed)
            taken.append(max(1, least))
        if len(said) != 1:
            print(f"{shape} {nodes} {what}: they differ: {said}")
    ours, peer = min(times[0]), min(times[1])
    ratios = [a / b for a, b in zip(*times)]
    print(f"| {shape} | {nodes:,} | {what} | {ours / 1000:.2f} | {peer / 1000:.2f} | {ours / peer:.2f} "
          f"| {min(ratios):.2f} to {max(ratios):.2f} |", flush=True)


def memory(program, shape):
    """The bytes of memory that a node takes."""
    most, least = (run(program, shape, nodes, 1, "make")[2] for nodes in (65536, 2))
    return (most - least) * 1024 / 65536


def main():
    programs = [os.path.abspath(sys.argv[1]), os.path.abspath(sys.argv[2])]
    runs = int(sys.argv[3]) if len(sys.argv) > 3 else 5
    shapes = sys.argv[4:] or SHAPES
    for shape in shapes:
        for nodes in SIZES:
            for what in CALLS:
                compare(programs, shape, nodes, what, runs)
    for shape in sys.argv[4:] or INDEX_SHAPES:
        for what in ["mount", "tell"]:
            compare(programs, shape, 65536, what, runs)
    for shape in ["wide", "mixed"]:
        ours, peer = (memory(program, shape) for program in programs)
        print(f"| {shape} | 65,536 | bytes a node | {ours:.0f} | {peer:.0f} | {ours / peer:.2f} | |")


if __name__ == "__main__":
    main()
