#!/usr/bin/env python3
"""Compare the program with a straightforward one in Rust, script by script.

usage: compare.py OURS PEER [ROUNDS]

Writes six scripts, runs both programs on each in turn, compares what they print, and prints the least processor time
and the most memory of each. OURS is the program's binary, PEER is plain.rs built with rustc.
"""
import hashlib
import os
import subprocess
import sys
import tempfile

TIME = "2024-01-02T03:04:05.000000000Z"
SHAPES = [["hex"], ["big"], ["small"], ["read"], ["keys"], ["make", "1024"]]


def cost(command, script):
    """Processor time in milliseconds and memory in mebibytes of one run."""
    with open(script) as source, open(os.devnull, "w") as sink:
        process = subprocess.Popen(command, stdin=source, stdout=sink)
        _, _, used = os.wait4(process.pid, 0)
        process.returncode = 0
    return (used.ru_utime + used.ru_stime) * 1000, used.ru_maxrss / 1024


def printed(command, script):
    """A digest of what one run prints."""
    digest = hashlib.sha256()
    with open(script) as source, subprocess.Popen(command, stdin=source, stdout=subprocess.PIPE) as process:
        while piece := process.stdout.read(1 << 20):
            digest.update(piece)
    return digest.digest()


def main():
    ours = [os.path.abspath(sys.argv[1]), "plain", "--at", TIME]
    peer = [os.path.abspath(sys.argv[2]), TIME]
    rounds = int(sys.argv[3]) if len(sys.argv) > 3 else 9
    here = os.path.dirname(os.path.abspath(__file__))
    with tempfile.TemporaryDirectory() as folder:
        for shape in SHAPES:
            script = os.path.join(folder, shape[0])
            with open(script, "w") as out:
                subprocess.run([sys.executable, os.path.join(here, "gen_script.py"), *shape], stdout=out, check=True)
            same = printed(ours, script) == printed(peer, script)
            costs = [(cost(ours, script), cost(peer, script)) for _ in range(rounds)]
            mine, its = min(c[0] for c in costs), min(c[1] for c in costs)
            print(
                f"{shape[0]:6} ours {mine[0]:4.0f} ms {mine[1]:4.0f} MiB   peer {its[0]:4.0f} ms {its[1]:4.0f} MiB   "
                f"ratio {mine[0] / its[0]:.2f}   output {'the same' if same else 'DIFFERS'}"
            )


main()
