#!/usr/bin/env python3
"""Runs programs on standard streams that are pipes which don't block, with a slow other end on each side.

usage: slow_streams.py SERVER INDEX_TOOL

What is printed has to be the same as over usual pipes, and the status too: a read that finds nothing yet is tried
again, and so is a write that finds no room.
"""
import contextlib
import os
import pathlib
import subprocess
import sys
import threading
import time

HERE = pathlib.Path(__file__).resolve().parent
# More than a pipe holds, so that each write of it finds no room at some time.
SCRIPT = "1 create /f\n1 write /f 0 fill:61:65536\n" + "1 read /f 0 65536\n" * 8
NODES = 2_000
PIECES, PAUSE = 12, 0.02


def feed(end, text):
    """Writes a text to a pipe by pieces, with a pause in front of each."""
    with contextlib.suppress(BrokenPipeError), os.fdopen(end, "wb", buffering=0) as out:
        for at in range(PIECES):
            time.sleep(PAUSE)
            out.write(text[at * len(text) // PIECES:(at + 1) * len(text) // PIECES])


def run_slowly(words, text):
    """Runs a program between two pipes that don't block, and returns its status and what it prints."""
    (theirs, ours), (read_end, write_end) = os.pipe(), os.pipe()
    for end in (theirs, write_end):
        os.set_blocking(end, False)
    process = subprocess.Popen(words, stdin=theirs, stdout=write_end, stderr=subprocess.DEVNULL)
    os.close(theirs)
    os.close(write_end)
    threading.Thread(target=feed, args=(ours, text)).start()
    printed = b""
    with os.fdopen(read_end, "rb", buffering=0) as source:
        while piece := source.read(65_536):
            printed += piece
            time.sleep(PAUSE)
    return process.wait(timeout=600), printed


def main():
    server, tool = map(os.path.abspath, sys.argv[1:3])
    document = subprocess.run([sys.executable, str(HERE / "index_text.py"), str(NODES)], stdout=subprocess.PIPE,
                              check=True).stdout
    wrong = 0
    for words, text in (([server, "plain"], SCRIPT.encode()), ([tool, "canon"], document)):
        usual = subprocess.run(words, input=text, stdout=subprocess.PIPE, stderr=subprocess.DEVNULL)
        status, printed = run_slowly(words, text)
        if (status, printed) != (0, usual.stdout):
            wrong += 1
            print(f"{words[-1]}: status {status} in place of {usual.returncode}, {len(printed)} bytes in place of "
                  f"{len(usual.stdout)}, which ends with {printed[-80:]}")
    print(f"{wrong} wrong")
    return 1 if wrong else 0


if __name__ == "__main__":
    sys.exit(main())
