#!/usr/bin/env python3
"""Times `index_tool check`, and `read_index` alone, beside programs that read the same document, all in turn.

    compare.py TOOL TIMING DOCUMENT [ROUNDS] -- PROGRAM [WORDS..] [-- PROGRAM [WORDS..]]..

Each program gets the document's path and a 1 as its last words, and prints lines of an engine, a job, a time in ms by
the clock and more. Of the tool the whole run is timed, from its start to its end: the least time by the clock, as for
the others, the least processor time (user and system), and the most memory. TIMING is the program `index_timing`. It
reads the document into memory and then calls `read_index`: once, which it times by the clock itself, as the others do,
and in a second run MORE times more. The difference of the least processor times of both, by the call, is the last line.
"""
import os
import resource
import subprocess
import sys
import time

MORE = 3


def run_on(words, document):
    """What is printed, and the times by the clock and of the processor, in ms."""
    before = resource.getrusage(resource.RUSAGE_CHILDREN)
    start = time.monotonic()
    with open(document, "rb") as source:
        done = subprocess.run(words, stdin=source, stdout=subprocess.PIPE)
    clock = time.monotonic() - start
    after = resource.getrusage(resource.RUSAGE_CHILDREN)
    processor = after.ru_utime + after.ru_stime - before.ru_utime - before.ru_stime
    return done.stdout.decode(), 1000 * clock, 1000 * processor


def tool_said(tool, document):
    """What the tool says, and the most memory that it takes, in MiB."""
    with open(document, "rb") as source:
        done = subprocess.run(["/usr/bin/time", "-f", "%M", tool, "check"], stdin=source, capture_output=True)
    return done.stdout.decode().strip(), int(done.stderr.split()[-1]) / 1024


def tool_times(tool, document):
    _, clock, processor = run_on([tool, "check"], document)
    return [("index_tool check", clock), ("its processor time", processor)]


def reading_times(timing, document):
    """A call of `read_index` by its own clock, and the processor time of a run with one and of a run with more."""
    printed, _, once = run_on([timing, "1", "clock"], document)
    _, _, often = run_on([timing, str(1 + MORE), "clock"], document)
    parts = printed.split()
    return [("read_index", int(parts[parts.index("us") - 1]) / 1000), ("once", once), ("often", often)]


def peer_times(words, document):
    printed = subprocess.run(words + [document, "1"], capture_output=True).stdout.decode()
    for line in printed.splitlines():
        parts = line.split()
        if "ms" in parts and "build" in parts:
            yield " ".join(parts[:2]), float(parts[parts.index("ms") - 1])


def groups_of(words):
    groups, group = [], []
    for word in words + ["--"]:
        if word == "--":
            groups.append(group)
            group = []
        else:
            group.append(word)
    return groups


def main():
    groups = groups_of(sys.argv[1:])
    tool, timing, document = groups[0][:3]
    best = {}
    for _ in range(int((groups[0] + ["9"])[3])):
        found = tool_times(tool, document) + reading_times(timing, document)
        for peer in groups[1:]:
            found += peer_times(peer, document)
        for name, milliseconds in found:
            best[name] = min(best.get(name, milliseconds), milliseconds)
    best["read_index, by runs"] = (best.pop("often") - best.pop("once")) / MORE
    said, memory = tool_said(tool, document)
    size = os.path.getsize(document)
    print(f"{document}: {size} bytes, {said}, {memory:.0f} MiB, {memory * (1 << 20) / size:.2f} times the document")
    for name, milliseconds in best.items():
        print(f"{name:20} {milliseconds:7.0f} ms {size / milliseconds / 1000:7.0f} MB/s")


if __name__ == "__main__":
    main()
