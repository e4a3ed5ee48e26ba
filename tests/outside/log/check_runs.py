#!/usr/bin/env python3
"""Judge many logs by the rules alone, as check_log.py does.

usage: check_runs.py < RUNS

A run stands between the lines `# script`, `# log` and `# end`: the script, and the log as check_log.py reads it. All
lines may have four spaces in front, as a run of the tests prints them.
"""
import sys

from check_log import judge


def runs(text):
    text = "".join((line[4:] if line.startswith("    ") else line) + "\n" for line in text.split("\n"))
    for piece in text.split("# script\n")[1:]:
        script, _, rest = piece.partition("# log\n")
        log, _, _ = rest.partition("# end")
        yield script, log


def main():
    count = calls = events = wrong = 0
    for script, log in runs(sys.stdin.read()):
        count += 1
        calls += log.count("\ncall ")
        events += sum(not line.startswith(("call", "ack")) for line in log.splitlines()[2:])
        found = judge(script, log)
        if found:
            wrong += 1
            print(f"run {count}: {found}")
            if wrong == 1:
                print(script + log)
    print(f"{count} logs of {calls} calls and {events} events, {wrong} wrong")
    return 1 if wrong or not count else 0


if __name__ == "__main__":
    sys.exit(main())
