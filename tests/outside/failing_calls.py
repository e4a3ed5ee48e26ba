#!/usr/bin/env python3
"""Lets each call on the files of a folder fail in turn, or kills the program in front of it; looks at what is left.

usage: failing_calls.py PROGRAM FAILING.SO [--each]

FAILING.SO is built from failing.c. Three runs are tried over a folder of their own: `format` of an empty one, a `serve`
of two files with a sync behind each, and `list`. A run with no failure tells how many calls there are. Then, for each
call,

- it fails: the run ends with 0 or with `drive BEFORE AFTER` and 4, and what was told as synchronised is found;
- it is interrupted, but for a question for a length, or does half of its bytes: the run ends as if nothing had been;
- the program is killed in front of it: `list` tells the files up to some sync.

Afterwards the folder is formatted anew, or the volume is served without a call, and both succeed. `list` leaves the
folder as it was, byte by byte.

Of a `plain` and a `serve` each read of standard input and each write to standard output fails in turn, which ends with
`source 0 1` and 5, or with 6; is interrupted; is told to try again; or does half of its bytes. Of the last three
nothing is seen.
"""
import argparse
import collections
import os
import pathlib
import re
import shutil
import subprocess
import sys
import tempfile

TIME = "2024-01-02T03:04:05.000000000Z"
UUID = "30a91a08-daae-48d1-ae75-69804e61d2ea"
SCRIPT = "".join(f"1 create /{name}\n1 write /{name} 0 fill:61:5000\n1 sync\n" for name in "fg")
# What `plain` reads and prints in more than one call.
LONG_SCRIPT = "1 create /f\n" + "".join(f"1 write /f {at} text:{'b' * 60_000}\n" for at in range(5)) + "1 read /f 0 9\n"
FAULT = re.compile(r"drive (\d+) (\d+)")
HOWS = ("fail", "interrupt", "short", "kill")
STREAM_HOWS = ("fail", "interrupt", "again", "short")
KILLED = -9


def files_of(folder):
    return {path.name: path.read_bytes() for path in folder.iterdir()}


class Trial:
    def __init__(self, program, library, where):
        self.program, self.library = program, library
        self.folder, self.formatted, self.told = where / "tape", where / "formatted", where / "told"
        self.formatted.mkdir()
        self.run(self.words("format", self.formatted))

    def words(self, command, folder=None):
        if command == "plain":
            return [command, "--at", TIME]
        more = {"format": ["TAPE01", UUID, "--block", "4096", "--at", TIME], "serve": ["--at", TIME], "list": []}
        return [command, str(folder or self.folder), *more[command]]

    def run(self, words, text="", call=None, how="fail", of_streams=False):
        env = {}
        if call is not None:
            env = {"LD_PRELOAD": self.library, "CALL": str(call), "HOW": how, "TOLD": str(self.told)}
        if call is not None and not of_streams:
            env["FOLDER"] = str(self.folder)
        with tempfile.TemporaryFile("w+") as script:
            script.write(text)
            script.seek(0)
            done = subprocess.run([self.program, *words], stdin=script, stdout=subprocess.PIPE, stderr=subprocess.PIPE,
                                  text=True, timeout=60, env={"PATH": os.environ["PATH"], **env})
        return done.returncode, done.stdout.splitlines()

    def start(self, command, call, how, of_streams=False):
        """Runs a command over a folder as it stands before, with a call that does not as it should."""
        shutil.rmtree(self.folder, ignore_errors=True)
        if command == "format":
            self.folder.mkdir()
        else:
            shutil.copytree(self.formatted, self.folder)
        self.told.unlink(missing_ok=True)
        text = {"serve": SCRIPT, "plain": LONG_SCRIPT}.get(command, "")
        return self.run(self.words(command), text, call, how, of_streams)

    def left_files(self, acknowledged):
        """What is wrong with the files that are left, if anything, where so many syncs were acknowledged."""
        status, lines = self.run(self.words("list"))
        if status:
            return f"list ends with {status}: {lines}"
        files = {words[3]: int(words[2]) for words in (line.split(" ") for line in lines) if words[0] == "f"}
        for nth, name in enumerate(("/f", "/g")):
            length = files.pop(name, None)
            if length not in (None, 0, 5000) or (nth < acknowledged and length != 5000):
                return f"{name} has {length} bytes, and {acknowledged} syncs were acknowledged"
        status, closed = self.run(self.words("serve"))
        if files or status:
            return f"files {files}, and the close: {closed}"
        if self.run(self.words("list"))[1][:-1] != lines[:-1]:
            return "closing it again changes the tree"
        return None

    def wrong_end(self, how, status, lines, usual):
        """What is wrong with how a run ended, if anything."""
        if how == "kill":
            return None if status == KILLED else f"it ends with {status}"
        if how in ("interrupt", "short"):
            return None if (status, lines) == (0, usual) else f"it ends with {status}: {lines[-1:]}"
        if status == 4:
            fault = FAULT.fullmatch(lines[-1]) if lines else None
            return None if fault and int(fault[1]) < int(fault[2]) else f"no fault: {lines[-1:]}"
        return None if status == 0 else f"it ends with {status}: {lines[-1:]}"

    def wrong_rest(self, command, lines):
        """What is wrong with what a run has left, if anything."""
        if command == "list":
            return None if files_of(self.folder) == files_of(self.formatted) else "the folder has changed"
        if command == "serve":
            return self.left_files(sum(line.endswith(" synced") for line in lines))
        status, said = self.run(self.words("format"))
        return None if status == 0 and self.run(self.words("list"))[0] == 0 else f"it can't be formatted: {said}"


def try_streams(trial, command):
    """Returns how many runs of a command end wrong whose standard streams do not as they should."""
    usual = trial.start(command, 0, "fail", True)
    calls, wrong = trial.told.read_text(), 0
    print(f"{command}: {len(calls)} calls on standard streams: {calls}")
    for how in STREAM_HOWS:
        for call, letter in enumerate(calls, 1):
            wanted, came = usual, trial.start(command, call, how, True)
            if how == "fail":
                wanted = (5, ["source 0 1"]) if letter == "i" else (6, usual[1][:calls[: call - 1].count("p")])
            if came != wanted:
                wrong += 1
                print(f"{command}, {how} in call {call} ({letter}): it ends with {came[0]}: {came[1][-1:]}")
    return wrong + (usual[0] != 0 or not {"i", "p"} <= set(calls))


def main():
    words = argparse.ArgumentParser()
    words.add_argument("program")
    words.add_argument("library")
    words.add_argument("--each", action="store_true", help="print how each run ends")
    asked = words.parse_args()
    wrong = 0
    with tempfile.TemporaryDirectory() as where:
        trial = Trial(asked.program, os.path.abspath(asked.library), pathlib.Path(where))
        for command in ("format", "serve", "list"):
            status, usual = trial.start(command, 0, "fail")
            calls = trial.told.read_text()
            print(f"{command}: {len(calls)} calls: {calls}")
            wrong += status != 0
            for how in HOWS:
                ends = collections.Counter()
                for call in (k for k, letter in enumerate(calls, 1) if how != "interrupt" or letter != "l"):
                    status, lines = trial.start(command, call, how)
                    fault = trial.wrong_end(how, status, lines, usual) or trial.wrong_rest(command, lines)
                    ends[status] += 1
                    if fault or asked.each:
                        wrong += bool(fault)
                        print(f"{command}, {how} in call {call} ({calls[call - 1]}), {status}: {fault}")
                print(f"{command}, {how}: {dict(ends)}")
        wrong += sum(try_streams(trial, command) for command in ("plain", "serve"))
    print(f"{wrong} wrong")
    return 1 if wrong else 0


if __name__ == "__main__":
    sys.exit(main())
