#!/usr/bin/env python3
"""Runs each command over a folder of a file system that is only read, and has no syncs, as squashfs and iso9660.

usage: read_only_folders.py PROGRAM FAILING.SO

FAILING.SO is built from failing.c, and stands in for such a system: no file of the folder is opened to be written, and
no sync is done. Commands that only read, and a serving that does, end and print as they do over a folder that can be
written. All others end with a fault of the drive, and so does a serving that was reading before it writes. No byte
changes.
"""
import os
import pathlib
import re
import subprocess
import sys
import tempfile

TIME = "2024-01-02T03:04:05.000000000Z"
UUID = "30a91a08-daae-48d1-ae75-69804e61d2ea"
WRITTEN = "1 create /f\n1 write /f 0 text:abc\n1 setx /f user.note text:hi\n1 sync\n1 mkdir /d\n"
READS = "1 read /f 0 3\n2 stat /f\n2 getx /f user.note\n"
READING = {"label": "", "list": "", "generations": "", "view": "", "serve": READS}
WRITING = {"serve": READS + "1 create /g\n1 sync\n", "make": "", "format": ""}
MORE = {"view": ["2"], "serve": ["--at", TIME], "make": ["1", "--at", TIME],
        "format": ["TAPE01", UUID, "--block", "4096", "--at", TIME]}
FAULT = re.compile(r"drive (\d+) (\d+)\n")
BLANK = (3, "volume Vol1 ip\n")


def files_of(folder):
    return {path.name: path.read_bytes() for path in folder.iterdir()}


class Trial:
    def __init__(self, program, library, where):
        self.program, self.library, self.wrong, self.tried = program, library, 0, 0
        self.empty, self.folder = where / "empty", where / "tape"
        for folder in (self.empty, self.folder):
            folder.mkdir()
        self.expect("the format", 0, self.run("format", self.folder)[0])
        self.expect("the serving that writes", 0, self.run("serve", self.folder, WRITTEN)[0])

    def run(self, command, folder, script="", is_reader=False):
        env = {"PATH": os.environ["PATH"]}
        if is_reader:
            env.update(LD_PRELOAD=self.library, FOLDER=str(folder), READER="1")
        words = [self.program, command, str(folder), *MORE.get(command, [])]
        done = subprocess.run(words, input=script, capture_output=True, text=True, timeout=60, env=env)
        return done.returncode, done.stdout

    def expect(self, what, wanted, came):
        self.tried += 1
        if wanted != came:
            self.wrong += 1
            print(f"{what}: wanted {wanted}, came {came}")

    def reads(self):
        for command, script in READING.items():
            usual = self.run(command, self.folder, script)
            self.expect(f"{command}, where all can be written", 0, usual[0])
            self.expect(command, usual, self.run(command, self.folder, script, True))
        self.expect("label of a blank folder", BLANK, self.run("label", self.empty, "", True))

    def writes(self):
        for command, script in WRITING.items():
            self.faults(command, self.folder, script)
        self.faults("format", self.empty, "")

    def faults(self, command, folder, script):
        status, said = self.run(command, folder, script, True)
        fault = FAULT.search(said)
        self.expect(f"{command} that writes", (4, True), (status, bool(fault and int(fault[1]) < int(fault[2]))))
        self.expect(f"syncs of {command}", 0, said.count(" synced"))


def main():
    with tempfile.TemporaryDirectory() as where:
        trial = Trial(os.path.abspath(sys.argv[1]), os.path.abspath(sys.argv[2]), pathlib.Path(where))
        before = files_of(trial.folder)
        trial.reads()
        trial.writes()
        trial.expect("the folder", before, files_of(trial.folder))
        trial.expect("the blank folder", {}, files_of(trial.empty))
        print(f"{trial.tried} looked at, {trial.wrong} wrong")
    return 1 if trial.wrong else 0


if __name__ == "__main__":
    sys.exit(main())
