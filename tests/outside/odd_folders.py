#!/usr/bin/env python3
"""Runs each command over folders that hold no cartridge as it should be, and looks that nothing is written.

usage: odd_folders.py PROGRAM

Folders that are missing, that are files, that another program has claimed, or that can't be written; files that are no
regular ones, or were removed since the last run; headers and records that are damaged. Then a cartridge is formatted
and served with standard streams that are closed, whose numbers the system gives to the next file that is opened.
"""
import fcntl
import itertools
import os
import pathlib
import shutil
import subprocess
import sys
import tempfile

TIME = "2024-01-02T03:04:05.000000000Z"
UUID = "30a91a08-daae-48d1-ae75-69804e61d2ea"
NOBODY = 65534
FAULT = (4, "drive 0 1\n")
BLANK = (3, "volume Vol1 ip\n")
COMMANDS = {
    "label": [], "list": [], "generations": [], "view": ["1"], "serve": ["--at", TIME], "make": ["1", "--at", TIME],
    "format": ["TAPE01", UUID, "--block", "4096", "--at", TIME],
}


def files_of(folder):
    """What each file of a folder is, and what it holds where it is a regular one."""
    return {path.name: path.read_bytes() if path.is_file() and not path.is_symlink() else str(path.lstat().st_mode)
            for path in folder.iterdir()} if folder.exists() else None


def changed(text, at, new):
    return text[:at] + new + text[at + len(new):]


class Trial:
    def __init__(self, program, where):
        self.program, self.where, self.wrong, self.tried = program, where, 0, 0
        self.right = where / "right"
        self.right.mkdir()
        self.run("format", self.right)
        subprocess.run([program, "serve", str(self.right), "--at", TIME], input="1 create /f\n1 write /f 0 text:abc\n",
                       text=True, stdout=subprocess.DEVNULL, check=True)

    def run(self, command, folder, wrapper=(), **how):
        words = [*wrapper, self.program, command, str(folder), *COMMANDS[command]]
        done = subprocess.run(words, stdin=subprocess.DEVNULL, capture_output=True, text=True, timeout=60, **how)
        return done.returncode, done.stdout

    def expect(self, what, wanted, came):
        self.tried += 1
        if wanted != came:
            self.wrong += 1
            print(f"{what}: wanted {wanted}, came {came}")

    def refuses(self, what, folder, commands=COMMANDS):
        """Each command ends with a fault of the drive, and the folder stays as it was."""
        before = files_of(folder)
        for command in commands:
            self.expect(f"{command} where {what}", FAULT, self.run(command, folder))
        self.expect(f"the folder where {what}", before, files_of(folder))

    def fresh(self):
        """A copy of the cartridge."""
        folder = self.where / "used"
        shutil.rmtree(folder, ignore_errors=True)
        shutil.copytree(self.right, folder)
        return folder

    def claimed(self):
        folder = self.fresh()
        held = os.open(folder, os.O_RDONLY)
        fcntl.flock(held, fcntl.LOCK_EX)
        self.refuses("another program has it", folder)
        fcntl.flock(held, fcntl.LOCK_SH)
        self.refuses("another program reads it", folder, ("serve", "make", "format"))
        for command in ("label", "list", "generations", "view"):
            self.expect(f"{command} where another program reads it", self.run(command, self.right),
                        self.run(command, folder))
        os.close(held)
        self.expect("list behind it", 0, self.run("list", folder)[0])

    def no_files(self):
        for name in ("cm.img", "ip.img", "dp.img"):
            for what, make in (("a folder", pathlib.Path.mkdir), ("a pipe", os.mkfifo),
                               ("a link", lambda path: path.symlink_to(self.right / path.name))):
                folder = self.fresh()
                (folder / name).unlink()
                make(folder / name)
                self.refuses(f"{name} is {what}", folder, ("list", "serve", "format"))

    def no_folder(self):
        self.refuses("it is missing", self.where / "missing")
        file = self.fresh() / "cm.img"
        before = file.read_bytes()
        for command in COMMANDS:
            self.expect(f"{command} where it is a file", FAULT, self.run(command, file))
        self.expect("the file", before, file.read_bytes())

    def removed(self):
        """No file that was removed is made anew, as long as another tells that there was a cartridge."""
        names = ("cm.img", "ip.img", "dp.img")
        for gone in (*((name,) for name in names), *itertools.combinations(names, 2)):
            folder = self.fresh()
            for name in gone:
                (folder / name).unlink()
            self.refuses(f"{' and '.join(gone)} went", folder)
        folder = self.fresh()
        for name in names:
            (folder / name).unlink()
        self.expect("label where all files went", BLANK, self.run("label", folder))
        self.expect("files there", {}, files_of(folder))

    def damaged(self):
        cm, dp = ((self.right / name).read_bytes() for name in ("cm.img", "dp.img"))
        slot = 0 if cm[1:9] > cm[257:265] else 256
        for what, name, text in (
            ("the header is of zeros", "cm.img", bytes(512)),
            ("the header is short", "cm.img", cm[:511]),
            ("the header is empty", "cm.img", b""),
            ("the header is long", "cm.img", cm + b"\0"),
            ("both slots have one serial number", "cm.img", cm[:256] * 2 if slot == 0 else cm[256:] * 2),
            ("a flag is 2", "cm.img", changed(cm, slot + 33, b"\2")),
            ("too many items count", "cm.img", changed(cm, slot + 17, (65_537).to_bytes(8, "big"))),
            ("an end is later", "cm.img", changed(cm, slot + 120, bytes([cm[slot + 120] ^ 1]))),
            ("a record is cut short", "dp.img", dp[:-1]),
            ("a record has another letter", "dp.img", changed(dp, 85, b"m")),
            ("a record is longer", "dp.img", changed(dp, 4, b"Q")),
        ):
            folder = self.fresh()
            (folder / name).write_bytes(text)
            self.refuses(what, folder)

    def can_run(self, how):
        try:
            return self.run("label", self.right, **how)[0] == 0
        except PermissionError:
            return False

    def unwritable(self):
        """A user who may not write there reads a blank folder and a cartridge, and writes neither."""
        how = {"user": NOBODY, "group": NOBODY, "extra_groups": []} if os.geteuid() == 0 else {}
        if not self.can_run(how):
            print("not tried as another user, who can't run the program")
            return
        empty, folder = self.where / "empty", self.fresh()
        empty.mkdir()
        for path in (empty, folder, *folder.iterdir()):
            path.chmod(0o555 if path.is_dir() else 0o444)
        self.expect("label of a blank folder", BLANK, self.run("label", empty, **how))
        self.expect("format there", FAULT, self.run("format", empty, **how))
        self.expect("files there", {}, files_of(empty))
        self.expect("list of a cartridge", self.run("list", self.right), self.run("list", folder, **how))
        self.expect("format of it", FAULT, self.run("format", folder, **how))
        self.expect("files of it", files_of(self.right), files_of(folder))
        for path in (empty, folder):
            path.chmod(0o755)

    def closed_streams(self):
        folder = self.where / "closed"
        for closed in ("<&-", ">&-", "2>&-", "<&- >&-", ">&- 2>&-", "<&- >&- 2>&-"):
            shutil.rmtree(folder, ignore_errors=True)
            folder.mkdir()
            wrapper = ["bash", "-c", f'exec "$@" {closed}', "bash"]
            for command in ("format", "serve"):
                self.run(command, folder, wrapper)
            self.expect(f"list after {closed}", (0, "d 1 /\n"),
                        (lambda ended: (ended[0], ended[1].split("generation")[0]))(self.run("list", folder)))


def main():
    with tempfile.TemporaryDirectory() as where:
        pathlib.Path(where).chmod(0o755)
        trial = Trial(os.path.abspath(sys.argv[1]), pathlib.Path(where))
        for step in (trial.no_folder, trial.claimed, trial.no_files, trial.removed, trial.damaged, trial.unwritable,
                     trial.closed_streams):
            step()
        print(f"{trial.tried} looked at, {trial.wrong} wrong")
    return 1 if trial.wrong else 0


if __name__ == "__main__":
    sys.exit(main())
