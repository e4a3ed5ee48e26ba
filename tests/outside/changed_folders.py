#!/usr/bin/env python3
"""Changes a folder while it is served, and looks at what is told and what is left.

usage: changed_folders.py PROGRAM FAILING.SO [--every N]

FAILING.SO is built from failing.c. A serving of two files with a sync behind each is held in front of a call of the
system on its folder; then another program does something, and the serving goes on. This is tried for every Nth call,
the third if nothing is said, up to the first of the three looks at files with which the close ends.

- The link that the folder is served through is made to lead to another cartridge, or the folder gets another name and
  an empty one its name. Then one folder has all that was told as synchronised, and the other one is as it was.
- A file is removed, exchanged for another one with the same bytes, or cut. Then the run ends with 4, or it ends with 0
  and all is found. None is cut in front of a write: between that and the look at the file's length nothing is seen.
- All three are exchanged for those of a cartridge that is one sync further. Then the run ends with 4 and leaves that as
  it is, or it ends with 0 and all is found.
"""
import argparse
import os
import pathlib
import re
import shutil
import signal
import subprocess
import sys
import tempfile

TIME = "2024-01-02T03:04:05.000000000Z"
UUID = "30a91a08-daae-48d1-ae75-69804e61d2ea"
NAMES = "fg"
SCRIPT = "".join(f"1 create /{name}\n1 write /{name} 0 fill:61:5000\n1 sync\n" for name in NAMES)
# Bytes that the other cartridge has in place of these.
OTHER_SCRIPT = SCRIPT.replace(":61:", ":62:")
FILES = ("ip.img", "dp.img", "cm.img")
FAULT = re.compile(r"drive (\d+) (\d+)")
SECONDS = 60


def files_of(folder):
    return {path.name: path.read_bytes() for path in folder.iterdir()}


class Trial:
    def __init__(self, program, library, where):
        self.program, self.library, self.where = program, library, where
        self.served, self.other, self.moved = where / "served", where / "other", where / "moved"
        self.link, self.told, self.formatted = where / "link", where / "told", where / "formatted"
        self.further = where / "further"
        self.formatted.mkdir()
        words = [program, "format", self.formatted, "TAPE01", UUID, "--block", "4096", "--at", TIME]
        subprocess.run(words, stdout=subprocess.DEVNULL, check=True, timeout=SECONDS)

    def begin(self):
        for folder in (self.served, self.other, self.moved):
            shutil.rmtree(folder, ignore_errors=True)
        for folder in (self.served, self.other):
            shutil.copytree(self.formatted, folder)
        self.link.unlink(missing_ok=True)
        self.link.symlink_to(self.served)
        self.told.unlink(missing_ok=True)

    def serve(self, folder, call, change, calls=SCRIPT):
        """Serves a folder, and calls `change` while the serving is held in front of a call."""
        env = {"PATH": os.environ["PATH"], "LD_PRELOAD": self.library, "FOLDER": str(folder), "TOLD": str(self.told),
               "CALL": str(call), "HOW": "hold"}
        with tempfile.TemporaryFile("w+") as script, tempfile.TemporaryFile("w+") as said:
            script.write(calls)
            script.seek(0)
            run = subprocess.Popen([self.program, "serve", folder, "--at", TIME], stdin=script, stdout=said,
                                   stderr=subprocess.DEVNULL, env=env)
            try:
                if call and os.WIFSTOPPED(os.waitpid(run.pid, os.WUNTRACED)[1]):
                    change()
                    run.send_signal(signal.SIGCONT)
                status = run.wait(SECONDS)
            finally:
                run.kill()
                run.wait()
            said.seek(0)
            return status, said.read().splitlines()

    def go_further(self, call):
        """Makes the cartridge that is one sync further: as a serving has left it in front of a call."""
        self.begin()
        self.serve(self.served, call, lambda: shutil.copytree(self.served, self.further), OTHER_SCRIPT)
        return set(self.listed(self.further) or ()) == {f"/{NAMES[0]}"}

    def listed(self, folder):
        """The lengths of the files of a volume by their names, or None where it can't be listed."""
        done = subprocess.run([self.program, "list", folder], capture_output=True, text=True, timeout=SECONDS)
        lines = [line.split(" ") for line in done.stdout.splitlines()]
        return None if done.returncode else {words[3]: int(words[2]) for words in lines if words[0] == "f"}

    def wrong_end(self, status, lines):
        """What is wrong with how a run ended that may have met a fault."""
        fault = FAULT.fullmatch(lines[-1]) if lines else None
        if status == 0 or (status == 4 and fault and int(fault[1]) < int(fault[2])):
            return None
        return f"it ends with {status}: {lines[-1:]}"

    def wrong_files(self, folder, lines):
        """What is wrong with the files of a folder, of which so much was told."""
        files = self.listed(folder)
        if files is None:
            return "the folder can't be listed"
        told = sum(line.endswith(" synced") for line in lines)
        missing = [name for name in NAMES[:told] if files.get(f"/{name}") != 5000]
        return f"{missing} went" if missing else None


def repoint(trial):
    trial.link.unlink()
    trial.link.symlink_to(trial.other)


def move(trial):
    trial.served.rename(trial.moved)
    trial.served.mkdir()


def remove(trial, name):
    (trial.served / name).unlink()


def exchange(trial, name):
    shutil.copy(trial.served / name, trial.where / "copy")
    (trial.where / "copy").rename(trial.served / name)


def exchange_all(trial):
    for name in FILES:
        shutil.copy(trial.further / name, trial.where / "copy")
        (trial.where / "copy").rename(trial.served / name)


def cut(trial, name):
    os.truncate(trial.served / name, (trial.served / name).stat().st_size // 2)


def try_names(trial, call, through_link):
    """What is wrong where the name of the folder leads elsewhere from a call on."""
    trial.begin()
    name, change, other = (trial.link, repoint, trial.other) if through_link else (trial.served, move, trial.served)
    as_it_was = files_of(trial.formatted) if through_link else {}
    status, lines = trial.serve(name, call, lambda: change(trial))
    first = trial.served if through_link else trial.moved
    changed = [folder for folder, before in ((first, files_of(trial.formatted)), (other, as_it_was))
               if files_of(folder) != before]
    if len(changed) == 1:
        return trial.wrong_end(status, lines) or trial.wrong_files(changed[0], lines)
    # An empty folder is no volume.
    return None if not changed and status == 3 else f"{len(changed)} folders have changed, and it ends with {status}"


def try_files(trial, call, change, name):
    """What is wrong where a file is changed in front of a call."""
    trial.begin()
    status, lines = trial.serve(trial.served, call, lambda: change(trial, name))
    if status == 0 and (wrong := trial.wrong_files(trial.served, lines)):
        return f"it ends with 0, and {wrong}"
    return trial.wrong_end(status, lines)


def try_cartridges(trial, call):
    """What is wrong where another cartridge comes in place of the one that is served, in front of a call."""
    trial.begin()
    status, lines = trial.serve(trial.served, call, lambda: exchange_all(trial))
    if status == 0:
        return trial.wrong_files(trial.served, lines)
    changed = [name for name, text in files_of(trial.further).items() if files_of(trial.served)[name] != text]
    return f"{changed} of the other cartridge have changed" if changed else trial.wrong_end(status, lines)


def all_tries(trial, call, word):
    yield "the link leads elsewhere", try_names(trial, call, True)
    yield "another folder has the name", try_names(trial, call, False)
    yield "another cartridge comes", try_cartridges(trial, call)
    for change in (remove, exchange, cut) if word != "w" else (remove, exchange):
        for name in FILES:
            yield f"{change.__name__} {name}", try_files(trial, call, change, name)


def main():
    words = argparse.ArgumentParser()
    words.add_argument("program")
    words.add_argument("library")
    words.add_argument("--every", type=int, default=3)
    asked = words.parse_args()
    wrong = tried = 0
    with tempfile.TemporaryDirectory() as where:
        trial = Trial(os.path.abspath(asked.program), os.path.abspath(asked.library), pathlib.Path(where))
        trial.begin()
        status, _ = trial.serve(trial.served, 0, lambda: None)
        calls = trial.told.read_text()
        print(f"{len(calls)} calls: {calls}")
        wrong += status != 0
        if not trial.go_further(len(calls) * 2 // 5):
            wrong += 1
            print("the other cartridge has not the first file alone")
        last = len(calls) - len(FILES) + 1
        for call in sorted({*range(1, last, asked.every), last}):
            for what, fault in all_tries(trial, call, calls[call - 1]):
                tried += 1
                if fault:
                    wrong += 1
                    print(f"{what} in front of call {call} ({calls[call - 1]}): {fault}")
    print(f"{tried} tried, {wrong} wrong")
    return 1 if wrong else 0


if __name__ == "__main__":
    sys.exit(main())
