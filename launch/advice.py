"""What a person at a terminal is told behind the status of a run, once it has been looked at.

usage: advice.py ME NAME STATUS START COUNT PROGRAM.. WORD..

ME is the launcher as it was called, NAME its program, START where standard input stood before the run, and PROGRAM the
COUNT words that run the program. A document that was read is open as 3. Nothing is changed, and where nothing can be
seen, nothing is told.
"""

import os
import subprocess
import sys

import documents
import folder_looks
import words as forms
from image_reader import HEADER, counted, is_blank, size_of
from shown import quoted, shown

# A run that is made again, to see what it prints, may take so long.
SECONDS = 20
READING = ("label", "list", "generations", "view")


def line_of(program, words, given=None):
    """The last line that such a run prints, and how it ends; nothing where that takes too long."""
    how = {"input": given} if given is not None else {"stdin": subprocess.DEVNULL}
    try:
        ran = subprocess.run([*program, *words], stdout=subprocess.PIPE, stderr=subprocess.DEVNULL, timeout=SECONDS,
                             **how)
    except (OSError, subprocess.TimeoutExpired):
        return "", None
    lines = ran.stdout.decode(errors="replace").splitlines()
    return lines[-1] if lines else "", ran.returncode


def no_volume(me, program, words):
    """Why a folder has no volume that can be read, or not what was asked of it."""
    command, folder = words[0], words[1]
    if not folder_looks.image_files(folder):
        if folder_looks.earlier_files(folder):
            return [f"the files of {shown(folder)} are of an earlier form, which is not read; docs/FORMATS.md says how"
                    " to bring them over"]
        empty = "is empty" if not os.listdir(folder) else "has no file of a cartridge"
        return [f"{shown(folder)} {empty}: format it first, as '{me} help format' tells, if it is the right folder"]
    if is_blank(folder):
        return [f"ip.img and dp.img of {shown(folder)} have no bytes, and cm.img has"
                f" {counted(size_of(folder, 'cm'), 'byte')} of {HEADER}: nothing was written there"]
    if command not in ("view", "generations"):
        return []
    line, status = line_of(program, words)
    return told_generation(me, folder, line) if status == 3 else []


def told_generation(me, folder, line):
    kind = line.split(" ")
    if kind[:2] == ["volume", "NoGeneration"]:
        return [f"the volume in {shown(folder)} has no generation {kind[2]}; which it has is told by:"
                f" {quoted(me)} generations {quoted(folder)}"]
    if kind[:2] == ["volume", "Broken"]:
        return ["of the indexes on the data partition, from the newest back, the one that begins at block"
                f" {kind[2]} isn't sound ({' '.join(kind[3:])}), and none older can be told; whether the newest tree"
                f" can be read is told by: {quoted(me)} list {quoted(folder)}"]
    return []


def advice(me, name, status, start, program, words):
    if status == 1:
        return forms.told(name, words)
    if name == "index_tool" and status == 2:
        return documents.told(lambda text: line_of(program, ["check"], text)[0], start)
    if name == "ltfs_server" and len(words) > 1 and words[0] != "plain":
        if status == 3:
            return no_volume(me, program, words)
        if status == 4:
            return folder_looks.why_failed(words[1], words[0])
    return []


def main(me, name, status, start, count, *rest):
    program, words = rest[:int(count)], rest[int(count):]
    try:
        for line in advice(me, name, int(status), int(start), program, list(words)):
            print(f"{name}: {line}", file=sys.stderr)
    except (OSError, KeyboardInterrupt):
        pass  # what was to be looked at has changed meanwhile, or nobody wants to know


if __name__ == "__main__":
    main(*sys.argv[1:])
