"""Asks a person at a terminal for the name of the volume that `format` would wipe.

usage: ask.py WORD..

WORDs are those of the program. The status is 0 where there is nothing to ask or the answer is right, else 1.
"""

import os
import sys
import unicodedata

import words as forms
from shown import shown
from volume_facts import volume_of


def read_line():
    """A line of standard input, and no byte behind it."""
    line = b""
    while not line.endswith(b"\n"):
        byte = os.read(0, 1)
        if not byte:
            return None
        line += byte
    return line[:-1].decode(errors="replace")


def is_answer(line, wanted):
    return line is not None and unicodedata.normalize("NFC", line) in (unicodedata.normalize("NFC", wanted),
                                                                       shown(wanted))


def main(words):
    volume = None if forms.misfit("ltfs_server", words) else volume_of(words[1])
    if volume is None:
        return 0
    name, identifier = volume
    what, wanted = ("name", name) if name else ("identifier", identifier)
    print(f"ltfs_server: {shown(words[1])} holds a volume, and 'format' wipes it; with '--yes' nothing is asked\n"
          f"ltfs_server: type its {what}, '{shown(wanted)}', to go on: ", end="", file=sys.stderr, flush=True)
    try:
        line = read_line()
    except KeyboardInterrupt:
        line = None
    if is_answer(line, wanted):
        return 0
    end = "" if line is not None else "\n"
    print(f"{end}ltfs_server: that isn't its {what}; nothing was changed", file=sys.stderr)
    return 1


if __name__ == "__main__":
    sys.exit(main(sys.argv[1:]))
