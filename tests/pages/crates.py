"""That few ways lead along crates.txt, and that a crate's line names what its files name.

A way leads from a crate to one that its line names, from there to one of its line, and so on to the end. Some kits read
and sum the sources of a crate once for each way that leads down to it, so the gate there takes as long as there are
ways (docs/PROVING.md).
"""

import functools
import re

from cases import TOP

MOST_WAYS = 12_000
FOLDERS = ("src", "specs", "proofs")
ENDINGS = (".rt", ".antt")


def crates_in(text):
    """Returns the words behind each crate's name."""
    rows = (it.split("#")[0].partition(":") for it in text.splitlines())
    return {name.split()[0]: below.split() for name, colon, below in rows if colon}


def ways_in(crates):
    """Returns how many ways lead down from each crate, the one that stops at once counted too."""

    @functools.lru_cache(maxsize=None)
    def ways(name):
        return 1 + sum(ways(it) for it in crates[name] if it in crates)

    return {name: ways(name) for name in crates}


def names_in(crate):
    """Returns the libraries that the files of a crate name, in a path of code or of a definition."""
    names = set()
    for folder in FOLDERS:
        for file in (TOP / "crates" / crate / folder).rglob("*"):
            if file.suffix in ENDINGS:
                text = file.read_text()
                names |= set(re.findall(r"Rattle\.(\w+)", text))
                if file.suffix == ".rt":
                    names |= set(re.findall(r"(?<![\w:])(\w+)::", text))
    return names


@functools.lru_cache(None)
def crates():
    return crates_in((TOP / "crates.txt").read_text())


def few_ways():
    return [f"{count:,} ways lead down from {name}, more than {MOST_WAYS:,}"
            for name, count in ways_in(crates()).items() if count > MOST_WAYS]


def lines_named():
    """Each crate that a line names is named in a file of the line's own, and each that a file names stands there."""
    found = []
    for crate, below in crates().items():
        named = names_in(crate)
        found += [f"the line of {crate} names {it}, which no file of it names" for it in below if it not in named]
        found += [f"the line of {crate} lacks {it}, which a file of it names"
                  for it in sorted(named) if it in crates() and it not in below and it != crate]
    return found


CASES = {"ways": few_ways, "lines": lines_named}
