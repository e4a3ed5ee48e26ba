"""How long a page and its sentences may be."""

import re

from cases import TOP

# A page, the words that it has at most, and those of its sentences.
LONGEST = {"docs/PROMISES.md": (5_000, 40)}


def sentences(text):
    """The sentences of a page with the number of their line. The cell of a table ends one, and so does a line."""
    for number, line in enumerate(text.splitlines(), 1):
        for cell in line.split("|"):
            for it in re.split(r"(?<=[.?!])\s+", cell):
                yield number, it.strip()


def lengths():
    found = []
    for name, (most, most_of_sentence) in LONGEST.items():
        text = (TOP / name).read_text(encoding="utf-8")
        count = len(text.split())
        if count > most:
            found.append(f"{name}: {count:,} words, {most:,} at most")
        found += [f"{name}:{number}: a sentence of {len(it.split())} words, {most_of_sentence} at most: {it[:60]}.."
                  for number, it in sentences(text) if len(it.split()) > most_of_sentence]
    return found


CASES = {"lengths": lengths}
