#!/usr/bin/env python3
"""Counts what is proved: python3 bench/count_code.py [TOP]

Prints how many crates there are, in how many groups of crates.txt; how many functions with a body stand in the code of
the crates, and how many of traits without one; the lines of code with contracts (`src/`), of definitions (`specs/`)
and of proofs (`proofs/`), comments and blank lines too; how many files of another crate's proofs are cited; and how many
edits a proof has to refuse.
"""
import pathlib
import re
import sys

FUNCTION = re.compile(r"^[ \t]*(?:pub(?:\([a-z]+\))? )?(?:const )?(?:unsafe )?fn [a-z_0-9]+", re.M)
CLAUSE = re.compile(r"\b(?:requires|ensures)(?: \w+)?\s*$")
COMMENT = re.compile(r"//[^\n]*")
OPEN, CLOSE = "([{", ")]}"


def has_body(text, at):
    """Whether the function whose parameters begin behind this place has a body: no `;` stands behind its contract."""
    depth, begun = 0, at
    for place in range(at, len(text)):
        letter = text[place]
        if depth == 0 and letter == ";":
            return False
        if letter == "{" and depth == 0 and not CLAUSE.search(text, begun, place):
            return True
        depth += (letter in OPEN) - (letter in CLOSE)
        if depth == 0 and letter in CLOSE:
            begun = place + 1
    return False


def functions(text):
    """How many functions of a file of code have a body, and how many have none."""
    text = COMMENT.sub("", text)
    bodies = [has_body(text, it.end()) for it in FUNCTION.finditer(text)]
    return sum(bodies), len(bodies) - sum(bodies)


def files(top, part, ending):
    return sorted(it for it in (top / "crates").glob(f"*/{part}/**/*{ending}") if it.is_file())


def groups(top):
    """The crates of each group in crates.txt, whose groups stand below a comment and a colon."""
    found, behind_blank = [], False
    for line in (top / "crates.txt").read_text().splitlines():
        if line.startswith("#") and behind_blank:
            found.append([])
        elif ":" in line and not line.startswith("#"):
            found[-1].append(line.split(":")[0])
        behind_blank = not line
    return found


def cites_proofs(path, crate):
    """Whether a file imports from the proofs of a crate that isn't its own."""
    named = re.findall(r"Rattle\.(\w+)\.proofs\b", path.read_text(encoding="utf-8"))
    return any(it not in (crate, "std") for it in named)


def count(top):
    """All these numbers, by their names."""
    texts = {part: [it.read_text(encoding="utf-8") for it in files(top, part, ending)]
             for part, ending in (("src", ".rt"), ("specs", ".antt"), ("proofs", ".antt"))}
    counted = [functions(text) for text in texts["src"]]
    proofs = [it for part in ("src", "specs", "proofs") for it in files(top, part, "")
              if it.suffix in (".rt", ".antt")]
    return {
        "crates": sum(map(len, groups(top))),
        "groups": len(groups(top)),
        "functions": sum(it for it, _ in counted),
        "functions without a body": sum(it for _, it in counted),
        "lines of code": sum(it.count("\n") for it in texts["src"]),
        "lines of definitions": sum(it.count("\n") for it in texts["specs"]),
        "lines of proofs": sum(it.count("\n") for it in texts["proofs"]),
        "files that cite proofs": sum(cites_proofs(it, it.relative_to(top / "crates").parts[0]) for it in proofs),
        "edits": len(list((top / "crates").glob("*/must-fail/*.edit"))),
    }


def main():
    for name, number in count(pathlib.Path(sys.argv[1] if len(sys.argv) > 1 else ".")).items():
        print(f"{number:9,} {name}")


if __name__ == "__main__":
    main()
