"""That links lead somewhere, and that files, folders and definitions which pages name are there."""

import functools
import re
import subprocess

from cases import TOP

LINK = re.compile(r"!?\[[^\]]*\]\(([^)\s]+)\)")
TICKED = re.compile(r"`([\w./*-]+/[\w./*-]*)`")
# "`A`, `B` with `C` in `path`": names of definitions, and where they stand
DEFINED = re.compile(r"((?:`\w+'?`(?:, | and | with )?)+) (?:in|of) `([\w/]+\.(?:antt|rt))`")
ENDINGS = ("", ".antt", ".rt", ".rt.in")
# words with a `/` that are paths of a script, hold for many, or are made by a build
APART = re.compile(r"/|\.|.*/NAME\b|.*\b[A-Z]+/|proofs/forms/|specs/declared\b|launch/built\b")
OWN = ("src", "specs", "proofs", "must-fail")


@functools.lru_cache(None)
def pages():
    """All pages of the repository with their texts, without blocks of code."""
    named = subprocess.run(["git", "-C", TOP, "ls-files", "-co", "--exclude-standard", "*.md"], capture_output=True,
                           text=True, check=True).stdout
    return {name: (TOP / name).read_text(encoding="utf-8") for name in sorted(named.splitlines())
            if (TOP / name).is_file()}


def prose(text):
    return re.sub(r"^```.*?^```$", lambda it: "\n" * it[0].count("\n"), text, flags=re.M | re.S)


def anchors(text):
    """The anchors of a page's headings, as they are made of their words."""
    found = set()
    for heading in re.findall(r"^#+ (.*)$", prose(text), re.M):
        words = re.sub(r"[^\w\- ]", "", LINK.sub(lambda it: it[0].split("]")[0].lstrip("!["), heading).lower())
        found.add(words.replace(" ", "-"))
    return found


def links():
    found = []
    for name, text in pages().items():
        for link in LINK.findall(prose(text)):
            path, _, anchor = link.partition("#")
            if ":" in path:
                continue
            target = (TOP / name).parent / path if path else TOP / name
            if not target.exists():
                found.append(f"{name}: no file for the link {link}")
            elif anchor and anchor not in anchors(target.read_text(encoding="utf-8")):
                found.append(f"{name}: no heading for the link {link}")
    return found


@functools.lru_cache(None)
def insides(crate):
    """A crate's folder, and those of its parts: each has one in `src`, `specs` and `proofs`."""
    return [crate, *(it for part in OWN for it in crate.glob(f"{part}/*/"))]


def starts(name, path):
    """From where a page's path may begin: the top, the crates and the tests. One within a crate begins in the page's own
    crate, or in any where the page is of none."""
    if path.split("/")[0] not in OWN:
        return [TOP, TOP / "crates", TOP / "tests", TOP / "tests/crates"]
    within = re.match(r"crates/\w+/", name)
    return [it for crate in sorted(TOP.glob(within[0] if within else "crates/*/")) for it in insides(crate)]


def is_there(start, path):
    """Whether a path leads somewhere from a folder. That of a part is in `src` or `specs` already."""
    tries = [path]
    first, _, rest = path.partition("/")
    if first in OWN and start.parent.name == first:
        tries.append(rest)
    return any(any(start.glob(f"{it}{ending}")) for it in tries if it for ending in ENDINGS)


def paths():
    """Each path in backticks is there, if its first word is a folder of the repository, of its crates or of a crate."""
    found = []
    known = {it.name for folder in (TOP, TOP / "crates", TOP / "tests", TOP / "tests/crates") for it in folder.iterdir()
             if it.is_dir()}
    for name, text in pages().items():
        for path in TICKED.findall(prose(text)):
            first = path.split("/")[0]
            if APART.match(path) or first not in known and first not in OWN:
                continue
            if not any(is_there(start, path.rstrip("/")) for start in starts(name, path)):
                found.append(f"{name}: {path} isn't there")
    return found


def definitions():
    """What is named as standing in a file stands there."""
    found = []
    for name, text in pages().items():
        for names, path in DEFINED.findall(prose(text)):
            if path.split("/")[0] in OWN and not name.startswith("crates/"):
                continue  # it says not of which crate
            files = {start / path for start in starts(name, path) if (start / path).is_file()}
            if not files:
                continue
            code = "".join(it.read_text(encoding="utf-8") for it in files)
            found += [f"{name}: {it} doesn't stand in {path}" for it in re.findall(r"`([\w']+)`", names)
                      if not re.search(rf"(?<!\w){re.escape(it)}(?![\w'])", code)]
    return found


@functools.lru_cache(None)
def words_of_code():
    """All words in the code and the definitions of the crates."""
    files = [it for part in ("src/**/*.rt", "specs/**/*.antt") for it in TOP.glob(f"crates/*/{part}")]
    return set().union(*(re.findall(r"\w+", it.read_text(encoding="utf-8")) for it in files))


def clauses():
    """Each name in the column of clauses is a word of the code, on the page of promises and in READMEs of crates."""
    found = []
    for name, text in pages().items():
        if name != "docs/PROMISES.md" and not name.startswith("crates/"):
            continue
        for row in re.findall(r"^\|.*\| ([^|]+) \|$", text, re.M):
            for word in re.findall(r"`(?:\w+::)*(\w+)`", row):
                if word not in words_of_code() and not (TOP / "crates" / word).is_dir():
                    found.append(f"{name}: no {word} in the code")
    return found


CASES = {"links": links, "paths": paths, "definitions_named": definitions, "clauses": clauses}
