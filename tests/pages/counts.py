"""That the numbers which pages give of the code are those of the code. A sentence that is gone fails too."""

import functools
import re
import sys

from cases import TOP, compare

sys.path.insert(0, str(TOP / "bench"))
import count_code  # noqa: E402
import count_definitions  # noqa: E402

N = r"([\d,]+)"
WORDS = "ten eleven twelve thirteen fourteen fifteen sixteen seventeen eighteen nineteen twenty".split()
ALL, NO_TRAITS = "all", "without the contracts of the traits"
NO_OWNER, LAW = "without what `run` requires", "more for the law over the drive in memory"


@functools.lru_cache(None)
def code():
    return count_code.count(TOP)


@functools.lru_cache(None)
def definitions():
    return count_definitions.count(str(TOP))


def page(name):
    return (TOP / name).read_text(encoding="utf-8")


def stated(name, sentence, *wanted):
    """Returns what a page states otherwise, where each number of a sentence has one that is wanted."""
    found = re.search(sentence, page(name))
    if not found:
        return [f"{name} doesn't say: {sentence}"]
    came = [int(it.replace(",", "")) for it in found.groups()]
    return compare(f"{name}: {found.group(0)}", list(wanted), came)


def hundreds(number):
    return round(number, -2)


def sums(name):
    specs, _, counted = definitions()
    return len(counted[name]), sum(specs.lines[it] for it in counted[name])


def lines(*paths):
    return sum(page(f"crates/{it}").count("\n") for it in paths)


def code_counts():
    it = code()
    proved = (it["functions"], it["crates"], *(hundreds(it[f"lines of {part}"])
                                               for part in ("code", "definitions", "proofs")))
    found = stated("README.md", rf"{N} functions \| in {N} crates are proved: {N} lines of code with contracts, {N} of"
                   rf" definitions, {N} of proofs", *proved)
    found += stated("CONTRIBUTING.md", rf"\({N} today\)", it["edits"])
    found += stated("docs/ARCHITECTURE.md", rf"{N} files import some from the `proofs/` of another crate",
                    it["files that cite proofs"])
    group = re.search(r"The crates stand in (\w+) groups", page("docs/ARCHITECTURE.md"))
    return found + compare("docs/ARCHITECTURE.md: how many groups", WORDS[it["groups"] - 10], group and group[1])


def groups_in_order():
    """Each crate uses only crates of its own group and of those below it, and comes behind them."""
    listed = [line.split(":") for line in page("crates.txt").splitlines() if ":" in line and line[0] != "#"]
    known = {it.name for it in (TOP / "crates").iterdir()}
    found = compare("crates.txt: the crates", sorted(known), sorted(name for name, _ in listed))
    for at, (name, used) in enumerate(listed):
        below = {it for it, _ in listed[:at]}
        found += [f"crates.txt: {name} uses {it}, which comes later" for it in used.split()
                  if it in known and it not in below]
    return found


def definition_counts():
    types = len(definitions()[1])
    found = stated("README.md", rf"{N} definitions \| of {N} lines, with {N} types", *sums(ALL), types)
    found += stated("docs/HEADLINE.md", rf"\*\*{N} definitions of {N} lines, with {N} types of the code\*\*",
                    *sums(ALL), types)
    found += stated("docs/HEADLINE.md", rf"Without the traits' contracts it is {N} of {N} lines, and without what `run`"
                    rf" requires {N} of {N}\.", *sums(NO_TRAITS), *sums(NO_OWNER))
    found += stated("docs/HEADLINE.md", rf"The law over the drive in memory takes {N} more, of {N} lines", *sums(LAW))
    return found + stated("docs/HEADLINE.md", rf"`tape_edge/src/traits.rt`, {N} lines with comments",
                          lines("tape_drive/src/drive.rt", "tape_edge/src/traits.rt"))


def layers():
    """Each row of the table of layers has the definitions of its crates and parts, and each of these has a row."""
    specs, _, counted = definitions()
    parts, seen, found = count_definitions.units(counted[ALL]), [], []
    for row in re.finditer(rf"^\| [^|]+ \| ((?:`\w+`(?:, )?)+) \| {N} \| {N} \|$", page("docs/HEADLINE.md"), re.M):
        names = re.findall(r"`(\w+)`", row[1])
        keys = [key for name in names for key in parts.get(name, ())]
        wanted = f"{len(keys):,} of {sum(specs.lines[it] for it in keys):,}"
        found += compare(f"docs/HEADLINE.md: {row[1]}", wanted, f"{row[2]} of {row[3]}")
        seen += names
    return found + compare("docs/HEADLINE.md: the crates and parts of the layers", sorted(parts), sorted(seen))


def edge_files():
    """The files of the edge have as many lines as stands beside their names, and none is left out."""
    text, found, named = page("docs/HEADLINE.md"), [], []
    for row in re.finditer(rf"^\| [^|]+, {N} \| ([^|]*) of `file_drive/src/` \|", text, re.M):
        names = re.findall(r"`(\w+\.rt)`", row[2])
        wanted = lines(*(f"file_drive/src/{it}" for it in names))
        found += compare(f"docs/HEADLINE.md: lines of {row[2]}", f"{wanted:,}", row[1])
        named += names
    there = sorted(it.name for it in (TOP / "crates/file_drive/src").glob("*.rt") if it.name != "lib.rt")
    found += compare("docs/HEADLINE.md: the files of file_drive/src", there, sorted(named))
    found += stated("docs/HEADLINE.md", rf"`main`, {N} \|", lines("ltfs_server/src/main.rt"))
    found += stated("docs/HEADLINE.md", rf"\| streams, {N} \|", lines("tape_edge/src/streams.rt",
                                                                     "tape_edge/src/patience.rt"))
    return found + stated("docs/CRASHES.md", rf"the {N} lines of the drive above it",
                          lines(*(f"file_drive/src/{it}.rt" for it in ("tape", "stage", "drive"))))


def version():
    """The version of the launchers is that of the creator which is written, and has its part of CHANGELOG.md."""
    told = page("launch/version").strip()
    found = []
    for path in ("held_volume/specs/VolumeSync/Frames.antt", "format_volume/specs/Volumes.antt"):
        creator = re.search(r'creator = codes "([^"]*)"', page(f"crates/{path}"))
        found += compare(f"the creator in {path}", f"ltfs_server {told}", creator and creator[1])
    heading = re.search(r"^## (\d[\d.]*)", page("CHANGELOG.md"), re.M)
    return found + compare("CHANGELOG.md: the newest release", told, heading and heading[1])


def kit():
    """The kit that the launchers take for that of the proofs is the one that pages name."""
    told = re.search(r"^proved_kit=(.*)$", page("launch/kit.sh"), re.M)[1]
    named = {it for name in ("README.md", "CONTRIBUTING.md") for it in re.findall(r"`(rattle-kit-\w+)`", page(name))}
    return compare("the kits in README.md and CONTRIBUTING.md", [told], sorted(named))


CASES = {"code": code_counts, "kit": kit, "groups": groups_in_order, "definitions": definition_counts, "layers": layers,
         "edge_files": edge_files, "version": version}
