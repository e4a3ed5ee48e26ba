"""How each group of tests tells what came of its cases.

A group is a program `tests/GROUP/run [NAME]`. It runs all its cases, or the one of that name, or those whose names
have it in front of a `/`. It prints a line for each, behind one that failed what was wanted and what came, and at the
end `N passed, N failed`. It ends with 0 where none failed, with 1 where one did, and with 2 where no case has that name.
"""

import concurrent.futures
import os
import pathlib
import sys

TOP = pathlib.Path(__file__).resolve().parents[2]
# A launcher that runs a checked program begins to optimise it behind itself, unless this says no. Beside tests it would
# take two processors for minutes; those of the second build take this back.
os.environ["LTFS_SECOND_BUILD"] = "no"
# The longest piece of a text that is shown of a case that failed.
SHOWN = 2_000
# How much of what is alike is shown in front of the first difference of long texts.
NEAR = 100


class Difference:
    """What was wanted of a case, what came in its place, and of what it was: the status, say, or the output."""

    def __init__(self, of, wanted, came):
        self.of, self.wanted, self.came = of, wanted, came

    def texts(self):
        """Returns both as text; where one is long, both without what is alike at their front."""
        both = [self.wanted, self.came]
        both = [it.decode(errors="backslashreplace") if isinstance(it, bytes) else str(it) for it in both]
        alike = len(os.path.commonprefix(both)) - NEAR
        if max(map(len, both)) <= SHOWN or alike <= 0:
            return both
        return [f"({alike:,} characters alike) ..{it[alike:]}" for it in both]

    def lines(self):
        for word, text in zip(("wanted", "came"), self.texts()):
            if len(text) > SHOWN:
                text = f"{text[:SHOWN]}.. ({len(text):,} characters)"
            yield f"    {self.of}, {word}:"
            yield from (f"        {line}" for line in text.split("\n"))


class NotTried(str):
    """Why a case can't be tried where it runs. It counts as passed."""


def compare(of, wanted, came):
    """Returns the difference between the two, as a list of none or one."""
    return [] if wanted == came else [Difference(of, wanted, came)]


def run_group(cases, words, jobs=None):
    """Runs a group. `cases` has a function for each name, which returns its differences; a text stands for one whose
    kind has no wanted and no found. Up to `jobs` run side by side, and they are told in their order. Returns the status.
    """
    names = chosen(cases, words)
    if not names:
        print("one case at most is named" if len(words) > 1 else f"no case is named {words[0]}", file=sys.stderr)
        return 2
    failed = 0
    with concurrent.futures.ThreadPoolExecutor(jobs or os.cpu_count()) as pool:
        for name, came in [(name, pool.submit(guarded, cases[name])) for name in names]:
            differences = came.result()
            if isinstance(differences, NotTried):
                print(f"{name}: ok (not tried: {differences})", flush=True)
                continue
            failed += bool(differences)
            print(f"{name}: {'failed' if differences else 'ok'}", flush=True)
            for it in differences:
                lines = it.lines() if isinstance(it, Difference) else [f"    {line}" for line in str(it).split("\n")]
                print("\n".join(lines), flush=True)
    print(f"{len(names) - failed} passed, {failed} failed", flush=True)
    return 1 if failed else 0


def chosen(names, words):
    """Returns those of the names which these words of a group choose, and none where they are out of form."""
    if len(words) > 1:
        return []
    return [name for name in names if not words or name == words[0] or name.startswith(f"{words[0]}/")]


def guarded(case):
    """Runs a case, and tells an exception as what failed."""
    try:
        return case()
    except Exception as error:  # a case that can't be run has failed, and the others go on
        return [f"{type(error).__name__}: {error}"]
