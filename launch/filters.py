"""Prints what `list` or `generations` prints in another form.

usage: filters.py human|json list|generations

It reads those lines from standard input. Where the run ended otherwise, its last line, which says why, is the `error`
of the document, and stands as it is among lines for people. The status is 6 where standard output can't be written.
"""

import json
import os
import re
import signal
import sys

UNITS = ("KiB", "MiB", "GiB", "TiB")
# What stands behind the UID in the line of a node; `readonly` may follow.
KINDS = {"d": ("directory", ["path"]), "f": ("file", ["length", "path"]), "l": ("link", ["path", "target"])}
CANNOT_WRITE = 6


def human(size):
    """A length in the largest unit of which there is one."""
    if size < 1024:
        return f"{size}B"
    amount = float(size)
    for unit in UNITS:
        amount /= 1024
        if amount < 1023.95:
            break
    return f"{amount:.1f}{unit}"


def for_people(lines, _):
    for line in lines:
        words = line.split(" ")
        place = {"f": 2, "x": 1}.get(words[0])
        if place and len(words) >= 4 and words[place].isdecimal():
            words[place] = human(int(words[place]))
        yield " ".join(words) + "\n"


def plain(text):
    """A text without the escapes of `%` and two digits."""
    return re.sub(rb"%([0-9A-F]{2})", lambda it: bytes([int(it[1], 16)]), text.encode()).decode(errors="replace")


def node(words):
    kind, names = KINDS[words[0]]
    found = {"kind": kind, "uid": int(words[1])}
    for name, word in zip(names, words[2:]):
        found[name] = int(word) if name == "length" else plain(word)
    return {**found, "readonly": True} if len(words) > 2 + len(names) else found


def attribute(words):
    return {"key": plain(words[3]), "length": int(words[1])}


def generation(words):
    return {"generation": int(words[1]), "block": int(words[2]), "time": words[3], "nodes": int(words[4])}


def end_of_list(words):
    return {"generation": int(words[1]), "partition": words[2], "block": int(words[3])}


# For each command the name of its list, its rows by their first word and how many words they have, and its last line.
FORMS = {
    "list": ("nodes", {(kind, size + more): node for kind, size in (("d", 3), ("f", 4), ("l", 4)) for more in (0, 1)},
             {("generation", 4): end_of_list}),
    "generations": ("generations", {("g", 5): generation},
                    {("generations", 2): lambda words: {"count": int(words[1])}}),
}
ATTRIBUTE, LOCK = ("x", 4), ("lock", 2)


def for_programs(lines, command):
    """Yields the pieces of one document of JSON, a row a line."""
    title, rows, ends = FORMS[command]
    yield f'{{"{title}": ['
    between, facts, end, row = "\n", {}, {"error": "cut off"}, None
    for line in lines:
        # A link's text may be empty.
        words = line.split(" ")
        form = (words[0], len(words))
        if form == ATTRIBUTE and row:
            row.setdefault("attributes", []).append(attribute(words))
            continue
        if row:
            yield between + json.dumps(row, ensure_ascii=False)
            between, row = ",\n", None
        if form in rows:
            row = rows[form](words)
        elif form == LOCK:
            facts["lock"] = words[1]
        else:
            end = {**facts, **ends[form](words)} if form in ends else {"error": line}
    if row:
        yield between + json.dumps(row, ensure_ascii=False)
    yield "]" + "".join(f", {json.dumps(key)}: {json.dumps(value)}" for key, value in end.items()) + "}\n"


def main(form, command):
    # The run is told of an interrupt too, and ends what is to be read.
    signal.signal(signal.SIGINT, signal.SIG_IGN)
    if sys.stdout is None:
        return CANNOT_WRITE
    lines = (line.rstrip("\n") for line in sys.stdin)
    try:
        sys.stdin.reconfigure(encoding="utf-8", errors="replace")
        sys.stdout.reconfigure(encoding="utf-8")
        for piece in {"human": for_people, "json": for_programs}[form](lines, command):
            sys.stdout.write(piece)
        sys.stdout.flush()
    except OSError:
        # What is left of it can't be written either.
        os.dup2(os.open(os.devnull, os.O_WRONLY), 1)
        return CANNOT_WRITE
    return 0


if __name__ == "__main__":
    sys.exit(main(*sys.argv[1:]))
