"""What a person at a terminal is told of a document that is no index, beside the line that index_tool prints."""

import os
import re
import stat

import index_document
from index_document import place_of, within

# More of a document isn't read again, to be looked at.
MOST_BYTES = 2**28
# What the run has read is open as this.
DOCUMENT = 3
SHOWN = 60
TOP = 2**62
NUMBERS = {"generationnumber": f"1 to {TOP:,}", "blocksize": "4,096 to 1,048,576", "length": "below 2^64",
           "fileuid": "below 2^64", "highestfileuid": "below 2^64"}
NAME = re.compile(rb"<(\w+)[^>]*?(?:/>|>(.*?)</)", re.DOTALL)


def document(start):
    """The bytes that the run has read, of a file from there on, or None where they are no file's or too many."""
    facts = os.fstat(DOCUMENT)
    if not stat.S_ISREG(facts.st_mode) or facts.st_size - start > MOST_BYTES:
        return None
    pieces = []
    while start < facts.st_size:
        piece = os.pread(DOCUMENT, 2**24, start)
        if not piece:
            break
        pieces.append(piece)
        start += len(piece)
    return b"".join(pieces)


def excerpt(text, at):
    """What stands at a place, up to the end of its line."""
    line = text[at:at + 4 * SHOWN].split(b"\n")[0].decode(errors="backslashreplace")
    line = "".join(it if it.isprintable() else it.encode("unicode_escape").decode() for it in line)
    return line if len(line) <= SHOWN else line[:SHOWN] + ".."


def at_place(text, at, why=""):
    """The line and the column of a place, what stands there, and in which element."""
    inside = within(text, at)
    where = f" in {inside.told()}" if inside else ""
    stands = f"{excerpt(text, at)!r} stands there" if at < len(text) else "the document ends there, too early"
    return [f"{place_of(text, at)}{where}: {stands}" + (f"; {why}" if why else "")]


def number(text, at):
    inside = within(text, at)
    tag = inside.tag if inside else ""
    return at_place(text, at, f"a number has 1 to 20 digits, and <{tag}> is {NUMBERS.get(tag, f'at most {TOP:,}')}")


def name(text, at):
    return at_place(text, at, name_limit(text, at))


def name_limit(text, at):
    """Which limit the name or the key breaks that begins at a place."""
    found = NAME.match(text, at)
    if not found:
        return ""
    tag, content = found[1].decode(), (found[2] or b"").decode(errors="replace")
    content = re.sub(r"&#?\w+;", "x", content)
    coded = b'percentencoded="true"' in found[0] or b"percentencoded='true'" in found[0]
    try:
        plain = re.sub(rb"%([0-9A-Fa-f]{2})", lambda it: bytes([int(it[1], 16)]), content.encode()).decode() \
            if coded else content
    except UnicodeDecodeError:
        return "what is percent-encoded there is no UTF-8"
    if len(plain) > 255:
        return f"it has {len(plain):,} characters, and 255 is the most"
    if plain in ("", ".", ".."):
        return "it is empty" if not plain else f"no {'key' if tag == 'key' else 'node'} is named {plain!r}"
    return "it has a / or a NUL"


def unknown(text, at):
    return at_place(text, at, "that element has no place there, or not with that attribute")


def twice(text, at):
    return at_place(text, at, "that element stands there already")


AT_PLACES = {"Syntax": at_place, "Unknown": unknown, "Twice": twice, "Number": number, "Name": name}
OF_UIDS = {"Uid": index_document.uid, "SameName": index_document.same_name, "SameKey": index_document.same_key,
           "Extent": index_document.extent, "Overlap": index_document.overlap}
ALONE = {"Version": index_document.version, "TooMany": index_document.too_many}


def lines_of(line, text):
    """What is told of a document by the line with which it is refused."""
    kind, _, what = line.partition(" ")
    if kind in AT_PLACES and what.isdecimal():
        return AT_PLACES[kind](text, int(what))
    if kind in OF_UIDS and what.isdecimal():
        return OF_UIDS[kind](text, int(what))
    if kind == "Missing" and what:
        return index_document.missing(text, what)
    return ALONE[kind](text) if kind in ALONE and not what else []


def told(run_again, start):
    """What is told of the document that the run has read. `run_again` gives the line that is printed of a text."""
    text = document(start)
    return [] if text is None else lines_of(run_again(text), text)
