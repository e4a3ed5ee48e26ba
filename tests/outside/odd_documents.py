#!/usr/bin/env python3
"""Documents that are hard on a reader: writes them into a folder, runs index_tool on each, and compares what it says.

    odd_documents.py TOOL FOLDER [--big]

For each it prints its size, the processor time, the most memory, and what was said. Some have a time within which that
has to be. With --big a document of 65,536 nodes with 256 attributes each comes last, of some 640 MB.
"""
import os
import random
import subprocess
import sys

MEBIBYTE = 1 << 20
TIMES = "".join(f"<{tag}>2024-01-02T03:04:05.000000000Z</{tag}>"
                for tag in ["creationtime", "changetime", "modifytime", "accesstime", "backuptime"])


def head(comment="", highest=70000):
    return ('<ltfsindex version="2.4.0"><creator>x</creator>' + comment +
            "<volumeuuid>30a91a08-daae-48d1-ae75-69804e61d2ea</volumeuuid><generationnumber>3</generationnumber>"
            "<updatetime>2024-01-02T03:04:05.000000000Z</updatetime>"
            "<location><partition>b</partition><startblock>9</startblock></location>"
            f"<allowpolicyupdate>true</allowpolicyupdate><highestfileuid>{highest}</highestfileuid>")


def facts(uid, name):
    return f"<fileuid>{uid}</fileuid><name>{name}</name>{TIMES}<readonly>false</readonly>"


def index(inside, **words):
    return head(**words) + f"<directory>{facts(1, 'r')}<contents>{inside}</contents></directory></ltfsindex>"


def file(uid, name, rest="", length=0):
    return f"<file>{facts(uid, name)}<length>{length}</length>{rest}</file>"


def extents(count):
    """Extents of one file, the last one first."""
    return "".join(f"<extent><fileoffset>{2 * k}</fileoffset><partition>b</partition><startblock>7</startblock>"
                   "<byteoffset>0</byteoffset><bytecount>1</bytecount></extent>" for k in reversed(range(count)))


def attributes(keys):
    """The element of attributes with these keys and no bytes."""
    elements = "".join(f"<xattr><key>{key}</key><value/></xattr>" for key in keys)
    return f"<extendedattributes>{elements}</extendedattributes>"


def shuffled(keys):
    random.Random(17).shuffle(keys)
    return keys


def long_names(last):
    """65,536 names of 250 letters in one folder, of which the last has this number."""
    return index("".join(file(uid, f"{min(uid, last):0250}") for uid in range(2, 65537)))


def nested(count):
    return index(f"<directory>{facts('@', 'd')}<contents>" * count + "</contents></directory>" * count)


def documents():
    """Of each its name, the document, what has to be said, and, where there is one, the time for that in seconds."""
    known, others = " version='2.4.0'" * 10 ** 6, "".join(f" a{k}=''" for k in range(10 ** 6))
    many = "".join(file(uid, f"n{uid}") for uid in range(2, 65538))
    spread = file(2, "f", f"<extentinfo>{extents(300000)}</extentinfo>", 600000)
    references = "<comment>" + "&amp;" * (64 * MEBIBYTE // 5) + "</comment>"
    yield "an element's name of 16 MiB", "<" + "a" * 16 * MEBIBYTE, f"Syntax {16 * MEBIBYTE + 1}", None
    yield "a start tag with 16 MiB of blanks", "<ltfsindex" + " " * 16 * MEBIBYTE, f"Syntax {16 * MEBIBYTE + 10}", None
    opened = head() + "<directory><contents><directory>"
    yield "a start tag again and again, for 16 MiB", opened + "<directory>" * 1525201, f"Unknown {len(opened)}", None
    yield "the same, and rightly so", head() + "<directory>" + "<contents><directory>" * 798915, "TooMany", None
    yield "a million attributes", "<ltfsindex version='2.4.0'" + known + ">", "Syntax 27", None
    yield "a million attributes that aren't known", "<ltfsindex" + others + ">", "Unknown 0", None
    yield "65,537 nodes", index(many), "TooMany", None
    yield "65,536 names of 250 letters in one folder", long_names(65536), "ok 3 65536", None
    yield "the last two of them alike", long_names(65535), "SameName 65536", None
    yield "65,536 folders in one another", nested(65535), "ok 3 65536", None
    yield "a file of 300,000 extents, the last one first", index(spread), "ok 3 2", None
    yield "a comment of 64 MiB of references", index("", comment=references), "ok 3 1", None


def documents_with_attributes():
    """The same of documents with extended attributes."""
    opened = head() + "<directory><extendedattributes>"
    yield "64 MiB of attributes without a value", opened + "<xattr>" * (64 * MEBIBYTE // 7), \
        f"Unknown {len(opened) + 7}", None
    empty = opened + "<xattr><key>k</key></xattr>" * (64 * MEBIBYTE // 27)
    yield "the same, each with its end", empty, "Missing value", None
    names = [f"{k:06}" for k in range(100000)]
    rising, mixed = file(2, "f", attributes(names)), file(2, "f", attributes(shuffled(list(names))))
    falling = file(2, "f", attributes(names[::-1]))
    yield "100,000 attributes of one file", index(rising), "ok 3 2", 1
    yield "the last one first", index(falling), "ok 3 2", 1
    yield "in any order", index(mixed), "ok 3 2", 1
    yield "the first key again as the last", index(file(2, "f", attributes(names + names[:1]))), "SameKey 2", 1
    keys = shuffled(list(names))
    yield "the same in any order", index(file(2, "f", attributes(keys + keys[:1]))), "SameKey 2", 1
    long = [f"{'k' * 249}{k:06}" for k in range(100000)]
    yield "100,000 keys that differ at their ends", index(file(2, "f", attributes(shuffled(long)))), "ok 3 2", None
    values = "".join(file(uid, f"n{uid}", "<extendedattributes><xattr><key>k</key><value type='base64'>\n"
                          + "AAAAAAAAAAAAAAAAAA==\n</value></xattr></extendedattributes>") for uid in range(2, 65537))
    yield "65,535 values in base64", index(values), "ok 3 65536", None
    whole = "".join(f"{'QUJD' * 18}\n" for _ in range(64 * MEBIBYTE // 73))
    value = f"<extendedattributes><xattr><key>k</key><value type='base64'>{whole}</value></xattr></extendedattributes>"
    yield "a value of 64 MiB in base64", index(file(2, "f", value)), "ok 3 2", None


def big_document():
    """65,536 nodes with 256 attributes each."""
    keys = attributes(shuffled([str(k) for k in range(256)]))
    yield "256 attributes on each of 65,536 nodes", \
        index("".join(file(uid, f"n{uid}", keys) for uid in range(2, 65537))), "ok 3 65536", None


def numbered(text):
    """Each place of a uid gets its own."""
    parts = text.split("@")
    return "".join(part + str(k + 2) for k, part in enumerate(parts[:-1])) + parts[-1] if len(parts) > 1 else text


def run(tool, path):
    """What it says, its processor time in seconds, and the most memory in MiB."""
    with open(path, "rb") as source, \
            subprocess.Popen([tool, "check"], stdin=source, stdout=subprocess.PIPE) as running:
        said = running.stdout.read().decode().strip()
        used = os.wait4(running.pid, 0)[2]
        running.returncode = 0
    return said, used.ru_utime + used.ru_stime, used.ru_maxrss / 1024


def main():
    tool, folder, *words = sys.argv[1:]
    kinds = [documents, documents_with_attributes] + [big_document] * (words == ["--big"])
    wrong = 0
    for name, text, want, limit in (row for kind in kinds for row in kind()):
        path = os.path.join(folder, "odd.xml")
        data = numbered(text).encode()
        with open(path, "wb") as out:
            out.write(data)
        said, seconds, memory = run(tool, path)
        slow = limit is not None and seconds > limit
        wrong += said != want or slow
        print(f"{name:45} {len(data) / 1e6:6.1f} MB {seconds * 1000:7.0f} ms {memory:6.0f} MiB  {said}")
        if said != want:
            print(f"wanted {want}")
        if slow:
            print(f"wanted within {limit * 1000:.0f} ms")
    return 1 if wrong else 0


if __name__ == "__main__":
    sys.exit(main())
