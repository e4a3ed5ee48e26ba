#!/usr/bin/env python3
"""Write the text of the index that crates/index_speed makes, by the rules of the format alone.

usage: index_text.py NODES > index.xml
       index_text.py NODES --sum        its length in bytes and the sum that index_speed prints
"""
import datetime
import sys

GROUP = 256
ENDINGS = ["&co", "<x>", "%41", "\x01", "é", "雪", "a&b<c>d"]
TIMES = ["creationtime", "changetime", "modifytime", "accesstime", "backuptime"]


def element(tag, content, attribute=""):
    return f"<{tag}{attribute}>{content}</{tag}>"


def escaped(text):
    return text.replace("&", "&amp;").replace("<", "&lt;").replace(">", "&gt;").replace("\r", "&#13;")


def name(tag, text):
    if all(c >= " " and c not in "\x7f\ufffe\uffff" for c in text):
        return element(tag, escaped(text))
    coded = "".join("%%%02X" % b if b < 32 or b >= 127 or b == 37 else chr(b) for b in text.encode())
    return element(tag, escaped(coded), ' percentencoded="true"')


def moment(uid, nth):
    some = uid * 5 + nth
    at = datetime.datetime(1970, 1, 1) + datetime.timedelta(seconds=1300000000 + some * 7919 % 400000000)
    return at.strftime("%Y-%m-%dT%H:%M:%S") + ".%09dZ" % (some * 715656751 % 1000000000)


def facts(uid, text, length=None):
    front = element("fileuid", uid) + name("name", text)
    if length is not None:
        front += element("length", length)
    return front + "".join(element(tag, moment(uid, k)) for k, tag in enumerate(TIMES)) + element("readonly", "false")


def ending(uid):
    return ENDINGS[uid // 20 % 7] if uid % 20 == 7 else ""


def leaf(uid):
    called = "f%06d.dat%s" % (uid, ending(uid))
    if uid % 20 == 3:
        target = "d%06d/f%06d.dat" % (uid // GROUP, uid)
        return element("file", facts(uid, called, len(target)) + name("symlink", target))
    count = 1 + uid * 7919 % 2097152
    extent = (element("fileoffset", 0) + element("partition", "b") + element("startblock", 4 + uid * 3)
              + element("byteoffset", 0) + element("bytecount", count))
    return element("file", facts(uid, called, count) + element("extentinfo", element("extent", extent)))


def directory(uid, called, inside):
    return element("directory", facts(uid, called) + element("contents", inside))


def document(count):
    groups = []
    for first in range(1, count, GROUP):
        leaves = "".join(leaf(at + 1) for at in range(first + 1, min(first + GROUP, count)))
        groups.append(directory(first + 1, "d%06d%s" % (first + 1, ending(first + 1)), leaves))
    spot = lambda block: element("partition", "b") + element("startblock", block)
    volume = (element("creator", "ltfs_server 1.0.0") + element("comment", escaped("Nightly & weekly"))
              + element("volumeuuid", "30a91a08-daae-48d1-ae75-69804e61d2ea") + element("generationnumber", 3)
              + element("updatetime", moment(0, 0)) + element("location", spot(9))
              + element("previousgenerationlocation", spot(5)) + element("allowpolicyupdate", "true")
              + element("dataplacementpolicy",
                        element("indexpartitioncriteria", element("size", 1000000) + name("name", "*.txt")))
              + element("volumelockstate", "unlocked") + element("highestfileuid", count))
    return ('<?xml version="1.0" encoding="UTF-8"?>'
            + element("ltfsindex", volume + directory(1, "Archive", "".join(groups)), ' version="2.4.0"')).encode()


def main():
    text = document(int(sys.argv[1]))
    if "--sum" in sys.argv:
        total = 0
        for b in text:
            total = (total * 31 + b) % 2 ** 64
        print("%d bytes, %016x" % (len(text), total))
    else:
        sys.stdout.buffer.write(text)


if __name__ == "__main__":
    main()
