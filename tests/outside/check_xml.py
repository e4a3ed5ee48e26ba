#!/usr/bin/env python3
"""Read the text of an index by Python's parser of XML, and compare it with the nodes that were to be written.

usage: check_xml.py FILE NODES
"""
import sys
import urllib.parse
import xml.etree.ElementTree as tree

from index_text import GROUP, TIMES, ending, moment

VOLUME = ["creator", "comment", "volumeuuid", "generationnumber", "updatetime", "location",
          "previousgenerationlocation", "allowpolicyupdate", "dataplacementpolicy", "volumelockstate",
          "highestfileuid", "directory"]
TAIL = TIMES + ["readonly"]


def is_same(found, wanted):
    if found != wanted:
        sys.exit("%r is there in place of %r" % (found, wanted))


def text(node):
    said = node.text or ""
    if node.get("percentencoded") == "true":
        return urllib.parse.unquote(said, errors="strict")
    return said


def check_facts(node, uid, name):
    is_same(node.findtext("fileuid"), str(uid))
    is_same(text(node.find("name")), name)
    for nth, tag in enumerate(TIMES):
        is_same(node.findtext(tag), moment(uid, nth))
    is_same(node.findtext("readonly"), "false")


def check_leaf(node, uid):
    check_facts(node, uid, "f%06d.dat%s" % (uid, ending(uid)))
    if uid % 20 == 3:
        is_same([c.tag for c in node], ["fileuid", "name", "length"] + TAIL + ["symlink"])
        target = "d%06d/f%06d.dat" % (uid // GROUP, uid)
        is_same(text(node.find("symlink")), target)
        is_same(node.findtext("length"), str(len(target.encode())))
        return
    is_same([c.tag for c in node], ["fileuid", "name", "length"] + TAIL + ["extentinfo"])
    count = str(1 + uid * 7919 % 2097152)
    is_same(node.findtext("length"), count)
    extents = [[(c.tag, c.text) for c in e] for e in node.find("extentinfo")]
    is_same(extents, [[("fileoffset", "0"), ("partition", "b"), ("startblock", str(4 + uid * 3)), ("byteoffset", "0"),
                       ("bytecount", count)]])


def check_directory(node, uid, name):
    is_same([c.tag for c in node], ["fileuid", "name"] + TAIL + ["contents"])
    check_facts(node, uid, name)
    return list(node.find("contents"))


def main():
    root = tree.parse(sys.argv[1]).getroot()
    count = int(sys.argv[2])
    is_same((root.tag, root.attrib), ("ltfsindex", {"version": "2.4.0"}))
    is_same([c.tag for c in root], VOLUME)
    is_same(root.findtext("comment"), "Nightly & weekly")
    is_same(root.findtext("highestfileuid"), str(count))
    uid = 1
    for group in check_directory(root.find("directory"), 1, "Archive"):
        uid += 1
        for leaf in check_directory(group, uid, "d%06d%s" % (uid, ending(uid))):
            uid += 1
            check_leaf(leaf, uid)
    is_same(uid, count)


if __name__ == "__main__":
    main()
