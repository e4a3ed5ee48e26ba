"""A volume with extended attributes on its root, a directory, a file and a link, of which each generation has its own
values, and what its indexes tell, by Python's readers of XML and base64."""

import base64
import sys
import urllib.parse
import xml.etree.ElementTree as tree

from cartridge import AT, UUID, indexes

TIMES = "".join(f"<{tag}time>{AT}</{tag}time>" for tag in ("creation", "change", "modify", "access", "backup"))


def spot(place):
    return f"<partition>{place[0]}</partition><startblock>{place[1:]}</startblock>"


def attributes(*pairs):
    elements = "".join(f"<xattr>{key}{value}</xattr>" for key, value in pairs)
    return f"<extendedattributes>\n{elements}\n</extendedattributes>"


def text(value):
    return f"<value type='text'>{value}</value>"


def coded(value):
    """Bytes in base64, in short lines."""
    symbols = base64.b64encode(value).decode()
    return f"<value type='base64'>\n{chr(10).join(symbols[at:at + 8] for at in range(0, len(symbols), 8))}\n</value>"


def facts(uid, readonly):
    """The times of a node, and whether it is one of those that are read-only."""
    return f"{TIMES}<readonly>{'true' if uid in readonly else 'false'}</readonly>"


def index(here, back, generation, places, state=None, readonly=()):
    """An index at a place, which points back to another, with a file of five bytes at each of these places. The word
    `of GENERATION` is in each value, and keys stand in no order. The volume has this lock state, and the nodes with
    these UIDs are read-only."""
    word = f"of {generation}"
    pointer = f"<previousgenerationlocation>{spot(back)}</previousgenerationlocation>" if back else ""
    root = attributes(("<key>b</key>", text(f"{word} &#60;&amp;&#13;")),
                      ("<key>a</key>", coded(b"root " + word.encode())))
    docs = attributes(("<key>ltfs.docs</key>", coded(b"\0\xff" + word.encode())))
    file = attributes(("<key percentencoded='true'>%01%25</key>", text(f"file {word}")),
                      ("<key>é</key>", "<value/>"), ("<key>a/b</key>", coded(word.encode() + b"\xef\xbf\xbe")))
    link = attributes(("<key>security.selinux</key>", coded(b"link " + word.encode() + b"\0")))
    extents = "".join(f"<extent><fileoffset>{5 * k}</fileoffset>{spot(place)}<byteoffset>0</byteoffset>"
                      "<bytecount>5</bytecount></extent>" for k, place in enumerate(places))
    locked = f"<volumelockstate>{state}</volumelockstate>" if state else ""
    return f"""<ltfsindex version="2.4.0"><creator>by hand</creator><volumeuuid>{UUID}</volumeuuid>\
<generationnumber>{generation}</generationnumber><updatetime>{AT}</updatetime><location>{spot(here)}</location>\
{pointer}<allowpolicyupdate>true</allowpolicyupdate>{locked}<highestfileuid>4</highestfileuid><directory>\
<fileuid>1</fileuid><name></name>{facts(1, readonly)}{root}<contents><directory><fileuid>2</fileuid>\
<name>docs</name>{facts(2, readonly)}{docs}<contents><file><fileuid>3</fileuid><name>a</name>\
<length>{5 * len(places)}</length>{facts(3, readonly)}{file}<extentinfo>{extents}</extentinfo></file></contents>\
</directory><file><fileuid>4</fileuid><name>to</name><length>6</length>{facts(4, readonly)}{link}\
<symlink>docs/a</symlink></file></contents></directory></ltfsindex>""".encode()


def pair(xattr):
    """A key, and the bytes of its value."""
    key, value = xattr.find("key"), xattr.find("value")
    name = key.text or ""
    if key.get("percentencoded") == "true":
        name = urllib.parse.unquote(name, errors="strict")
    told = value.text or ""
    return name, base64.b64decode(told) if value.get("type") == "base64" else told.encode()


def tell():
    """Prints what came, but of a close only the generation. Behind it, of each index its generation and position, and
    the attributes of each node in their order."""
    for line in sys.stdin.read().splitlines():
        print(" ".join(line.split()[:2]) if line.startswith("closed") else line)
    for part in ("dp", "ip"):
        for position, document in indexes(part):
            root = tree.fromstring(document)
            print(part, position, "generation", root.findtext("generationnumber"))
            for node in root.iter():
                if node.tag in ("directory", "file"):
                    pairs = map(pair, node.findall("extendedattributes/xattr"))
                    print(ascii(node.findtext("name")), *(f"{key!a}={value!r}" for key, value in pairs))
