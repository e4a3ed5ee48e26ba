"""The document of an index as far as it can be read, to say what is wrong with it in more words than a refusal has."""

import re
import xml.parsers.expat

from image_reader import counted

TIMES = ("creationtime", "changetime", "modifytime", "accesstime", "backuptime")
NODE = ("fileuid", "name", *TIMES, "readonly")
# What each element has to have, by its name; that of the volume's places is one form.
PLACE = ("partition", "startblock")
REQUIRED = {
    "ltfsindex": ("creator", "volumeuuid", "generationnumber", "updatetime", "location", "allowpolicyupdate",
                  "highestfileuid", "directory"),
    "location": PLACE, "previousgenerationlocation": PLACE, "dataplacementpolicy": ("indexpartitioncriteria",),
    "indexpartitioncriteria": ("size",), "directory": (*NODE, "contents"), "file": (*NODE, "length"),
    "xattr": ("key", "value"),
    "extent": ("fileoffset", "partition", "startblock", "byteoffset", "bytecount"),
}
NODES = ("directory", "file")
MOST_NODES = 65_536


class Element:
    """An element that was begun: its name, where it begins, the texts of its children, its parent, and what is kept of
    elements that lie deeper."""

    def __init__(self, tag, at, parent):
        self.tag, self.at, self.parent = tag, at, parent
        self.children, self.text, self.is_encoded, self.kept = {}, [], False, []

    def told(self):
        """What the element is, in words: a node by its UID and its name."""
        if self.tag not in NODES:
            return f"<{self.tag}>" + (f" of {self.node().told()}" if self.node() else "")
        kind = "directory" if self.tag == "directory" else "link" if "symlink" in self.children else "file"
        uid, name = self.first("fileuid"), self.first("name")
        has_uid = f" with UID {uid}" if uid is not None else " without a UID"
        return f"the {kind}{has_uid}" + (f" ({name!r})" if name is not None else "")

    def node(self):
        above = self.parent
        while above and above.tag not in NODES:
            above = above.parent
        return above

    def first(self, tag):
        return self.children.get(tag, [None])[0]

    def number(self, tag):
        text = self.first(tag)
        return int(text) if text and text.isdecimal() else 0


class Reading:
    """A reading of a document, up to where it goes on no more. `ended` is called with each element that ends, and
    where; it ends the reading by `Enough`."""

    def __init__(self, ended, begun=None):
        self.ended, self.begun, self.open = ended, begun, None
        self.parser = xml.parsers.expat.ParserCreate("UTF-8")
        self.parser.buffer_text = True
        self.parser.StartElementHandler = self.start
        self.parser.EndElementHandler = self.end
        self.parser.CharacterDataHandler = lambda text: self.open.text.append(text)

    def start(self, tag, attributes):
        self.open = Element(tag, self.parser.CurrentByteIndex, self.open)
        self.open.is_encoded = attributes.get("percentencoded") == "true"
        if self.begun:
            self.begun(self.open)

    def end(self, tag):
        done, self.open = self.open, self.open.parent
        if self.open:
            self.open.children.setdefault(tag, []).append(value_of(done))
        self.ended(done, self.parser.CurrentByteIndex)

    def read(self, text):
        """Returns the element within which the reading ended."""
        try:
            self.parser.Parse(text, True)
        except (xml.parsers.expat.ExpatError, Enough):
            pass
        return self.open


class Enough(Exception):
    """What was looked for is found."""


def value_of(element):
    """The text of an element without children; of any other one that it is there."""
    text = "".join(element.text)
    if element.tag in ("name", "symlink", "key"):
        return percent_decoded(text) if element.is_encoded else text
    return text.strip()


def percent_decoded(text):
    return re.sub(rb"%([0-9A-Fa-f]{2})", lambda it: bytes([int(it[1], 16)]), text.encode()).decode(errors="replace")


def found_in(text, look, begun=None):
    """What `look` answers of the first element of which it answers anything, and where that ends."""
    found = []

    def ended(element, at):
        answer = look(element)
        if answer:
            found.append((answer, at))
            raise Enough

    Reading(ended, begun).read(text)
    return found[0] if found else (None, None)


def within(text, at):
    """The element in which a place of a document lies, or None."""
    return Reading(lambda element, at: None).read(text[:at])


def place_of(text, at):
    """The line and the column of a byte, counted from 1."""
    line = text.count(b"\n", 0, at) + 1
    front = text[text.rfind(b"\n", 0, at) + 1:at]
    return f"line {line:,}, column {len(front.decode(errors='replace')) + 1:,}"


# ---- refusals of single elements

def missing(text, tag):
    """Which element is the first that ends without this child."""
    def look(element):
        return tag in REQUIRED.get(element.tag, ()) and tag not in element.children and element.told()

    told, at = found_in(text, look)
    return [f"{told}, which ends at {place_of(text, at)}, lacks <{tag}>"] if told else []


def version(text):
    begins = re.search(rb"<ltfs(?:index|label)\b[^>]*", text)
    found = re.search(rb"\sversion\s*=\s*([\"'])(.*?)\1", begins[0]) if begins else None
    if not begins:
        return []
    stands = f"the version {found[2].decode(errors='replace')!r} stands there" if found else "no version stands there"
    return [f"{place_of(text, begins.start())}: {stands}; those of 2.0 to 2.4 are read, as 2.4.0"]


def too_many(text):
    count, found = 0, []

    def begun(element):
        nonlocal count
        count += element.tag in NODES
        if count > MOST_NODES:
            found.append(element.at)
            raise Enough

    found_in(text, lambda element: None, begun)
    return [f"node {MOST_NODES + 1:,} begins at {place_of(text, found[0])}"] if found else []


# ---- refusals of the index as a whole

class Uids:
    """The UIDs that were seen, and the highest, which is known when the document has been read."""

    def __init__(self, wanted):
        self.wanted, self.seen, self.nodes, self.highest = wanted, [], [], None

    def look(self, element):
        if element.tag == "ltfsindex":
            self.highest = element.number("highestfileuid")
        if element.tag in NODES and element.number("fileuid") == self.wanted:
            self.nodes.append(element)


def uid(text, wanted):
    seen = Uids(wanted)
    found_in(text, seen.look)
    nodes = sorted(seen.nodes, key=lambda it: it.at)
    if seen.highest == wanted and wanted > 2**62:
        return [f"the highest UID, {wanted:,}, is over {2**62:,}"]
    places = [f"{it.told()} begins at {place_of(text, it.at)}" for it in nodes[:2]]
    if wanted == 0:
        return [f"a UID is 0: {places[0]}"] if places else []
    if len(nodes) > 1:
        return [f"two nodes have the UID {wanted}: {places[0]}, and {places[1]}"]
    if seen.highest is not None and wanted > seen.highest:
        return [f"the UID {wanted} is over the highest, {seen.highest}: {it}" for it in places]
    return [f"the root has to have the UID 1, and has {wanted}"] if places else []


def same_name(text, wanted):
    """The two nodes of one directory that have one name."""
    nodes = {}

    def look(element):
        if element.tag not in NODES or not element.parent:
            return
        nodes.setdefault((id(element.parent), element.first("name")), []).append((element, element.parent))

    found_in(text, look)
    for each in nodes.values():
        both = sorted((it for it, _ in each), key=lambda it: it.at)
        if len(both) > 1 and wanted in [it.number("fileuid") for it in both[1:]]:
            return [f"two nodes of one directory are named {both[0].first('name')!r}: {both[0].told()} begins at"
                    f" {place_of(text, both[0].at)}, and {both[1].told()} at {place_of(text, both[1].at)}"]
    return []


def of_node(text, wanted, tag, fact, judge):
    """What `judge` answers of the node with this UID, for which a fact is kept of each element of this name in it."""
    def look(element):
        if element.tag == tag and element.node():
            element.node().kept.append(fact(element))
        return element.tag in NODES and element.number("fileuid") == wanted and judge(element)

    found = found_in(text, look)[0]
    return [found] if found else []


def same_key(text, wanted):
    def judge(node):
        seen = set()
        twice = next((it for it in node.kept if it in seen or seen.add(it)), None)
        return twice is not None and f"{node.told()} has the key {twice!r} twice"

    return of_node(text, wanted, "xattr", lambda it: it.first("key"), judge)


def spot(extent):
    """The first byte in its file, the length and the place of an extent."""
    return extent.number("fileoffset"), extent.number("bytecount"), extent.at


def extent(text, wanted):
    def judge(file):
        length = file.number("length")
        if length > 2**40:
            return f"{file.told()} has the length {length:,}, and {2**40:,} is the most"
        for offset, count, at in file.kept:
            if offset + count > 2**62:
                return f"{file.told()} has an extent of {counted(count, 'byte')} at its byte {offset:,}" \
                       f" ({place_of(text, at)}), which ends past {2**62:,}"
        return None

    return of_node(text, wanted, "extent", spot, judge)


def overlap(text, wanted):
    def judge(file):
        end, last = 0, 0
        for offset, count, at in sorted(it for it in file.kept if it[1]):
            if offset < end:
                shared = f"{offset:,} to {min(end, offset + count) - 1:,}"
                return f"two extents of {file.told()} share its bytes {shared}: that at {place_of(text, last)}, and" \
                       f" that at {place_of(text, at)}"
            end, last = offset + count, at
        return None

    return of_node(text, wanted, "extent", spot, judge)
