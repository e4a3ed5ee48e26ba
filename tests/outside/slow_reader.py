#!/usr/bin/env python3
"""Reads the document of an index by the plain reading of its rules, with no care for time.

    slow_reader.py            runs the table below: documents, and what has to be said of each
    slow_reader.py check      reads a document from standard input and prints `ok GENERATION NODES`
                              or the refusal, as index_tool does

Every element is read by a call of its own; no code is shared with the server.
"""
import base64
import re
import sys
from datetime import date

sys.setrecursionlimit(1_000_000)


class Refuse(Exception):
    def __init__(self, kind, *what):
        self.kind, self.what = kind, what
        super().__init__(kind, what)


SPACE = b" \t\n\r"
REFERENCES = {"amp": 38, "lt": 60, "gt": 62, "quot": 34, "apos": 39}
LEAF = {  # form of each leaf, by its parent
    "index": {"creator": "text", "comment": "text", "volumeuuid": "uuid", "generationnumber": "generation",
              "updatetime": "time", "allowpolicyupdate": "truth", "volumelockstate": "lock",
              "highestfileuid": "number"},
    "spot": {"partition": "letter", "startblock": "bounded"},
    "policy": {},
    "criteria": {"size": "bounded", "name": "anyname"},
    "root": {"name": "volumename"},
    "directory": {"name": "nodename"},
    "contents": {},
    "file": {"name": "nodename", "length": "number", "openforwrite": "truth", "symlink": "anyname"},
    "attributes": {},
    "xattr": {"key": "key", "value": "bytes"},
    "extents": {},
    "extent": {"fileoffset": "bounded", "partition": "letter", "startblock": "bounded", "byteoffset": "bounded",
               "bytecount": "bounded"},
}
NODE = {"fileuid": "number", "readonly": "truth"}
NODE.update({t: "time" for t in ["creationtime", "changetime", "modifytime", "accesstime", "backuptime"]})
for p in ["root", "directory", "file"]:
    LEAF[p].update(NODE)
PARENT = {
    "index": {"location": "spot", "previousgenerationlocation": "spot", "dataplacementpolicy": "policy",
              "directory": "root"},
    "spot": {}, "policy": {"indexpartitioncriteria": "criteria"}, "criteria": {},
    "root": {"contents": "contents", "extendedattributes": "attributes"},
    "directory": {"contents": "contents", "extendedattributes": "attributes"},
    "contents": {"directory": "directory", "file": "file"},
    "file": {"extendedattributes": "attributes", "extentinfo": "extents"},
    "attributes": {"xattr": "xattr"}, "xattr": {}, "extents": {"extent": "extent"}, "extent": {},
}
FIVE = ["creationtime", "changetime", "modifytime", "accesstime", "backuptime"]
REQUIRED = {
    "index": ["creator", "volumeuuid", "generationnumber", "updatetime", "location", "allowpolicyupdate",
              "highestfileuid", "directory"],
    "spot": ["partition", "startblock"], "policy": ["indexpartitioncriteria"], "criteria": ["size"],
    "root": ["fileuid", "name"] + FIVE + ["readonly", "contents"],
    "directory": ["fileuid", "name"] + FIVE + ["readonly", "contents"],
    "contents": [], "file": ["fileuid", "name", "length"] + FIVE + ["readonly"], "attributes": [],
    "xattr": ["key", "value"], "extents": [],
    "extent": ["fileoffset", "partition", "startblock", "byteoffset", "bytecount"],
}
MANY = {("criteria", "name"), ("contents", "directory"), ("contents", "file"), ("attributes", "xattr"),
        ("extents", "extent")}
KNOWN = set("ltfslabel ltfsindex formattime partitions index data blocksize compression".split())
for table in (LEAF, PARENT):
    for inside in table.values():
        KNOWN |= set(inside)


def allowed(c):
    return c in (9, 10, 13) or 0x20 <= c <= 0xD7FF or 0xE000 <= c <= 0xFFFD or 0x10000 <= c <= 0x10FFFF


class Reader:
    ROOT, PLACE = "ltfsindex", "index"

    def __init__(self, text):
        self.text = text
        self.count = 0
        self.nodes = []

    # ---- bytes

    def byte(self, at):
        return self.text[at] if at < len(self.text) else 0

    def space(self, at):
        while at < len(self.text) and self.text[at] in SPACE:
            at += 1
        return at

    def literal(self, word, at):
        for i, b in enumerate(word):
            if self.byte(at + i) != b:
                raise Refuse("Syntax", at + i)
        return at + len(word)

    def end_is_cut(self, at):
        return at == len(self.text)

    # ---- declaration and tags

    def quoted(self, at):
        q = self.byte(at)
        if q not in (34, 39):
            raise Refuse("Syntax", at)
        end = self.text.find(bytes([q]), at + 1)
        if end < 0:
            raise Refuse("Syntax", len(self.text))
        return end

    def declaration(self, at):
        front = self.text[at:at + 5]
        if front != b"<?xml":
            if len(front) >= 2 and b"<?xml".startswith(front):
                raise Refuse("Syntax", len(self.text))
            return at
        if is_name_byte(self.byte(at + 5)):
            return at
        at += 5
        if self.space(at) == at:
            raise Refuse("Syntax", at)
        at = self.told(b"version=", lambda v: v == b"1.0", self.space(at))
        s = self.space(at)
        if s > at and self.byte(s) == ord("e"):
            at = self.told(b"encoding=", lambda v: v.lower() == b"utf-8", s)
            s = self.space(at)
        if s > at and self.byte(s) == ord("s"):
            at = self.told(b"standalone=", lambda v: v in (b"yes", b"no"), s)
            s = self.space(at)
        return self.literal(b"?>", s)

    def told(self, word, right, at):
        at = self.literal(word, at)
        end = self.quoted(at)
        if not right(self.text[at + 1:end]):
            raise Refuse("Syntax", at + 1)
        return end + 1

    def name(self, at):
        if not begins_name(self.byte(at)):
            raise Refuse("Syntax", at)
        end = at
        while end < len(self.text) and is_name_byte(self.text[end]):
            end += 1
        if end == len(self.text):
            raise Refuse("Syntax", end)
        return end

    def rest_of_start(self, tag, start, at):
        """(attribute, whether it ends by />, the place behind it)"""
        found = None
        wrong_version = False
        while True:
            s = self.space(at)
            if self.byte(s) in (ord(">"), ord("/")):
                break
            if s == at:
                raise Refuse("Version") if wrong_version else Refuse("Syntax", at)
            try:
                end = self.name(s)
            except Refuse as r:
                raise Refuse("Version") if wrong_version else r
            name = self.text[s:end]
            root = tag in ("ltfsindex", "ltfslabel") and name == b"version"
            escaped = tag in ("name", "symlink", "key") and name == b"percentencoded"
            typed = tag == "value" and name == b"type"
            if not (root or escaped or typed):
                raise Refuse("Unknown", start)
            if found is not None:
                raise Refuse("Version") if wrong_version else Refuse("Syntax", s)
            equals = self.literal(b"=", self.space(end))
            q = self.space(equals)
            close = self.quoted(q)
            value = self.text[q + 1:close]
            if root:
                wrong_version = re.fullmatch(rb"2\.[0-4]\.[0-9]{1,3}", value) is None
            elif value not in ((b"text", b"base64") if typed else (b"true", b"false")):
                raise Refuse("Syntax", q + 1)
            found = value
            at = close + 1
        empty = self.byte(s) == ord("/")
        if empty and self.byte(s + 1) != ord(">"):
            raise Refuse("Version") if wrong_version else Refuse("Syntax", s + 1)
        if wrong_version or (tag in ("ltfsindex", "ltfslabel") and found is None):
            raise Refuse("Version")
        return found, empty, s + 2 if empty else s + 1

    def start_tag(self, at, judge):
        """Reads a start tag; what the element itself has against it comes before all but an unknown attribute."""
        self.literal(b"<", at)
        end = self.name(at + 1)
        tag = self.text[at + 1:end].decode("latin-1")
        if tag not in KNOWN:
            raise Refuse("Unknown", at)
        against = None
        try:
            judge(tag)
        except Refuse as r:
            against = r
        try:
            rest = self.rest_of_start(tag, at, end)
        except Refuse as r:
            if r.kind == "Unknown":
                raise
            raise against or r
        if against:
            raise against
        return (tag,) + rest

    def end_tag(self, tag, at):
        at = self.literal(b"</" + tag.encode(), at)
        return self.literal(b">", self.space(at))

    # ---- values

    def words(self, words, at):
        for w, value in words:
            if self.text.startswith(w, at):
                return value, at + len(w)
        left = self.text[at:]
        if any(w.startswith(left) for w, _ in words):
            raise Refuse("Syntax", len(self.text))
        raise Refuse("Syntax", at)

    def shaped(self, shape, value, at):
        piece = self.text[at:at + len(shape)]
        fits = all(fits_place(p, b) for p, b in zip(shape, piece))
        if len(piece) < len(shape):
            raise Refuse("Syntax", len(self.text) if fits else at)
        got = value(piece) if fits else None
        if got is None:
            raise Refuse("Syntax", at)
        return got, at + len(shape)

    def digits(self, least, most, at):
        end = at
        while end < len(self.text) and 48 <= self.text[end] <= 57:
            end += 1
        if end == at:
            raise Refuse("Syntax", at)
        if end - at > 20:
            raise Refuse("Number", at)
        n = int(self.text[at:end])
        if n >= 2 ** 64 or n > most:
            raise Refuse("Number", at)
        if n < least:
            raise Refuse("Syntax", len(self.text)) if self.end_is_cut(end) else Refuse("Number", at)
        return n, end

    def characters(self, at):
        """The text up to the next `<`, and where it ends."""
        end = self.text.find(b"<", at)
        cut = end < 0
        end = len(self.text) if cut else end
        run = self.text[at:end]
        try:
            good, bad = run.decode(), None
        except UnicodeDecodeError as e:
            good, bad = run[:e.start].decode(), at + e.start
        out, i, place = [], 0, at
        while i < len(good):
            c = good[i]
            if c == "&":
                m = re.match(r"&(?:(amp|lt|gt|quot|apos)|#([0-9]+)|#x([0-9a-fA-F]+));", good[i:])
                n = None
                if m:
                    n = REFERENCES[m[1]] if m[1] else int(m[2]) if m[2] else int(m[3], 16)
                if n is None or not allowed(n):
                    if cut and bad is None and could_be_reference(good[i:]):
                        raise Refuse("Syntax", len(self.text))
                    raise Refuse("Syntax", place)
                out.append(chr(n))
                i += len(m[0])
                place += len(m[0])
                continue
            if c == "\r":
                out.append("\n")
                step = 2 if good[i + 1:i + 2] == "\n" else 1
                i += step
                place += step
                continue
            if not allowed(ord(c)):
                raise Refuse("Syntax", place)
            out.append(c)
            i += 1
            place += len(c.encode())
        if bad is not None:
            raise Refuse("Syntax", bad)
        return "".join(out), end

    def named(self, form, start, percent, text):
        data = text.encode()
        if percent:
            data = re.sub(rb"%([0-9a-fA-F]{2})", lambda m: bytes([int(m[1], 16)]), data)
        try:
            name = data.decode()
        except UnicodeDecodeError:
            raise Refuse("Name", start)
        if form == "key" and (not 1 <= len(name) <= 255 or "\0" in name):
            raise Refuse("Name", start)
        if form in ("nodename", "volumename") and (len(name) > 255 or "/" in name or "\0" in name):
            raise Refuse("Name", start)
        if form == "nodename" and name in ("", ".", ".."):
            raise Refuse("Name", start)
        return name

    def leaf(self, tag, form, start, attribute, empty, at):
        percent = attribute == b"true"
        if empty:
            if form == "text":
                return "", at
            if form == "bytes":
                return b"", at
            if form == "key" or form.endswith("name"):
                return self.named(form, start, percent, ""), at
            raise Refuse("Syntax", at)
        if form == "text":
            value, at = self.characters(at)
        elif form == "bytes":
            first = self.space(at)
            value, at = self.characters(at)
            if self.end_is_cut(at):
                raise Refuse("Syntax", at)
            value = from_base64(value) if attribute == b"base64" else value.encode()
            if value is None:
                raise Refuse("Syntax", first)
        elif form == "key" or form.endswith("name"):
            value, at = self.characters(at)
            if self.end_is_cut(at):
                raise Refuse("Syntax", at)
            value = self.named(form, start, percent, value)
        else:
            value, at = self.value(form, self.space(at))
            at = self.space(at)
        return value, self.end_tag(tag, at)

    def value(self, form, at):
        if form == "number":
            return self.digits(0, 2 ** 64, at)
        if form == "bounded":
            return self.digits(0, 2 ** 62, at)
        if form == "generation":
            return self.digits(1, 2 ** 62, at)
        if form == "truth":
            return self.words([(b"true", True), (b"false", False), (b"1", True), (b"0", False)], at)
        if form == "lock":
            return self.words([(w, w.decode()) for w in (b"unlocked", b"locked", b"permlocked")], at)
        if form == "letter":
            if not 97 <= self.byte(at) <= 122:
                raise Refuse("Syntax", at)
            return chr(self.byte(at)), at + 1
        if form == "time":
            return self.shaped(b"0000-00-00T00:00:00.000000000Z", moment, at)
        return self.shaped(b"hhhhhhhh-hhhh-hhhh-hhhh-hhhhhhhhhhhh", lambda b: b.lower().decode(), at)

    # ---- elements

    def judge(self, parent, seen, at):
        def against(tag):
            if tag not in LEAF[parent] and tag not in PARENT[parent]:
                raise Refuse("Unknown", at)
            if tag in ("extentinfo", "symlink") and ("extentinfo" in seen or "symlink" in seen):
                raise Refuse("Unknown", at)
            if tag in seen and (parent, tag) not in MANY:
                raise Refuse("Twice", at)
            if PARENT[parent].get(tag) in ("root", "directory", "file") and self.count >= 65536:
                raise Refuse("TooMany")
        return against

    def missing(self, parent, seen):
        for tag in REQUIRED[parent]:
            if tag not in seen:
                raise Refuse("Missing", tag)

    def children(self, parent, tag, at):
        """All children of an element and its end tag: a list of (tag, value), and the place behind."""
        found, seen = [], set()
        while True:
            at = self.space(at)
            if self.byte(at) == ord("<") and self.byte(at + 1) == ord("/"):
                at = self.end_tag(tag, at)
                self.missing(parent, seen)
                return found, at
            child, attribute, empty, inside = self.start_tag(at, self.judge(parent, seen, at))
            if child in LEAF[parent]:
                value, at = self.leaf(child, LEAF[parent][child], at, attribute, empty, inside)
            else:
                place = PARENT[parent][child]
                if place in ("root", "directory", "file"):
                    self.count += 1
                if empty:
                    self.missing(place, set())
                    value, at = [], inside
                else:
                    value, at = self.children(place, child, inside)
            seen.add(child)
            found.append((child, value))

    def document(self):
        at = self.space(self.declaration(0))

        def only_root(tag):
            if tag != self.ROOT:
                raise Refuse("Unknown", at)
        _, _, empty, inside = self.start_tag(at, only_root)
        if empty:
            raise Refuse("Missing", "creator")
        found, at = self.children(self.PLACE, self.ROOT, inside)
        at = self.space(at)
        if at != len(self.text):
            raise Refuse("Syntax", at)
        return found


def from_base64(text):
    """The bytes that a text is in base64 but for its white space, with padding and no bits left over; else None."""
    symbols = "".join(c for c in text if c not in " \t\n\r")
    try:
        found = base64.b64decode(symbols, validate=True)
    except ValueError:
        return None
    return found if base64.b64encode(found).decode() == symbols else None


def begins_name(b):
    return 97 <= b <= 122 or 65 <= b <= 90 or b in (95, 58) or b >= 128


def is_name_byte(b):
    return begins_name(b) or 48 <= b <= 57 or b in (45, 46)


def fits_place(p, b):
    if p == 48:
        return 48 <= b <= 57
    if p == 104:
        return chr(b) in "0123456789abcdefABCDEF"
    return p == b


def moment(piece):
    n = [int(x) for x in re.findall(rb"[0-9]+", piece)]
    try:
        date(n[0] or 4, n[1], n[2])  # the year 0 is a leap year, as 4 is
    except ValueError:
        return None
    return piece.decode() if n[3] < 24 and n[4] < 60 and n[5] < 60 else None


def could_be_reference(left):
    if left.startswith("&#x"):
        rest, base = left[3:], 16
    elif left.startswith("&#"):
        rest, base = left[2:], 10
    else:
        return any(w.startswith(left) for w in ("&amp;", "&lt;", "&gt;", "&quot;", "&apos;"))
    if not re.fullmatch("[0-9a-fA-F]*" if base == 16 else "[0-9]*", rest):
        return rest == "" and base == 10
    return rest == "" or int(rest, base) <= 0x10FFFF


def attributes(facts):
    return [(dict(it)["key"], dict(it)["value"]) for _, it in facts.get("extendedattributes", [])]


def flatten(found, nodes, parent):
    """The nodes in the order of the document, as (parent, uid, name, keys and values, kind, what)."""
    facts = dict(found)
    at = len(nodes)
    nodes.append((parent, facts["fileuid"], facts["name"], attributes(facts), "dir", None))
    for tag, child in facts["contents"]:
        if tag == "directory":
            flatten(child, nodes, at)
        else:
            f = dict(child)
            if "symlink" in f:
                nodes.append((at, f["fileuid"], f["name"], attributes(f), "link", f["symlink"]))
            else:
                extents = [(dict(e)["fileoffset"], dict(e)["bytecount"]) for _, e in f.get("extentinfo", [])]
                nodes.append((at, f["fileuid"], f["name"], attributes(f), "file", (f["length"], extents)))


def last_tests(highest, nodes):
    if highest > 2 ** 62:
        raise Refuse("Uid", highest)
    seen = set()
    for _, uid, *_ in nodes:
        if uid == 0 or uid in seen or uid > highest:
            raise Refuse("Uid", uid)
        seen.add(uid)
    if nodes[0][1] != 1:
        raise Refuse("Uid", nodes[0][1])
    names = set()
    for parent, uid, name, *_ in nodes[1:]:
        if (parent, name) in names:
            raise Refuse("SameName", uid)
        names.add((parent, name))
    for _, uid, _, keyed, *_ in nodes:
        if len({key for key, _ in keyed}) < len(keyed):
            raise Refuse("SameKey", uid)
    for _, uid, _, _, kind, what in nodes:
        if kind != "file":
            continue
        length, extents = what
        if length > 2 ** 40 or any(o + c > 2 ** 62 for o, c in extents):
            raise Refuse("Extent", uid)
        some = [(o, o + c) for o, c in extents if c]
        if any(a[0] < b[1] and b[0] < a[1] for i, a in enumerate(some) for b in some[:i]):
            raise Refuse("Overlap", uid)


def read(text):
    """(generation, nodes), or a Refuse."""
    try:
        text.decode()
        front = text
    except UnicodeDecodeError as e:
        front = text[:e.start]
    found = Reader(front).document()
    if len(front) != len(text):
        raise Refuse("Syntax", len(front))
    facts, nodes = dict(found), []
    flatten(facts["directory"], nodes, 0)
    last_tests(facts["highestfileuid"], nodes)
    return facts["generationnumber"], nodes


def said(text):
    try:
        generation, nodes = read(text)
        return f"ok {generation} {len(nodes)}"
    except Refuse as r:
        return " ".join([r.kind] + [str(w) for w in r.what])



# ---- documents, and what has to be said of each

TIMES = "".join(f"<{t}>2020-01-28T19:39:50.715656751Z</{t}>" for t in FIVE)
FILE = (f"<file><fileuid>3</fileuid><name>read me.txt</name><length>5</length>{TIMES}<readonly>false</readonly>"
        "<extentinfo><extent><fileoffset>0</fileoffset><partition>b</partition><startblock>7</startblock>"
        "<byteoffset>0</byteoffset><bytecount>5</bytecount></extent></extentinfo></file>")
LINK = (f"<file><fileuid>4</fileuid><name>latest</name><length>16</length>{TIMES}<readonly>false</readonly>"
        "<symlink>docs/read me.txt</symlink></file>")
DOCS = (f"<directory><fileuid>2</fileuid><name>docs</name>{TIMES}<readonly>false</readonly>"
        f"<contents>{FILE}</contents></directory>")
ARCHIVE = ('<?xml version="1.0" encoding="UTF-8"?><ltfsindex version="2.4.0">'
           "<creator>Example LTFS 2.4.0.0 - Linux - ltfs</creator><comment>Nightly &amp; weekly</comment>"
           "<volumeuuid>30a91a08-daae-48d1-ae75-69804e61d2ea</volumeuuid><generationnumber>3</generationnumber>"
           "<updatetime>2020-01-28T19:39:57.245954278Z</updatetime>"
           "<location><partition>b</partition><startblock>9</startblock></location>"
           "<previousgenerationlocation><partition>b</partition><startblock>5</startblock></previousgenerationlocation>"
           "<allowpolicyupdate>true</allowpolicyupdate><volumelockstate>unlocked</volumelockstate>"
           "<highestfileuid>4</highestfileuid>"
           f"<directory><fileuid>1</fileuid><name>Archive</name>{TIMES}<readonly>false</readonly>"
           f"<contents>{DOCS}{LINK}</contents></directory></ltfsindex>")


def changed(old, new, mark=None, where="at"):
    """The archive with a piece changed once, and the place of a mark in it."""
    assert ARCHIVE.count(old) >= 1, old
    text = ARCHIVE.replace(old, new, 1)
    place = text.index(mark if mark is not None else new) if new or mark else None
    return text.encode(), place


def row(kind, old, new, mark=None, shift=0):
    text, place = changed(old, new, mark)
    return text, f"{kind} {place + shift}" if kind in ("Syntax", "Unknown", "Twice", "Number", "Name") else kind


def second_extent(offset):
    """The end of the file's extents with its extent once more, at this offset."""
    extent = FILE[FILE.index("<extent>"):FILE.index("</extentinfo>")]
    return "</extent>" + extent.replace(">0<", f">{offset}<", 1) + "</extentinfo>"


PLAIN = "<readonly>false</readonly>"
KEPT = "<extendedattributes><xattr><key>k</key><value>v</value></xattr></extendedattributes>"


def valued(attribute, text):
    """An attribute whose value is told so, in front of the file's extents."""
    return KEPT.replace("<value>v<", f"<value{attribute}>{text}<") + "<extentinfo>"


def twice(one, other):
    """Two attributes of these keys."""
    pair = "".join(f"<xattr><value>v</value><key>{key}</key></xattr>" for key in (one, other))
    return f"<extendedattributes>{pair}</extendedattributes>"


TABLE = [
    (ARCHIVE.encode(), "ok 3 4"),
    # children in another order, white space, and empty elements of either form
    row("ok 3 4", "<comment>Nightly &amp; weekly</comment><volumeuuid>", "\n<volumeuuid>")[:1] + ("ok 3 4",),
    (changed("<highestfileuid>4</highestfileuid>", " \t<highestfileuid> 4\r\n</highestfileuid >")[0], "ok 3 4"),
    (changed("<creator>Example LTFS 2.4.0.0 - Linux - ltfs</creator>", "<creator/>")[0], "ok 3 4"),
    (changed('<?xml version="1.0" encoding="UTF-8"?>', "\n ")[0], "ok 3 4"),
    (changed("<symlink>docs/read me.txt</symlink>", "<symlink/>")[0], "ok 3 4"),
    (changed("<symlink>docs/read me.txt</symlink>", "")[0], "ok 3 4"),
    (changed("<extentinfo>", "<extendedattributes></extendedattributes><openforwrite>1</openforwrite><extentinfo>")[0],
     "ok 3 4"),
    (changed("<name>Archive</name>", "<name></name>")[0], "ok 3 4"),
    (changed("<name>Archive</name>", "<name>..</name>")[0], "ok 3 4"),
    (changed('version="2.4.0"', "version = '2.0.999'")[0], "ok 3 4"),
    # attributes
    (changed("<extentinfo>", KEPT + "<extentinfo>")[0], "ok 3 4"),
    (ARCHIVE.replace("<contents>", KEPT + "<contents>").encode(), "ok 3 4"),
    (changed("<symlink>", KEPT.replace("<key>k<", "<key>a/b<") + "<symlink>")[0], "ok 3 4"),
    (ARCHIVE.replace("</symlink>", "</symlink>" + KEPT).encode(), "ok 3 4"),
    (changed("<extentinfo>", valued("", ""))[0], "ok 3 4"),
    (changed("<extentinfo>", valued(' type="text"', "&#13;&lt;&amp;&gt;\x7f"))[0], "ok 3 4"),
    (changed("<extentinfo>", valued(' type="base64"', " A&#32;\n\tP8= "))[0], "ok 3 4"),
    (changed("<extentinfo>", valued(' type="base64"', ""))[0], "ok 3 4"),
    (changed("<extentinfo>", KEPT.replace("<key>k<", f"<key>{'é' * 255}<") + "<extentinfo>")[0], "ok 3 4"),
    (changed("<extentinfo>", KEPT.replace("<key>k<", '<key percentencoded="true">%2E%2e%01<') + "<extentinfo>")[0],
     "ok 3 4"),
    (changed("<extentinfo>", twice("k", "K") + "<extentinfo>")[0], "ok 3 4"),
    (changed("<extentinfo>", twice("e&#x301;", "&#xe9;") + "<extentinfo>")[0], "ok 3 4"),
    (changed("<extentinfo>", twice("A", "%41") + "<extentinfo>")[0], "ok 3 4"),
    (changed("<extentinfo>", KEPT.replace("<key>k<", f"<key>{'😀' * 255}<") + "<extentinfo>")[0], "ok 3 4"),
    (changed("<extentinfo>", KEPT.replace("<value>v</value>", "<value/>") + "<extentinfo>")[0], "ok 3 4"),
    (changed("<extentinfo>", valued(" type = 'base64' ", "&#65;P8&#x3d;&#13;"))[0], "ok 3 4"),
    # Unknown
    row("Unknown", "<comment>", "<remark>x</remark><comment>"),
    row("Unknown", PLAIN, '<readonly x="1">false</readonly>'),
    row("Unknown", PLAIN, PLAIN + '<readonly x="1">', '<readonly x'),
    row("Unknown", "<highestfileuid>", "<length>5</length><highestfileuid>", "<length>5</length><high"),
    row("Unknown", '<ltfsindex version="2.4.0">', '<ltfsindex version="9" x="1">'),
    row("Unknown", '<ltfsindex version="2.4.0">', "<ltfslabel>"),
    row("Unknown", "<extentinfo>", "<extentinfo></extentinfo><extentinfo>", "<extentinfo><extent>"),
    row("Unknown", "<symlink>", "<symlink>a</symlink><symlink>", "<symlink>docs"),
    row("Unknown", "<symlink>", "<extentinfo/><symlink>", "<symlink>docs"),
    row("Unknown", "<extentinfo>", valued(' percentencoded="true"', "v"), "<value p"),
    row("Unknown", "<extentinfo>", KEPT.replace("<key>", '<key type="text">') + "<extentinfo>", "<key t"),
    row("Unknown", "<extentinfo>", valued(' type="text" x="1"', "v"), "<value t"),
    row("Unknown", "<extentinfo>", KEPT.replace("<key>", "<name>x</name><key>") + "<extentinfo>", "<name>x"),
    row("Unknown", "<extentinfo>", KEPT.replace("<xattr>", '<xattr type="text">') + "<extentinfo>", "<xattr t"),
    row("Unknown", "<extentinfo>", KEPT.replace("<key>", "<xattr/><key>") + "<extentinfo>", "<xattr/>"),
    row("Unknown", "<extentinfo>", "<xattr/><extentinfo>"),
    row("Unknown", "<highestfileuid>", KEPT + "<highestfileuid>"),
    row("Unknown", "<contents>", "<contents><symlink>a</symlink>", "<symlink>a<"),
    # Twice
    row("Twice", PLAIN, PLAIN + "<readonly>true</readonly>", "<readonly>true"),
    row("Twice", PLAIN, PLAIN + "<readonly !>", "<readonly !"),
    row("Twice", "<highestfileuid>", "<location/><highestfileuid>", "<location/>"),
    row("Twice", "<startblock>9", "<partition>a</partition><startblock>9", "<partition>a"),
    row("Twice", "<extentinfo>", KEPT.replace("<value>", "<key>l</key><value>") + "<extentinfo>", "<key>l<"),
    row("Twice", "<extentinfo>", KEPT + "<extendedattributes/><extentinfo>", "<extendedattributes/>"),
    # Version
    (changed('version="2.4.0"', 'version="2.5.0"')[0], "Version"),
    (changed('version="2.4.0"', 'version="2.4."')[0], "Version"),
    (changed('version="2.4.0"', 'version="2.4.1234"')[0], "Version"),
    (changed(' version="2.4.0"', "")[0], "Version"),
    # Missing
    (changed("<creator>Example LTFS 2.4.0.0 - Linux - ltfs</creator>", "")[0], "Missing creator"),
    (changed("<partition>b</partition><startblock>9</startblock>", "")[0], "Missing partition"),
    (changed("<location><partition>b</partition><startblock>9</startblock></location>", "<location/>")[0],
     "Missing partition"),
    (changed("<length>5</length>", "")[0], "Missing length"),
    (changed("<bytecount>5</bytecount>", "")[0], "Missing bytecount"),
    (changed(f"<contents>{FILE}</contents>", "")[0], "Missing contents"),
    (changed("<volumelockstate>", "<dataplacementpolicy></dataplacementpolicy><volumelockstate>")[0],
     "Missing indexpartitioncriteria"),
    (changed("<extentinfo>", "<extendedattributes><xattr/></extendedattributes><extentinfo>")[0], "Missing key"),
    (changed("<extentinfo>", KEPT.replace("<value>v</value>", "") + "<extentinfo>")[0], "Missing value"),
    (changed("<extentinfo>", KEPT.replace("<key>k</key>", "") + "<extentinfo>")[0], "Missing key"),
    (changed("<extentinfo>", twice("k", "k</key></xattr><xattr><key>k") + "<extentinfo>")[0], "Missing value"),
    # Number
    row("Number", "<generationnumber>3<", "<generationnumber>0<", "0</generationnumber"),
    row("Number", "<generationnumber>3<", f"<generationnumber>{2 ** 62 + 1}<", "4611686018427387905"),
    (changed("<generationnumber>3<", f"<generationnumber>{2 ** 62}<")[0], f"ok {2 ** 62} 4"),
    row("Number", "<startblock>7<", f"<startblock>{2 ** 62 + 1}<", "4611686018427387905"),
    row("Number", "<length>5<", f"<length>{2 ** 64}<", "18446744073709551616"),
    row("Number", "<length>5<", "<length>000000000000000000005<", "000000000000000000005"),
    (changed("<length>5<", "<length>00000000000000000005<")[0], "ok 3 4"),
    row("Number", "<generationnumber>3</generationnumber>", "<generationnumber>0x", "0x"),
    # Name
    row("Name", "<name>docs</name>", "<name></name>"),
    row("Name", "<name>docs</name>", "<name/>"),
    row("Name", "<name>docs</name>", "<name>..</name>"),
    row("Name", "<name>docs</name>", "<name>a/b</name>"),
    row("Name", "<name>docs</name>", "<name>a/b<x>"),
    row("Name", "<name>docs</name>", '<name percentencoded="true">a%2Fb</name>'),
    row("Name", "<name>docs</name>", '<name percentencoded="true">%00</name>'),
    row("Name", "<name>docs</name>", '<name percentencoded="true">%C3</name>'),
    row("Name", "<name>docs</name>", "<name>" + "x" * 256 + "</name>"),
    (changed("<name>docs</name>", "<name>" + "é" * 255 + "</name>")[0], "ok 3 4"),
    (changed("<name>docs</name>", '<name percentencoded="true">50%25%01%</name>')[0], "ok 3 4"),
    (changed("<name>docs</name>", '<name percentencoded="false">50%25</name>')[0], "ok 3 4"),
    row("Name", "<name>Archive</name>", "<name>a/b</name>"),
    row("Name", "<extentinfo>", KEPT.replace("<key>k<", "<key><") + "<extentinfo>", "<key>"),
    row("Name", "<extentinfo>", KEPT.replace("<key>k<", f"<key>{'k' * 256}<") + "<extentinfo>", "<key>"),
    row("Name", "<extentinfo>", KEPT.replace("<key>k<", '<key percentencoded="true">%00<') + "<extentinfo>", "<key p"),
    # Syntax
    row("Syntax", "<extentinfo>", valued(' type="x" y="1"', "v"), 'x" y'),
    row("Syntax", "<extentinfo>", valued(' type="text" type="text"', "v"), 'type="text">'),
    row("Syntax", "<extentinfo>", valued(' type="base64"', " AP8"), "AP8"),
    row("Syntax", "<extentinfo>", valued(' type="base64"', "AP9="), "AP9="),
    row("Syntax", "<extentinfo>", valued(' type="base64"', "_P8="), "_P8="),
    row("Syntax", "<extentinfo>", valued(' type="base64"', "AP8=="), "AP8=="),
    row("Syntax", "<extentinfo>", valued(' type="base64"', "AP8=AP8="), "AP8=AP8="),
    (b"", "Syntax 0"),
    row("Syntax", "<creator>", "<!-- x --><creator>", "!-- x"),
    row("Syntax", "<creator>", "x<creator>", "x<creator"),
    row("Syntax", "<name>docs</name>", '<name percentencoded="x" y="1">docs</name>', 'x" y'),
    row("Syntax", "<name>docs</name>", '<name percentencoded="true" percentencoded="true">docs</name>',
        'percentencoded="true">docs'),
    row("Syntax", PLAIN, "<readonly>falsex</readonly>", "x</readonly"),
    row("Syntax", PLAIN, "<readonly>trux</readonly>", "trux"),
    row("Syntax", PLAIN, "<readonly></readonly>", "</readonly>"),
    row("Syntax", PLAIN, "<readonly/>", "<creationtime>", 0)[:1] + (f"Syntax {changed(PLAIN, '<readonly/>')[1] + 11}",),
    row("Syntax", "Nightly &amp; weekly", "Nightly &lost; weekly", "&lost"),
    row("Syntax", "Nightly &amp; weekly", "Nightly &#0; weekly", "&#0"),
    row("Syntax", "</ltfsindex>", "</ltfsindex>x", "x", 0)[:1] + (f"Syntax {len(ARCHIVE)}",),
    row("Syntax", "</ltfsindex>", "</ltfslabel>", "label>"),
    row("Syntax", "T19:39:57", "T24:39:57", "2020-01-28T24"),
    row("Syntax", "2020-01-28T19:39:57", "2019-02-29T19:39:57", "2019-02-29"),
    row("Syntax", "<partition>b</partition><startblock>9", "<partition>B</partition><startblock>9", "B</part"),
    # the last tests
    (changed("<highestfileuid>4<", f"<highestfileuid>{2 ** 62 + 1}<")[0], f"Uid {2 ** 62 + 1}"),
    (changed("<highestfileuid>4<", "<highestfileuid>3<")[0], "Uid 4"),
    (changed("<fileuid>2<", "<fileuid>0<")[0], "Uid 0"),
    (changed("<fileuid>4<", "<fileuid>2<")[0], "Uid 2"),
    (changed("<fileuid>1<", "<fileuid>5<")[0].replace(b"<highestfileuid>4", b"<highestfileuid>5"), "Uid 5"),
    (changed("<name>latest<", "<name>docs<")[0], "SameName 4"),
    (changed("<extentinfo>", twice("k", "k") + "<extentinfo>")[0], "SameKey 3"),
    (changed("<extentinfo>", twice("k", "k").replace("<key>", '<key percentencoded="true">') + "<extentinfo>")[0]
     .replace(b">k<", b">%6B<", 1), "SameKey 3"),
    (changed("<extentinfo>", twice("k", "k") + "<extentinfo>")[0].replace(b">latest<", b">docs<"), "SameName 4"),
    (changed("<symlink>", twice("k", "k") + "<symlink>")[0].replace(b"<length>5<", b"<length>1099511627777<"),
     "SameKey 4"),
    (changed("<contents>", twice("k", "k") + "<contents>")[0].replace(b"<highestfileuid>4<", b"<highestfileuid>3<"),
     "Uid 4"),
    (ARCHIVE.replace("<contents>", twice("k", "k") + "<contents>").encode(), "SameKey 1"),
    (changed("</extent></extentinfo>", second_extent(4) + twice("&#107;", "k"))[0], "SameKey 3"),
    (changed("<length>5<", f"<length>{2 ** 40 + 1}<")[0], "Extent 3"),
    (changed("<fileoffset>0<", f"<fileoffset>{2 ** 62 - 4}<")[0], "Extent 3"),
    (changed("</extent></extentinfo>", second_extent(4))[0], "Overlap 3"),
    (changed("</extent></extentinfo>", second_extent(5))[0], "ok 3 4"),
    # bytes that aren't UTF-8
    (ARCHIVE.encode() + b"\xff", f"Syntax {len(ARCHIVE)}"),
    (ARCHIVE.replace("Nightly", "Nightl\xff").encode("latin-1"), f"Syntax {ARCHIVE.index('Nightly') + 6}"),
]


def run_table():
    wrong = 0
    for text, want in TABLE:
        got = said(text)
        if got != want:
            wrong += 1
            print(f"wanted {want}, got {got}: {text[:2000]!r}")
    keyed = ARCHIVE.replace("<extentinfo>", valued(' type="base64"', " AP8=\n"), 1)
    keyed = keyed.replace("<symlink>", twice("k", "l") + "<symlink>", 1)
    for whole in (ARCHIVE, keyed):
        for cut in range(len(whole)):
            if said(whole[:cut].encode()) != f"Syntax {cut}":
                wrong += 1
                print(f"cut at {cut}: {said(whole[:cut].encode())}")
    print(f"{len(TABLE)} documents and {len(ARCHIVE) + len(keyed)} cut ones, {wrong} wrong")
    return wrong


if __name__ == "__main__":
    if sys.argv[1:] == ["check"]:
        print(said(sys.stdin.buffer.read()))
    elif sys.argv[1:] == ["table"]:
        for text, want in TABLE:
            print(want, text.decode("latin-1"), sep="\t")
    else:
        sys.exit(1 if run_table() else 0)
