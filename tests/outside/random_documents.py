#!/usr/bin/env python3
"""Compares index_tool with slow_reader.py on random documents of indexes.

    random_documents.py TOOL SEED ROUNDS

Half of them are documents of slow_reader.py's table with a few pieces damaged, half are random trees whose parts come
in any order, some with UIDs, names, lengths or extents that don't agree. Of each document that is accepted the one
form has to be accepted too, with the same answer, and has to be its own one form.
"""
import base64
import random
import re
import subprocess
import sys
from collections import Counter
from xml.sax.saxutils import escape

sys.dont_write_bytecode = True
import slow_reader  # noqa: E402

TIMES = ["creationtime", "changetime", "modifytime", "accesstime", "backuptime"]
ODD = [p.encode() for p in (
    "& &amp; &lt; &#65; &#x41; &#0; &#xD800; &bad; < > \" ' \0 \u00e9 \ufffe \U0001F600 "
    "00 0 - + . .. / % %41 %00 %2F true false "
    "18446744073709551615 18446744073709551616 1099511627776 1099511627777 4611686018427387904 4611686018427387905 "
    "<a/> <symlink>x</symlink> <openforwrite>1</openforwrite> <![CDATA[a]]> "
    "AP8= AP8 AP9= A_8= <xattr><key>k</key><value>v</value></xattr> <value/> <key>k</key>").split(" ")]
ODD += [b" ", b"\t", b"\r", b"\r\n", b"\xff", b"\xc3", b"<!-- x -->", b"<?x y?>", b' percentencoded="true"',
        b' type="base64"', b' type="text"',
        b' version="2.4.0"']


def tokens(text):
    return re.findall(rb"<[^>]*>|[^<]+", text)


class Damage:
    """Documents of the table, with a few pieces damaged."""

    def __init__(self, rnd):
        self.rnd = rnd
        self.base = [text for text, _ in slow_reader.TABLE] + [slow_reader.ARCHIVE.encode()] * 60
        self.pieces = sorted({piece for text in self.base for piece in tokens(text)})

    def document(self):
        text = self.rnd.choice(self.base)
        for _ in range(self.rnd.choice([1, 1, 1, 2, 3])):
            text = self.change(text) if text else text
        return text

    def change(self, text):
        rnd, parts = self.rnd, tokens(text)
        at, i, j = rnd.randrange(len(text)), *sorted(rnd.randrange(len(parts) + 1) for _ in "ij")
        kind = rnd.randrange(8)
        if kind == 0:
            return text[:at] + bytes([rnd.randrange(256)]) + text[at + 1:]
        if kind == 1:
            return text[:at] + rnd.choice(ODD) + text[at:]
        if kind == 2:
            return text[:at] + text[at + rnd.choice([1, 2, 5, 40]):]
        if kind == 3:
            parts[i:j] = reversed(parts[i:j])
        elif kind == 4:
            parts.insert(i, rnd.choice(self.pieces))
        elif kind == 5:
            del parts[i:min(j, i + rnd.choice([1, 2, 3, 9, 30]))]
        elif kind == 6:
            parts[j:j] = parts[i:min(j, i + 40)]
        else:
            texts = [k for k, part in enumerate(parts) if not part.startswith(b"<")]
            if texts:
                parts[rnd.choice(texts)] = rnd.choice(ODD)
        return b"".join(parts)


class Trees:
    """Random trees, some of which don't agree."""

    NAMES = ["a", "b", "c", "d", "e&f", "\u00e9", "x y", "A"] + [f"n{k}" for k in range(40)]

    def __init__(self, rnd):
        self.rnd = rnd
        self.next, self.slips = 1, 0.0

    def space(self):
        return self.rnd.choice(["", "", "", "\n", "  ", "\t\r\n"])

    def element(self, tag, body, attribute=""):
        blank = self.rnd.choice(["", "", " "])
        return f"{self.space()}<{tag}{attribute}{blank}>{body}</{tag}{blank}>"

    def mixed(self, parts):
        if self.rnd.random() < 0.5:
            self.rnd.shuffle(parts)
        return "".join(parts) + self.space()

    def slips_now(self):
        return self.rnd.random() < self.slips

    def uid(self):
        if self.slips_now():
            return self.rnd.choice([0, 1, 2, 3, 2 ** 62, 2 ** 62 + 1, 2 ** 64 - 1, self.next])
        self.next += self.rnd.choice([1, 1, 1, 2])
        return self.next

    def name(self):
        name = self.rnd.choice(self.NAMES)
        if self.rnd.random() < 0.1:
            return self.element("name", "".join(f"%{b:02X}" for b in name.encode()), ' percentencoded="true"')
        return self.element("name", escape(name))

    def facts(self, uid):
        times = [self.element(tag, f" 20{self.rnd.randrange(100):02}-01-28T19:39:50.715656751Z ") for tag in TIMES]
        readonly = self.element("readonly", self.rnd.choice(["true", "false", "1", "0"]))
        return [self.element("fileuid", uid), self.name(), readonly] + times + self.attributes()

    def attributes(self):
        """None mostly, or some of them, in which a slip gives a key twice."""
        if self.rnd.random() < 0.6:
            return []
        keys = self.rnd.sample(["k", "K", "a/b", "user.note", "\u00e9", "x y", "e&f"], self.rnd.randrange(4))
        if keys and self.slips_now():
            keys.append(keys[0])
        return [self.element("extendedattributes", "".join(self.attribute(key) for key in keys) + self.space())]

    def attribute(self, key):
        if self.rnd.random() < 0.3:
            key = self.element("key", "".join(f"%{b:02x}" for b in key.encode()), ' percentencoded="true"')
        else:
            key = self.element("key", escape(key))
        return self.element("xattr", self.mixed([key, self.value()]))

    def value(self):
        kind = self.rnd.randrange(4)
        if kind == 0:
            text = base64.b64encode(self.rnd.randbytes(self.rnd.randrange(40))).decode()
            lines = "".join(self.space() + text[i:i + 12] for i in range(0, len(text), 12))
            return self.element("value", lines, ' type="base64"')
        text = escape("".join(self.rnd.choice("ab \t\n<&\u00e9\x7f") for _ in range(self.rnd.randrange(9))))
        return self.element("value", text + self.rnd.choice(["", "", "&#13;"]), self.rnd.choice(["", ' type="text"']))

    def extent(self):
        offset = self.rnd.choice([0, 1, 5, 2 ** 62, 2 ** 62 - 1]) if self.slips_now() else self.rnd.randrange(40) * 3
        count = self.rnd.choice([0, 1, 4, 2 ** 61, 2 ** 62]) if self.slips_now() else self.rnd.choice([0, 1, 3])
        values = {"fileoffset": offset, "partition": self.rnd.choice("ab"), "startblock": 7, "byteoffset": 0,
                  "bytecount": count}
        return self.element("extent", self.mixed([self.element(*value) for value in values.items()]))

    def file(self):
        length = self.rnd.choice([2 ** 40, 2 ** 40 + 1]) if self.slips_now() else self.rnd.randrange(100)
        parts = self.facts(self.uid()) + [self.element("length", length)]
        content = self.rnd.randrange(4)
        if content == 0:
            parts.append(self.element("symlink", self.rnd.choice(["", "a/b", "&#13;x"])))
        elif content < 3:
            parts.append(self.element("extentinfo", "".join(self.extent() for _ in range(self.rnd.randrange(4)))))
        if self.rnd.random() < 0.2:
            parts.append(self.rnd.choice(["<extendedattributes/>", "<openforwrite>true</openforwrite>"]))
        return self.element("file", self.mixed(parts))

    def directory(self, depth, uid):
        inside = "".join(
            self.directory(depth + 1, self.uid()) if depth < 5 and self.rnd.random() < 0.4 else self.file()
            for _ in range(self.rnd.randrange(5)))
        return self.element("directory", self.mixed(self.facts(uid) + [self.element("contents", inside)]))

    def spot(self, tag):
        return self.element(tag, self.mixed([self.element("partition", "a"), self.element("startblock", 5)]))

    def document(self):
        self.next, self.slips = 1, self.rnd.choice([0, 0, 0.02, 0.1])
        root = self.directory(0, 7 if self.slips_now() else 1)
        highest = self.rnd.choice([1, 2 ** 62 + 1, self.next - 1]) if self.slips_now() else self.next
        parts = [
            self.element("creator", "x &amp; y"), self.element("volumeuuid", "30a91a08-daae-48d1-ae75-69804e61d2ea"),
            self.element("generationnumber", self.rnd.choice([1, 5, 2 ** 62])),
            self.element("updatetime", "2020-01-28T19:39:57.245954278Z"), self.spot("location"),
            self.element("allowpolicyupdate", "true"), self.element("highestfileuid", highest), root]
        pattern = self.element("name", "*.x")
        policy = self.element("indexpartitioncriteria", self.mixed([self.element("size", 9), pattern, pattern]))
        for more in [self.element("comment", "c"), self.spot("previousgenerationlocation"),
                     self.element("dataplacementpolicy", policy), self.element("volumelockstate", "permlocked")]:
            if self.rnd.random() < 0.3:
                parts.append(more)
        head = self.rnd.choice(["", '<?xml version="1.0"?>',
                                "<?xml version='1.0' encoding='utf-8' standalone='no' ?>"])
        return f'{head}<ltfsindex version="2.{self.rnd.randrange(5)}.0">{self.mixed(parts)}</ltfsindex>\n'.encode()


def run(tool, word, text):
    done = subprocess.run([tool, word], input=text, capture_output=True)
    return done.returncode, done.stdout


def agrees(tool, text, want):
    status = 0 if want.startswith("ok") else 2
    if run(tool, "check", text) != (status, want.encode() + b"\n"):
        return False
    if status == 2:
        return run(tool, "canon", text) == (2, want.encode() + b"\n")
    one_form = run(tool, "canon", text)[1]
    return slow_reader.read(one_form) == slow_reader.read(text) and run(tool, "canon", one_form) == (0, one_form)


def main():
    tool, seed, rounds = sys.argv[1], int(sys.argv[2]), int(sys.argv[3])
    rnd = random.Random(seed)
    sources, kinds, wrong = [Damage(rnd), Trees(rnd)], Counter(), 0
    for k in range(rounds):
        text = sources[k % 2].document()
        want = slow_reader.said(text)
        kinds[want.split()[0]] += 1
        if not agrees(tool, text, want):
            wrong += 1
            print(f"wanted {want}, got {run(tool, 'check', text)}: {text!r}")
    print(f"{rounds} documents, {wrong} wrong: {dict(kinds.most_common())}")
    return 1 if wrong else 0


if __name__ == "__main__":
    sys.exit(main())
