#!/usr/bin/env python3
"""Compares `ltfs_server label` with a plain reading of random cartridges, many of them damaged.

    random_labels.py PROGRAM SEED ROUNDS

The cartridge is written into a folder by the rules of docs/FORMATS.md, and read again here by code that shares
nothing with the server. Nothing in the folder may change.
"""
import os
import random
import re
import shutil
import subprocess
import sys
import tempfile
from collections import Counter

sys.dont_write_bytecode = True
sys.path.append(os.path.join(os.path.dirname(os.path.dirname(os.path.abspath(__file__))), "shared"))
import images  # noqa: E402
import slow_reader  # noqa: E402
from slow_reader import Refuse  # noqa: E402

LEAVES = {
    "label": {"creator": "text", "formattime": "time", "volumeuuid": "uuid", "blocksize": "blocksize",
              "compression": "truth"},
    "place": {"partition": "letter"},
    "pair": {"index": "letter", "data": "letter"},
}
PARENTS = {"label": {"location": "place", "partitions": "pair"}, "place": {}, "pair": {}}
ORDER = ["creator", "formattime", "volumeuuid", "location", "partitions", "blocksize", "compression"]
slow_reader.LEAF.update(LEAVES)
slow_reader.PARENT.update(PARENTS)
slow_reader.REQUIRED.update({"label": ORDER, "place": ["partition"], "pair": ["index", "data"]})
slow_reader.KNOWN.update(ORDER)


class LabelReader(slow_reader.Reader):
    ROOT, PLACE = "ltfslabel", "label"

    def value(self, form, at):
        return self.digits(4096, 1048576, at) if form == "blocksize" else super().value(form, at)


def read_label(text):
    try:
        text.decode()
        found = LabelReader(text).document()
    except (UnicodeDecodeError, Refuse):
        return None
    return {tag: dict(value) if isinstance(value, list) else value for tag, value in found}


def read_record(block):
    """The volume identifier of a VOL1 record of 80 bytes."""
    free = set(range(11, 24)) | set(range(51, 79))
    want = b"VOL1" + b"?" * 6 + b"L" + b" " * 13 + b"LTFS" + b" " * 9 + b"?" * 14 + b" " * 28 + b"4"
    if len(block) != 80:
        return None
    for at, (byte, right) in enumerate(zip(block, want)):
        printable = at in range(4, 10) or at in range(37, 51)
        if at not in free and not (32 <= byte <= 126 if printable else byte == right):
            return None
    return block[4:10]


def said(folder):
    """What has to be printed, and the status."""
    items = images.read(folder)
    if items is None:
        return "drive 0 1\n", 4
    records, labels = {}, {}
    for name, at, read, found in [("Vol1", 0, read_record, records), ("Label", 2, read_label, labels)]:
        for part in ("ip", "dp"):
            block, mark = (items[part] + ["end"] * 4)[at:at + 2]
            found[part] = read(block) if isinstance(block, bytes) and mark == "mark" else None
            if found[part] is None:
                return f"volume {name} {part}\n", 3
    ip, dp = labels["ip"], labels["dp"]
    letters = ip["partitions"]
    places = (ip["location"]["partition"], dp["location"]["partition"])
    same = all(ip[tag] == dp[tag] for tag in ORDER if tag != "location")
    if not same or letters["index"] == letters["data"] or places != (letters["index"], letters["data"]):
        return "volume LabelsDiffer\n", 3
    lines = []
    for part, place in zip(("ip", "dp"), places):
        volume = "".join(chr(b) if 33 <= b <= 126 and b != 37 else f"%{b:02X}" for b in records[part])
        compression = "true" if ip["compression"] else "false"
        lines.append(f"{part} {volume} {place} {ip['volumeuuid']} {ip['blocksize']} {compression} {ip['formattime']}\n")
    return "".join(lines), 0


class Cartridges:
    ODD = [p.encode() for p in (
        "&amp; &#65; &#0; & < > \0 \u00e9 0 04096 1048576 1048577 4095 true 1 a b c <a/> 2.3.12 "
        "2024-02-30T03:04:05.000000000Z").split(" ")]
    ODD += [b" ", b"\n", b"\r\n", b"\xff", b"<comment>x</comment>", b' version="2.4.0"']

    def __init__(self, rnd):
        self.rnd = rnd

    def document(self, letter, facts):
        creator, time, uuid, size, compression = facts
        return (f'<?xml version="1.0" encoding="UTF-8"?><ltfslabel version="2.4.0"><creator>{creator}</creator>'
                f"<formattime>{time}</formattime><volumeuuid>{uuid}</volumeuuid>"
                f"<location><partition>{letter}</partition></location>"
                "<partitions><index>a</index><data>b</data></partitions>"
                f"<blocksize>{size}</blocksize><compression>{compression}</compression></ltfslabel>").encode()

    def facts(self):
        pick = self.rnd.choice
        days = ["2024-01-02T03:04:05.", "2000-02-29T23:59:59.", "9999-12-31T00:00:00.", "1900-02-29T00:00:00."]
        return [pick(["tool 1.0", "tool &lt;2&gt;"]), pick(days) + "000000001Z",
                pick(["30a91a08-daae-48d1-ae75-69804e61d2ea", "30A91A08-DAAE-48d1-ae75-69804e61d2ea"]),
                pick(["4096", "4097", "0524288", "1048576"]), pick(["true", "false", "1", "0"])]

    def damaged(self, text):
        rnd = self.rnd
        for _ in range(rnd.choice([0, 1, 1, 2])):
            parts = re.findall(rb"<[^>]*>|[^<]+", text)
            at, i, kind = rnd.randrange(len(text)), rnd.randrange(len(parts)), rnd.randrange(6)
            if kind == 0:
                text = text[:at] + bytes([rnd.randrange(256)]) + text[at + 1:]
            elif kind == 1:
                text = text[:at] + rnd.choice(self.ODD) + text[at:]
            elif kind == 2:
                text = text.replace(b"><", b">" + rnd.choice([b" ", b"\n  ", b"\t"]) + b"<")
            else:
                parts[i:i + 1] = [[], parts[i:i + 1] * 2, [rnd.choice(self.ODD)]][kind - 3]
                text = b"".join(parts) or b" "
        return text

    def record(self):
        volume = self.rnd.choice([b"TAPE01", b"A %Z~<"])
        record = b"VOL1" + volume + b"L" + b" " * 13 + b"LTFS" + b" " * 51 + b"4"
        at, kind = self.rnd.randrange(80), self.rnd.randrange(40)
        if kind == 0:
            return record[:at] + bytes([self.rnd.choice([31, 32, 65, 126, 127, 255])]) + record[at + 1:]
        return record + b" " if kind == 1 else record[:79] if kind == 2 else record

    def items(self, letter, facts):
        rnd, text = self.rnd, self.document(letter, self.facts() if self.rnd.random() < 0.1 else facts)
        items = [self.record(), "mark", self.damaged(text) if rnd.random() < 0.4 else text, "mark", b"more"]
        if rnd.random() < 0.05:
            items[rnd.randrange(4)] = rnd.choice(["mark", "torn", b"VOL1", text])
        return items[:rnd.choice([5] * 20 + [4, 3, 1])]

    def write(self, folder):
        rnd, facts = self.rnd, self.facts()
        letters = "ba" if rnd.random() < 0.05 else "ab"
        images.write(folder, *(self.items(letter, facts) for letter in letters))
        for name in os.listdir(folder):
            self.harm(os.path.join(folder, name))

    def harm(self, path):
        """Rarely removes a file of the image, cuts it short, or changes a byte; a header's more often."""
        rnd = self.rnd
        if rnd.random() < 0.01:
            os.remove(path)
        elif rnd.random() < (0.15 if path.endswith("cm.img") else 0.03):
            with open(path, "rb") as source:
                text = source.read()
            at = rnd.choice([rnd.randrange(len(text) + 1), rnd.choice([0, 5, 16, 33, 34, 121, 122, 256])])
            text = rnd.choice([text[:at], text[:at] + bytes([rnd.choice([0, 1, 66, 77, 84, 255])]) + text[at + 1:]])
            with open(path, "wb") as out:
                out.write(text)


def files_of(folder):
    return {name: open(os.path.join(folder, name), "rb").read() for name in os.listdir(folder)}


def main():
    program, seed, rounds = sys.argv[1], int(sys.argv[2]), int(sys.argv[3])
    cartridges, kinds, wrong = Cartridges(random.Random(seed)), Counter(), 0
    for k in range(rounds):
        folder = tempfile.mkdtemp()
        cartridges.write(folder)
        before, want = files_of(folder), said(folder)
        done = subprocess.run([program, "label", folder], stdin=subprocess.DEVNULL, capture_output=True)
        got = (done.stdout.decode(), done.returncode)
        kinds["ok" if want[1] == 0 else want[0].strip()] += 1
        if got != want or files_of(folder) != before:
            wrong += 1
            files = "stay" if files_of(folder) == before else "changed"
            print(f"cartridge {k}: wanted {want}, got {got}, files {files}")
        shutil.rmtree(folder)
    print(f"{rounds} cartridges, {wrong} wrong: {dict(kinds.most_common())}")
    return 1 if wrong else 0


if __name__ == "__main__":
    sys.exit(main())
