#!/usr/bin/env python3
"""Compares `ltfs_server list` with a plain reading of cartridges, many of them damaged.

    random_cartridges.py PROGRAM SEED ROUNDS

First of a small volume each item is replaced by one of each kind, and each partition is cut after each item; then so
many cartridges by chance. The cartridge is written into a folder by the rules of docs/FORMATS.md, and read again here
by code that shares nothing with the server. Nothing in the folder may change.
"""
import os
import random
import shutil
import subprocess
import sys
import tempfile
from collections import Counter

sys.dont_write_bytecode = True
import random_labels  # noqa: E402
import images  # noqa: E402
import slow_reader  # noqa: E402
from slow_reader import Refuse  # noqa: E402

UUID = "30a91a08-daae-48d1-ae75-69804e61d2ea"
OTHER = "30a91a08-daae-48d1-ae75-69804e61d2eb"
SIZE = 4096
RECORD = b"VOL1TAPE01L" + b" " * 13 + b"LTFS" + b" " * 51 + b"4"


# ---- the plain reading

class Fault(Exception):
    pass


def content_of(part, items):
    """The indexes, where the leading blocks of the rest end, and how many items the front has."""
    front = items[:items.index("torn")] if "torn" in items else items
    found, at = [], 4
    while True:
        while at < len(front) and front[at] != "mark":
            at += 1
        end = at + 1
        while end < len(front) and front[end] != "mark":
            end += 1
        if end >= len(front):
            return found, at, len(front)
        if end == at + 1:
            raise Fault(f"Layout {part} {end}")
        found.append((at + 1, end, b"".join(front[at + 1:end])))
        at = end + 1


def index_of(part, place, text, uuid):
    try:
        generation, nodes = slow_reader.read(text)
    except Refuse as r:
        raise Fault(" ".join([f"BadIndex {part} {place}", r.kind] + [str(w) for w in r.what]))
    facts = dict(slow_reader.Reader(text).document())
    if facts["volumeuuid"] != uuid:
        raise Fault(f"WrongVolume {part} {place}")
    return facts


def spot(element):
    return element["partition"], element["startblock"]


def files_in(directory):
    for tag, child in dict(directory)["contents"]:
        if tag == "directory":
            yield from files_in(child)
        else:
            yield dict(child)


def check_extents(facts, letters, ends):
    for file in files_in(facts["directory"]):
        for extent in (dict(e) for _, e in file.get("extentinfo", [])):
            letter, block, byte, count = (extent[t] for t in ("partition", "startblock", "byteoffset", "bytecount"))
            if count == 0:
                continue
            end = ends[letters.index(letter)] if letter in letters else 0
            if byte >= SIZE or block < 4 or block * SIZE + byte + count > end * SIZE:
                raise Fault(f"BadExtent {file['fileuid']}")


def escaped(name):
    return "".join(chr(b) if 33 <= b <= 126 and b != 37 else f"%{b:02X}" for b in name.encode())


def lines_of(directory, path):
    facts = dict(directory)
    yield f"d {facts['fileuid']} {path or '/'}\n"
    for tag, child in sorted(facts["contents"], key=lambda c: dict(c[1])["name"].encode()):
        f = dict(child)
        below = f"{path}/{escaped(f['name'])}"
        if tag == "directory":
            yield from lines_of(child, below)
        elif "symlink" in f:
            yield f"l {f['fileuid']} {below} {escaped(f['symlink'])}\n"
        else:
            yield f"f {f['fileuid']} {f['length']} {below}\n"


def listing(folder):
    items = images.read(folder)
    label = random_labels.read_label(items["ip"][2])
    letters = label["partitions"]["index"], label["partitions"]["data"]
    on_ip, lead, front = content_of("ip", items["ip"])
    on_dp = content_of("dp", items["dp"])[0]
    if not on_ip and not on_dp:
        raise Fault("NoIndex")
    ends = (on_ip[-1][0] - 1 if on_ip and on_ip[-1][1] + 1 == front else lead, on_dp[-1][1] + 1 if on_dp else 4)
    last_dp = last_ip = None
    if on_dp:
        place, _, text = on_dp[-1]
        last_dp = index_of("dp", place, text, label["volumeuuid"])
        back = last_dp.get("previousgenerationlocation")
        older = (letters[1], on_dp[-2][0]) if len(on_dp) > 1 else None
        if spot(dict(last_dp["location"])) != (letters[1], place) or (spot(dict(back)) if back else None) != older:
            raise Fault(f"WrongPointer dp {place}")
    if on_ip:
        place, _, text = on_ip[-1]
        last_ip = index_of("ip", place, text, label["volumeuuid"])
        back = last_ip.get("previousgenerationlocation")
        back = spot(dict(back)) if back else None
        some = [(letters[1], first) for first, _, _ in on_dp]
        newer = not on_dp or last_ip["generationnumber"] >= last_dp["generationnumber"]
        right = back in (some[-1:] if newer else some) if some else back is None
        if spot(dict(last_ip["location"])) != (letters[0], place) or not right:
            raise Fault(f"WrongPointer ip {place}")
    chosen = last_dp
    if last_dp is None or last_ip and last_ip["generationnumber"] > last_dp["generationnumber"]:
        chosen = last_ip
    check_extents(chosen, letters, ends)
    letter, block = spot(dict(chosen["location"]))
    return "".join(lines_of(chosen["directory"], "")) + f"generation {chosen['generationnumber']} {letter} {block}\n"


def said(folder):
    """What has to be printed, and the status."""
    text, status = random_labels.said(folder)
    if status:
        return text, status
    try:
        return listing(folder), 0
    except Fault as fault:
        return f"volume {fault}\n", 3


# ---- cartridges

def label(letter):
    facts = ["tool 1.0", "2024-01-02T03:04:05.000000000Z", UUID, str(SIZE), "false"]
    return random_labels.Cartridges(None).document(letter, facts)


def index(generation, here, back, nodes, uuid=UUID):
    def place(tag, at):
        return f"<{tag}><partition>{at[0]}</partition><startblock>{at[1]}</startblock></{tag}>" if at else ""
    return ('<?xml version="1.0" encoding="UTF-8"?><ltfsindex version="2.4.0"><creator>tool 1.0</creator>'
            f"<volumeuuid>{uuid}</volumeuuid><generationnumber>{generation}</generationnumber>"
            f"<updatetime>2024-01-02T03:04:05.000000000Z</updatetime>{place('location', here)}"
            f"{place('previousgenerationlocation', back)}<allowpolicyupdate>true</allowpolicyupdate>"
            f"<highestfileuid>99</highestfileuid><directory><fileuid>1</fileuid><name></name>{slow_reader.TIMES}"
            f"<readonly>false</readonly><contents>{nodes}</contents></directory></ltfsindex>").encode()


def front(letter):
    return [RECORD, "mark", label(letter), "mark"]


class Volumes:
    def __init__(self, rnd):
        self.rnd = rnd

    def often(self, right, *others):
        return self.rnd.choice(others) if self.rnd.random() < 0.06 else right

    def attributes(self):
        """None mostly; else some, rarely with a key twice."""
        if self.rnd.random() < 0.7:
            return ""
        keys = ["k", self.often("l", "k"), "a/b"]
        value = self.rnd.choice(["<value/>", "<value>v</value>", "<value type='base64'>A P8=</value>"])
        return "".join(["<extendedattributes>", *(f"<xattr><key>{key}</key>{value}</xattr>" for key in keys),
                        "</extendedattributes>"])

    def file(self, uid, end):
        rnd = self.rnd
        block = rnd.choice([3, 4, 4, 4, 5, end - 1, end - 1, end, 2 ** 52, 2 ** 62])
        byte = rnd.choice([0, 0, 0, 1, 4095, 4096])
        rest = (end - block) * SIZE - byte
        count = rnd.choice([0, 1, 1, 5, SIZE - byte, rest, rest + 1, 2 ** 40])
        if rnd.random() < 0.8:
            block, byte, count = 4, 0, rnd.choice([1, 3, (end - 4) * SIZE])
        count = max(count, 0)
        letter = self.often("b", "a", "c")
        name = rnd.choice(["a", "b", "a b", "50%", "z&amp;", "é", ".a", "B"]) + str(uid % 2)
        kind = (f"<symlink>{name}</symlink>" if rnd.random() < 0.2 else
                f"<extentinfo><extent><fileoffset>0</fileoffset><partition>{letter}</partition>"
                f"<startblock>{block}</startblock><byteoffset>{byte}</byteoffset>"
                f"<bytecount>{count}</bytecount></extent></extentinfo>")
        return (f"<file><fileuid>{uid}</fileuid><name>{name}</name><length>{min(count, 2 ** 40)}</length>"
                f"{slow_reader.TIMES}<readonly>false</readonly>{self.attributes()}{kind}</file>")

    def nodes(self, end):
        rnd = self.rnd
        parts = [self.file(uid, end) for uid in rnd.sample(range(2, 9), rnd.choice([0, 0, 1, 1, 2]))]
        if rnd.random() < 0.3:
            inside = self.file(20, end) if rnd.random() < 0.5 else ""
            parts.append(f"<directory><fileuid>11</fileuid><name>{rnd.choice(['docs', 'a!', 'a'])}</name>"
                         f"{slow_reader.TIMES}<readonly>false</readonly>{self.attributes()}"
                         f"<contents>{inside}</contents></directory>")
        rnd.shuffle(parts)
        return "".join(parts)

    def data(self):
        return [self.rnd.choice([b"abc", b"hello", b"x" * SIZE]) for _ in range(self.rnd.choice([0, 0, 1, 2]))]

    def blocks(self, text):
        if self.rnd.random() < 0.8:
            return [text]
        at = self.rnd.randrange(1, len(text))
        return [text[:at], text[at:]]

    def partitions(self):
        rnd, generation, back = self.rnd, rnd_first(self.rnd), None
        dp = front("b")
        places = []
        for _ in range(rnd.choice([0, 1, 1, 1, 2, 2, 3])):
            dp += self.data() + ["mark"]
            first = len(dp)
            here = self.often(("b", first), ("b", first + 1), ("a", first))
            told = self.often(back, None, ("b", first), ("b", first + 9), ("a", 5))
            dp += self.blocks(index(generation, here, told, self.nodes(first + 2), self.often(UUID, OTHER))) + ["mark"]
            back = ("b", first)
            places.append(back)
            generation += 1
        ip = front("a") + (self.data() if rnd.random() < 0.3 else [])
        if rnd.random() < 0.8:
            ip.append("mark")
            own = max(generation - 1 + rnd.choice([0, 0, 0, 1, -1]), 1)
            told = rnd.choice(places[-2:]) if places and rnd.random() < 0.2 else back
            told = self.often(told, None, ("b", 4), ("b", 99))
            here = self.often(("a", len(ip)), ("a", len(ip) - 1), ("b", len(ip)))
            ip += self.blocks(index(own, here, told, self.nodes(len(dp)), self.often(UUID, OTHER))) + ["mark"]
        if rnd.random() < 0.2:
            dp += self.data() + rnd.choice([[], ["mark"], ["torn"], ["mark", b"abc"]])
        if rnd.random() < 0.1:
            ip += rnd.choice([["torn"], [b"abc"], ["mark"], ["mark", b"abc"], ["mark", "mark"]])
        return self.harmed(ip), self.harmed(dp)

    def harmed(self, items):
        rnd = self.rnd
        if rnd.random() > 0.15:
            return items
        at, kind = rnd.randrange(len(items)), rnd.randrange(4)
        other = rnd.choice(["mark", "torn", b"abc", RECORD, label("a"), label("b")])
        if kind == 0:
            return items[:at]
        if kind == 1:
            return items[:at] + [other] + items[at + 1:]
        if kind == 2:
            return items[:at] + [other] + items[at:]
        item = items[at]
        if isinstance(item, bytes):
            k = rnd.randrange(len(item))
            other = bytes([rnd.choice(b"0<>b9 ")])
            item = rnd.choice([item[:k], item[:k] + other + item[k + 1:], item + b" "]) or b"x"
        return items[:at] + [item] + items[at + 1:]


def rnd_first(rnd):
    return rnd.choice([1, 1, 3, 2 ** 62 - 2])


def small():
    """A small volume with each item replaced by one of each kind, and cut after each item."""
    ip = front("a") + ["mark", index(1, ("a", 5), ("b", 5), ""), "mark"]
    dp = front("b") + ["mark", index(1, ("b", 5), None, ""), "mark"]
    kinds = ["mark", "torn", b"abc", RECORD, label("a"), label("b"), ip[5], dp[5]]
    for at in range(7):
        for kind in kinds:
            yield ip[:at] + [kind] + ip[at + 1:], dp
            yield ip, dp[:at] + [kind] + dp[at + 1:]
    for left in range(8):
        for other in range(8):
            yield ip[:left], dp[:other]


def main():
    program, seed, rounds = sys.argv[1], int(sys.argv[2]), int(sys.argv[3])
    volumes, kinds, wrong = Volumes(random.Random(seed)), Counter(), 0
    by_hand = list(small())
    for k in range(len(by_hand) + rounds):
        ip, dp = by_hand[k] if k < len(by_hand) else volumes.partitions()
        folder = tempfile.mkdtemp()
        images.write(folder, ip, dp)
        before, want = random_labels.files_of(folder), said(folder)
        done = subprocess.run([program, "list", folder], stdin=subprocess.DEVNULL, capture_output=True)
        got = (done.stdout.decode(), done.returncode)
        kinds["ok" if want[1] == 0 else want[0].split(" ")[1].strip()] += 1
        if got != want or random_labels.files_of(folder) != before:
            wrong += 1
            print(f"cartridge {k}: wanted {want}, got {got}")
        shutil.rmtree(folder)
    print(f"{len(by_hand)} cartridges by hand and {rounds} by chance, {wrong} wrong: {dict(kinds.most_common())}")
    return 1 if wrong else 0


if __name__ == "__main__":
    sys.exit(main())
