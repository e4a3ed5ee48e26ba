#!/usr/bin/env python3
"""Writes a folder with the cartridge of a volume, by the rules of docs/FORMATS.md.

    make_cartridge.py FOLDER [--blocks N] [--size BYTES] [--nodes N] [--nested] [--attributes]

The data partition has N blocks of data (4,096) of SIZE bytes (524,288), which is the block size of the volume, and behind them
the index of so many nodes (65,536): folders with 255 files each, whose extents lie in these blocks; or, nested, folders each in
the one before. With attributes each node has one, half of them 64 hexadecimal digits, half 120 bytes in base64 in lines of 72
characters. The index partition has the same index. The notes are absent.
"""
import argparse
import base64
import os
import random
import sys

sys.path.append(os.path.join(os.path.dirname(os.path.dirname(os.path.abspath(__file__))), "tests", "shared"))
import images  # noqa: E402

UUID = "30a91a08-daae-48d1-ae75-69804e61d2ea"
TIME = "2024-01-02T03:04:05.000000000Z"
TIMES = "".join(f"<{t}time>{TIME}</{t}time>" for t in ["creation", "change", "modify", "access", "backup"])
TIMES += "<readonly>false</readonly>"
HEAD = '<?xml version="1.0" encoding="UTF-8"?>'


def label(letter, size):
    return (f'{HEAD}<ltfslabel version="2.4.0"><creator>ltfs_server 1.0.0</creator><formattime>{TIME}</formattime>'
            f"<volumeuuid>{UUID}</volumeuuid><location><partition>{letter}</partition></location>"
            "<partitions><index>a</index><data>b</data></partitions>"
            f"<blocksize>{size}</blocksize><compression>false</compression></ltfslabel>").encode()


def no_attribute(uid):
    return ""


def attribute(uid):
    rnd = random.Random(uid)
    if uid % 2 == 0:
        key, kind, value = "ltfs.hash.sha256sum", "text", rnd.randbytes(32).hex()
    else:
        key, kind, text = "user.preview", "base64", base64.b64encode(b"\0" + rnd.randbytes(119)).decode()
        value = "\n".join(text[at:at + 72] for at in range(0, len(text), 72))
    return f'<extendedattributes><xattr><key>{key}</key><value type="{kind}">{value}</value></xattr></extendedattributes>'


def folder(uid, name, more):
    return f"<directory><fileuid>{uid}</fileuid><name>{name}</name>{TIMES}{more(uid)}<contents>"


def file(uid, block, byte, count, more):
    return (f"<file><fileuid>{uid}</fileuid><name>f{uid:06d}.dat</name><length>{count}</length>{TIMES}{more(uid)}<extentinfo><extent>"
            f"<fileoffset>0</fileoffset><partition>b</partition><startblock>{block}</startblock><byteoffset>{byte}</byteoffset>"
            f"<bytecount>{count}</bytecount></extent></extentinfo></file>")


def nested(nodes, more):
    return "".join(folder(uid, "a", more) for uid in range(2, nodes + 1)) + "</contents></directory>" * (nodes - 1)


def wide(nodes, blocks, size, more):
    parts = []
    for uid in range(2, nodes + 1):
        at = (uid - 2) % 256
        if at == 0:
            parts.append("</contents></directory>" * (uid > 2) + folder(uid, f"d{uid:06d}", more))
        else:
            parts.append(file(uid, 4 + uid % blocks, uid // blocks, size // 2, more))
    return "".join(parts) + "</contents></directory>" * (nodes > 1)


def index(here, back, nodes, tree, more):
    pointer = ""
    if back is not None:
        pointer = f"<previousgenerationlocation><partition>b</partition><startblock>{back}</startblock></previousgenerationlocation>"
    return (f'{HEAD}<ltfsindex version="2.4.0"><creator>ltfs_server 1.0.0</creator><volumeuuid>{UUID}</volumeuuid>'
            f"<generationnumber>1</generationnumber><updatetime>{TIME}</updatetime>"
            f"<location><partition>{here[0]}</partition><startblock>{here[1]}</startblock></location>{pointer}"
            f"<allowpolicyupdate>true</allowpolicyupdate><highestfileuid>{nodes}</highestfileuid>"
            f"{folder(1, '', more)}{tree}</contents></directory></ltfsindex>").encode()


def cut(text, size):
    return [text[at:at + size] for at in range(0, len(text), size)]


def main():
    p = argparse.ArgumentParser()
    p.add_argument("folder")
    p.add_argument("--blocks", type=int, default=4096)
    p.add_argument("--size", type=int, default=524288)
    p.add_argument("--nodes", type=int, default=65536)
    p.add_argument("--nested", action="store_true")
    p.add_argument("--attributes", action="store_true")
    args = p.parse_args()
    os.makedirs(args.folder, exist_ok=True)
    more = attribute if args.attributes else no_attribute
    tree = nested(args.nodes, more) if args.nested else wide(args.nodes, max(args.blocks, 1), args.size, more)
    record = b"VOL1TAPE01L" + b" " * 13 + b"LTFS" + b" " * 51 + b"4"
    rnd = random.Random(1)
    some = rnd.randbytes(args.size)
    data = (some[k % args.size:] + some[:k % args.size] for k in range(args.blocks))
    first = 4 + args.blocks + 1
    on_dp = cut(index(("b", first), None, args.nodes, tree, more), args.size)
    on_ip = cut(index(("a", 5), first, args.nodes, tree, more), args.size)
    front = lambda letter: [record, "mark", label(letter, args.size), "mark"]  # noqa: E731
    images.write(args.folder, front("a") + ["mark"] + on_ip + ["mark"],
                 (item for run in (front("b"), data, ["mark"], on_dp, ["mark"]) for item in run))


if __name__ == "__main__":
    main()
