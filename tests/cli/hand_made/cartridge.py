"""Cartridges that are made and read by hand, for cases: by docs/FORMATS.md on the folder of a drive, and by LTFS 2.4 on
labels and indexes. Blocks have 4,096 bytes."""

import os
import re
import sys

sys.path.append(os.path.join(os.environ["TOP"], "tests", "shared"))
import images  # noqa: E402

UUID = "30a91a08-daae-48d1-ae75-69804e61d2ea"
AT = "2024-01-02T03:04:05.000000000Z"
TAPE = "tape"


def vol1(identifier):
    return f"VOL1{identifier}L{'':13}LTFS{'':51}4".encode()


def label(letters, nth, compression="false"):
    """The label of the nth of the two partitions with these letters, that of the index partition first."""
    return f"""<?xml version="1.0" encoding="UTF-8"?><ltfslabel version="2.4.0"><creator>by hand</creator>\
<formattime>{AT}</formattime><volumeuuid>{UUID}</volumeuuid><location><partition>{letters[nth]}</partition></location>\
<partitions><index>{letters[0]}</index><data>{letters[1]}</data></partitions><blocksize>4096</blocksize>\
<compression>{compression}</compression></ltfslabel>""".encode()


def write(ip, dp, folder=TAPE):
    """Writes the cartridge with these items, of which each is the bytes of a block, or `mark`."""
    os.makedirs(folder, exist_ok=True)
    images.write(folder, ip, dp)


def indexes(part):
    """The documents of the indexes of a partition, each with the position of its first block."""
    found, first, text = [], 0, b""
    for at, item in enumerate(images.read(TAPE)[part]):
        if item != "mark":
            text += item
            continue
        if b"<ltfsindex " in text[:99]:
            found.append((first, text.decode()))
        first, text = at + 1, b""
    return found


def inside(text, tag):
    """What stands in each element of this name."""
    return re.findall(f"<{tag}(?: [^>]*)?>(.*?)</{tag}>", text)
