"""Cartridges as images in a folder, written and read by the rules of docs/FORMATS.md. An item is the bytes of a block,
`mark` or `torn`."""

import pathlib
import sys

sys.path.append(str(pathlib.Path(__file__).resolve().parents[2] / "launch"))
from image_reader import PARTS, Image, Refused, is_blank  # noqa: E402

WORDS = {"mark": b"M", "torn": b"T"}


def record(item):
    """The bytes of an item."""
    if isinstance(item, bytes):
        return b"B" + len(item).to_bytes(4, "big") + item
    return WORDS[item] + bytes(4)


def header(ends):
    """The header in which so many records of each partition count, up to that byte. No attributes, and no write."""
    halves = b"".join(number.to_bytes(8, "big") for pair in ends for number in pair)
    halves = [halves[at:at + 16] + bytes(72) for at in (0, 16)]
    return b"\1" + (1).to_bytes(8, "big") + bytes(8) + b"".join(halves) + bytes(63 + 256)


def write(folder, ip, dp):
    """Writes a cartridge of these items, which are taken one after the other."""
    folder, ends = pathlib.Path(folder), []
    for part, items in zip(PARTS, (ip, dp)):
        count = end = 0
        with open(folder / f"{part}.img", "wb") as out:
            for item in items:
                end += out.write(record(item))
                count += 1
        ends.append((count, end))
    (folder / "cm.img").write_bytes(header(ends))


def read(folder):
    """The items of both partitions, or None where the files are no image."""
    if is_blank(folder):
        return {part: [] for part in PARTS}
    try:
        image = Image(folder)
        return {part: list(image.items(part)) for part in PARTS}
    except Refused:
        return None
