"""Reads the image of a cartridge in a folder, by the rules of docs/FORMATS.md, and writes nothing."""

import contextlib
import os

NAMES = ("cm", "ip", "dp")
# How many positions each partition has.
PARTS = {"ip": 65_536, "dp": 1_048_576}
KINDS = {b"B": "block", b"M": "mark", b"T": "torn"}
LARGEST = 1_048_576
HEADER = 512
SLOT = 256
HEAD = 5
# Where a slot tells of each partition.
HALVES = {"ip": 17, "dp": 105}


class Refused(Exception):
    """Why files are no image: `Header` or `Record(Ip, 3)`, in which file, at which byte, and in words."""

    def __init__(self, what, name, at, why):
        super().__init__(what)
        self.what, self.name, self.at, self.why = what, name, at, why


def number(text):
    return int.from_bytes(text, "big")


def counted(count, word):
    return f"{count:,} {word}{'' if count == 1 else 's'}"


def path_of(folder, name):
    return os.path.join(folder, f"{name}.img")


def size_of(folder, name):
    """How many bytes a file has; one that is missing has none."""
    try:
        return os.stat(path_of(folder, name)).st_size
    except FileNotFoundError:
        return 0


def is_blank(folder):
    """Whether nothing was made in the folder yet."""
    return size_of(folder, "cm") < HEADER and not size_of(folder, "ip") and not size_of(folder, "dp")


def slot_of(text):
    """The slot of a header that counts, and where it stands."""
    slots = [at for at in (0, SLOT) if text[at:at + 1] == b"\1"]
    if not slots:
        raise Refused("Header", "cm", 0, "the gates of both slots are closed")
    serials = [number(text[at + 1:at + 9]) for at in slots]
    if len(slots) == 2 and serials[0] == serials[1]:
        raise Refused("Header", "cm", 1, f"both slots are open and have the serial number {serials[0]:,}")
    at = max(zip(serials, slots))[1]
    return text[at:at + SLOT], at


class Half:
    """What a header says of a partition: how many records count, where they end, and whether one is torn."""

    def __init__(self, part, text, at):
        self.count, self.end = number(text[:8]), number(text[8:16])
        for which, flag in enumerate(text[16:18]):
            if flag > 1:
                raise Refused("Header", "cm", at + 16 + which, f"a flag is {flag:02X}h in place of 00h or 01h")
        self.torn = text[16] == 1
        if self.count + self.torn > PARTS[part]:
            behind = ", and a torn item behind them" if self.torn else ""
            raise Refused("Header", "cm", at, f"{self.count:,} records of {part}.img are to count{behind}, and"
                          f" {PARTS[part]:,} is the most")


class Image:
    """An image, of which the header is read at once."""

    def __init__(self, folder):
        self.folder = folder
        size = size_of(folder, "cm")
        if size != HEADER:
            raise Refused("Header", "cm", min(size, HEADER), f"it has {counted(size, 'byte')}, and that of an image"
                          f" has {HEADER}")
        with open(path_of(folder, "cm"), "rb") as file:
            slot, at = slot_of(file.read(HEADER))
        self.halves = {part: Half(part, slot[half:half + 88], at + half) for part, half in HALVES.items()}

    def records(self, part):
        """Yields the kind of each record that counts, where it begins, and how many bytes follow its head."""
        half = self.halves[part]
        if half.count == 0 and half.end == 0:
            return
        try:
            file = os.open(path_of(self.folder, part), os.O_RDONLY)
        except FileNotFoundError:
            raise Refused(record_word(part, 0), part, 0, f"the file is missing, and {counted(half.count, 'record')}"
                          " of it count") from None
        try:
            yield from self.walk(part, half, file, os.fstat(file).st_size)
        finally:
            os.close(file)

    @staticmethod
    def walk(part, half, file, size):
        at = 0
        for nth in range(half.count):
            kind, length = judge(part, nth, at, os.pread(file, HEAD, at), min(half.end, size), half, size)
            yield kind, at, length
            at += HEAD + length
        if at != half.end:
            raise Refused(record_word(part, half.count), part, at, f"its {counted(half.count, 'record')} end at byte"
                          f" {at:,}, and the header says at {half.end:,}")

    def items(self, part):
        """Yields each item of a partition: the bytes of a block, `mark` or `torn`."""
        with contextlib.ExitStack() as opened:
            file = None
            for kind, at, length in self.records(part):
                # The first record is judged before that, and a file that is missing is told by it.
                file = file or opened.enter_context(open(path_of(self.folder, part), "rb"))
                file.seek(at + HEAD)
                yield file.read(length) if kind == "block" else kind
        if self.halves[part].torn:
            yield "torn"


def record_word(part, nth):
    return f"Record({part.title()}, {nth})"


def judge(part, nth, at, head, end, half, size):
    """The kind and the length of a record by its head, which has to lie within `end` with what follows it."""
    word = record_word(part, nth)
    lacks = (f"the file ends at byte {size:,}, and its records at {half.end:,}" if size < half.end
             else f"the header says that the records end at byte {half.end:,}")
    if at + HEAD > end:
        raise Refused(word, part, at, f"its head isn't whole: {lacks}")
    kind, length = KINDS.get(head[:1]), number(head[1:])
    if kind is None:
        raise Refused(word, part, at, f"it begins with the byte {head[0]:02X}h in place of B, M or T")
    if kind == "block" and not 1 <= length <= LARGEST:
        raise Refused(word, part, at + 1, f"it is a block of {length:,} bytes, and one has 1 to {LARGEST:,}")
    if kind != "block" and length:
        raise Refused(word, part, at + 1, f"four zeros have to stand behind its letter, and {head[1:].hex()}h does")
    if at + HEAD + length > end:
        raise Refused(word, part, at, f"it is a block of {length:,} bytes, and not whole: {lacks}")
    return kind, length


def refusal_of(folder):
    """Why the files of a folder are no image, or None where they are one or nothing was made yet."""
    if is_blank(folder):
        return None
    try:
        image = Image(folder)
        for part in PARTS:
            for _ in image.records(part):
                pass
    except Refused as refusal:
        return refusal
    return None
