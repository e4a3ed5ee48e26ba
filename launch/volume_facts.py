"""The name and the identifier of the volume in a folder, read without the server, as far as they can be read."""

import re

import index_document
from image_reader import HEAD, LARGEST, Image, Refused, is_blank, path_of

VOL1 = 80
# The document of an index is known by its root, which begins in so many bytes.
FRONT = 1_024


def closed_runs(records):
    """The runs of blocks that each end in front of a mark."""
    run = []
    for record in records:
        if record[0] == "block":
            run.append(record)
        elif run:
            yield run
            run = []


def partition_facts(image, part):
    """The VOL1 record of a partition, and the document of its last index; None in place of what it lacks."""
    records = list(image.records(part))
    with open(path_of(image.folder, part), "rb") as file:
        def block(record, most=LARGEST):
            file.seek(record[1] + HEAD)
            return file.read(min(record[2], most))

        first = block(records[0]) if records and records[0][0] == "block" else b""
        runs = reversed(list(closed_runs(records)))
        last = next((it for it in runs if b"<ltfsindex" in block(it[0], FRONT)), ())
        text = b"".join(map(block, last))
    return first if len(first) == VOL1 and first.startswith(b"VOL1") else None, text or None


def index_facts(text):
    """The generation of an index, and the name of its root, for which most indexes are read at their front alone."""
    found = {}

    def look(element):
        above = element.parent
        if element.tag == "generationnumber" and above:
            found["generation"] = above.number("generationnumber")
        if element.tag == "name" and above and above.parent and above.parent.tag == "ltfsindex":
            found["name"] = above.first("name")
        return len(found) == 2

    index_document.found_in(text, look)
    return found.get("generation", 0), found.get("name", "")


def volume_of(folder):
    """The name and the identifier of the volume, or None where none can be read. The name is that of the newest index,
    and empty where there is none."""
    try:
        if is_blank(folder):
            return None
        image = Image(folder)
        both = [partition_facts(image, part) for part in ("ip", "dp") if image.halves[part].end]
    except (OSError, Refused):
        return None
    records = [record for record, _ in both if record]
    if not records:
        return None
    named = max((index_facts(text) for _, text in both if text), default=(0, ""))
    return named[1], re.sub("[^ -~]", "?", records[0][4:10].decode("latin-1")).strip()
