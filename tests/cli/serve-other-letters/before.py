"""The first index of a volume whose index partition has the letter c, with a file of each partition."""

import os
import sys

sys.path.append(os.path.join(os.environ["TOP"], "tests", "cli", "hand_made"))
from cartridge import AT, UUID, label, vol1, write  # noqa: E402

TIMES = "".join(f"<{tag}time>{AT}</{tag}time>" for tag in ("creation", "change", "modify", "access", "backup"))
FACTS = f"{TIMES}<readonly>false</readonly>"
POLICY = "<size>1000</size><name>*.md</name><name>*.txt</name><name>a?b</name>"


def spot(letter, block):
    return f"<partition>{letter}</partition><startblock>{block}</startblock>"


def file(uid, name, length, letter, block):
    return f"""<file><fileuid>{uid}</fileuid><name>{name}</name><length>{length}</length>{FACTS}<extentinfo><extent>\
<fileoffset>0</fileoffset>{spot(letter, block)}<byteoffset>0</byteoffset><bytecount>{length}</bytecount></extent>\
</extentinfo></file>"""


def index(letter, back):
    return f"""<?xml version="1.0" encoding="UTF-8"?><ltfsindex version="2.4.0"><creator>by hand</creator>\
<volumeuuid>{UUID}</volumeuuid><generationnumber>1</generationnumber><comment>kept</comment>\
<updatetime>{AT}</updatetime><location>{spot(letter, 6)}</location>{back}\
<allowpolicyupdate>false</allowpolicyupdate>\
<dataplacementpolicy><indexpartitioncriteria>{POLICY}</indexpartitioncriteria></dataplacementpolicy>\
<highestfileuid>3</highestfileuid><directory><fileuid>1</fileuid><name>Root</name>{FACTS}<contents>\
{file(2, "a", 5, "d", 4)}{file(3, "b.txt", 3, "c", 4)}</contents></directory></ltfsindex>""".encode()


POINTER = f"<previousgenerationlocation>{spot('d', 6)}</previousgenerationlocation>"
front = [vol1("TAPE01"), "mark"]
write([*front, label("cd", 0), "mark", b"abc", "mark", index("c", POINTER), "mark"],
      [*front, label("cd", 1), "mark", b"hello", "mark", index("d", ""), "mark"])
