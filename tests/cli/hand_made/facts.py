"""A volume with a directory `d` and a file `f` without bytes, with attributes and flags of each, and a lock state."""

import sys

from cartridge import AT, UUID, indexes, inside

TIMES = "".join(f"<{tag}time>{AT}</{tag}time>" for tag in ("creation", "change", "modify", "access", "backup"))


def spot(place):
    return f"<partition>{place[0]}</partition><startblock>{place[1:]}</startblock>"


def attributes(pairs):
    """The element of attributes with these keys and elements of values."""
    inside = "".join(f"<xattr><key>{key}</key>{value}</xattr>" for key, value in pairs)
    return f"<extendedattributes>{inside}</extendedattributes>" if inside else ""


def keys(count):
    """So many keys, each with its number as its value."""
    return attributes((f"k{k:03}", f"<value>{k}</value>") for k in range(count))


def plain_index(here, back, generation, lock, elements, readonly=("false", "false", "false")):
    """An index at a place that points back to another. The root, the directory and the file have these elements of
    attributes and flags; without a word for the lock state it tells none."""
    pointer = f"<previousgenerationlocation>{spot(back)}</previousgenerationlocation>" if back else ""
    state = f"<volumelockstate>{lock}</volumelockstate>" if lock else ""
    root, directory, file = (f"{TIMES}<readonly>{flag}</readonly>{it}" for flag, it in zip(readonly, elements))
    return f"""<ltfsindex version="2.4.0"><creator>by hand</creator><volumeuuid>{UUID}</volumeuuid>\
<generationnumber>{generation}</generationnumber><updatetime>{AT}</updatetime><location>{spot(here)}</location>{pointer}\
<allowpolicyupdate>true</allowpolicyupdate>{state}<highestfileuid>3</highestfileuid><directory><fileuid>1</fileuid>\
<name></name>{root}<contents><directory><fileuid>2</fileuid><name>d</name>{directory}<contents></contents></directory>\
<file><fileuid>3</fileuid><name>f</name><length>0</length>{file}<extentinfo></extentinfo></file></contents></directory>\
</ltfsindex>""".encode()


def tell_locks():
    """Prints what came, and behind it of each index on the data partition its position and the lock state, if any."""
    sys.stdout.write(sys.stdin.read())
    for position, document in indexes("dp"):
        print("dp", position, *(inside(document, "volumelockstate") or ["no lock state"]))
