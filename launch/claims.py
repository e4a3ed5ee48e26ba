"""Who has claimed a folder by the system's lock on it, where /proc tells."""

import fcntl
import os
import pathlib

from shown import shown

LONGEST = 100
PROC = pathlib.Path("/proc")


def flocks_of(info):
    """The locks that the text of an open file tells: how each is claimed, and by which process."""
    for line in info.splitlines():
        words = line.split()
        if words[:1] == ["lock:"] and "FLOCK" in words[:3]:
            yield words[4], words[5]


def holders(folder):
    """How each process that has the folder open with a lock claims it, and who began that lock."""
    facts, found = os.stat(folder), {}
    for it in PROC.glob("[0-9]*/fd/*"):
        try:
            other = os.stat(it)
            if (other.st_dev, other.st_ino) == (facts.st_dev, facts.st_ino):
                info = (it.parents[1] / "fdinfo" / it.name).read_text()
                found.update({(it.parts[2], kind): who for kind, who in flocks_of(info)})
        except OSError:
            continue  # it ended, or is somebody else's
    return found


def claims(folder):
    """Each claim on the folder: the process that has it, and whether that is to read alone. Of several processes that
    share one claim, it is the one that began it, or else the oldest."""
    shared = {}
    for (process, kind), who in holders(folder).items():
        shared.setdefault((who, kind), []).append(process)
    for (who, kind), processes in shared.items():
        yield who if who in processes else min(processes, key=int), kind == "READ"


def listed_claims(folder):
    """The same by the system's list of all locks, which tells of other users' processes too."""
    facts = os.stat(folder)
    try:
        lines = (PROC / "locks").read_text().splitlines()
    except OSError:
        return
    spot = f"{os.major(facts.st_dev):02x}:{os.minor(facts.st_dev):02x}:{facts.st_ino}"
    for words in map(str.split, lines):
        if words[1:2] == ["FLOCK"] and spot in words:
            yield words[4], words[3] == "READ"


def command_of(process):
    """What a process runs, without the loader in front of the checked program."""
    try:
        words = (PROC / process / "cmdline").read_bytes().rstrip(b"\0").split(b"\0")
    except OSError:
        return "its command isn't told"
    for nth, word in enumerate(words):
        name = os.path.basename(word).split(b"-")[0]
        if name in (b"ltfs_server", b"index_tool") and b" " not in word:
            words = [name, *words[nth + 1:]]
            break
    text = shown(b" ".join(words))
    return text if len(text) <= LONGEST else text[:LONGEST] + ".."


def told_claims(folder, is_to_write):
    """Lines on those who have the folder so that a command that writes, or one that reads, can't have it."""
    lines = []
    for process, reads in list(claims(folder)) or list(listed_claims(folder)):
        if is_to_write or not reads:
            how = " to read" if reads else ""
            lines.append(f"{shown(folder)} is in use{how} by process {process}: {command_of(process)}")
    return lines


def unseen_claim(folder, is_to_write):
    """A line where the folder is claimed by somebody whom /proc doesn't tell. That is tried as a run does it, and
    taken back at once."""
    opened = os.open(folder, os.O_RDONLY)
    try:
        fcntl.flock(opened, (fcntl.LOCK_EX if is_to_write else fcntl.LOCK_SH) | fcntl.LOCK_NB)
        return []
    except BlockingIOError:
        return [f"{shown(folder)} is in use by another run, of which /proc doesn't tell"]
    except OSError:
        return []
    finally:
        os.close(opened)
