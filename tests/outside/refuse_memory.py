#!/usr/bin/env python3
"""Refuses each request for memory of a run in turn; looks at what is printed and what the folder stands for then.

usage: refuse_memory.py PROGRAM REFUSE.SO [--sessions N | --made] [--first N] [--last N] [--each]

REFUSE.SO is built from refuse.c. The run is one of `serve`: each of the script's sessions makes a file, writes it,
synchronises and reads it twice, the second time from the blocks that are kept, in a thread of its own. A run with
nothing refused tells how many requests there are, and how many before the first thread. Then each is refused in a run
of its own over a folder that was just formatted, and

- the run ends with one of the statuses 0, 4, 7 and 8, with the line that belongs to it;
- each reply is that of a plain tree, or tells a fault or want of memory;
- where nothing but how it ended is printed, the folder is as it was, byte by byte, and of several sessions no thread
  was made yet: later that line stands behind the whole log, since printing takes no memory;
- `list` tells of each session none of its file, an empty one or the whole one, and the whole one where the session
  was told that it was synchronised;
- where one session gets each reply as if nothing was refused, the head makes the steps of a run with nothing refused, and
  one more for each block of its second read that could not be kept; and there are such blocks.

With --made it is one of `make DIR 5`, in which each of eight sessions makes a folder and a file, and writes, reads and
renames that. No log is printed, so the summary has to count those calls as done that the listing shows to be done, and
the reads by the bytes that were read: one request that is refused leaves at most one call without memory.
"""
import argparse
import collections
import filecmp
import pathlib
import re
import shutil
import subprocess
import sys
import tempfile

TIME = "2024-01-02T03:04:05.000000000Z"
UUID = "30a91a08-daae-48d1-ae75-69804e61d2ea"
LENGTH = 5000
BLOCKS = 2
SUMMARY = re.compile(r"made 40 (\d+) (\d+) (\d+)")


def script(sessions):
    lines = []
    for who in range(1, sessions + 1):
        lines += [f"{who} create /f{who}", f"{who} write /f{who} 0 fill:{who:02x}:{LENGTH}", f"{who} sync",
                  *2 * [f"{who} read /f{who} 0 {LENGTH}"]]
    return "".join(line + "\n" for line in lines)


def replies(who):
    return ["ok", "ok", "synced", *2 * [f"bytes {LENGTH} " + f"{who:02x}" * LENGTH]]


def is_reply(reply, number, who, missed):
    """Whether a call may be answered so: a session that missed a call is refused what stands on it."""
    right = replies(who)[number]
    if reply == right or reply == "nomemory" or reply.startswith("fault "):
        return True
    return missed and reply in ("no NotFound", "bytes 0")


def wrong_log(lines, sessions):
    """What is wrong with the lines of a log, and which sessions were told that they are synchronised."""
    nexts, missed, synced = [0] * (sessions + 1), [False] * (sessions + 1), set()
    for place, line in enumerate(lines):
        front, call, reply = line.split(" ", 2)
        who, number = map(int, call.split("."))
        if int(front) != place or number != nexts[who]:
            return f"out of order: {line[:80]}", synced
        nexts[who] += 1
        if not is_reply(reply, number, who, missed[who]):
            return f"another reply: {line[:80]}", synced
        missed[who] |= reply == "nomemory" or reply.startswith("fault ")
        if reply == "synced" and not missed[who]:
            synced.add(who)
    if lines and nexts[1:] != [5] * sessions:
        return "calls are missing", synced
    return None, synced


def steps_of(lines):
    """How many steps the head made, as the line of the close tells."""
    return int(lines[-1].split(" ")[2]) if lines and lines[-1].startswith("closed ") else 0


def wrong_files(listed, sessions, synced):
    files = {words[3]: int(words[2]) for words in (line.split(" ") for line in listed) if words[0] == "f"}
    for who in range(1, sessions + 1):
        length = files.pop(f"/f{who}", None)
        if length not in (None, 0, LENGTH) or (who in synced and length != LENGTH):
            return f"a file of {length} bytes of session {who}"
    return "files of no session" if files else None


def wrong_sum(line, listed):
    """What is wrong with a summary of `make DIR 5`, beside what `list` tells of the tree."""
    told = SUMMARY.fullmatch(line)
    if not told:
        return f"no summary: {line[:80]}"
    done, read, nodes = map(int, told.groups())
    tree = [words for words in (line.split(" ") for line in listed) if words[0] in ("d", "f")]
    files = [(int(words[2]), words[3]) for words in tree if words[0] == "f"]
    lengths = [length for length, _ in files]
    # Each node but the root was made, each file with bytes was written, and each file was read, unless its bytes lack.
    right = len(tree) - 1 + sum(length > 0 for length in lengths) + sum(path.endswith("/g0") for _, path in files)
    right += len(files) - (sum(lengths) != read)
    if (done, nodes) != (right, len(tree)):
        return f"{line}, where {right} are done and there are {len(tree)} nodes"
    return None


def same(one, other):
    """Whether two folders have the same files, byte by byte."""
    names = sorted(path.name for path in one.iterdir())
    return names == sorted(path.name for path in other.iterdir()) \
        and all(filecmp.cmp(one / name, other / name, shallow=False) for name in names)


class Trial:
    def __init__(self, asked, folder):
        self.program, self.refuse, self.sessions, self.made = asked.program, asked.refuse, asked.sessions, asked.made
        self.empty, self.used, self.told = folder / "empty", folder / "used", folder / "told"
        self.empty.mkdir()
        self.run(["format", str(self.empty), "TAPE01", UUID, "--block", "4096", "--at", TIME])

    def run(self, words, text="", refused=None):
        env = {} if refused is None else \
            {"LD_PRELOAD": self.refuse, "REFUSE": str(refused), "TOLD": str(self.told)}
        done = subprocess.run([self.program, *words], input=text, capture_output=True, text=True, env=env, timeout=60)
        return done.returncode, done.stdout.splitlines()

    def start(self, refused):
        shutil.rmtree(self.used, ignore_errors=True)
        shutil.copytree(self.empty, self.used)
        if self.made:
            return self.run(["make", str(self.used), "5", "--at", TIME], "", refused)
        return self.run(["serve", str(self.used), "--at", TIME], script(self.sessions), refused)

    def count(self):
        """How many requests there are, and how many before the first thread."""
        _, lines = self.start(0)
        self.steps, self.unkept = steps_of(lines), 0
        count, self.alone = map(int, self.told.read_text().split())
        return count, self.alone

    def is_one(self):
        """Whether one session alone is served, for which no thread is made."""
        return self.sessions == 1 and not self.made

    def wrong_steps(self, lines):
        """What is wrong with the steps of a run of one session, if each of its replies is right."""
        if not self.is_one() or [line.split(" ", 2)[2] for line in lines[:-1]] != replies(1):
            return None
        more = steps_of(lines) - self.steps
        self.unkept += more
        return None if 0 <= more <= BLOCKS else f"{more} steps more"

    def judge(self, refused):
        """How a run ended, and what is wrong with it, if anything."""
        status, lines = self.start(refused)
        last = lines.pop() if lines else ""
        end = f"{status} {last.split(' ')[0]}"
        if end not in ("0 made" if self.made else "0 closed", "4 drive", "7 memory", "8 full"):
            return end, "it ends so"
        if not lines:
            end = f"{status} {' '.join(last.split(' ')[:3])}" if status == 0 else f"{end} alone"
        if status and not lines and (refused <= self.alone or self.is_one()):
            return end, None if same(self.empty, self.used) else "the folder has changed"
        if not lines and not self.made:
            return end, "the log is missing"
        fault, synced = (None, set()) if self.made else wrong_log(lines, self.sessions)
        if fault:
            return end, fault
        listing, listed = self.run(["list", str(self.used)])
        if listing:
            return end, f"list ends with {listing}"
        if not self.made:
            steps = self.wrong_steps([*lines, last]) if status == 0 else None
            return end, steps or wrong_files(listed, self.sessions, synced)
        return end, wrong_sum(last, listed) if status == 0 else None


def main():
    words = argparse.ArgumentParser()
    words.add_argument("program")
    words.add_argument("refuse")
    words.add_argument("--sessions", type=int, default=2)
    words.add_argument("--made", action="store_true")
    words.add_argument("--first", type=int, default=1)
    words.add_argument("--last", type=int)
    words.add_argument("--each", action="store_true", help="print how each run ends")
    asked = words.parse_args()
    with tempfile.TemporaryDirectory() as folder:
        trial = Trial(asked, pathlib.Path(folder))
        count, alone = trial.count()
        ends, wrong = collections.Counter(), 0
        for refused in range(asked.first, (asked.last or count) + 1):
            end, fault = trial.judge(refused)
            if asked.each:
                print(f"{refused} {end}")
            when = "before the first thread" if refused <= alone else "later"
            ends[f"{when}: {end}"] += 1
            if fault:
                wrong += 1
                print(f"request {refused}: {end}: {fault}")
    if asked.sessions == 1 and not (asked.made or asked.last or asked.first > 1) and not trial.unkept:
        wrong += 1
        print("each block was kept, whatever was refused")
    print(f"{count} requests, {alone} before the first thread; {wrong} wrong")
    for end, times in sorted(ends.items()):
        print(f"{times:6} {end}")
    return 1 if wrong else 0


if __name__ == "__main__":
    sys.exit(main())
