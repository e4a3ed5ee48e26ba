#!/usr/bin/env python3
"""Makes random calls of all kinds, and compares replies, indexes and folders with what the rules alone give.

usage: random_calls.py PROGRAM SEED ROUNDS

In each round a script runs on the plain tree, and then some scripts are served on a folder one after the other. The
tree, the space on tape and the text of indexes are those of log/volume.py and log/check_log.py, which share nothing
with the server. Compared are each reply; the last indexes on both partitions byte by byte; the line of the close; and
of a volume that was sealed by an earlier script, that no byte of its folder changes.
"""
import pathlib
import random
import subprocess
import sys
import tempfile

HERE = pathlib.Path(__file__).resolve().parent
sys.path[:0] = [str(HERE / "log"), str(HERE.parent / "shared")]

from check_log import Space  # noqa: E402
from images import read  # noqa: E402
from volume import LOCKS, UUID, Tree, index_text, read_script  # noqa: E402

BLOCK = 4096
NAMES = ["a", "b", "c", "%41", "d%01", "%C3%A9", ".."]
KEYS = ["k", "user.note", "a/b", "%25%01", "%C3%A9", "%EF%BF%BE", "ltfs.x", "x" * 255, "x" * 256, "%00", "k", "k"]
VALUES = ["hex:", "text:hi", "text:a&b<c>", "hex:00ff", "hex:0d0a09", "hex:01", "hex:7f", "hex:efbfbe", "hex:edbfbf",
          "fill:61:5000", "fill:ff:65536"]
VERBS = {"mkdir": 6, "create": 10, "write": 10, "truncate": 3, "read": 6, "list": 3, "stat": 4, "rename": 6, "remove": 4,
         "setx": 16, "getx": 10, "dropx": 5, "readonly": 9, "lock": 1, "unlock": 3, "sync": 4}
SEALS = 0.2


def path(rng, depth=2):
    return "".join("/" + rng.choice(NAMES) for _ in range(rng.randint(0, depth))) or "/"


def call(rng):
    verb = rng.choices(list(VERBS), VERBS.values())[0]
    words = {
        "write": lambda: [rng.choice(["0", "3", "5000", "1099511627775"]), rng.choice(VALUES)],
        "truncate": lambda: [rng.choice(["0", "2", "9000", "1099511627777"])],
        "read": lambda: [rng.choice(["0", "4095"]), rng.choice(["0", "9", "9000"])],
        "rename": lambda: [path(rng)],
        "setx": lambda: [rng.choice(KEYS), rng.choice(VALUES)],
        "getx": lambda: [rng.choice(KEYS)],
        "dropx": lambda: [rng.choice(KEYS)],
        "readonly": lambda: [rng.choice(["true", "true", "false"])],
    }.get(verb, list)()
    return " ".join([verb] + ([] if verb == "sync" or verb in LOCKS else [path(rng)]) + words)


def script_by(rng, sessions):
    """Lines of calls; of some a session gives a node more keys than it may have."""
    lines = [f"{rng.randint(1, sessions)} {call(rng)}" for _ in range(rng.randint(0, 60))]
    if rng.random() < 0.1:
        lines += [f"1 setx / many.{k} hex:{k % 256:02x}" for k in range(rng.choice([250, 258]))]
    return lines


def run(program, words, lines=()):
    done = subprocess.run([program, *words], input="".join(f"{it}\n" for it in lines).encode(), capture_output=True)
    return done.returncode, done.stdout.decode()


def text_of(items, first):
    """The blocks from a position on, up to the next mark, as one."""
    text = b""
    for item in items[first:]:
        if not isinstance(item, bytes):
            break
        text += item
    return text


def day(nth):
    return f"2024-01-{nth + 2:02}T03:04:05.000000000Z"


# ---- the plain tree

def judge_plain(program, lines):
    """What is told otherwise of a script on the plain tree, if anything."""
    status, told = run(program, ["plain", "--at", day(0)], lines)
    tree, wanted, counts = Tree(BLOCK, day(0)), "", {}
    for place, line in enumerate(lines):
        who, nth = line.split(" ")[0], counts.get(line.split(" ")[0], 0)
        counts[who] = nth + 1
        asked = read_script(line)[int(who)][0]
        wanted += f"{place} {who}.{nth} {tree.answer(*asked)}\n"
        if not tree.refusal(*asked):
            tree.apply(day(0), *asked)
    wanted += f"done {len(lines)}\n"
    for want, came in zip(wanted.splitlines(), told.splitlines()):
        if want != came:
            return f"{lines[int(came.split(' ')[0])]}: {came[:80]} in place of {want[:80]}"
    return None if (status, told) == (0, wanted) else f"plain ends with {status} {told[-80:]!r}"


# ---- a volume

class Volume:
    """A folder that is served, and what the rules say of it."""

    def __init__(self, program, folder, policy):
        self.program, self.folder, self.days = program, folder, 0
        words = ["format", folder, "TAPE01", UUID, "--block", str(BLOCK), "--at", day(0)]
        words += ["--ip-size", str(policy[0])] if policy else []
        status, told = run(program, words)
        if status:
            raise RuntimeError(f"format: {told}")
        self.space = Space({kind: [] for kind in ("volume", "policy", "node", "extent")})
        self.space.caps = {"ip": 65_536, "dp": 1_048_576}
        self.space.policy = policy and (policy[0], [])
        self.space.tree = Tree(BLOCK, day(0))

    def files(self):
        return {it.name: it.read_bytes() for it in sorted(pathlib.Path(self.folder).iterdir())}

    def serve(self, lines):
        """Serves a script. Returns what is wrong, if anything."""
        self.days += 1
        was_sealed, before = self.space.tree.lock == "permlocked", self.files()
        status, told = run(self.program, ["serve", self.folder, "--at", day(self.days)], lines)
        *log, end = told.splitlines() or [""]
        found = self.judge_log(lines, log)
        if found or status:
            return found or f"serve ends with {status} {end}"
        if self.space.changed:
            self.close()
        if end.split(" ")[:2] != ["closed", str(self.space.generation)]:
            return f"{end} in place of closed {self.space.generation}"
        if was_sealed and self.files() != before:
            return "the folder of a sealed volume has changed"
        return None if was_sealed else self.judge_indexes()

    def judge_log(self, lines, log):
        """What is told otherwise of the calls, in the order in which they came."""
        calls, counts = read_script("\n".join(lines)), {}
        if len(log) != len(lines):
            return f"{len(log)} lines of a log for {len(lines)} calls"
        for place, line in enumerate(log):
            at, session, reply = line.split(" ", 2)
            who, nth = map(int, session.split("."))
            if int(at) != place or nth != counts.get(who, 0) or nth >= len(calls.get(who, ())):
                return f"{line}: not the next call of its session"
            counts[who] = nth + 1
            asked = calls[who][nth]
            wanted = self.space.tree.answer(*asked)
            if reply != wanted:
                return f"{' '.join(map(str, asked))[:80]}: {reply[:80]} in place of {wanted[:80]}"
            self.make(asked)
        return None

    def make(self, asked):
        space = self.space
        if space.tree.refusal(*asked):
            return
        if asked[0] == "sync" and space.changed:
            self.index = space.index(day(self.days))
        space.make(space.ops_of(*asked), day(self.days), *asked)

    def close(self):
        """The close writes an index of all that has changed, as a sync does."""
        self.make(("sync",))

    def judge_indexes(self):
        """Whether each partition ends with the index of the newest generation."""
        items, space = read(self.folder), self.space
        if space.generation == 1:
            return None
        found = text_of(items["dp"], space.last)
        if found != self.index or items["dp"][space.last + space.blocks(len(found)):] != ["mark"]:
            return f"the index of the data partition: {found!r} in place of {self.index!r}"
        # The index partition's is that of the data partition but for where it is.
        at, first = found.split(b"<updatetime>")[1].split(b"<")[0].decode(), space.ends["ip"] + 1
        wanted = index_text(space.tree, space.generation, at, ("a", first), space.last, space.policy)
        found = text_of(items["ip"], first)
        if found != wanted or items["ip"][first + space.blocks(len(found)):] != ["mark"]:
            return f"the index of the index partition: {found!r} in place of {wanted!r}"
        return None


def judge_served(program, rng, folder):
    """What is wrong of scripts that are served one after the other, if anything, and in which lock state they end."""
    volume = Volume(program, folder, rng.choice([None, None, (5000, [])]))
    for _ in range(rng.randint(2, 4)):
        lines = script_by(rng, rng.choice([1, 1, 4]))
        if rng.random() < SEALS:
            lines.append("1 permlock")
        found = volume.serve(lines)
        if found:
            return found, volume.space.tree.lock
    return None, volume.space.tree.lock


def main():
    program, seed, rounds = sys.argv[1], int(sys.argv[2]), int(sys.argv[3])
    wrong, ends = 0, {}
    for n in range(rounds):
        rng = random.Random(f"calls/{seed}/{n}")
        found = judge_plain(program, script_by(rng, 4) + ["1 permlock"][:rng.random() < SEALS] + script_by(rng, 1))
        with tempfile.TemporaryDirectory() as folder:
            served, lock = judge_served(program, rng, folder)
        ends[lock] = ends.get(lock, 0) + 1
        for it in filter(None, (found, served)):
            wrong += 1
            print(f"round {n}: {it}")
    print(f"{rounds} rounds, {wrong} wrong, volumes that ended as {ends}")
    return 1 if wrong else 0


if __name__ == "__main__":
    sys.exit(main())
