#!/usr/bin/env python3
"""Check a log of a served volume by the rules alone, from a script and from what the volume was at the start.

usage: check_log.py SCRIPT LOG      say what is wrong first, with its line in the log, or that the log holds
       check_log.py --self-test     judge the logs in rows.py, and each of them broken in one way

A log is lines of words, and lines that begin with `#`. What is told of the start comes first. Calls stand in the
order of the history, acknowledgements and events in their own order; the three may be mixed.

    volume block 4096 caps 1000 1000 ends 4 7 generation 1 last 5 ip_on yes lock absent
                                                          what is left out is as it stands here
    policy SIZE PATTERN/PATTERN                           which files may go to the index partition
    node dir UID PATH TIME                                a node beside the root, its parent first
    node file UID PATH TIME LENGTH
    extent PATH OFFSET PART BLOCK BYTE COUNT BYTES        where it stands in the file and on tape, and the bytes there
    moment TIME                                           each call has this moment
    drive COMMANDS FAULTS COMMANDS FAULTS                 the counts of the drive at the start and at the end; each
                                                          command of it counts as one
    call PLACE WHO.NTH done|void TIME REPLY               a call of the history, with its reply as it is printed
    ack PLACE COMMAND
    wants TICKET PART POS  queues PART POS  syncs TICKET  synced TICKET  drains WHO  rests WHO
    served TICKET PART POS [fault BEFORE AFTER]           worked PART POS [fault BEFORE AFTER]
    closed GENERATION STEPS TRAVEL                        the last line of a volume that was closed
"""
import re
import sys

from trail import LAST_COUNT, ROOM, Head, Op, Wrong
from volume import Extent, Node, Tree, bytes_of, index_text, matches, path_of, read_script

LAST_GENERATION = 2**62
# A time as long as each: it stands for those that no line tells, so that an index is as long as it is.
NO_TIME = "0000-00-00T00:00:00.000000000Z"
EVENTS = {"wants", "queues", "syncs", "synced", "drains", "rests", "served", "worked"}
OF_SUBMISSIONS = {"wants", "queues", "syncs"}
OTHERS = {"volume", "policy", "node", "extent", "moment", "drive", "closed"}


# ---- the log as it is written

class Line:
    def __init__(self, at, text):
        fault = re.search(r" fault (\d+) (\d+)$", text)
        self.at, self.text = at, text
        self.fault = (int(fault[1]), int(fault[2])) if fault else None
        self.kind, *words = (text[:fault.start()] if fault else text).split(" ")
        self.words = [int(w) if w.isdigit() and len(w) <= 20 else w for w in words]


class Call:
    def __init__(self, line):
        _, place, session, self.fate, self.time, self.reply = line.text.split(" ", 5)
        self.at, self.place = line.at, int(place)
        self.who, self.nth = map(int, session.split("."))


class Log:
    def __init__(self, text):
        self.calls, self.events, self.acks, self.others = [], [], [], {kind: [] for kind in OTHERS}
        for at, words in enumerate(text.split("\n"), 1):
            if words and not words.startswith("#"):
                self.add(Line(at, words))

    def add(self, line):
        if line.kind in EVENTS:
            self.events.append(line)
        elif line.kind == "call":
            self.calls.append(Call(line))
        elif line.kind == "ack":
            self.acks.append(line)
        elif line.kind in OTHERS:
            self.others[line.kind].append(line)
        else:
            raise Wrong(line.at, f"{line.kind} is no kind of line")


# ---- the space on tape

class Space:
    """The tree, where the next item goes in each partition, and what is due of indexes."""

    def __init__(self, others):
        words = iter([w for line in others["volume"] for w in line.words])
        given = {w: [next(words), next(words)] if w in ("caps", "ends") else next(words) for w in words}
        self.block = given.get("block", 4096)
        self.caps = dict(zip(("ip", "dp"), given.get("caps", [1000, 1000])))
        self.ends = dict(zip(("ip", "dp"), given.get("ends", [4, 7])))
        self.generation, self.last = given.get("generation", 1), given.get("last", 5)
        self.ip_on = given.get("ip_on", "yes") == "yes"
        self.changed = self.put_on_ip = False
        self.policy = None
        for line in others["policy"]:
            self.policy = line.words[0], str(line.words[1]).split("/") if len(line.words) > 1 else []
        self.tree = Tree(self.block, NO_TIME, given.get("lock", "absent"))
        for line in others["node"]:
            sort, uid, path, time, *length = line.words
            node = self.tree.nodes[path_of(path)] = Node(sort, uid, time)
            node.length = length[0] if length else 0
            self.tree.highest = max(self.tree.highest, uid)
        for line in others["extent"]:
            path, offset, part, block, byte, count, data = line.words
            self.tree.nodes[path_of(path)].extents.append(Extent(offset, part, block, byte, count, bytes_of(data)))

    def blocks(self, count):
        return -(-count // self.block)

    def for_data(self, part, count):
        """How many positions a write needs there, and how many there are for it."""
        return self.ends[part] + self.blocks(count), max(0, self.caps[part] - (8 + self.caps[part] // 16))

    def part_for(self, path, offset, data):
        need, limit = self.for_data("ip", len(data))
        return "ip" if self.ip_on and need <= limit and self.is_chosen(path, offset + len(data)) else "dp"

    def is_chosen(self, path, end):
        if not self.policy:
            return False
        size, patterns = self.policy
        return (max(end, self.tree.nodes[path].length) <= size
                and (not patterns or any(matches(p, path[-1]) for p in patterns)))

    def index(self, at=NO_TIME):
        """The text of the next index on the data partition, of a moment."""
        return index_text(self.tree, self.generation + 1, at, ("b", self.ends["dp"] + 1), self.last, self.policy)

    def index_blocks(self):
        return self.blocks(len(self.index()))

    def asks(self, verb, *rest):
        """What a call that the tree doesn't refuse needs, and what there is."""
        if verb == "write" and rest[2]:
            return self.for_data(self.part_for(*rest), len(rest[2]))
        if verb == "sync" and self.changed:
            if self.generation >= LAST_GENERATION:
                return LAST_GENERATION + 1, LAST_GENERATION
            return self.ends["dp"] + 2 + self.index_blocks(), self.caps["dp"]
        return 0, 0

    def ops_of(self, verb, *rest):
        """The ops that such a call queues where there is space for it."""
        if verb == "write" and rest[2]:
            part = self.part_for(*rest)
            return [Op(part, self.ends[part] + k, False) for k in range(self.blocks(len(rest[2])))]
        if verb == "sync" and self.changed:
            end, count = self.ends["dp"], 2 + self.index_blocks()
            first = [Op("ip", self.ends["ip"], True)] if self.put_on_ip else []
            return first + [Op("dp", end + k, k == count) for k in range(count + 1)]
        return []

    def make(self, ops, time, verb, *rest):
        """Make the call, for which these ops were queued."""
        if verb == "write" and ops:
            self.tree.write(time, *rest, place=(ops[0].part, ops[0].pos))
            self.ends[ops[0].part] += len(ops)
            self.put_on_ip = self.put_on_ip or ops[0].part == "ip"
            self.changed = True
        elif verb == "sync" and ops:
            self.last, self.generation = self.ends["dp"] + 1, self.generation + 1
            self.ends["dp"] = ops[-1].pos
            self.changed = self.put_on_ip = False
        elif verb != "sync" and not self.tree.refusal(verb, *rest):
            self.changed = self.changed or self.tree.changes(verb, *rest)
            self.tree.apply(time, verb, *rest)


# ---- history and events together

class Check:
    """Goes through the history, and through the events beside it: each call is placed at the first moment that fits."""

    def __init__(self, script, log):
        self.script, self.log = script, log
        self.space, self.head = Space(log.others), Head()
        self.next_event, self.placed = 0, {who: 0 for who in script}
        self.owned, self.kept = set(), {}         # calls that own a fault; faults that are kept for sessions
        self.wanting = {line.words[0] for line in log.events if line.kind == "wants"}

    def run(self):
        for place, call in enumerate(self.log.calls):
            self.check_order(place, call)
            verb_and_rest = self.script[call.who][call.nth]
            while not self.is_placed(call, *verb_and_rest):
                self.follow()
            self.placed[call.who] += 1
        while self.next_event < len(self.log.events):
            self.follow()
        self.check_end()
        self.check_acks()

    def check_order(self, place, call):
        if call.place != place:
            raise Wrong(call.at, f"the place is {place}")
        if call.nth != self.placed.get(call.who) or call.nth >= len(self.script[call.who]):
            raise Wrong(call.at, f"this isn't the next call of {call.who}")
        if any(call.time != line.words[0] for line in self.log.others["moment"]):
            raise Wrong(call.at, "the call has another moment")

    def event(self):
        return self.log.events[self.next_event] if self.next_event < len(self.log.events) else None

    def follow(self):
        """Go over one event that no submission makes."""
        line = self.event()
        if line.kind in OF_SUBMISSIONS:
            raise Wrong(line.at, "no call makes this event here")
        owner = self.head.follow(line, lambda who: self.script[who][self.placed[who]][0]
                                 if self.placed.get(who, 0) < len(self.script.get(who, [])) else None)
        self.space.ip_on = self.space.ip_on or self.head.flushed_dp
        self.next_event += 1
        if owner and owner[0] == "session":
            self.kept[owner[1]] = line.fault
        elif owner:
            call = self.log.calls[owner[1]]
            self.owned.add(owner[1])
            if call.reply != "fault %d %d" % line.fault:
                raise Wrong(call.at, f"the fault of line {line.at} is this call's")

    def is_placed(self, call, verb, *rest):
        """Place the call at this moment where that fits. Where it doesn't, there must be an event to go over first."""
        why = self.why_not(call, verb, *rest)
        if not why:
            return True
        line = self.event()
        if line is None or line.kind in OF_SUBMISSIONS:
            raise Wrong(call.at, why)
        return False

    def why_not(self, call, verb, *rest):
        head, fault = self.head, self.kept.get(call.who)
        if head.waits(call.who, lambda ticket: self.log.calls[ticket].who):
            return f"session {call.who} waits, and makes no call"
        if fault and (call.fate, call.reply) != ("void", "fault %d %d" % fault):
            return f"session {call.who} has a fault to be told of"
        if call.fate == "void" and call.reply == "nomemory":
            return None
        if call.fate == "void" and call.reply.startswith("fault "):
            return None if self.kept.pop(call.who, None) and verb == "write" else "no fault is kept for this call"
        if verb == "write" and len(head.ops) > ROOM:
            return f"a write is placed while {len(head.ops)} ops stand"
        refused = self.space.tree.refusal(verb, *rest)
        need, limit = (0, 0) if refused else self.space.asks(verb, *rest)
        if call.fate == "void":
            return None if need > limit and call.reply == f"full {need} {limit}" else f"{need} of {limit} is needed"
        if need > limit:
            return f"{need} of {limit} is needed, and there is no space"
        if verb == "read" and not refused:
            return self.why_not_read(call, *rest)
        return self.why_not_done(call, [] if refused else self.space.ops_of(verb, *rest), verb, *rest)

    def why_not_read(self, call, path, offset, count):
        answer, wants = self.space.tree.read(path, offset, count), call.place in self.wanting
        if call.reply != answer and not (wants and call.reply.startswith("fault ")):
            return f"the tree answers {answer[:60]}"
        blocks = self.space.tree.blocks_of(path, offset, count)
        if wants and not self.wants_next(call.place):
            return "the next event is no block that this call wants"
        unread = blocks - self.wanted(call.place, blocks) - self.head.read
        for part, pos in sorted(unread):
            if not self.head.holds(part, pos):
                why = f"{part} {pos} is neither wanted nor held"
                if wants:
                    raise Wrong(call.at, why)
                return why
        return None

    def wants_next(self, place):
        line = self.event()
        return line and line.kind == "wants" and line.words[0] == place

    def wanted(self, place, blocks):
        """Go over the blocks that the call wants next, each of them once and one that it needs."""
        wanted = set()
        while self.wants_next(place):
            line = self.event()
            block = tuple(line.words[1:])
            if block in wanted or block not in blocks:
                raise Wrong(line.at, "the call needs no such block, or wants it twice")
            self.head.want(line, *line.words)
            wanted.add(block)
            self.next_event += 1
        return wanted

    def why_not_done(self, call, ops, verb, *rest):
        expected = [op.text() for op in ops] + ([f"syncs {call.place}"] if verb == "sync" else [])
        found = [line.text for line in self.log.events[self.next_event:self.next_event + len(expected)]]
        for nth, (want, got) in enumerate(zip(expected, found + [None] * len(expected))):
            if want != got:
                return f"the {nth + 1}. event of the call is {want!r}, and not {got!r}"
        answer = self.space.tree.answer(verb, *rest)
        if call.reply != answer and not (verb == "sync" and call.reply.startswith("fault ")):
            return f"the tree answers {answer[:60]}"
        self.next_event += len(expected)
        self.head.ops += ops
        if verb == "sync":
            self.head.sync(call.place)
        self.space.make(ops, call.time, verb, *rest)
        return None

    # ---- at the end

    def check_end(self):
        head, last = self.head, self.log.calls[-1].at if self.log.calls else 0
        for who, calls in self.script.items():
            if self.placed[who] != len(calls):
                raise Wrong(last, f"session {who} has made {self.placed[who]} of {len(calls)} calls")
        if head.requests or head.syncs or head.drains or self.kept:
            raise Wrong(last, "somebody still waits")
        for call in self.log.calls:
            if call.fate == "done" and call.reply.startswith("fault ") and call.place not in self.owned:
                raise Wrong(call.at, "no event has this fault")
            if call.reply == "synced" and call.place not in [ticket for ticket, _ in head.answered]:
                raise Wrong(call.at, "this sync was never answered")
        for line in self.log.others["closed"]:
            closed = [self.space.generation + self.space.changed, head.steps, head.travel]
            if line.words != closed:
                raise Wrong(line.at, "it is closed %d %d %d" % tuple(closed))

    def check_acks(self):
        head = self.head
        drive = self.log.others["drive"][0] if self.log.others["drive"] else None
        before = ((0, 0), drive.words[0]) if drive else None
        for line, (ticket, commands) in zip(self.log.acks, head.answered):
            place, command = line.words
            if place != ticket or self.log.calls[ticket].reply != "synced":
                raise Wrong(line.at, f"the next sync that is acknowledged is {ticket}")
            self.check_commands(line, before, (commands, command))
            before = commands, command
        if len(self.log.acks) != len(head.answered):
            counts = f"{len(head.answered)} syncs were answered, {len(self.log.acks)} acknowledged"
            raise Wrong(self.log.calls[-1].at, counts)
        if drive:
            self.check_commands(drive, before, (head.commands, drive.words[2]))
            if head.last_fault and not drive.words[1] <= head.last_fault[1] <= drive.words[3]:
                raise Wrong(drive.at, "a fault isn't within the counts of the drive")

    def check_commands(self, line, before, now):
        """The steps from one count of commands to a later one made so many of them."""
        if before is None or now[1] >= LAST_COUNT:
            return
        least, most = (n - b for n, b in zip(now[0], before[0]))
        if not least <= now[1] - before[1] <= most:
            raise Wrong(line.at, f"the steps made {least} to {most} commands, and not {now[1] - before[1]}")


def judge(script, log):
    """What is wrong first, or None."""
    try:
        check = Check(read_script(script), Log(log))
        check.run()
    except Wrong as wrong:
        return str(wrong)
    return None


def self_test():
    import rows
    failed = 0
    for name, script, log, broken in rows.ROWS:
        found = judge(script, log)
        if found:
            failed += 1
            print(f"{name}: refused, {found}")
        for old, new in broken:
            if log.count(old) != 1:
                raise ValueError(f"{name}: {old!r} stands there {log.count(old)} times")
            found = judge(script, log.replace(old, new))
            failed += not found
            if "--show" in sys.argv or not found:
                print(f"{name}: {old!r} as {new!r}: {found or 'HOLDS'}")
    print(f"{len(rows.ROWS)} logs, {sum(len(broken) for *_, broken in rows.ROWS)} broken ones, {failed} judged wrongly")
    return failed


def main():
    if "--self-test" in sys.argv:
        sys.exit(1 if self_test() else 0)
    with open(sys.argv[1], encoding="utf-8") as script, open(sys.argv[2], encoding="utf-8") as log:
        found = judge(script.read(), log.read())
    print(found or "the log holds")
    sys.exit(1 if found else 0)


if __name__ == "__main__":
    main()
