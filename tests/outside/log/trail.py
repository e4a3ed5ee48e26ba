"""The head of a drive: what waits for it, which step is the next one, and whose step that is.

A step goes to the nearest ahead of the head: on its own partition before the other, ahead before behind, then by
position, then by arrival. A request is a block that a read wants. Of the ops only the first waits, and only where a
sync waits or a session drains; it counts as come before all requests.
"""

ROOM = 64
LAST_COUNT = 2**64 - 1


class Wrong(Exception):
    def __init__(self, line, what):
        super().__init__(f"line {line}: {what}")
        self.line = line


class Op:
    def __init__(self, part, pos, flush):
        self.part, self.pos, self.flush = part, pos, flush

    def text(self):
        return f"queues {self.part} {self.pos}"


class Request:
    def __init__(self, ticket, part, pos, arrival):
        self.ticket, self.part, self.pos, self.arrival = ticket, part, pos, arrival


class Sync:
    """A sync that waits until so many ops are done."""

    def __init__(self, ticket, due):
        self.ticket, self.due = ticket, due


class Head:
    def __init__(self):
        self.part, self.pos, self.steps, self.travel = "ip", 0, 0, 0
        self.commands = 0, 0               # the fewest that all steps made, and the most
        self.requests, self.arrived = [], 0
        self.ops, self.done = [], 0
        self.syncs, self.drains = [], []
        self.read = set()                  # the blocks that were read
        self.answered = []                 # each sync that was answered, and the commands by then
        self.last_fault = None
        self.flushed_dp = False

    def waits(self, who, session_of):
        tickets = [r.ticket for r in self.requests] + [s.ticket for s in self.syncs]
        return who in self.drains or any(session_of(t) == who for t in tickets)

    def holds(self, part, pos):
        return any((op.part, op.pos, op.flush) == (part, pos, False) for op in self.ops)

    # ---- what a submission adds

    def want(self, line, ticket, part, pos):
        if self.holds(part, pos):
            raise Wrong(line.at, "a block is wanted that an op holds")
        self.requests.append(Request(ticket, part, pos, self.arrived))
        self.arrived += 1

    def sync(self, ticket):
        self.syncs.append(Sync(ticket, self.done + len(self.ops)))

    # ---- the other events

    def key(self, part, pos, arrival):
        return part != self.part, pos < self.pos, pos, arrival

    def nearest(self):
        keys = [self.key(r.part, r.pos, r.arrival) for r in self.requests]
        if self.ops and (self.syncs or self.drains):
            keys.append(self.key(self.ops[0].part, self.ops[0].pos, -1))
        return min(keys)

    def follow(self, line, next_verb):
        """Take an event that is no submission's. Answers who owns its fault: ("call", place), ("session", who), or
        None."""
        if self.syncs and self.syncs[0].due <= self.done and line.kind != "synced":
            raise Wrong(line.at, f"sync {self.syncs[0].ticket} has all that it waits for, and is not answered first")
        if line.kind == "served":
            return self.serve(line, *line.words)
        if line.kind == "worked":
            return self.work(line, *line.words)
        if line.kind == "synced":
            self.answer(line, *line.words)
        elif line.kind == "drains":
            self.begin_drain(line, *line.words, next_verb)
        else:
            self.end_drain(line, *line.words)
        return None

    def serve(self, line, ticket, part, pos):
        asked = [r for r in self.requests if (r.ticket, r.part, r.pos) == (ticket, part, pos)]
        if not asked:
            raise Wrong(line.at, "this block isn't wanted")
        self.step(line, part, pos, asked[0].arrival, False)
        if line.fault:
            self.requests = [r for r in self.requests if r.ticket != ticket]
            return "call", ticket
        self.requests.remove(asked[0])
        self.read.add((part, pos))
        return None

    def work(self, line, part, pos):
        if not (self.syncs or self.drains):
            raise Wrong(line.at, "nobody waits for an op")
        if not self.ops or (self.ops[0].part, self.ops[0].pos) != (part, pos):
            raise Wrong(line.at, "this isn't the first op")
        op = self.ops[0]
        self.step(line, part, pos, -1, op.flush)
        if line.fault:
            return ("call", self.syncs.pop(0).ticket) if self.syncs else ("session", self.drains.pop(0))
        self.ops.pop(0)
        self.done += 1
        self.flushed_dp = self.flushed_dp or (op.flush and op.part == "dp")
        return None

    def step(self, line, part, pos, arrival, flush):
        """A flush is one command and leaves the head where it is; any other step locates and then reads or writes."""
        if self.key(part, pos, arrival) != self.nearest():
            raise Wrong(line.at, f"something else is the nearest ahead of {self.part} {self.pos}")
        if line.fault:
            self.check_counts(line)
        self.steps += 1
        self.travel += abs(pos - self.pos)
        self.part, self.pos = part, pos if line.fault or flush else pos + 1
        least, most = self.commands
        self.commands = least + (1 if flush or line.fault else 2), most + (1 if flush else 2)

    def check_counts(self, line):
        before, after = line.fault
        if after < min(before + 1, LAST_COUNT):
            raise Wrong(line.at, "the count of faults hasn't risen")
        if self.last_fault and before < self.last_fault[1]:
            raise Wrong(line.at, "the fault begins before the end of the one before")
        self.last_fault = line.fault

    def answer(self, line, ticket):
        if not self.syncs or self.syncs[0].ticket != ticket or self.syncs[0].due > self.done:
            raise Wrong(line.at, "this sync isn't the one that has all that it waits for")
        self.syncs.pop(0)
        self.answered.append((ticket, self.commands))

    def begin_drain(self, line, who, next_verb):
        if len(self.ops) <= ROOM:
            raise Wrong(line.at, f"a drain begins while {len(self.ops)} ops stand")
        if who in self.drains or next_verb(who) != "write":
            raise Wrong(line.at, f"the next call of {who} is no write that can be put off")
        self.drains.append(who)

    def end_drain(self, line, who):
        if who not in self.drains:
            raise Wrong(line.at, f"{who} doesn't drain")
        if len(self.ops) > ROOM:
            raise Wrong(line.at, f"a drain ends while {len(self.ops)} ops stand")
        self.drains.remove(who)
