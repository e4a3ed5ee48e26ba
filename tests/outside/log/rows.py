"""Logs of worked runs, written by hand, and each of them broken in one way.

A row has a name, a script, a log, and pairs of what stands once in the log and what is put in its place. A broken log
is no log of that script. All volumes are freshly formatted with blocks of 4,096 bytes, where nothing else is said.
"""

T = "2024-01-02T03:04:05.000000000Z"


def calls(who, *replies, place=0, nth=0, fate="done"):
    """Lines for the calls of a session from a place on."""
    return "".join(f"call {place + k} {who}.{nth + k} {fate} {T} {reply}\n" for k, reply in enumerate(replies))


def each(kind, first, count, part="dp"):
    """An event for each of so many positions."""
    return "".join(f"{kind} {part} {first + k}\n" for k in range(count))


MOMENT = f"moment {T}\n"

# ---- a file is written, synchronised and read: five ops, and the head goes back for the block

READ_BACK = "1 create /a\n1 write /a 0 text:hello\n1 sync\n1 read /a 0 5\n"

READ_BACK_LOG = (MOMENT + "drive 40 0 51 0\n" + calls(1, "ok", "ok", "synced", "bytes 5 68656c6c6f")
                 + each("queues", 7, 5) + "syncs 2\n" + each("worked", 7, 5)
                 + "synced 2\nack 2 49\nwants 3 dp 7\nserved 3 dp 7\nclosed 2 6 11\n")

READ_BACK_BROKEN = [
    ("bytes 5 68656c6c6f", "bytes 5 68656c6c70"),                      # other bytes
    ("bytes 5 68656c6c6f", "bytes 4 68656c6c"),                        # too few
    (f"{T} synced", f"{T} ok"),                                        # another answer
    ("call 1 1.1", "call 1 1.0"),                                      # a call twice
    (calls(1, "bytes 5 68656c6c6f", place=3, nth=3), ""),              # a call is missing
    ("done " + T + " synced", "done 2024-01-02T03:04:06.000000000Z synced"),
    ("worked dp 8\nworked dp 9\n", "worked dp 9\nworked dp 8\n"),      # ops in another order
    ("worked dp 10\n", ""),                                            # an op is left out
    ("queues dp 10\n", ""),                                            # the index has no closing mark
    ("worked dp 11\nsynced 2\n", "synced 2\nworked dp 11\n"),          # answered before its flush
    ("synced 2\nack 2 49\nwants 3 dp 7\n", "wants 3 dp 7\nsynced 2\nack 2 49\n"),   # answered late
    ("synced 2\nack 2 49\n", "ack 2 49\n"),                            # never answered
    ("ack 2 49", "ack 2 48"),                                          # before the flush
    ("ack 2 49", "ack 2 50"),                                          # later than it was answered
    ("ack 2 49", "ack 1 49"),                                          # of another call
    ("ack 2 49\n", ""),
    ("wants 3 dp 7\nserved 3 dp 7\n", ""),                             # not read from the tape
    ("wants 3 dp 7", "wants 3 dp 8"),                                  # another block
    ("wants 3 dp 7\n", "wants 3 dp 7\nwants 3 dp 7\n"),                # twice
    ("served 3 dp 7\n", ""),                                           # and never read
    ("served 3 dp 7\n", "served 3 dp 7 fault 0 1\n"),                  # a fault that nobody is told of
    ("bytes 5 68656c6c6f", "fault 0 1"),                               # a fault that no event has
    ("closed 2 6 11", "closed 2 6 7"),
    ("closed 2 6 11", "closed 1 6 11"),
    ("closed 2 6 11", "closed 2 5 11"),
]

# ---- the block is read once more: it is kept, so no head step is made

READ_TWICE = READ_BACK + "1 read /a 0 5\n"

READ_TWICE_LOG = (MOMENT + "drive 40 0 51 0\n"
                  + calls(1, "ok", "ok", "synced", "bytes 5 68656c6c6f", "bytes 5 68656c6c6f")
                  + each("queues", 7, 5) + "syncs 2\n" + each("worked", 7, 5)
                  + "synced 2\nack 2 49\nwants 3 dp 7\nserved 3 dp 7\nclosed 2 6 11\n")

READ_TWICE_BROKEN = [
    ("wants 3 dp 7\nserved 3 dp 7\n", ""),                             # nothing was read that could be kept
    ("served 3 dp 7\n", "served 3 dp 7 fault 0 1\n"),                  # its step failed
    ("closed 2 6 11", "closed 2 7 12"),
]

# ---- one session after the other reads a block: with the head at 30, first 50, then 90, and then 20

SWEEP = "4 read /h 0 4\n1 read /a 0 4\n2 read /b 0 4\n3 read /c 0 4\n"


def one_block(uid, path, block, data):
    return f"node file {uid} {path} {T} 4\nextent {path} 0 dp {block} 0 4 text:{data}\n"


SWEEP_LOG = ("volume ends 4 200 last 197\n" + one_block(2, "/h", 29, "head") + one_block(3, "/a", 90, "high")
             + one_block(4, "/b", 20, "less") + one_block(5, "/c", 50, "next")
             + f"call 0 4.0 done {T} bytes 4 68656164\nwants 0 dp 29\nserved 0 dp 29\n"
             + f"call 1 1.0 done {T} bytes 4 68696768\nwants 1 dp 90\n"
             + f"call 2 2.0 done {T} bytes 4 6c657373\nwants 2 dp 20\n"
             + f"call 3 3.0 done {T} bytes 4 6e657874\nwants 3 dp 50\n"
             + "served 3 dp 50\nserved 1 dp 90\nserved 2 dp 20\nclosed 1 4 159\n")

SWEEP_BROKEN = [
    # as they came, back too early, the lowest first, and for another call
    ("served 3 dp 50\nserved 1 dp 90\nserved 2 dp 20", "served 1 dp 90\nserved 3 dp 50\nserved 2 dp 20"),
    ("served 3 dp 50\nserved 1 dp 90\nserved 2 dp 20", "served 3 dp 50\nserved 2 dp 20\nserved 1 dp 90"),
    ("served 3 dp 50\nserved 1 dp 90\nserved 2 dp 20", "served 2 dp 20\nserved 3 dp 50\nserved 1 dp 90"),
    ("served 3 dp 50\nserved 1 dp 90\n", "served 3 dp 50\nserved 3 dp 90\n"),
    ("served 1 dp 90", "served 1 dp 91"),
    ("served 2 dp 20\n", ""),
    ("served 2 dp 20\n", "served 2 dp 20\nserved 2 dp 20\n"),
    ("wants 2 dp 20\n", "wants 2 ip 20\n"),
    ("wants 0 dp 29\nserved 0 dp 29\n", ""),                       # said to be read before
    ("served 0 dp 29\n", ""),
    ("bytes 4 6e657874", "bytes 4 6c657373"),                      # what another one has read
    ("call 1 1.0", "call 1 2.0"),
    ("call 2 2.0", "call 2 1.1"),
    ("closed 1 4 159", "closed 1 4 160"),
    ("served 3 dp 50\n", "worked dp 50\n"),
    ("served 2 dp 20\n", "served 2 dp 20 fault 0 1\n"),
]

# ---- two requests at one place: the earlier comes first

SAME_PLACE = "2 read /a 0 4\n1 read /a 0 4\n"

SAME_PLACE_LOG = ("volume ends 4 200 last 197\n" + one_block(2, "/a", 50, "same")
                  + f"call 0 2.0 done {T} bytes 4 73616d65\nwants 0 dp 50\n"
                  + f"call 1 1.0 done {T} bytes 4 73616d65\nwants 1 dp 50\n"
                  + "served 0 dp 50\nserved 1 dp 50\nclosed 1 2 51\n")

SAME_PLACE_BROKEN = [
    ("served 0 dp 50\nserved 1 dp 50\n", "served 1 dp 50\nserved 0 dp 50\n"),
    ("wants 0 dp 50\n", ""),
    ("served 1 dp 50\n", ""),
]

# ---- the second write of the drive fails; the sync is told, and the next one goes on with the same op

FAILED = "1 create /a\n1 write /a 0 text:hello\n1 sync\n1 sync\n"

FAILED_LOG = ("drive 40 0 51 1\n" + calls(1, "ok", "ok", "fault 0 1", "synced") + each("queues", 7, 5) + "syncs 2\n"
              + each("worked", 7, 2) + "worked dp 9 fault 0 1\nsyncs 3\n" + each("worked", 9, 3)
              + "synced 3\nack 3 51\nclosed 2 6 7\n")

FAILED_BROKEN = [
    ("fault 0 1\ncall 3", "synced\ncall 3"),                           # the sync isn't told
    ("fault 0 1\ncall 3", "fault 0 2\ncall 3"),                        # other counts
    ("fault 0 1\ncall 3", "fault 1 2\ncall 3"),
    ("worked dp 9 fault 0 1", "worked dp 9 fault 0 0"),                # it didn't rise
    (f"{T} synced", f"{T} fault 0 1"),                                 # told twice
    ("worked dp 9\n", ""),                                             # the op that failed is dropped
    ("syncs 3\nworked dp 9\n", "worked dp 9\nsyncs 3\n"),              # done again for nobody
    ("worked dp 9 fault 0 1\n", "worked dp 9 fault 0 1\nworked dp 9 fault 1 2\n"),
    ("worked dp 9 fault 0 1\n", "worked dp 9 fault 0 1\nsynced 2\n"),  # answered after all
    ("syncs 3\n", "queues dp 11\nsyncs 3\n"),                          # a second flush
    ("syncs 3\n", ""),
    ("ack 3 51", "ack 2 51"),
    ("ack 3 51", "ack 2 48\nack 3 51"),
    ("synced 3\nack 3 51\n", "synced 2\nack 2 51\n"),
    ("closed 2 6 7", "closed 2 5 7"),
    ("closed 2 6 7", "closed 3 6 7"),
    ("drive 40 0 51 1", "drive 40 0 51 0"),                            # the drive never failed
    ("drive 40 0 51 1", "drive 40 0 57 1"),                            # commands that no step made
    ("call 2 1.2 done", "call 2 1.2 void"),
]

# ---- 80 ops stand, and 16 of them are drained before the sixth write

DRAINED = "1 create /a\n" + "".join(f"1 write /a {65536 * k} fill:61:65536\n" for k in range(6))

DRAINED_LOG = ("drive 40 0 72 0\n" + calls(1, *["ok"] * 7) + each("queues", 7, 80) + "drains 1\n"
               + each("worked", 7, 16) + "rests 1\n" + each("queues", 87, 16) + "closed 2 16 7\n")

DRAINED_BROKEN = [
    ("drains 1\n" + each("worked", 7, 16) + "rests 1\n", ""),              # placed while 80 ops stand
    ("worked dp 22\nrests 1\n", "rests 1\n"),                              # it ends at 65 ops
    ("rests 1\n", ""),                                                     # it never ends
    ("rests 1\n", "worked dp 23\nrests 1\nrests 1\n"),
    ("drains 1\n", ""),                                                    # ops are done for nobody
    ("drains 1\n", "drains 2\n"),                                          # a session without calls
    ("drains 1\n", "drains 1\ndrains 1\n"),
    ("queues dp 71\n", "drains 1\nqueues dp 71\n"),                        # it begins at 64 ops
    ("queues dp 87\n", "rests 1\nqueues dp 87\n"),
    ("worked dp 7\nworked dp 8\n", "worked dp 8\nworked dp 7\n"),
    ("worked dp 9\n", "worked dp 9 fault 0 1\nworked dp 9\n"),             # a fault that the session isn't told of
    ("queues dp 102\n", ""),                                               # an op is lost
    ("queues dp 102\n", "queues dp 103\n"),                                # a position is left out
    ("queues dp 102\n", "queues dp 102\nqueues dp 103\n"),
    ("call 6 1.6 done " + T + " ok", "call 6 1.6 void " + T + " fault 0 1"),
    ("call 6 1.6 done " + T + " ok", "call 6 1.6 void " + T + " full 103 930"),
    ("call 6 1.6 done", "call 6 1.6 void"),
    ("closed 2 16 7", "closed 1 16 7"),
    ("closed 2 16 7", "closed 2 16 23"),
]

# ---- the drain's second op fails: the write is placed void, and nobody waits any more

FAILED_DRAIN_LOG = ("drive 40 0 44 1\n" + calls(1, *["ok"] * 6) + calls(1, "fault 0 1", place=6, nth=6, fate="void")
                    + each("queues", 7, 80) + "drains 1\nworked dp 7\nworked dp 8 fault 0 1\nclosed 2 2 7\n")

FAILED_DRAIN_BROKEN = [
    ("call 6 1.6 void", "call 6 1.6 done"),
    ("fault 0 1\nqueues dp 7\n", "ok\nqueues dp 7\n"),
    ("fault 0 1\nqueues dp 7\n", "nomemory\nqueues dp 7\n"),
    ("worked dp 8 fault 0 1\n", "worked dp 8\n"),
    ("worked dp 8 fault 0 1\n", "worked dp 8 fault 0 1\nrests 1\n"),
    ("worked dp 8 fault 0 1\n", "worked dp 8 fault 0 1\nworked dp 8\n"),
    ("worked dp 8 fault 0 1\n", "worked dp 8 fault 0 1\nqueues dp 87\n"),
]

# ---- a file goes to the index partition, and is flushed there before the index that names it

ON_IP = "1 create /a.txt\n1 write /a.txt 0 text:abc\n1 sync\n"

ON_IP_LOG = ("policy 1000000 *.txt\n" + calls(1, "ok", "ok", "synced") + "queues ip 4\nqueues ip 5\n"
             + each("queues", 7, 4) + "syncs 2\nworked ip 4\nworked ip 5\n" + each("worked", 7, 4)
             + "synced 2\nack 2 50\nclosed 2 6 6\n")

ON_IP_BROKEN = [
    ("queues ip 4\nqueues ip 5\n", "queues dp 7\n"),                       # the policy isn't kept
    ("queues ip 5\n", ""),                                                 # no flush of the data
    ("worked ip 5\nworked dp 7\n", "worked dp 7\nworked ip 5\n"),          # the index before that flush
    ("worked ip 4\nworked ip 5\n", "worked ip 5\nworked ip 4\n"),
    ("policy 1000000 *.txt", "policy 2 *.txt"),                            # the file is too long for it
    ("policy 1000000 *.txt", "policy 1000000 *.dat"),
    ("policy 1000000 *.txt", "volume ip_on no\npolicy 1000000 *.txt"),     # not before an index is flushed
]

# ---- a partition is full but for its reserve

FULL = ("1 create /a\n1 write /a 0 fill:61:65536\n1 write /a 65536 fill:62:65536\n1 write /a 131072 fill:63:53248\n"
        "1 write /a 184320 fill:64:1\n1 sync\n")

FULL_LOG = ("volume caps 64 64\ndrive 40 0 137 0\n" + calls(1, *["ok"] * 4)
            + calls(1, "full 53 52", place=4, nth=4, fate="void")
            + calls(1, "synced", place=5, nth=5) + each("queues", 7, 49) + "syncs 5\n" + each("worked", 7, 49)
            + "synced 5\nack 5 137\nclosed 2 49 7\n")

FULL_BROKEN = [
    ("full 53 52", "full 53 51"),
    ("full 53 52", "full 52 52"),
    ("call 4 1.4 void", "call 4 1.4 done"),
    ("void " + T + " full 53 52", "done " + T + " ok"),
    ("volume caps 64 64", "volume caps 64 128"),
]

# ---- a second session makes a directory and synchronises while the first one's read waits

TWO = READ_BACK + "2 mkdir /b\n2 sync\n"

TWO_LOG = (calls(1, "ok", "ok", "synced") + each("queues", 7, 5) + "syncs 2\n" + each("worked", 7, 5)
           + "synced 2\nack 2 49\n" + calls(2, "ok", place=3)
           + calls(1, "bytes 5 68656c6c6f", place=4, nth=3) + "wants 4 dp 7\n"
           + calls(2, "synced", place=5, nth=1) + each("queues", 11, 4) + "syncs 5\n" + each("worked", 11, 4)
           + "synced 5\nack 5 56\nserved 4 dp 7\nclosed 3 10 14\n")

TWO_BROKEN = [
    ("synced 5\nack 5 56\nserved 4 dp 7\n", "served 4 dp 7\nsynced 5\nack 5 56\n"),   # the sync is answered first
    ("worked dp 11\nworked dp 12\nworked dp 13\n", "served 4 dp 7\nworked dp 11\nworked dp 12\nworked dp 13\n"),
    ("ack 5 56\n", "ack 4 56\n"),
    ("ack 5 56\n", "ack 5 49\n"),
    ("call 4 1.3", "call 4 2.1"),
    ("queues dp 14\n", "queues dp 15\n"),
]

# ---- two sessions want a block each, behind and ahead of the head

BOTH_WAYS = "3 read /h 0 4\n2 read /b 0 4\n1 read /a 0 4\n"

BOTH_WAYS_LOG = ("volume ends 4 200 last 197\n" + one_block(2, "/h", 19, "head") + one_block(3, "/a", 30, "high")
                 + one_block(4, "/b", 10, "less")
                 + f"call 0 3.0 done {T} bytes 4 68656164\nwants 0 dp 19\nserved 0 dp 19\n"
                 + f"call 1 2.0 done {T} bytes 4 6c657373\nwants 1 dp 10\ncall 2 1.0 done {T} bytes 4 68696768\n"
                 + "wants 2 dp 30\nserved 2 dp 30\nserved 1 dp 10\nclosed 1 3 50\n")

BOTH_WAYS_BROKEN = [
    ("served 2 dp 30\nserved 1 dp 10\n", "served 1 dp 10\nserved 2 dp 30\n"),
    ("wants 1 dp 10\n", ""),
    ("served 1 dp 10\n", "served 1 dp 10 fault 0 1\n"),
]

# ---- bytes of an op that still stands are read without the tape, and a gap reads as zeros

HELD = "1 create /s\n1 write /s 10 text:hi\n1 read /s 0 12\n1 write /s 20 hex:\n1 stat /s\n"

HELD_LOG = (calls(1, "ok", "ok", "bytes 12 000000000000000000006869", "ok", f"file 2 12 {T}")
            + "queues dp 7\nclosed 2 0 0\n")

HELD_BROKEN = [
    ("queues dp 7\n", "queues dp 7\nwants 2 dp 7\nserved 2 dp 7\n"),
    ("file 2 12", "file 2 20"),
    ("file 2 12", "file 1 12"),
    ("bytes 12 00", "bytes 12 20"),
    ("queues dp 7\n", "queues dp 7\nqueues dp 8\n"),
]

# ---- bytes that the tape lacks

DAMAGED = "1 read /a 0 3\n1 read /a 0 5\n"

DAMAGED_LOG = (f"volume ends 4 8 last 6\nnode file 2 /a {T} 5\nextent /a 0 dp 4 0 5 text:abc\n"
               + calls(1, "bytes 3 616263", "no Damaged")
               + "wants 0 dp 4\nserved 0 dp 4\nclosed 1 1 4\n")

DAMAGED_BROKEN = [("no Damaged", "bytes 5 6162630000"), ("bytes 3 616263", "no Damaged")]

# ---- attributes, a read-only file and a lock; what the lock or the flag refuses changes nothing

FACTS = """1 create /a
1 setx /a k text:v
1 sync
2 readonly /a true
2 setx /a k text:w
1 lock
2 write /a 0 text:x
1 getx /a k
1 sync
1 unlock
1 unlock
1 getx /a l
1 dropx /a k
1 readonly /a true
"""

FACTS_LOG = (MOMENT + "drive 40 0 54 0\n" + calls(1, "ok", "ok", "synced") + calls(2, "ok", "no ReadOnly", place=3)
             + calls(1, "ok", place=5, nth=3) + calls(2, "no Locked", place=6, nth=2)
             + calls(1, "bytes 1 76", "synced", "ok", "ok", "no NoKey", place=7, nth=4)
             + f"call 12 1.9 done {T} no ReadOnly\ncall 13 1.10 done {T} ok\n"
             + each("queues", 7, 4) + "syncs 2\n" + each("worked", 7, 4) + "synced 2\nack 2 47\n"
             + each("queues", 10, 4) + "syncs 8\n" + each("worked", 10, 4) + "synced 8\nack 8 54\nclosed 4 8 7\n")

FACTS_BROKEN = [
    (f"4 2.1 done {T} no ReadOnly", f"4 2.1 done {T} ok"),              # a read-only file gets a value
    (f"4 2.1 done {T} no ReadOnly", f"4 2.1 done {T} no Locked"),
    (f"{T} no Locked", f"{T} ok"),                                      # a locked volume is written to
    (f"{T} no Locked", f"{T} no ReadOnly"),                             # the lock comes first
    ("bytes 1 76", "bytes 1 77"),                                       # the value that was refused
    ("bytes 1 76", "no Locked"),                                        # a lock refuses what only asks
    ("no NoKey", "bytes 0"),
    (f"12 1.9 done {T} no ReadOnly", f"12 1.9 done {T} ok"),
    ("queues dp 12\nqueues dp 13\n", "queues dp 12\nqueues dp 13\nqueues dp 14\n"),
    ("closed 4 8 7", "closed 3 8 7"),                                   # the unlock is a change
]

# ---- 3,000 bytes that are no text take 4,000 of the index, which has two blocks by that

CODED = "1 setx / k fill:ff:3000\n1 sync\n"

CODED_LOG = (calls(1, "ok", "synced") + each("queues", 7, 5) + "syncs 1\n" + each("worked", 7, 5)
             + "synced 1\nack 1 49\nclosed 2 5 7\n")

CODED_BROKEN = [("queues dp 11\n", ""), ("ack 1 49\n", ""), ("closed 2 5 7", "closed 2 4 7")]

# ---- a value that stands, a flag that stands and an unlock without a lock leave the tree as it was

SAME = "1 unlock\n1 readonly / false\n1 sync\n1 setx / k hex:\n1 sync\n1 setx / k hex:\n1 sync\n"

SAME_LOG = (calls(1, "ok", "ok", "synced", "ok", "synced", "ok", "synced") + "syncs 2\nsynced 2\nack 2 40\n"
            + each("queues", 7, 4) + "syncs 4\n" + each("worked", 7, 4) + "synced 4\nack 4 47\n"
            + "syncs 6\nsynced 6\nack 6 47\nclosed 2 4 7\n")

SAME_BROKEN = [("syncs 6\n", "queues dp 10\nsyncs 6\n"), ("closed 2 4 7", "closed 3 4 7"),
               ("syncs 2\n", "queues dp 7\nsyncs 2\n")]

# ---- a volume that is sealed

SEALED = "1 mkdir /a\n1 sync\n1 unlock\n1 permlock\n1 getx / k\n1 list /\n"

SEALED_LOG = ("volume lock permlocked\n"
              + calls(1, "no Locked", "synced", "no Locked", "no Locked", "no NoKey", "names 0")
              + "syncs 1\nsynced 1\nack 1 40\nclosed 1 0 0\n")

SEALED_BROKEN = [
    (f"call 0 1.0 done {T} no Locked", f"call 0 1.0 done {T} ok"),
    (f"call 2 1.2 done {T} no Locked", f"call 2 1.2 done {T} ok"),
    (f"call 3 1.3 done {T} no Locked", f"call 3 1.3 done {T} ok"),
    ("no NoKey", "no Locked"),
    ("closed 1 0 0", "closed 2 0 0"),
    ("volume lock permlocked\n", "volume lock locked\n"),
]

ROWS = [
    ("read back", READ_BACK, READ_BACK_LOG, READ_BACK_BROKEN),
    ("read twice", READ_TWICE, READ_TWICE_LOG, READ_TWICE_BROKEN),
    ("sweep", SWEEP, SWEEP_LOG, SWEEP_BROKEN),
    ("same place", SAME_PLACE, SAME_PLACE_LOG, SAME_PLACE_BROKEN),
    ("failed", FAILED, FAILED_LOG, FAILED_BROKEN),
    ("drained", DRAINED, DRAINED_LOG, DRAINED_BROKEN),
    ("failed drain", DRAINED, FAILED_DRAIN_LOG, FAILED_DRAIN_BROKEN),
    ("on the index partition", ON_IP, ON_IP_LOG, ON_IP_BROKEN),
    ("full", FULL, FULL_LOG, FULL_BROKEN),
    ("two sessions", TWO, TWO_LOG, TWO_BROKEN),
    ("both ways", BOTH_WAYS, BOTH_WAYS_LOG, BOTH_WAYS_BROKEN),
    ("held", HELD, HELD_LOG, HELD_BROKEN),
    ("damaged", DAMAGED, DAMAGED_LOG, DAMAGED_BROKEN),
    ("facts", FACTS, FACTS_LOG, FACTS_BROKEN),
    ("coded", CODED, CODED_LOG, CODED_BROKEN),
    ("the same", SAME, SAME_LOG, SAME_BROKEN),
    ("sealed", SEALED, SEALED_LOG, SEALED_BROKEN),
]
