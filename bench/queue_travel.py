#!/usr/bin/env python3
"""How far a head goes that serves requests by the pick, as they came, and on the best way.

Words: how many requests, over how many positions, and how they come (0: by sixteen reads of blocks that follow one another,
1: at places by chance). It prints what `queue_speed` prints for the same words, from a sorted list and the rules alone.
"""
import bisect
import sys


def positions(count, span, by_chance):
    state = 1
    for k in range(count):
        if by_chance:
            state = (state * 6364136223846793005 + 1442695040888963407) % 2**64
            yield (state >> 20) % span
        else:
            yield span // 16 * (k // max(1, -(-count // 16))) + k


def travel(head, order):
    """The positions that are passed on the way to each; the head stands behind what it read."""
    passed = 0
    for pos in order:
        passed += abs(head - pos)
        head = pos + 1
    return passed


def swept(head, wanted):
    """The lowest position ahead, and the lowest of all where none is ahead."""
    left = sorted(wanted)
    while left:
        at = bisect.bisect_left(left, head)
        pos = left.pop(at if at < len(left) else 0)
        yield pos
        head = pos + 1


def main():
    count, span, by_chance = int(sys.argv[1]), int(sys.argv[2]), sys.argv[3] == "1"
    wanted = list(positions(count, span, by_chance))
    head, low, high = span // 2, min(wanted), max(wanted) + 1
    best = min(max(0, head - low), max(0, high - head)) + high - low - count
    print(f"picked {travel(head, swept(head, wanted))}, as they came {travel(head, wanted)}, best {best}")


main()
