#!/usr/bin/env python3
"""Draws the pictures of the pages: python3 bench/draw_pictures.py [FOLDER]; the folder is docs/ without a word.

head.svg: the head's way through 200 requests, by the rule of service and in the order in which they came.
crash.svg: what a crash may leave of a data partition before a flush, and behind it.
call.svg: the way of a call through the crates.
Each is worked out here from the rules that docs/HEADLINE.md and docs/CRASHES.md tell; no program of the server is run.
"""
import bisect
import os
import sys

INK, FAINT, BLUE, AMBER, RED, GREEN = "#1b1f24", "#8a929c", "#1f6feb", "#c77d0a", "#c93c37", "#2c8a4b"
PAPER, PALE = "#ffffff", "#eef2f6"


class Picture:
    """Lines of an SVG, from the top left corner."""

    def __init__(self, width, height, title):
        self.lines = [
            f'<svg xmlns="http://www.w3.org/2000/svg" viewBox="0 0 {width} {height}" width="{width}" height="{height}"'
            ' font-family="Helvetica, Arial, sans-serif" font-size="14" role="img">',
            f"<title>{title}</title>",
            f'<rect width="{width}" height="{height}" fill="{PAPER}"/>',
            '<defs><marker id="tip" viewBox="0 0 10 10" refX="9" refY="5" markerWidth="7" markerHeight="7"'
            f' orient="auto"><path d="M0,0 L10,5 L0,10 z" fill="{INK}"/></marker></defs>',
        ]

    def text(self, x, y, words, anchor="start", color=INK, size=14, bold=False):
        weight = ' font-weight="bold"' if bold else ""
        self.lines.append(
            f'<text x="{x}" y="{y}" text-anchor="{anchor}" fill="{color}" font-size="{size}"{weight}>{words}</text>'
        )

    def box(self, x, y, width, height, fill=PALE, edge=FAINT, dashed=False):
        dash = ' stroke-dasharray="4 3"' if dashed else ""
        self.lines.append(
            f'<rect x="{x}" y="{y}" width="{width}" height="{height}" rx="3" fill="{fill}" stroke="{edge}"{dash}/>'
        )

    def way(self, points, color, width=1.0, tip=False, dashed=False):
        more = ' marker-end="url(#tip)"' if tip else ""
        more += ' stroke-dasharray="5 4"' if dashed else ""
        spots = " ".join(f"{x:.1f},{y:.1f}" for x, y in points)
        self.lines.append(f'<polyline points="{spots}" fill="none" stroke="{color}" stroke-width="{width}"{more}/>')

    def save(self, path):
        with open(path, "w", encoding="utf-8") as out:
            out.write("\n".join([*self.lines, "</svg>", ""]))


# ---- the head's way

COUNT, SPAN = 200, 1048576


def by_chance(count, span):
    """As `queue_travel.py` makes them."""
    state = 1
    for _ in range(count):
        state = (state * 6364136223846793005 + 1442695040888963407) % 2**64
        yield (state >> 20) % span


def served(head, wanted):
    """The nearest position ahead of the head, and the lowest of all where none is ahead."""
    left = sorted(wanted)
    while left:
        at = bisect.bisect_left(left, head)
        pos = left.pop(at if at < len(left) else 0)
        yield pos
        head = pos + 1


def travel(head, order):
    """The positions that are passed; the head stands behind what it read."""
    passed = 0
    for pos in order:
        passed += abs(head - pos)
        head = pos + 1
    return passed


def draw_head(path):
    wanted, start = list(by_chance(COUNT, SPAN)), SPAN // 2
    swept = list(served(start, wanted))
    came, rule = travel(start, wanted), travel(start, swept)
    low, high = min(wanted), max(wanted) + 1
    best = min(abs(start - low), abs(high - start)) + high - low - COUNT
    left, top, width, height = 90, 76, 780, 330
    pic = Picture(900, 470, "The head's way through 200 requests")
    pic.text(left, 28, f"{COUNT} requests that wait together, at places by chance", bold=True, size=16)
    pic.text(left, 50, f"as they came: {came:,} positions", color=AMBER)
    pic.text(left + 270, 50, f"as they are served: {rule:,}", color=BLUE)
    pic.text(left + 520, 50, f"on the shortest way: {best:,}", color=FAINT)
    pic.box(left, top, width, height, fill=PAPER)
    for part in range(5):
        y = top + height - height * part / 4
        pic.way([(left - 5, y), (left, y)], INK)
        pic.text(left - 10, y + 5, f"{SPAN * part // 4:,}", anchor="end", size=12)
    for step in range(0, COUNT + 1, 50):
        x = left + width * step / COUNT
        pic.way([(x, top + height), (x, top + height + 5)], INK)
        pic.text(x, top + height + 20, step, anchor="middle", size=12)
    pic.text(left + width / 2, top + height + 44, "steps of the head", anchor="middle")
    pic.lines.append(f'<text transform="translate(16 {top + height / 2}) rotate(-90)" text-anchor="middle"'
                     f' fill="{INK}">position on the data partition</text>')
    for order, color, thick in ((wanted, AMBER, 0.6), (swept, BLUE, 2.5)):
        spots = [start, *order]
        pic.way([(left + width * k / COUNT, top + height - height * pos / SPAN) for k, pos in enumerate(spots)],
                color, thick)
    pic.save(path)
    print(f"head.svg: as they came {came}, as they are served {rule}, shortest {best}")


# ---- what a crash leaves

DURABLE = 7
ITEMS = ["block of /a", "mark", "index 2", "mark"]


def images():
    """Each list of items that a crash may leave before the flush: how many stand, and whether a Torn is behind them."""
    found = []
    for count in range(len(ITEMS) + 1):
        found.append((count, False))
        if count < len(ITEMS):
            found.append((count, True))
    return found


def tells(count):
    """The generation of the last index that stands whole between its marks."""
    return 2 if count == len(ITEMS) else 1


def draw_image(pic, y, count, torn):
    left, cell = 40, 88
    pic.box(left, y, 190, 24, fill=PALE)
    pic.text(left + 95, y + 17, "0 to 6: labels, index 1", anchor="middle", size=12)
    for k in range(count):
        pic.box(left + 196 + cell * k, y, cell - 6, 24, fill="#dbe9ff", edge=BLUE)
        pic.text(left + 196 + cell * k + (cell - 6) / 2, y + 17, ITEMS[k], anchor="middle", size=12)
    if torn:
        x = left + 196 + cell * count
        pic.box(x, y, cell - 6, 24, fill="#fbe3e1", edge=RED, dashed=True)
        pic.text(x + (cell - 6) / 2, y + 17, "Torn", anchor="middle", color=RED, size=12)
    now = tells(count)
    words = "index 1: the tree after none of the calls" if now == 1 else "index 2: the tree after both calls"
    pic.text(left + 196 + cell * 4 + 8, y + 17, words, color=INK if now == 1 else GREEN, size=13)


def draw_crash(path):
    pic = Picture(900, 470, "What a crash leaves before and after a sync")
    pic.text(40, 28, "create /a, write /a, sync: what a crash may leave of the data partition", bold=True, size=16)
    pic.text(40, 458, "The index partition holds its labels and index 1 in each of them.", color=FAINT, size=12)
    pic.text(40, 56, "before the flush: any of nine", color=FAINT)
    pic.text(596, 56, "a mount then finds", color=FAINT)
    y = 66
    for count, torn in images():
        draw_image(pic, y, count, torn)
        y += 31
    pic.way([(40, y + 8), (860, y + 8)], INK, 1.2, dashed=True)
    pic.text(40, y + 30, "the flush is done, and the sync is answered", bold=True)
    pic.text(40, y + 58, "from then on: this one", color=FAINT)
    draw_image(pic, y + 68, len(ITEMS), False)
    pic.save(path)
    print(f"crash.svg: {len(images())} images before the flush, 1 behind it")


# ---- the way of a call

BOXES = {
    "script": (20, 40, 120, "script", "session_script"),
    "session": (180, 40, 215, "session: a thread each", "session_run"),
    "lock": (435, 40, 155, "turn at the lock", "turn_lock, tape_desk"),
    "volume": (630, 40, 250, "volume: places the call", "volume_core, volume_steps"),
    "tree": (20, 170, 270, "tree, free space, next index", "held_volume, file_tree, volume_sync"),
    "queue": (320, 170, 270, "requests and writes that wait", "head_queue, waiting_reads, tape_layout"),
    "journal": (620, 170, 260, "history, replies, events", "event_journal"),
    "head": (320, 300, 270, "head: one locate, one transfer", "head_core"),
    "drive": (20, 300, 270, "drive: eight commands", "tape_drive; file_drive over a folder"),
    "log": (620, 300, 260, "log: one line a call", "session_script, ltfs_server"),
}


def draw_call(path):
    pic = Picture(900, 400, "The way of a call")
    for x, y, width, name, crates in BOXES.values():
        pic.box(x, y, width, 58)
        pic.text(x + width / 2, y + 25, name, anchor="middle", bold=True)
        pic.text(x + width / 2, y + 45, crates, anchor="middle", size=12, color=FAINT)
    for x, end in ((140, 180), (395, 435), (590, 630)):
        pic.way([(x, 62), (end, 62)], INK, 1.4, tip=True)
    for x, end in ((435, 395), (630, 590)):
        pic.way([(x, 84), (end, 84)], INK, 1.4, tip=True, dashed=True)
    pic.text(505, 30, "reply, once it is there", anchor="middle", size=12)
    pic.way([(755, 98), (755, 134), (155, 134), (155, 170)], INK, 1.4, tip=True)
    pic.way([(455, 134), (455, 170)], INK, 1.4, tip=True)
    pic.way([(755, 134), (755, 170)], INK, 1.4, tip=True)
    pic.text(165, 160, "asks and changes", size=12)
    pic.text(465, 160, "reads and syncs wait here", size=12)
    pic.text(765, 160, "is written down", size=12)
    pic.way([(455, 228), (455, 300)], INK, 1.4, tip=True)
    pic.text(465, 268, "nearest ahead first", size=12)
    pic.way([(320, 329), (290, 329)], INK, 1.4, tip=True)
    pic.way([(590, 315), (604, 315), (604, 199), (620, 199)], INK, 1.4, tip=True, dashed=True)
    pic.text(612, 268, "blocks, faults", size=12)
    pic.text(155, 380, "a crash may come within any command", anchor="middle", size=12, color=RED)
    pic.way([(750, 228), (750, 300)], INK, 1.4, tip=True)
    pic.text(760, 268, "at the close", size=12)
    pic.save(path)
    print(f"call.svg: {len(BOXES)} boxes")


def main():
    folder = sys.argv[1] if len(sys.argv) > 1 else os.path.join(os.path.dirname(__file__), "..", "docs")
    draw_head(os.path.join(folder, "head.svg"))
    draw_crash(os.path.join(folder, "crash.svg"))
    draw_call(os.path.join(folder, "call.svg"))


if __name__ == "__main__":
    main()
