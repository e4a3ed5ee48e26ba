"""A script, the plain file tree on which its calls are made, and the text of the index that tells the tree.

Paths are tuples of names. What a file holds is a list of extents, each with the place of its first block on tape and
its bytes; where it has fewer bytes than its count, the rest is lost. What no extent covers is zero.
"""
import base64
import unicodedata
import urllib.parse

FILE_END = 2**40
MOST_NODES = 65536
MOST_KEYS = 256
# The lock states under which all that changes anything is refused, and those under which a change of the lock is.
LOCKED, SEALED = ("locked", "permlocked"), ("permlocked",)
# What only asks, and what is about the lock alone.
ASKS, LOCKS = ("read", "list", "stat", "getx", "sync"), ("lock", "unlock", "permlock")


# ---- the script

def number(word):
    if not (word.isascii() and word.isdigit() and len(word) <= 20 and int(word) < 2**64):
        raise ValueError(f"{word!r} is no number")
    return int(word)


def key_of(word):
    return urllib.parse.unquote_to_bytes(word).decode()


def path_of(word):
    if word == "/":
        return ()
    if not word.startswith("/") or "" in word[1:].split("/"):
        raise ValueError(f"{word!r} is no path")
    return tuple(map(key_of, word[1:].split("/")))


def flag_of(word):
    return {"true": True, "false": False}[word]


def bytes_of(word):
    kind, _, rest = word.partition(":")
    if kind == "hex":
        return bytes.fromhex(rest)
    if kind == "text" and rest:
        return rest.encode()
    if kind == "fill":
        byte, _, count = rest.partition(":")
        return bytes.fromhex(byte) * number(count)
    raise ValueError(f"{word!r} is no bytes")


FORMS = {"mkdir": [path_of], "create": [path_of], "write": [path_of, number, bytes_of], "truncate": [path_of, number],
         "read": [path_of, number, number], "list": [path_of], "stat": [path_of], "rename": [path_of, path_of],
         "remove": [path_of], "setx": [path_of, key_of, bytes_of], "getx": [path_of, key_of], "dropx": [path_of, key_of],
         "readonly": [path_of, flag_of], "lock": [], "unlock": [], "permlock": [], "sync": []}


def read_script(text):
    """For each session, its calls in order: the verb and what is given to it."""
    calls = {}
    for line in text.split("\n"):
        if line and not line.startswith("#"):
            who, verb, *words = line.split(" ")
            if len(words) != len(FORMS[verb]):
                raise ValueError(f"{line!r} has another count of words")
            calls.setdefault(int(who), []).append((verb, *(read(word) for read, word in zip(FORMS[verb], words))))
    return calls


# ---- names

def is_bad_name(name):
    return (not name or len(name) > 255 or "/" in name or "\0" in name or name in (".", "..")
            or not unicodedata.is_normalized("NFC", name))


def escaped(text):
    """As names stand in a log: ASCII controls, space and `%` by their codes, and every byte past ASCII."""
    return "".join("%%%02X" % b if b <= 32 or b >= 127 or b == 37 else chr(b) for b in text.encode())


def matches(pattern, name):
    """`*` stands for any run of characters, `?` for one."""
    ends = {0}
    for c in pattern:
        if c == "*":
            ends = set(range(min(ends), len(name) + 1)) if ends else ends
        else:
            ends = {at + 1 for at in ends if at < len(name) and c in ("?", name[at])}
    return len(name) in ends


# ---- files

class Extent:
    def __init__(self, offset, part, block, byte, count, data):
        self.offset, self.part, self.block, self.byte, self.count, self.data = offset, part, block, byte, count, data

    def cut(self, first, end, size):
        """What lies from the one offset up to the other, or None."""
        first, end = max(first, self.offset), min(end, self.offset + self.count)
        if first >= end:
            return None
        skipped = first - self.offset
        blocks, byte = divmod(self.byte + skipped, size)
        data = self.data[skipped:skipped + end - first]
        return Extent(first, self.part, self.block + blocks, byte, end - first, data)


class Node:
    def __init__(self, sort, uid, modify, text=""):
        self.sort, self.uid, self.text = sort, uid, text
        self.made = self.change = self.modify = modify
        self.length, self.extents = 0, []
        self.keys, self.readonly = {}, False


class Tree:
    """All nodes by their paths, and the lock state of the volume."""

    def __init__(self, block, modify, lock="absent"):
        self.block, self.highest, self.lock = block, 1, lock
        self.nodes = {(): Node("dir", 1, modify)}

    def refusal(self, verb, path=None, *rest):
        """The first thing that refuses a call, but for bytes that are lost."""
        if verb not in ASKS and self.lock in (SEALED if verb in LOCKS else LOCKED):
            return "Locked"
        if verb in LOCKS or verb == "sync":
            return None
        if verb in ("mkdir", "create"):
            return self.refusal_of_new(path)
        if verb == "rename":
            return self.refusal_of_rename(path, *rest)
        if verb == "remove":
            return (self.at_root(path) or self.missing(path) or ("NotEmpty" if self.below(path) else None)
                    or self.guarded(path[:-1]))
        if verb in ("write", "truncate", "read"):
            return self.refusal_of_file(verb, path, *rest)
        if verb in ("setx", "getx", "dropx"):
            return self.refusal_of_key(verb, path, rest[0])
        return self.missing(path, verb == "list")

    def refusal_of_new(self, path):
        full = len(self.nodes) >= MOST_NODES or self.highest >= 2**62
        return (self.bad_name(path) or self.at_root(path) or self.missing(path[:-1], True)
                or ("Exists" if path in self.nodes else None) or self.guarded(path[:-1]) or ("TooMany" if full else None))

    def refusal_of_rename(self, path, target):
        early = (self.bad_name(target) or self.at_root(path) or self.at_root(target) or self.missing(path)
                 or self.missing(target[:-1], True))
        if early or path == target:
            return early
        return ("Exists" if target in self.nodes else "Inside" if target[:len(path)] == path else
                self.guarded(path[:-1]) or self.guarded(target[:-1]))

    def refusal_of_file(self, verb, path, *rest):
        wrong = self.missing(path) or {"dir": "IsDir", "link": "IsLink"}.get(self.nodes[path].sort)
        if wrong or verb == "read":
            return wrong
        end = rest[0] + len(rest[1]) if verb == "write" else rest[0]
        return self.guarded(path) or ("TooLong" if end > FILE_END else None)

    def refusal_of_key(self, verb, path, key):
        if verb == "setx" and (not 1 <= len(key) <= 255 or "\0" in key):
            return "BadKey"
        away = self.missing(path)
        if away:
            return away
        keys = self.nodes[path].keys
        if verb == "setx":
            return self.guarded(path) or ("ManyKeys" if key not in keys and len(keys) >= MOST_KEYS else None)
        return "NoKey" if key not in keys else self.guarded(path) if verb == "dropx" else None

    def bad_name(self, path):
        return "BadName" if path and is_bad_name(path[-1]) else None

    def at_root(self, path):
        return None if path else "Root"

    def guarded(self, path):
        return "ReadOnly" if self.nodes[path].readonly else None

    def missing(self, path, as_dir=False):
        """Why there is no node, or no directory where one is wanted, at a path."""
        there = max((n for n in range(len(path) + 1) if path[:n] in self.nodes))
        if there == len(path) and not (as_dir and self.nodes[path].sort != "dir"):
            return None
        return "NotFound" if self.nodes[path[:there]].sort == "dir" else "NotDir"

    def below(self, path):
        return [p for p in self.nodes if len(p) == len(path) + 1 and p[:-1] == path]

    def changes(self, verb, path=None, *rest):
        """Whether a call that isn't refused changes the tree."""
        if verb in LOCKS:
            return self.lock != self.lock_behind(verb)
        if verb == "truncate":
            return rest[0] != self.nodes[path].length
        if verb == "setx":
            return self.nodes[path].keys.get(rest[0]) != rest[1]
        if verb == "readonly":
            return rest[0] != self.nodes[path].readonly
        return (verb in ("mkdir", "create", "remove", "dropx") or verb == "write" and len(rest[1]) > 0
                or verb == "rename" and path != rest[0])

    def lock_behind(self, verb):
        """The lock state that a call leaves."""
        return {"lock": "locked", "permlock": "permlocked"}.get(verb, "unlocked" if self.lock == "locked" else self.lock)

    def touch(self, at, *paths):
        for path in paths:
            self.nodes[path].change = self.nodes[path].modify = at

    def answer(self, verb, path=None, *rest):
        """What a call is told, as a log prints it."""
        refused = self.refusal(verb, path, *rest)
        if refused:
            return "no " + refused
        if verb in ("read", "list", "stat", "getx"):
            return getattr(self, verb)(path, *rest)
        return "synced" if verb == "sync" else "ok"

    def apply(self, at, verb, path=None, *rest):
        """Make a call that isn't refused."""
        if verb in ASKS or not self.changes(verb, path, *rest):
            return
        if verb in LOCKS:
            self.lock = self.lock_behind(verb)
        else:
            getattr(self, verb)(at, path, *rest)

    def make(self, at, path, sort):
        self.highest += 1
        self.nodes[path] = Node(sort, self.highest, at)
        self.touch(at, path[:-1])

    def mkdir(self, at, path):
        self.make(at, path, "dir")

    def create(self, at, path):
        self.make(at, path, "file")

    def remove(self, at, path):
        del self.nodes[path]
        self.touch(at, path[:-1])

    def rename(self, at, path, target):
        self.nodes = {target + p[len(path):] if p[:len(path)] == path else p: node for p, node in self.nodes.items()}
        self.nodes[target].change = at
        self.touch(at, path[:-1], target[:-1])

    def setx(self, at, path, key, data):
        self.nodes[path].keys[key] = data
        self.nodes[path].change = at

    def dropx(self, at, path, key):
        del self.nodes[path].keys[key]
        self.nodes[path].change = at

    def readonly(self, at, path, on):
        self.nodes[path].readonly = on
        self.nodes[path].change = at

    def truncate(self, at, path, length):
        node = self.nodes[path]
        node.extents = [e for e in (e.cut(0, length, self.block) for e in node.extents) if e]
        node.length = length
        self.touch(at, path)

    def write(self, at, path, offset, data, place=None):
        """The bytes stand there; on tape they begin with the block at the place."""
        node, end = self.nodes[path], offset + len(data)
        kept = [part for e in node.extents for part in (e.cut(0, offset, self.block), e.cut(end, FILE_END, self.block))]
        part, block = place or (None, 0)
        kept.append(Extent(offset, part, block, 0, len(data), data))
        node.extents = sorted((e for e in kept if e), key=lambda e: e.offset)
        node.length = max(node.length, end)
        self.touch(at, path)

    def range_of(self, path, offset, count):
        """The extents of what is read, and how many bytes that is."""
        end = min(offset + count, self.nodes[path].length)
        pieces = (e.cut(offset, end, self.block) for e in self.nodes[path].extents)
        return [e for e in pieces if e], max(0, end - offset)

    def read(self, path, offset, count):
        extents, count = self.range_of(path, offset, count)
        data = bytearray(count)
        for e in extents:
            if len(e.data) < e.count:
                return "no Damaged"
            data[e.offset - offset:e.offset - offset + e.count] = e.data
        return f"bytes {count} {data.hex()}".rstrip()

    def getx(self, path, key):
        data = self.nodes[path].keys[key]
        return f"bytes {len(data)} {data.hex()}".rstrip()

    def blocks_of(self, path, offset, count):
        """The places on tape of what is read."""
        return {(e.part, e.block + k) for e in self.range_of(path, offset, count)[0]
                for k in range(-(-(e.byte + e.count) // self.block))}

    def list(self, path):
        names = sorted(self.below(path), key=lambda p: p[-1].encode())
        return f"names {len(names)}" + "".join(f" {self.nodes[p].sort[0]}:{escaped(p[-1])}" for p in names)

    def stat(self, path):
        node = self.nodes[path]
        more = {"dir": "", "file": f" {node.length}", "link": " " + escaped(node.text)}[node.sort]
        return f"{node.sort} {node.uid}{more} {node.modify}"


# ---- the text of an index

UUID = "30a91a08-daae-48d1-ae75-69804e61d2ea"
LETTERS = {"ip": "a", "dp": "b"}


def element(tag, inside, attribute=""):
    return f"<{tag}{attribute}>{inside}</{tag}>"


def named(tag, text):
    """A name, a pattern, a link's text or a key: with codes where it has a control or a character that is none."""
    if any(c < " " or c in "\x7f\ufffe\uffff" for c in text):
        text = "".join("%%%02X" % b if b < 32 or b >= 127 or b == 37 else chr(b) for b in text.encode())
        return element(tag, text_escaped(text), ' percentencoded="true"')
    return element(tag, text_escaped(text))


def text_escaped(text):
    return text.replace("&", "&amp;").replace("<", "&lt;").replace(">", "&gt;").replace("\r", "&#13;")


def is_character(c):
    """Whether XML 1.0 allows it."""
    return c in "\t\n\r" or " " <= c <= "\ud7ff" or "\ue000" <= c <= "\ufffd" or c >= "\U00010000"


def valued(data):
    try:
        text = data.decode()
    except UnicodeDecodeError:
        text = "\0"
    if all(map(is_character, text)):
        return element("value", text_escaped(text), ' type="text"')
    return element("value", base64.b64encode(data).decode(), ' type="base64"')


def spot(tag, place):
    letter, block = place
    return element(tag, element("partition", letter) + element("startblock", block))


def facts_text(node):
    """What stands in each node between its name and what it holds."""
    times = zip(("creation", "change", "modify", "access", "backup"),
                (node.made, node.change, node.modify, node.made, node.made))
    text = "".join(element(f"{kind}time", at) for kind, at in times)
    text += element("readonly", "true" if node.readonly else "false")
    keys = "".join(element("xattr", named("key", key) + valued(node.keys[key]))
                   for key in sorted(node.keys, key=str.encode))
    return text + (element("extendedattributes", keys) if keys else "")


def extent_text(extent):
    return element("extent", element("fileoffset", extent.offset) + element("partition", LETTERS[extent.part])
                   + element("startblock", extent.block) + element("byteoffset", extent.byte)
                   + element("bytecount", extent.count))


def node_text(tree, path, root_name):
    node = tree.nodes[path]
    front = element("fileuid", node.uid) + named("name", path[-1] if path else root_name)
    if node.sort == "dir":
        inside = sorted(tree.below(path), key=lambda it: it[-1].encode())
        inside = "".join(node_text(tree, it, root_name) for it in inside)
        return element("directory", front + facts_text(node) + element("contents", inside))
    if node.sort == "link":
        front += element("length", len(node.text.encode()))
        return element("file", front + facts_text(node) + named("symlink", node.text))
    extents = "".join(map(extent_text, node.extents))
    return element("file", front + element("length", node.length) + facts_text(node) + element("extentinfo", extents))


def index_text(tree, generation, at, place, back, policy=None, root_name=""):
    """The text of the index that tells this tree, of a moment, with its first block at this place and the one before it
    at that block of the data partition, or with none before it."""
    text = (element("creator", "ltfs_server 1.0.0") + element("volumeuuid", UUID)
            + element("generationnumber", generation) + element("updatetime", at) + spot("location", place))
    if back is not None:
        text += spot("previousgenerationlocation", ("b", back))
    text += element("allowpolicyupdate", "true")
    if policy:
        size, patterns = policy
        criteria = element("size", size) + "".join(named("name", it) for it in patterns)
        text += element("dataplacementpolicy", element("indexpartitioncriteria", criteria))
    if tree.lock != "absent":
        text += element("volumelockstate", tree.lock)
    text += element("highestfileuid", tree.highest) + node_text(tree, (), root_name)
    return ('<?xml version="1.0" encoding="UTF-8"?>' + element("ltfsindex", text, ' version="2.4.0"')).encode()
