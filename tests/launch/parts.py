"""Parts of ltfs_put and ltfs_get by themselves, in this process, over a volume in memory."""

import contextlib
import io
import os
import random
import sys
import threading
from unittest import mock

from cases import compare
from clones import TOP, fresh_folder

sys.path.append(str(TOP / "launch"))
import get  # noqa: E402
import local_files  # noqa: E402
import options  # noqa: E402
import progress  # noqa: E402
import put  # noqa: E402
import putting  # noqa: E402
import scripts  # noqa: E402
import volume  # noqa: E402

CALLS = {b"mkdir": 1, b"create": 1, b"write": 3, b"truncate": 2, b"read": 3, b"list": 1, b"rename": 2, b"remove": 1,
         b"sync": 0}


class Tape:
    """A volume that answers as docs/FORMATS.md says. Which session comes next is by chance. With `room` it has place
    for so many writes, and is full then. `refused` has calls by their first two words, and how each is refused in turn.
    Where it is locked all that changes anything is.
    """

    def __init__(self, room=None, seed=1, locked=False):
        self.locked = locked
        self.nodes, self.room, self.chance = {b"/": None}, room, random.Random(seed)
        self.runs, self.beyond, self.folder, self.refused = 0, [], None, {}

    def listing(self):
        found = volume.Listing()
        for path, held in self.nodes.items():
            found.kinds[path] = b"d" if held is None else b"f"
            found.lengths[path] = len(held or b"")
        return found

    def replies(self, script):
        self.runs += 1
        self.see_limits(script.text().splitlines(keepends=True))
        left = [iter(it) for it in script.sessions]
        while left:
            session = self.chance.choice(left)
            call = next(session, None)
            if call is None:
                left.remove(session)
                continue
            words = call.text.split(b" ")
            if len(words) != CALLS[words[0]] + 1:
                self.beyond.append(f"the words {words[:2]}")
            refusals = self.refused.get(b" ".join(words[:2]))
            call.reply = refusals.pop(0) if refusals else self.answer(
                words[0], *map(scripts.unescaped, words[1:2]), *words[2:])
            call.line = b"0 1.0 " + call.reply
            yield call

    def see_limits(self, lines):
        """Keeps what is beyond the limits that docs/FORMATS.md tells of a script."""
        count, written, read = {}, 0, 0
        for line in lines:
            words = line.rstrip(b"\n").split(b" ")
            count[words[0]] = count.get(words[0], 0) + 1
            if words[1] == b"write":
                length = int(words[4][8:]) if words[4].startswith(b"fill:") else len(words[4]) // 2 - 2
                self.beyond += [f"a write of {length} bytes"] if length > 65_536 else []
                written += length
            read += int(words[4]) if words[1] == b"read" else 0
        for of, came, most in (("sessions", len(count), 16), ("calls", max(count.values()), 1_024),
                               ("bytes of writes", written, 67_108_864), ("bytes of reads", read, 67_108_864),
                               ("bytes", sum(map(len, lines)), 16_777_216)):
            if came > most:
                self.beyond.append(f"{came} {of}")

    def answer(self, verb, path=b"", *words):
        if self.locked and verb not in (b"read", b"list", b"sync"):
            return b"no Locked"
        above = self.nodes.get(os.path.dirname(path), b"") if path else None
        if verb in (b"mkdir", b"create"):
            if path in self.nodes or above is not None:
                return b"no Exists" if path in self.nodes else b"no NotFound"
            self.nodes[path] = None if verb == b"mkdir" else bytearray()
        elif verb == b"sync":
            return b"synced"
        elif path not in self.nodes:
            return b"no NotFound"
        elif verb == b"remove":
            del self.nodes[path]
        elif verb == b"rename":
            to = scripts.unescaped(words[0])
            if to in self.nodes or os.path.dirname(to) not in self.nodes:
                return b"no Exists" if to in self.nodes else b"no NotFound"
            self.nodes[to] = self.nodes.pop(path)
        elif verb == b"truncate":
            held, length = self.nodes[path], int(words[0])
            held[:] = held[:length] + bytes(max(0, length - len(held)))
        elif verb == b"write":
            return self.write(self.nodes[path], int(words[0]), words[1])
        elif verb == b"list":
            names = sorted(os.path.basename(it) for it in self.nodes if it != path and os.path.dirname(it) == path)
            return b" ".join([b"names %d" % len(names), *(b"f:" + it for it in names)])
        else:
            piece = bytes(self.nodes[path][int(words[0]):int(words[0]) + int(words[1])])
            return b"bytes %d %s" % (len(piece), piece.hex().encode())
        return b"ok"

    def write(self, held, offset, word):
        if word == b"hex:":
            return b"ok"
        if self.room is not None and self.room <= 0:
            return b"full 9 8"
        self.room = None if self.room is None else self.room - 1
        kind, text = word.split(b":", 1)
        piece = bytes.fromhex(text.decode()) if kind == b"hex" else bytes([int(text[:2], 16)]) * int(text[3:])
        held += bytes(max(0, offset - len(held)))
        held[offset:offset + len(piece)] = piece
        return b"ok"


class Pieces(putting.File):
    """A file of these pieces, whatever it is asked for."""

    def __init__(self, path, pieces):
        super().__init__(path, None)
        self.given = pieces

    @contextlib.contextmanager
    def open(self):
        file = open(os.devnull, "rb")
        source = local_files.Source(file, is_watched=False)
        source.pieces = lambda: iter(self.given)
        with source:
            yield source


def limits():
    """No script of a put passes a limit, and each file stands as it was given."""
    some, ones = bytes(range(256)) * 256, b"\1" * 65_536
    path, found = b"/" + b"x" * 700, []
    for name, pieces in {"bytes": [some] * 300, "one byte": [ones] * 1_100, "zeros": [bytes(65_536)] * 1_500,
                         "all": [some, ones, bytes(65_536)] * 200, "small": [b"12"] * 3_000}.items():
        tape = Tape()
        writing, file = putting.Writing(tape, progress.Progress("a test")), Pieces(path, pieces)
        writing.put(file)
        writing.finish()
        found += compare(f"limits that {name} pass", [], tape.beyond)
        found += compare(f"paths behind {name}", [b"/", path], list(tape.nodes))
        found += compare(f"whether {name} are as they were", True, tape.nodes[path] == b"".join(pieces))
    return found


def folder_of(nodes):
    """A folder with a directory for each None, and a file for all else."""
    top = os.fsencode(fresh_folder())
    for path, held in nodes.items():
        if held is None:
            os.makedirs(top + path, exist_ok=True)
        else:
            os.makedirs(os.path.dirname(top + path), exist_ok=True)
            with open(top + path, "wb") as file:
                file.write(held)
    return top


def put_folder(tape, top, *flags):
    return copied(put.put_folder, tape, options.read_words(flags, flags), "/", top)


def copied(copy, *words):
    """Copies, and returns the status and what was said."""
    said = io.StringIO()
    with contextlib.redirect_stderr(said):
        try:
            status = copy(*words)
        except volume.Failure as failure:
            status = failure.status
            said.write(failure.line)
    return status, said.getvalue()


def ten_thousand():
    """A tree of ten thousand files and a thousand directories goes in in few runs, whichever session comes first, and
    once more over itself."""
    nodes = {b"/d%d" % it: None for it in range(100)}
    nodes.update({b"/d%d/e%d" % (it % 100, it): None for it in range(900)})
    nodes.update({b"/d%d/e%d/%d" % (it % 900 % 100, it % 900, it): b"%d" % it for it in range(10_000)})
    top, found = folder_of(nodes), []
    wanted = {b"/": None, **nodes}
    for seed in (1, 2):
        tape = Tape(seed=seed)
        for most, of in ((6, "at first"), (6, "over itself")):
            tape.runs = 0
            found += compare(f"how it ends {of}", (0, ""), put_folder(tape, top, "--verify"))
            found += compare(f"limits that it passes {of}", [], tape.beyond)
            found += compare(f"whether it is the same {of}", True, tape.nodes == wanted)
            found += compare(f"whether {tape.runs} runs are at most {most} {of}", True, tape.runs <= most)
    return found


def full():
    """Where the volume is full the old files stand, each that is there is whole, and the put says so."""
    old = {b"/f%02d" % it: b"old" for it in range(20)}
    new = {b"/f%02d" % it: b"new %d" % it * 20_000 for it in range(40)}
    top, found = folder_of(new), []
    for room in (0, 1, 30, 60, 79, 80):  # each of the new files takes two
        tape = Tape(room)
        tape.nodes.update({path: bytearray(it) for path, it in old.items()})
        status, said = put_folder(tape, top)
        wrong = [path for path, it in tape.nodes.items() if path != b"/" and it not in (old.get(path), new.get(path))]
        found += compare(f"files that are neither, with room for {room}", [], wrong)
        found += compare(f"files that are lost, with room for {room}", [], sorted(old.keys() - tape.nodes.keys()))
        whole = sum(tape.nodes.get(path) == it for path, it in new.items())
        found += compare(f"whether {whole} files fit with room for {room}", True, room - 40 <= whole <= room // 2)
        if room < 80:
            wanted = f"{whole} of 40 files were copied: the volume is full (0 1.0 full 9 8, write /.ltfs_put-"
            found += compare(f"how it ends with room for {room}", [9, wanted], [status, said[:len(wanted)]])
    return found


def refused():
    """What is refused of one file by the volume is told of that one, and drops what was written of it; so it is with a
    directory, and then nothing is said of what it holds."""
    nodes = {b"/d": None, b"/d/x": b"x", b"/e": None, b"/e/y": b"y", b"/f": b"new"}
    top, found = folder_of(nodes), []
    own = mock.patch.object(putting.secrets, "token_hex", lambda _: "0123456789abcdef")
    apart = b"/.ltfs_put-0123456789abcdef"
    for verb, replies, lines, stands in (
        (b"mkdir /d", [b"no BadName"], ["/d: its name can't be one on a volume (0 1.0 no BadName, mkdir /d)"],
         {b"/e": None, b"/e/y": b"y", b"/f": b"new"}),
        (b"create /e" + apart, [b"no BadName"], ["/e/y: its name can't be one on a volume (0 1.0 no BadName, create /e"
                                                 + apart.decode() + ")"],
         {b"/d": None, b"/d/x": b"x", b"/e": None, b"/f": b"new"}),
        (b"remove /f", [b"no NotEmpty"],
         ["/f: a directory that isn't empty stands there (0 1.0 no NotEmpty, remove /f)"],
         {**nodes, b"/f": b"old"}),
        (b"write /f", [b"no ReadOnly"],
         ["/f: it, or the directory in which it stands, is read-only (0 1.0 no ReadOnly, write /f)"],
         {**nodes, b"/f": b"old"}),
        (b"write /f", [b"no NotFound"], [], nodes),
        (b"rename " + apart, [b"no Inside"], [], nodes),
        (b"rename " + apart, [b"no Inside"] * 2,
         [f"/f: it was refused (0 1.0 no Inside, rename {apart.decode()}); its bytes stand on the volume as"
          f" {apart.decode()}, up to the next put"],
         {**{it: nodes[it] for it in nodes if it != b"/f"}, apart: b"new"}),
    ):
        tape = Tape()
        tape.nodes[b"/f"], tape.refused[verb] = bytearray(b"old"), list(replies)
        with own:
            status, said = put_folder(tape, top)
        wanted = [f"ltfs_put: {os.fsdecode(top)}{it}" for it in lines]
        found += compare(f"how it ends where {verb} is refused", [10 if lines else 0, wanted],
                         [status, said.splitlines()[1:]])
        found += compare(f"what stands where {verb} is refused", {b"/": None, **stands}, tape.nodes)
    return found


def locked():
    """On a locked volume nothing is begun behind the first refusal, and nothing has changed."""
    top, found = folder_of({b"/d": None, b"/d/x": b"x", b"/f": b"new"}), []
    tape = Tape(locked=True)
    tape.nodes[b"/f"] = bytearray(b"old")
    status, said = put_folder(tape, top)
    wanted = "0 of 2 files were copied: the volume is locked (0 1.0 no Locked, "
    found += compare("how it ends", [9, wanted], [status, said[:len(wanted)]])
    found += compare("what stands", {b"/": None, b"/f": b"old"}, tape.nodes)
    file = os.path.join(top, b"f")
    status, said = copied(put.put_file, tape, options.read_words([], []), b"/f", os.fsdecode(file))
    wanted = "/f can't be put: the volume is locked (0 1.0 no Locked, write /f)"
    return found + compare("how a put of one file ends", [9, wanted], [status, said])


def grows():
    """Of a file that grows all the time no more is read than it had, and the cartridge's own folder is left out."""
    folder = folder_of({b"/tape/dp.img": b"d", b"/x": b"x"})
    tape = Tape()
    tape.folder = os.path.join(folder, b"tape")
    line = f"ltfs_put: {os.fsdecode(folder)}/tape: the files of the cartridge lie there"
    status, said = put_folder(tape, folder)
    found = compare("how it ends", [10, line], [status, said.splitlines()[-1]])
    with open(folder + b"/x", "r+b") as file:
        source = local_files.Source(open(folder + b"/x", "rb"))
        file.seek(0, os.SEEK_END)
        file.write(b"and more")
        file.flush()
        with source:
            found += compare("what is read", [b"x"], list(source.pieces()))
            found += compare("whether it has changed", True, source.has_changed())
    return found


def verified():
    """What the volume gives back otherwise, or doesn't give, is told; of a get too."""
    nodes = {b"/d": None, b"/d/x": b"content", b"/f": b"f"}
    top, tape, found = folder_of(nodes), Tape(), []
    tape.refused[b"read /d/x"] = [b"bytes 7 " + b"contend".hex().encode()]
    status, said = put_folder(tape, top, "--verify")
    lines = ["ltfs_put: these differ:", "ltfs_put: /d/x: what the volume gives back isn't what was copied",
             "1 of 2 files aren't on the volume as they were copied"]
    found += compare("how the put ends", [9, lines], [status, said.splitlines()])
    tape.refused[b"read /d/x"] = [b"no Damaged"]
    copy = os.fsencode(fresh_folder())
    status, said = copied(get.get_folder, tape, options.read_words(["--verify"], ["--verify"]), b"/", copy)
    lines = ["ltfs_get: all was copied but what follows:",
             "ltfs_get: /d/x: the volume has lost bytes of it (0 1.0 no Damaged, read /d/x)"]
    found += compare("how the get ends", [10, lines], [status, said.splitlines()])
    return found + compare("what is there", [["d", "f"], []], [sorted(os.listdir(os.fsdecode(copy))),
                                                            os.listdir(copy + b"/d")])


def tried_again():
    """A file that changes while it is read is read once more, and left out where it changes again."""
    found = []
    for changes, status in ((1, 0), (2, 10)):
        top = folder_of({b"/grows": bytes(range(256)) * 1_024, b"/other": b"o"})
        tape, left = Tape(), [changes]
        tape.nodes[b"/grows"] = bytearray(b"old")
        add = putting.Writing.add

        def grow(self, call, behind=None, top=top, left=left, add=add):
            if call.verb == b"write" and call.text.split(b" ")[2] == b"65536" and left[0]:
                left[0] -= 1
                with open(top + b"/grows", "ab") as file:
                    file.write(b"and more")
            add(self, call, behind)

        putting.Writing.add = grow
        try:
            came, said = put_folder(tape, top)
        finally:
            putting.Writing.add = add
        with open(top + b"/grows", "rb") as file:
            wanted = b"old" if status else file.read()
        found += compare(f"status after {changes} changes", status, came)
        found += compare("the file", True, tape.nodes[b"/grows"] == wanted)
        found += compare("all nodes", [b"/", b"/grows", b"/other"], sorted(tape.nodes))
        line = "/grows: it changed while it was read, and once more when it was read again\n"
        found += compare("whether it is told", bool(status), said.endswith(line))
    return found


class Noted:
    """The calls on files that give them places, as they come. One of them may end the copy."""

    def __init__(self, folder, last=None):
        self.folder, self.last, self.calls = folder, last, []

    def __enter__(self):
        local_files.os = self
        return self

    def __exit__(self, *_):
        local_files.os = os

    def __getattr__(self, name):
        kept = getattr(os, name)
        return self.noted(name, kept) if name in ("open", "fchmod", "fsync", "link", "rename") else kept

    def noted(self, name, kept):
        def call(*words, **more):
            if len(self.calls) == self.last:
                raise volume.Failure("cut off", 143)
            at = os.readlink(f"/proc/self/fd/{words[0]}") if name == "fsync" else ""
            self.calls.append("sync folder" if os.fsencode(at) == self.folder else name)
            return kept(*words, **more)
        return call


def write_there(place, content):
    new = local_files.NewFile(place)
    new.file.write(content)
    local_files.put_in_place([new])
    new.close()


def made_safe():
    """A file and its folder are on the disk before it takes its place, and the folder behind that once more."""
    folder, found = os.fsencode(fresh_folder()), []
    for content in (b"first", b"second"):
        with Noted(folder) as noted:
            write_there(folder + b"/file", content)
        calls = ["place" if it in ("link", "rename") else it for it in noted.calls if it not in ("open", "fchmod")]
        calls = [it for nth, it in enumerate(calls) if calls[nth - 1:nth] != [it]]
        found += compare(f"calls of the {content}", ["fsync", "sync folder", "place", "sync folder"], calls)
        with open(folder + b"/file", "rb") as file:
            found += compare("content", content, file.read())
    return found + compare("names", [b"file"], os.listdir(folder))


def cut_off():
    """A get that is cut off at any of its calls leaves the old file, or the new one, and nothing beside it; also where
    a file can't be without a name."""
    found = []
    for is_named in (False, True):
        last, is_through = 0, False
        while not is_through:
            folder = os.fsencode(fresh_folder())
            with open(folder + b"/file", "wb") as file:
                file.write(b"old")
            without_name = local_files.NewFile.open_without_name
            if is_named:
                local_files.NewFile.open_without_name = lambda self: None
            try:
                with Noted(folder, last):
                    write_there(folder + b"/file", b"new")
                is_through = True
            except volume.Failure:
                local_files.remove_standing()
            finally:
                local_files.NewFile.open_without_name = without_name
            with open(folder + b"/file", "rb") as file:
                content = file.read()
            found += compare(f"names, cut off at {last}", [b"file"], os.listdir(folder))
            found += compare(f"whether it is old or new, cut off at {last}", True, content in (b"old", b"new"))
            last += 1
        found += compare("content where nothing cuts it off", b"new", content)
    return found


def words():
    """Which words are options, and which are taken as they are."""
    found, flags = [], ("--verify", "--normalize")
    for given, wanted in (
        (["a", "/b", "c"], (["a", "/b", "c"], set(), 10)),
        (["--verify", "a", "--wait", "3", "/b", "--normalize", "-"], (["a", "/b", "-"], set(flags), 3)),
        (["--wait=0.5", "--", "--verify", "/b", "--wait"], (["--verify", "/b", "--wait"], set(), 0.5)),
        (["--verfy", "-x", "--waiting"], (["--verfy", "-x", "--waiting"], set(), 10)),
        (["a", "--wait"], None), (["--wait", "-1"], None), (["--wait="], None), (["--wait", "nan"], None),
    ):
        came = options.read_words(given, flags)
        found += compare(f"what is read of {given}", wanted, came and (came.words, came.flags, came.wait))
    return found


# They change what all of this process share, so that they run one at a time.
TURN = threading.Lock()


def alone(case):
    def run_case():
        with TURN:
            return case()
    return run_case


CASES = {f"parts/{it.__name__}": alone(it) for it in
         (limits, ten_thousand, full, refused, locked, grows, verified, tried_again, made_safe, cut_off, words)}
