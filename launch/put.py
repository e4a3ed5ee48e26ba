"""What ltfs_put does: one file, or a folder with all below it."""

import os
import sys
import unicodedata

import putting
import reading
import volume
from local_files import LeftOut, Source
from progress import Progress
from putting import File, Plan, Writing
from scripts import Call, Script, ask_call, escaped, unescaped
from volume import REFUSED, Failure, shown

UNREADABLE = 5


def put(asked, folder, path, file):
    runs = volume.Runs("ltfs_put", folder, asked.wait)
    with volume.only_copier(folder, asked.wait):
        if file != "-" and os.path.isdir(file):
            return put_folder(runs, asked, path, os.fsencode(file))
        return put_file(runs, asked, volume.path_of(path), file)


def composed(path):
    return unicodedata.normalize("NFC", path.decode()).encode()


def refuse(path, why, status=REFUSED):
    raise Failure(f"{shown(path)} can't be put: {why}", status)


def see_name(path):
    """Sees that what is made at the path can have its name."""
    try:
        putting.name_on_volume(os.path.basename(path), False)
    except LeftOut as why:
        refuse(path, why)


class OneFile(File):
    """The file that the command names. It is opened before the volume is looked at, and may be a pipe."""

    def __init__(self, path, file):
        super().__init__(path, file)
        try:
            self.given = Source(sys.stdin.buffer, False) if file == "-" else Source(open(file, "rb"))
        except OSError as error:
            raise Failure(f"FILE can't be read: {error.strerror}", UNREADABLE) from error

    def open(self):
        given, self.given = self.given, None
        return given or Source(open(self.source, "rb"))


def look_around(runs, path):
    """Whether a file stands at the path, which isn't read-only, and what earlier puts have left beside it."""
    place, around = ask_call(escaped(path)), Call(b"list %s" % escaped(os.path.dirname(path)))
    script = Script()
    for it in (place, around):
        script.add(0, it)
    for _ in runs.replies(script):
        pass
    if not around.is_done():
        why = "its directory isn't there" if around.reply == b"no NotFound" else None
        refuse(path, volume.reason(around, why))
    if not place.is_done() and place.reply != b"no NotFound":
        refuse(path, volume.reason(place))
    names = [unescaped(it[2:]) for it in around.reply.split(b" ")[2:] if it.startswith(b"f:")]
    left = [putting.below(os.path.dirname(path), it) for it in names if putting.OWN_NAME.fullmatch(it)]
    return place.is_done(), left


def put_file(runs, asked, path, name):
    path = composed(path) if "--normalize" in asked.flags else path
    file = OneFile(path, name)
    if path != b"/":
        see_name(path)
    file.replaces, left = look_around(runs, path)
    progress = Progress("ltfs_put", file.given.length())
    writing = Writing(runs, progress)
    remove(writing, left)
    writing.put(file)
    writing.finish()
    progress.end()
    if file.problem:
        refuse(path, file.problem, UNREADABLE if file.is_unreadable else REFUSED)
    if "--verify" in asked.flags:
        see_same(runs, [file])
    return 0


def remove(writing, paths):
    for it in paths:
        writing.add(Call(b"remove %s" % escaped(it)))


def root_on(found, path, asked):
    """The path at which the folder is to stand, which can be made where it isn't there."""
    if path not in found.kinds and "--normalize" in asked.flags:
        path = composed(path)
    kind, above = found.kinds.get(path), found.kinds.get(os.path.dirname(path))
    if kind is None:
        see_name(path)
        if above != b"d":
            refuse(path, "the directory in which it is to stand isn't there")
    elif kind != b"d":
        refuse(path, f"it is a {'file' if kind == b'f' else 'symbolic link'} on the volume, and FILE is a folder")
    return path


def put_folder(runs, asked, path, top):
    path = volume.path_of(path.rstrip("/") or "/")
    try:
        os.scandir(top).close()
    except OSError as error:
        raise Failure(f"FILE can't be read: {error.strerror}", UNREADABLE) from error
    found = runs.listing()
    plan = Plan(top, root_on(found, path, asked), found, "--normalize" in asked.flags, runs.folder)
    progress = Progress("ltfs_put", plan.bytes, len(plan.files))
    writing = Writing(runs, progress)
    progress.tell(0)
    remove(writing, putting.leftovers(found, plan.root.path))
    for it in plan.directories:
        if it.path not in found.kinds:
            writing.add(Call(b"mkdir %s" % escaped(it.path), it), it.parent)
    for it in plan.files:
        if not writing.stopped and not putting.any_above(it):
            writing.put(it)
    writing.finish()
    progress.end()
    return end_of(runs, asked, plan, writing)


def end_of(runs, asked, plan, writing):
    """Tells what came of a folder."""
    if plan.root.problem:
        refuse(plan.root.path, plan.root.problem)
    if writing.stopped:
        raise Failure(f"{writing.files:,} of {len(plan.files):,} files were copied:"
                      f" {volume.reason(writing.stopped)}", REFUSED)
    status = volume.tell_left_out("ltfs_put", list(plan.problems()))
    if "--verify" in asked.flags:
        see_same(runs, [it for it in plan.files if it.stage == File.PLACED])
    return status


def see_same(runs, files):
    """Reads back what was copied, and compares it."""
    progress, done = Progress("ltfs_put, reading back", sum(it.length for it in files), len(files)), 0
    wanted = {reading.Wanted(it.path, it.length): it for it in files}
    for came in reading.read_files(runs, wanted):
        for it in came:
            done += sum(map(len, it.pieces()))
        progress.tell(done, sum(it.is_asked for it in wanted))
    progress.end()
    wrong = [(it.path, it.problem or "what the volume gives back isn't what was copied") for it, file in wanted.items()
             if it.problem or it.digest.digest() != file.digest]
    if wrong:
        volume.tell_left_out("ltfs_put", wrong, "these differ:")
        raise Failure(f"{len(wrong):,} of {len(files):,} files aren't on the volume as they were copied", REFUSED)
