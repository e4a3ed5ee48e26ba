"""Copies files into a volume: each under a name of its own, and to its place once all of it is there."""

import collections
import os
import re
import secrets
import unicodedata

import scripts
import volume
from local_files import LeftOut, entries_of, open_plain
from scripts import Call, escaped
from volume import shown

# How a file is named while it isn't whole. Those that a put which was cut off has left are removed by the next one.
OWN_NAME = re.compile(rb"\.ltfs_put-[0-9a-f]{16}")
NAME_CHARACTERS = 255
# Behind such a reply nothing more is begun.
STOPS = (b"full", b"fault", b"nomemory", b"no TooMany", b"no Locked")


def name_on_volume(name, normalize):
    """The name, or in its place why it can be none on a volume. It is composed where that is asked for."""
    try:
        text = name.decode()
    except UnicodeDecodeError:
        raise LeftOut("its name isn't UTF-8") from None
    composed = unicodedata.normalize("NFC", text)
    if text != composed and not normalize:
        raise LeftOut(f"its name isn't composed, which is Unicode's normal form C; '{shown(composed)}' would do,"
                      " and --normalize uses that")
    if len(composed) > NAME_CHARACTERS:
        raise LeftOut(f"its name has more than {NAME_CHARACTERS} characters")
    if OWN_NAME.fullmatch(name):
        raise LeftOut("its name is of the form that ltfs_put gives to what isn't whole yet")
    return composed.encode()


def below(path, name):
    return (b"" if path == b"/" else path) + b"/" + name


class Directory:
    """A directory that is to stand at a path of the volume. Where it can't be made, `problem` is why."""

    def __init__(self, path, source, parent=None):
        self.path, self.source, self.parent = path, source, parent
        self.problem = None

    def take(self, call):
        if not call.is_done() and call.reply != b"no Exists":
            self.problem = volume.reason(call)


class File:
    """A file that is to stand at a path of the volume. First it is written apart; then it takes its place, or, where
    there is a problem, what was written of it is dropped."""

    WRITING, PLACING, PLACING_AGAIN, PLACED, DROPPING = range(5)

    def __init__(self, path, source, parent=None, replaces=False):
        self.path, self.source, self.parent, self.replaces = path, source, parent, replaces
        self.apart = escaped(below(os.path.dirname(path), b".ltfs_put-" + secrets.token_hex(8).encode()))
        self.stage, self.problem = self.WRITING, None
        self.is_unreadable = self.lost_old = False
        self.length, self.digest = 0, b""

    def open(self):
        return open_plain(self.source)

    def writing(self):
        """The calls that write it apart, and in front of them one that sees that what it replaces isn't read-only. Where
        it changes while it is read, it is read a second time, and no third."""
        if self.replaces:
            yield scripts.ask_call(escaped(self.path), self)
        for calls in ([b"create %s"], [b"truncate %s 0"]):
            with self.open() as source:
                yield from (Call(it % self.apart, self) for it in calls)
                yield from scripts.file_calls(self.apart, self.counted(source), self)
                self.digest = source.digest.digest()
                if not source.has_changed():
                    return
        raise LeftOut("it changed while it was read, and once more when it was read again")

    def counted(self, source):
        self.length = 0
        for piece in source.pieces():
            self.length += len(piece)
            yield piece

    def take(self, call):
        if call.is_done():
            self.lost_old |= self.stage == self.PLACING and call.verb == b"remove"
            if call.verb == b"rename":
                self.stage = self.PLACED
        elif self.stage != self.DROPPING and not self.is_gone(call):
            self.problem = self.problem or volume.reason(call)

    def is_gone(self, call):
        """Whether the call tells no more than that nothing stands in its place any more."""
        return call.reply == b"no NotFound" and (call.verb == b"remove" or call.asks)

    def next_calls(self):
        """The calls of its next stage, once those of the one before are run; none where it is through."""
        place = escaped(self.path)
        remove = [b"remove %s" % place] if self.replaces else []
        rename, drop = [b"rename %s %s" % (self.apart, place)], [b"remove %s" % self.apart]
        if self.stage == self.WRITING and not self.problem:
            self.stage, calls = self.PLACING, remove + rename
        elif self.stage == self.PLACING and self.lost_old:
            self.stage, self.problem, calls = self.PLACING_AGAIN, None, rename
        elif self.stage in (self.WRITING, self.PLACING):
            self.stage, calls = self.DROPPING, drop
        else:
            calls = []
        if self.stage == self.PLACING_AGAIN and not calls:
            self.problem += f"; its bytes stand on the volume as {self.apart.decode()}, up to the next put"
        return [Call(it, self) for it in calls]


class Writing:
    """Calls that change a volume, made in runs of as many as a script may have. A directory's call comes before those
    of what it holds: in the same session of a run, or in a run before."""

    def __init__(self, runs, progress):
        self.runs, self.progress = runs, progress
        self.script, self.sessions = scripts.Script(), {}
        # Files of which calls are in the script, and calls that wait for the next one, which go first there.
        self.moving, self.waiting = [], collections.deque()
        self.stopped, self.is_ending = None, False
        self.bytes = self.files = 0

    def add(self, call, behind=None):
        session = self.session_of(call, behind)
        while not self.script.has_room(session, call):
            self.run()
            session = self.session_of(call, behind)
        self.script.add(session, call)
        self.sessions[call.owner] = session

    def session_of(self, call, behind):
        for it in (call.owner, behind):
            if it is not None and it in self.sessions:
                return self.sessions[it]
        return self.script.emptiest()

    def put(self, file):
        """Writes a file apart. Its place it takes in a later run."""
        has_begun = False
        try:
            for call in file.writing():
                if file.problem or self.stopped:
                    break
                self.add(call, file.parent)
                has_begun = True
        except LeftOut as why:
            file.problem, file.is_unreadable = str(why), True
        if self.stopped:
            file.problem = file.problem or "the copy ended before it was whole"
        if has_begun:
            self.moving.append(file)
        self.bytes += file.length

    def run(self):
        """Makes the calls, and adds to the next script those that follow from the replies."""
        script, self.script, self.sessions = self.script, scripts.Script(), {}
        for call in self.runs.replies(script) if script.count() else []:
            if call.owner:
                call.owner.take(call)
            if call.reply.startswith(STOPS):
                self.stopped = self.stopped or call
        moved, self.moving = self.moving, []
        for file in moved:
            self.files += file.stage == File.PLACED
            calls = file.next_calls()
            if calls:
                self.waiting.append((file, calls))
        self.fill()
        self.progress.tell(self.bytes, self.files)

    def fill(self):
        """Takes calls that wait into the script, of which they may have half. At the end they come into one session
        where that is enough for them."""
        limit = scripts.CALLS - 1 if self.is_ending else scripts.CALLS // 2
        sessions = self.script.sessions
        while self.waiting and self.script.size <= scripts.SCRIPT_BYTES // 2:
            file, calls = self.waiting[0]
            is_first = self.is_ending and len(sessions[0]) + len(calls) <= limit
            session = 0 if is_first else self.script.emptiest()
            if len(sessions[session]) + len(calls) > limit:
                return
            self.waiting.popleft()
            self.moving.append(file)
            for call in calls:
                self.script.add(session, call)

    def finish(self):
        """Lets all files take their places. The last run has a sync behind its calls where these are in one session;
        where they aren't its close is that."""
        self.is_ending = True
        while self.moving or self.waiting or self.script.count():
            if not self.waiting and not any(self.script.sessions[1:]) and len(self.script.sessions[0]) < scripts.CALLS:
                self.script.add(0, Call(b"sync"))
            self.run()


class Plan:
    """What of a folder is to stand at a path of the volume, whose tree is known, and what is left out of it."""

    def __init__(self, top, path, found, normalize, tape=None):
        self.found, self.normalize, self.tape = found, normalize, tape
        self.root = Directory(path, top)
        self.directories, self.files, self.left_out = [self.root], [], []
        self.bytes, self.paths = 0, set()
        waiting = [self.root]
        while waiting:
            waiting += reversed(self.look_into(waiting.pop()))

    def look_into(self, directory):
        """Adds what is to stand in a directory, and returns the directories there."""
        begun = len(self.directories)
        try:
            for name, fact in entries_of(directory.source):
                source = os.path.join(directory.source, name)
                try:
                    self.add(directory, name, source, fact)
                except LeftOut as why:
                    self.left_out.append((source, str(why)))
        except LeftOut as why:
            self.left_out.append((directory.source, str(why)))
        return self.directories[begun:]

    def add(self, directory, name, source, fact):
        if isinstance(fact, LeftOut):
            raise fact
        path = below(directory.path, name_on_volume(name, self.normalize))
        if fact is None and self.tape and os.path.samefile(source, self.tape):
            raise LeftOut("the files of the cartridge lie there")
        if path in self.paths:
            raise LeftOut("its name is that of another one here once both are composed")
        kind, wanted = self.found.kinds.get(path), b"d" if fact is None else b"f"
        if kind not in (None, wanted):
            raise LeftOut({b"d": "a directory", b"f": "a file", b"l": "a symbolic link"}[kind]
                          + " stands in its place on the volume")
        self.paths.add(path)
        if fact is None:
            self.directories.append(Directory(path, source, directory))
        else:
            self.files.append(File(path, source, directory, replaces=kind is not None))
            self.bytes += fact

    def problems(self):
        """What is left out, and why. What a directory holds goes without saying where it can't be made itself."""
        for it in [*self.directories, *self.files]:
            if it.problem and not any_above(it):
                yield it.source, it.problem
        yield from self.left_out


def any_above(node):
    """Whether a directory above can't be made."""
    while node.parent:
        node = node.parent
        if node.problem:
            return True
    return False


def leftovers(found, directory):
    """What an earlier put that was cut off has left below a directory of the volume."""
    prefix = b"/" if directory == b"/" else directory + b"/"
    for path, kind in found.kinds.items():
        if kind == b"f" and path.startswith(prefix) and OWN_NAME.fullmatch(os.path.basename(path)):
            yield path
