"""Scripts for `ltfs_server serve`: calls of up to sixteen sessions, and no more of them than a run may have."""

import urllib.parse

# The limits of a script, as docs/FORMATS.md tells them.
SESSIONS = 16
CALLS = 1_024
SCRIPT_BYTES = 16_777_216
WRITE_BYTES = 65_536
READ_BYTES = 1_048_576
ALL_BYTES = 67_108_864

# Besides its words a line has its session of one or two digits, a space and a line feed.
LINE_BYTES = 4
NOT_DONE = (b"no", b"full", b"fault", b"nomemory")
# Calls that are a change wherever they are done, and those that may leave all as it was.
CHANGES = (b"mkdir", b"create", b"write", b"remove", b"rename", b"dropx", b"permlock")
MAY_CHANGE = (b"truncate", b"setx", b"readonly", b"lock", b"unlock")
PLAIN = frozenset(b"/!\"#$&'()*+,-.:;<=>?@[\\]^_`{|}~") | frozenset(it for it in range(128) if chr(it).isalnum())


def escaped(path):
    """Returns the path as a script has it: each byte that could be taken for something else as `%` and two digits."""
    return b"".join(bytes([it]) if it in PLAIN else b"%%%02X" % it for it in path)


def unescaped(text):
    return urllib.parse.unquote_to_bytes(text)


class Call:
    """A call as its line has it behind the session, with how many bytes it writes (or sets) or reads, and whose it is. Once it
    is run it has its reply, and the line of the log that tells it."""

    def __init__(self, text, owner=None, written=0, read=0):
        self.text, self.owner, self.written, self.read = text, owner, written, read
        self.verb = text.split(b" ", 1)[0]
        self.asks = self.verb == b"write" and text.endswith(b" hex:")
        self.reply = self.line = b""

    def is_done(self):
        return self.reply.split(b" ", 1)[0] not in NOT_DONE

    def told(self):
        """The line of the log, and the call without the bytes of a write."""
        return (self.line + b", " + b" ".join(self.text.split(b" ")[:2])).decode(errors="backslashreplace")


def write_call(path, offset, piece, owner=None):
    """The call that writes a piece, in its shortest form."""
    if len(piece) > 1 and piece.count(piece[0]) == len(piece):
        text = b"write %s %d fill:%02x:%d" % (path, offset, piece[0], len(piece))
    else:
        text = b"write %s %d hex:%s" % (path, offset, piece.hex().encode())
    return Call(text, owner, written=len(piece))


def ask_call(path, owner=None):
    """The call that writes no bytes to a file: it changes nothing, and is refused where the file is read-only."""
    return Call(b"write %s 0 hex:" % path, owner)


def read_calls(path, begin, end, owner=None):
    """Yields the calls that read the bytes of a file from the one place up to the other."""
    for offset in range(begin, end, READ_BYTES):
        count = min(READ_BYTES, end - offset)
        yield Call(b"read %s %d %d" % (path, offset, count), owner, read=count)


def file_calls(path, pieces, owner=None):
    """Yields the calls that fill an empty file with these pieces. One of zeros is left out, since a gap reads so;
    behind the last one the length is set."""
    offset = behind = 0
    for piece in pieces:
        if piece.count(0) < len(piece):
            yield write_call(path, offset, piece, owner)
            behind = offset + len(piece)
        offset += len(piece)
    if behind < offset:
        yield Call(b"truncate %s %d" % (path, offset), owner)


class Script:
    """The calls of one run. Those of a session are made in its order, and those of several in any."""

    def __init__(self):
        self.sessions = [[] for _ in range(SESSIONS)]
        self.size = self.written = self.read = 0

    def count(self):
        return sum(map(len, self.sessions))

    def emptiest(self):
        return min(range(SESSIONS), key=lambda it: len(self.sessions[it]))

    def has_room(self, session, call):
        return (len(self.sessions[session]) < CALLS and self.size + len(call.text) + LINE_BYTES <= SCRIPT_BYTES
                and self.written + call.written <= ALL_BYTES and self.read + call.read <= ALL_BYTES)

    def add(self, session, call):
        self.sessions[session].append(call)
        self.size += len(call.text) + LINE_BYTES
        self.written += call.written
        self.read += call.read

    def text(self):
        return b"".join(b"%d %s\n" % (who, it.text) for who, calls in enumerate(self.sessions, 1) for it in calls)

    def take(self, line):
        """Returns the call to which this line of the log is the reply, or None where it is no such line."""
        words = line.split(b" ", 2)
        if len(words) < 3 or not words[0].isdigit() or b"." not in words[1]:
            return None
        who, nth = map(int, words[1].split(b"."))
        call = self.sessions[who - 1][nth]
        call.line, call.reply = line, words[2]
        return call

    def generations(self, before, may_rise=False):
        """In which generations a run may end whose volume began in this one: each change by a call is one of the next
        one, and some calls may be none."""
        done = {it.verb for calls in self.sessions for it in calls if it.is_done() and not it.asks}
        if any(it in done for it in CHANGES):
            return [before + 1]
        return [before, before + 1] if may_rise or any(it in done for it in MAY_CHANGE) else [before]
