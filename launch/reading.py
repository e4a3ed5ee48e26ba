"""Reads files of a volume, in runs of as many calls as a script may have."""

import hashlib

import scripts
import volume
from scripts import escaped


class Wanted:
    """A file of the volume that is to be read. The pieces that came in the last run lie in their order."""

    def __init__(self, path, length):
        self.path, self.length = path, length
        self.problem, self.is_asked = None, False
        self.came, self.digest = {}, hashlib.sha256()

    def take(self, call):
        words = call.reply.split(b" ")
        if not call.is_done():
            self.problem = self.problem or volume.reason(call)
        elif words[:2] != [b"bytes", b"%d" % call.read]:
            self.problem = self.problem or f"the volume gives fewer bytes of it than it tells ({call.told()})"
        else:
            self.came[int(call.text.split(b" ")[2])] = bytes.fromhex(words[2].decode())

    def pieces(self):
        """Yields what came in the last run."""
        for offset in sorted(self.came):
            self.digest.update(self.came[offset])
            yield self.came[offset]
        self.came = {}


def read_files(runs, files):
    """Reads the files, and yields behind each run those that it has read of. Each that `is_asked` is read to its end
    by then."""
    script, begun = scripts.Script(), []
    for file in files:
        begun.append(file)
        for call in scripts.read_calls(escaped(file.path), 0, file.length, file):
            if not script.has_room(script.emptiest(), call):
                yield run(runs, script, begun)
                script, begun = scripts.Script(), [file]
            script.add(script.emptiest(), call)
        file.is_asked = True
    if begun:
        yield run(runs, script, begun)


def run(runs, script, begun):
    for call in runs.replies(script) if script.count() else []:
        call.owner.take(call)
    return begun
