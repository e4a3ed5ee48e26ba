"""How far a copy is, told at a terminal."""

import sys
import time


class Progress:
    """Tells files and bytes that are done, how many bytes come in a second, and how much time is left."""

    # The one whose line isn't ended.
    shown = None

    def __init__(self, name, whole=None, files=None):
        self.name, self.whole, self.files = name, whole, files
        self.is_shown = sys.stderr.isatty()
        self.begun = time.monotonic()
        self.width = 0

    def tell(self, done, files=None):
        if not self.is_shown:
            return
        line = f"{self.name}: {self.counts(done, files)}{self.pace(done)}"
        # What stood there is written over.
        print(f"\r{line:{self.width}}", end="", file=sys.stderr, flush=True)
        self.width = len(line)
        Progress.shown = self

    def counts(self, done, files):
        of_files = "" if self.files is None else f"{files or 0:,} of {self.files:,} files, "
        of = "" if self.whole is None else f" of {self.whole / 2**20:,.1f}"
        return f"{of_files}{done / 2**20:,.1f}{of} MiB"

    def pace(self, done):
        seconds = time.monotonic() - self.begun
        if done <= 0 or seconds <= 0:
            return ""
        rate = done / seconds
        left = "" if self.whole is None else f", {clock(max(0, self.whole - done) / rate)} left"
        return f", {rate / 2**20:,.1f} MiB/s{left}"

    def end(self):
        if Progress.shown is self:
            print(file=sys.stderr)
            self.width, Progress.shown = 0, None


def say(name, *lines):
    """Tells lines on standard error, below what is shown of a copy."""
    if Progress.shown:
        Progress.shown.end()
    print("".join(f"{name}: {it}\n" for it in lines), end="", file=sys.stderr, flush=True)


def clock(seconds):
    """Minutes and seconds, behind hours where there are some."""
    minutes, seconds = divmod(round(seconds), 60)
    hours, minutes = divmod(minutes, 60)
    return f"{hours}:{minutes:02}:{seconds:02}" if hours else f"{minutes}:{seconds:02}"
