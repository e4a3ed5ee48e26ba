"""Texts as a terminal can show them."""

import os
import shlex


def shown(path):
    """A path with escapes for what is no UTF-8 or can't be printed."""
    text = os.fsencode(path).decode(errors="backslashreplace")
    return "".join(it if it.isprintable() else it.encode("unicode_escape").decode() for it in text)


def quoted(path):
    """A path as a word of a command line."""
    return shown(shlex.quote(os.fsdecode(path)))
