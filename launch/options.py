"""The words of ltfs_put and ltfs_get."""

import re

import volume


class Options:
    """What the options say, and all other words in their order."""

    def __init__(self):
        self.words, self.wait, self.flags = [], volume.WAIT, set()


def read_words(words, flags):
    """Reads the words, of which each flag, `--wait SECONDS` and `--wait=SECONDS` are options anywhere in front of a
    `--`. Returns None where they are of no form."""
    found, left, is_open = Options(), list(words), True
    while left:
        word = left.pop(0)
        name, _, value = word.partition("=")
        if not is_open or name != "--wait" and word not in flags and word != "--":
            found.words.append(word)
        elif word == "--":
            is_open = False
        elif word in flags:
            found.flags.add(word)
        else:
            value = value if "=" in word else left.pop(0) if left else ""
            found.wait = seconds(value)
            if found.wait is None:
                return None
    return found


def seconds(text):
    return float(text) if re.fullmatch(r"[0-9]+(\.[0-9]+)?", text) else None
