"""The words of each command, in one table: which a command has, what they may be, and why words don't fit."""

import datetime
import difflib
import pathlib
import re

HELP = pathlib.Path(__file__).resolve().parent / "help"
LONGEST_NAME = 255
LONGEST_FILE = 2**40
HIGHEST = 2**62


class Misfit(Exception):
    """Why words are of no form."""


# ---- values: each test says what a word has to be, where it isn't that

def number(text, least, most, what="the number"):
    """The number that 1 to 20 digits spell, within these bounds."""
    value = int(text) if re.fullmatch("[0-9]{1,20}", text) else None
    if value is None or not least <= value <= most:
        raise Misfit(f"{what} has to be {least:,} to {most:,}")


def count(text):
    number(text, 1, 1_024, "N")


def generation(text):
    number(text, 1, HIGHEST, "G")


def block(text):
    number(text, 4_096, 1_048_576, "N")


def size(text):
    number(text, 0, LONGEST_FILE, "N")


def moment(text):
    found = re.fullmatch(r"(\d{4}-\d\d-\d\d)T([01]\d|2[0-3])(:[0-5]\d){2}\.\d{9}Z", text, re.ASCII)
    try:
        is_moment = found and datetime.date(*map(int, found[1].split("-"))).year >= 1970
    except ValueError:
        is_moment = False
    if not is_moment:
        raise Misfit("it is no time of the form 2024-01-02T03:04:05.000000000Z, of the years 1970 to 9999")


def path(text):
    names = text[1:].split("/") if text != "/" else []
    if not text.startswith("/") or "" in names:
        raise Misfit("it is no path of the form / or /NAME/NAME")
    try:
        for name in names:
            spelled(name).decode()
    except UnicodeDecodeError:
        raise Misfit("the bytes of a name in it are no UTF-8") from None


def spelled(name):
    """The bytes of a name in which `%` and two digits stand for one."""
    return re.sub(rb"%([0-9A-Fa-f]{2})", lambda it: bytes([int(it[1], 16)]), name.encode())


def identifier(text):
    if not re.fullmatch("[A-Z0-9]{6}", text):
        raise Misfit("VOLID has to be six characters, A to Z or 0 to 9")


def uuid(text):
    if not re.fullmatch("[0-9A-Fa-f]{8}(-[0-9A-Fa-f]{4}){3}-[0-9A-Fa-f]{12}", text):
        raise Misfit("UUID has to be of the form 30a91a08-daae-48d1-ae75-69804e61d2ea")


def name(text):
    if len(text) > LONGEST_NAME or "/" in text:
        raise Misfit("a name has up to 255 characters, and none of them is /")


def patterns(text):
    each = text.split("/")
    if len(each) > 64 or not all(re.fullmatch("[\t\n\r -\ud7ff\ue000-\ufffd\U00010000-\U0010ffff]{1,255}", it)
                                 for it in each):
        raise Misfit("LIST has to be 1 to 64 patterns with / between them, of 1 to 255 characters each")


def any_text(text):
    """Any word will do."""


# ---- the table

class Form:
    """The words of a command: those that have to stand in their order, one that may follow them, options with a value,
    and those without one. Of `apart` one option at most may stand. Of `needs` the first option may stand beside the
    second one alone. With an end, words that are no options may stand behind `--`."""

    def __init__(self, words=None, optional=None, options=None, flags=(), apart=(), needs=None, has_end=True):
        self.words, self.optional, self.options = words or {}, optional or {}, options or {}
        self.flags, self.apart, self.needs, self.has_end = flags, apart, needs, has_end


AT = {"at": moment}
FOLDER = {"DIR": any_text}
COMMANDS = {
    "ltfs_server": {
        "plain": Form(options=AT),
        "label": Form(FOLDER),
        "format": Form({**FOLDER, "VOLID": identifier, "UUID": uuid},
                       options={"block": block, "name": name, "ip-size": size, "ip-names": patterns, **AT},
                       flags=("yes",), needs=("ip-names", "ip-size")),
        "list": Form(FOLDER, flags=("all", "human", "json"), apart=("human", "json")),
        "generations": Form(FOLDER, flags=("json",)),
        "view": Form({**FOLDER, "G": generation}, options={"read": path}, flags=("all",), apart=("all", "read")),
        "serve": Form(FOLDER, options=AT),
        "make": Form({**FOLDER, "N": count}, options=AT),
    },
    "index_tool": {
        "check": Form(optional={"FILE": any_text}, has_end=False),
        "canon": Form(optional={"FILE": any_text}, has_end=False),
    },
}


def usage(program, command=""):
    """The lines of the help that tell the words of a command, or of all."""
    text = (HELP / f"{program}{command and '-' + command}.txt").read_text(encoding="utf-8")
    return re.search(r"^usage: .*(?:\n +.*)*", text, re.MULTILINE)[0].split("\n")


def misfit(program, words):
    """Why the words are of no form of the program, or None where they are."""
    try:
        for nth, word in enumerate(words, 1):
            if any("\udc80" <= it <= "\udcff" for it in word):
                raise Misfit(f"the bytes of word {nth} are no UTF-8")
        command = named(program, words)
        judge(COMMANDS[program][command], words[1:])
    except Misfit as why:
        return str(why) + taken_as_folder(words)
    return None


def taken_as_folder(words):
    """What is added where what looks like an option stands in place of the folder."""
    stands = len(words) > 1 and words[0] in COMMANDS["ltfs_server"] and words[0] != "plain" and words[1][:2] == "--"
    return f"; '{words[1]}' is taken as DIR there" if stands else ""


def named(program, words):
    """The command of the words."""
    if not words:
        raise Misfit("no command stands there")
    if words[0] not in COMMANDS[program]:
        near = difflib.get_close_matches(words[0], COMMANDS[program], 1)
        raise Misfit(f"no command is named {words[0]!r}" + (f"; '{near[0]}' is near to it" if near else ""))
    return words[0]


def judge(form, words):
    """Looks whether the words behind a command are of its form. The folder, where there is one, is taken as it is."""
    front = min(len(words), 1 if "DIR" in form.words else 0)
    found, values = collected(form, words[front:], list(words[:front]))
    for wanted in list(form.words)[len(found):]:
        raise Misfit(f"{wanted} is missing")
    for what, word in zip([*form.words, *form.optional], found):
        tested({**form.words, **form.optional}[what], what, word)
    for option, value in values.items():
        tested(form.options[option], f"--{option}", value)
    if form.needs and form.needs[0] in values and form.needs[1] not in values:
        raise Misfit(f"--{form.needs[0]} may stand beside --{form.needs[1]} alone")


def tested(test, what, word):
    try:
        test(word)
    except Misfit as why:
        raise Misfit(f"{what} can't be {word!r}: {why}") from None


class Collecting:
    """The words and the options that were found so far, and the option that waits for its value."""

    def __init__(self, form, found):
        self.form, self.found, self.values, self.stand, self.waits = form, found, {}, [], None

    def settle(self):
        if self.waits:
            option = f"--{self.waits}"
            raise Misfit(f"{option} lacks its value; one that begins with a hyphen stands as {option}=VALUE")

    def take_option(self, word):
        self.settle()
        option, joined, value = word[2:].partition("=")
        is_flag = word in [f"--{it}" for it in self.form.flags]
        if not is_flag and (option not in self.form.options or not word.startswith("--")):
            raise Misfit(f"unexpected word {word!r}" + self.near(option))
        self.note(option)
        if joined:
            self.values[option] = value
        elif not is_flag:
            self.waits = option

    def near(self, option):
        known = [*self.form.options, *self.form.flags]
        near = difflib.get_close_matches(option, known, 1)
        return f"; '--{near[0]}' is near to it" if near else ""

    def note(self, option):
        if option in self.stand:
            raise Misfit(f"--{option} stands there twice")
        for other in self.stand:
            if option in self.form.apart and other in self.form.apart:
                raise Misfit(f"--{other} and --{option} can't stand together")
        self.stand.append(option)

    def take_word(self, word):
        if self.waits:
            self.values[self.waits], self.waits = word, None
        elif len(self.found) < len(self.form.words) + len(self.form.optional):
            self.found.append(word)
        else:
            raise Misfit(f"unexpected word {word!r}")


def collected(form, words, found):
    """The words that stand alone, and the values of options, as clap finds them."""
    so_far, is_behind = Collecting(form, found), False
    for word in words:
        if is_behind or not word.startswith("-") or word == "-":
            so_far.take_word(word)
        elif word == "--" and form.has_end:
            so_far.settle()
            is_behind = True
        else:
            so_far.take_option(word)
    so_far.settle()
    return so_far.found, so_far.values


def told(program, words):
    """What a person is told of words that are of no form."""
    why = misfit(program, words)
    known = words and words[0] in COMMANDS[program]
    return ([why] if why else []) + usage(program, words[0] if known else "")
