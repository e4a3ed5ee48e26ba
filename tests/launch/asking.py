"""What the launchers do with words of their own: which words fit and why others don't, files in place of standard
input, a question before a volume is wiped, other forms of output, and pages."""

import concurrent.futures
import importlib
import json
import os
import pathlib
import pty
import re
import shutil
import signal
import subprocess
import sys
import threading
import time

from advice import archive, format_words, told
from cases import compare
from clones import (TOP, UUID, await_program, environment, fresh_folder, processes_of, read_terminal, ready, run,
                    run_at_terminal, volume, without_rt)

sys.path.append(str(TOP / "launch"))
forms = importlib.import_module("words")

AT = "2024-01-02T03:04:05.000000000Z"
PROGRAMS = ("ltfs_server", "index_tool")
# Words that fit, for a folder that is missing, and words that don't.
GOOD = f"""
plain|plain --at {AT}|plain --at={AT} --|label D|list D|list -x|list --help --|generations D --|view D 1|view D 00001
view D 4611686018427387904 --read /|view D --read=/a%20b/%c3%a9 2|view D 2 --read /%zz|serve D|serve D --at {AT}
make D 1|make D --at={AT} 1024|make D -- 7|format D TAPE01 {UUID}|format D --block 4096 TAPE01 {UUID.upper()}
format D TAPE01 {UUID} --name= --ip-size 0|format D TAPE01 {UUID} --name=-x --ip-size 1099511627776 --ip-names *.txt/a
format D --at 9999-12-31T23:59:59.999999999Z TAPE01 -- {UUID}|format D TAPE01 {UUID} --name -|list D --human
list D --json --|list D --all|list D --all --json|list D --human --all --|view D 1 --all|view D --all 1 --
generations D --json|format D TAPE01 {UUID} --yes --block=1048576|serve D --at 2024-02-29T00:00:00.000000000Z
"""
BAD = f"""
fly|list|list D E|list D --at {AT}|label D --human|list D --human --json|list D --json --json|list D -- --json
list D --all --all|list D --all=1|list D --all x|list D -- --all|list D --al|list D --all --human --json
view D 1 --all --read /a|view D 1 --read=/a --all|view D 1 --all --all|view D 1 --all=|generations D --all
list D --json=|generations D --human|plain D|plain --at|plain --at {AT} --at {AT}|plain --at=|plain -a|plain --AT {AT}
view D|view D 0
view D x|view D 4611686018427387905|view D 1 2|view D 1 --read a|view D 1 --read //|view D 1 --read /a/|view D 1 --read
view D 1 --read /%ff|view D -1|view D 000000000000000000001|serve D --at 1969-12-31T23:59:59.000000000Z|serve D D
serve D --at 2023-02-29T00:00:00.000000000Z|serve D --at 2024-01-02T24:00:00.000000000Z|serve D --at -- {AT}
serve D --at 2024-01-02T03:04:05Z|make D|make D 0|make D 1025|make D 1 --block 4096|make|format D|format D TAPE01
format D TAPE1 {UUID}|format D tape01 {UUID}|format D TAPE01 {UUID} x|format D TAPE01 {UUID[:-1]}
format D TAPE01 {UUID}0
format D TAPE01 {UUID} --block 4095|format D TAPE01 {UUID} --block 1048577|format D TAPE01 {UUID} --name a/b
format D TAPE01 {UUID} --name {256 * "x"}|format D TAPE01 {UUID} --ip-names a
format D TAPE01 {UUID} --ip-size 1099511627777|format D TAPE01 {UUID} --ip-size 1 --ip-names a//b
format D TAPE01 {UUID} --yes --yes|format D TAPE01 {UUID} --yes=1
format D TAPE01 {UUID} -- --yes|format D TAPE01 {UUID} --name --yes|format D TAPE01 {UUID} --name --at {AT}
format D TAPE01 {UUID} --ip-size 1 --ip-names {"/".join(65 * ["a"])}|format D TAPE01 {UUID} --block 4096 --block 4096
"""


def rows(text):
    return [it.split(" ") for it in re.split(r"[|\n]", text.strip("\n"))]


def program_itself():
    """The words and the environment with which the launcher runs the program in its own place."""
    with subprocess.Popen(["./ltfs_server", "plain"], cwd=ready(), env=environment(), stdin=subprocess.PIPE,
                          stdout=subprocess.DEVNULL, stderr=subprocess.DEVNULL) as process:
        words = []
        while process.poll() is None and not any(re.search(b"/(built|out)/[^/]*$", it) for it in words):
            time.sleep(0.05)
            words = pathlib.Path(f"/proc/{process.pid}/cmdline").read_bytes().split(b"\0")[:-2]
        lines = pathlib.Path(f"/proc/{process.pid}/environ").read_bytes().split(b"\0")
        process.kill()
    return words, dict(it.split(b"=", 1) for it in lines if it)


def words_fit():
    """The table of words says that they fit just where the program takes them. Only those that the launcher takes away
    need the launcher."""
    here, (program, env) = fresh_folder(), program_itself()

    def taken(words):
        if any(it in ("--human", "--json", "--yes") for it in words):
            ran = run([ready() / "ltfs_server", *words], here)
        else:
            ran = run([*program, *words], here, env=env)
        return ran.status != 1 and b"words" not in ran.out

    lists = [*rows(GOOD), *rows(BAD)]
    with concurrent.futures.ThreadPoolExecutor(os.cpu_count()) as pool:
        came = list(pool.map(taken, lists))
    found = compare("words that the program takes", len(rows(GOOD)) * [True] + len(rows(BAD)) * [False], came)
    for words, fits in zip(lists, came):
        found += compare(f"whether {words} fit", fits, forms.misfit("ltfs_server", words) is None)
    for words, fits in ((["check"], True), (["canon", "-"], True), (["fly"], False), (["check", "a", "b"], False),
                        (["canon", "-", "--"], False), (["check", "--"], False), (["check", "-x"], False)):
        ran = run([ready() / "index_tool", *words], here, (TOP / "examples/archive.xml").read_bytes())
        found += compare(f"status of {words}", 0 if fits else 1, ran.status)
        found += compare(f"whether {words} of index_tool fit", fits, forms.misfit("index_tool", words) is None)
    return found + compare("what is said of bytes", "the bytes of word 2 are no UTF-8",
                           forms.misfit("ltfs_server", ["list", "\udcff"]))


def usage_lines():
    """The table has the words and options that each usage line tells, and no other."""
    found = []
    for program, commands in forms.COMMANDS.items():
        texts = sorted(it.stem.split("-", 1)[1] for it in (TOP / "launch/help").glob(f"{program}-*.txt"))
        found += compare(f"commands of {program}", texts, sorted(commands))
        for command, form in commands.items():
            usage = " ".join(forms.usage(program, command))
            of = f"{program} {command}"
            found += compare(f"how the usage of {of} begins", f"usage: {of}", usage[:len(f"usage: {of}")])
            options = re.findall(r"--([a-z-]+)", usage)
            found += compare(f"options of {of}", sorted(options), sorted([*form.options, *form.flags]))
            valued = re.findall(r"--([a-z-]+) [A-Z]", usage)
            found += compare(f"options of {of} with a value", sorted(valued), sorted(form.options))
            alone = re.sub(r"\[.*\]", "", usage.split(of, 1)[1]).split()
            found += compare(f"words of {of}", alone, list(form.words))
            optional = re.findall(r"\[([A-Z]+)\]", usage)
            found += compare(f"words of {of} that may be missing", optional, list(form.optional))
    return found


def words_at_terminal():
    """At a terminal `words` is followed by what didn't fit, and by the usage line."""
    found = []
    for words, lines in (
        (["lst", "x"], ["no command is named 'lst'; 'list' is near to it", "usage: ltfs_server COMMAND WORDS.."]),
        (["label"], ["DIR is missing", "usage: ltfs_server label DIR"]),
        (["serve", "d", "x"], ["unexpected word 'x'", "usage: ltfs_server serve DIR [--at TIME]"]),
        (["serve", "d", "--att", AT], ["unexpected word '--att'; '--at' is near to it",
                                       "usage: ltfs_server serve DIR [--at TIME]"]),
        (["serve", "d", "--at", "now"],
         ["--at can't be 'now': it is no time of the form 2024-01-02T03:04:05.000000000Z, of the years 1970 to 9999",
          "usage: ltfs_server serve DIR [--at TIME]"]),
        (["list", "--json", "d"], ["unexpected word 'd'; '--json' is taken as DIR there",
                                   "usage: ltfs_server list DIR [--all] [--human | --json]"]),
        (["view", "d", "1", "--all", "--read", "/a"],
         ["--all and --read can't stand together", "usage: ltfs_server view DIR G [--all | --read PATH]"]),
        (["make", "d", "2000"],
         ["N can't be '2000': N has to be 1 to 1,024", "usage: ltfs_server make DIR N [--at TIME]"]),
        (["view", "d", "1", "--read"],
         ["--read lacks its value; one that begins with a hyphen stands as --read=VALUE",
          "usage: ltfs_server view DIR G [--all | --read PATH]"]),
    ):
        ran, came = told(words)
        found += compare(f"status of {words}", 1, ran.status) + compare(f"output of {words}", b"words\n", ran.out)
        found += compare(f"lines of {words}", lines, came)
    return found


def help_and_version():
    """The other ways to ask for help and for the version."""
    where, found, env = ready(), [], environment(PATH=without_rt())

    def out(program, *words):
        ran = run([f"./{program}", *words], where, env=env)
        return ran.out if ran.status == 0 else ran

    for words in (["list", "dir", "--help"], ["--help", "list"], ["-h", "list"], ["view", "d", "1", "--help"]):
        command = "view" if "view" in words else "list"
        found += compare(f"{words}", out("ltfs_server", "help", command), out("ltfs_server", *words))
    found += compare("check f --help", out("index_tool", "help", "check"), out("index_tool", "check", "f", "--help"))
    version = out("ltfs_server", "--version")
    release = (TOP / "launch/version").read_bytes().strip()
    found += compare("whether the version is told", True,
                     version.startswith(b"ltfs_server %s, for LTFS 2.4, " % release))
    found += compare("-V", version, out("ltfs_server", "-V"))
    for it in ("ltfs_put", "ltfs_get"):
        for words in (["--version"], ["-V"]):
            found += compare(f"{it} {words}", version.replace(b"ltfs_server", it.encode(), 1), out(it, *words))
    return found


# ---- files and documents

def index_files():
    """A document may be named as a file, and one that can't be opened is told and ends with 5."""
    where, here, found = ready(), fresh_folder(), []
    text = (TOP / "examples/archive.xml").read_bytes()
    (here / "a b.xml").write_bytes(text)
    tool = where / "index_tool"
    canon = run([tool, "canon"], here, text).out
    for words, given, status, out in (
        (["check", "a b.xml"], b"", 0, b"ok 3 4\n"), (["check", "-"], text, 0, b"ok 3 4\n"),
        (["canon", "a b.xml"], b"", 0, canon), (["check", "."], b"", 5, b"source 0 1\n"),
        (["check", "missing"], text, 5, b""), (["check", "a b.xml", "more"], b"", 1, b"words\n"),
        (["fly", "a b.xml"], b"", 1, b"words\n"), (["check", ""], text, 5, b""),
        (["check", "--ok"], text, 1, b"words\n"),
    ):
        ran = run([tool, *words], here, given)
        found += compare(f"status of {words}", status, ran.status) + compare(f"output of {words}", out, ran.out)
        if words[1] == "missing":
            line = "index_tool: missing can't be opened: No such file or directory"
            found += compare("its line", line, ran.lines()[-1])
    return found


def lines_of_document(text, how):
    """What is told at a terminal of a document that is refused: a file, standard input, or a pipe."""
    file = fresh_folder() / "index.xml"
    file.write_bytes(text)
    if how == "pipe":
        ran = run_at_terminal(["./index_tool", "check"], ready(), text)
    elif how == "file":
        ran = run_at_terminal(["./index_tool", "canon", file], ready())
    else:
        with open(file, "rb") as source:
            ran = run_at_terminal(["./index_tool", "check"], ready(), stdin=source)
    lines = ran.lines()
    at = next((nth for nth, it in enumerate(lines) if it.startswith("index_tool: status 2: ")), len(lines))
    return ran, [it[len("index_tool: "):] for it in lines[at + 1:]]


TOP_LIMIT = "4,611,686,018,427,387,904"
# A piece of the document of examples/archive.xml, what stands there in its place, the line that the tool prints, and
# what is told. Lines and columns are counted in that file by hand; AT is the place of what is told to stand there, and
# END the length of the document.
REFUSALS = (
    ("<backuptime>2020-01-28T19:39:50.715656751Z</backuptime>\n            <readonly>", "<readonly>",
     "Missing backuptime",
     "the file with UID 3 ('read me.txt'), which ends at line 58, column 11, lacks <backuptime>"),
    ("    <startblock>9</startblock>\n", "", "Missing startblock",
     "<location>, which ends at line 10, column 3, lacks <startblock>"),
    ("<bytecount>5<", "<bytecount>4611686018427387904<", "Extent 3",
     f"the file with UID 3 ('read me.txt') has an extent of {TOP_LIMIT} bytes at its byte 1 (line 51, column 15),"
     f" which ends past {TOP_LIMIT}"),
    ("<length>5<", "<length>1099511627777<", "Extent 3",
     "the file with UID 3 ('read me.txt') has the length 1,099,511,627,777, and 1,099,511,627,776 is the most"),
    ('version="2.4.0"', 'version="2.5.0"', "Version",
     "line 2, column 1: the version '2.5.0' stands there; those of 2.0 to 2.4 are read, as 2.4.0"),
    (' version="2.4.0"', "", "Version",
     "line 2, column 1: no version stands there; those of 2.0 to 2.4 are read, as 2.4.0"),
    ("<generationnumber>3<", "<generationnumber>0<", "Number AT",
     "line 5, column 21 in <generationnumber>: '0</generationnumber>' stands there; a number has 1 to 20 digits, and"
     f" <generationnumber> is 1 to {TOP_LIMIT}"),
    ("<fileuid>3<", "<fileuid>2<", "Uid 2",
     "two nodes have the UID 2: the directory with UID 2 ('docs') begins at line 29, column 7, and the file with UID 2"
     " ('read me.txt') begins at line 39, column 11"),
    ("<fileuid>3<", "<fileuid>9<", "Uid 9",
     "the UID 9 is over the highest, 4: the file with UID 9 ('read me.txt') begins at line 39, column 11"),
    ("<name>latest<", "<name>docs<", "SameName 4",
     "two nodes of one directory are named 'docs': the directory with UID 2 ('docs') begins at line 29, column 7, and"
     " the link with UID 4 ('docs') at line 62, column 7"),
    ("<name>read me.txt<", "<name>..<", "Name AT",
     "line 41, column 13 in the file with UID 3: '<name>..</name>' stands there; no node is named '..'"),
    ("  <creator>", "  <maker/><creator>", "Unknown AT",
     "line 3, column 3 in <ltfsindex>: '<maker/><creator>Example LTFS 2.4.0.0 - Linux - ltfs</creato..' stands there;"
     " that element has no place there, or not with that attribute"),
    ("<comment>", "<creator/><comment>", "Twice AT",
     "line 6, column 3 in <ltfsindex>: '<creator/><comment>Nightly &amp; weekly</comment>' stands there; that element"
     " stands there already"),
    ("<readonly>false", "<readonly>FALSE", "Syntax AT",
     "line 27, column 15 in <readonly> of the directory with UID 1 ('Archive'): 'FALSE</readonly>' stands there"),
    ("</file>\n    </contents>\n  </directory>\n</ltfsindex>\n", "", "Syntax END",
     "line 73, column 7 in the link with UID 4 ('latest'): the document ends there, too early"),
)


def documents():
    text, found = (TOP / "examples/archive.xml").read_text(), []
    for nth, (old, new, line, wanted) in enumerate(REFUSALS):
        changed = text.replace(old, new, 1)
        if new.startswith("<bytecount>"):
            changed = changed.replace("<fileoffset>0<", "<fileoffset>1<")
        changed = changed.encode()
        stands = re.sub(r"\.\.$", "", wanted.split(": '")[-1].split("' stands")[0]).encode()
        line = line.replace("AT", str(changed.find(stands))).replace("END", str(len(changed)))
        ran, lines = lines_of_document(changed, ("pipe", "file", "input")[nth % 3])
        found += compare(f"status where {line}", 2, ran.status) + compare("its line", f"{line}\n", ran.out.decode())
        found += compare(f"lines where {line}", [wanted], lines)
    return found + large_documents()


def node(tag, uid, more):
    times = "".join(f"<{it}time>{AT}</{it}time>" for it in ("creation", "change", "modify", "access", "backup"))
    return f"<{tag}><fileuid>{uid}</fileuid><name>n{uid}</name>{times}<readonly>false</readonly>{more}</{tag}>"


def large_documents():
    """A node too many, two extents that share bytes, and a key that a node has twice."""
    front = (TOP / "examples/archive.xml").read_text().split("  <directory>")[0].replace(">4</h", ">70000</h")

    def whole(inside):
        return (front + node("directory", 1, f"<contents>{inside}</contents>") + "</ltfsindex>").encode()

    extents = "".join(f"<extent><fileoffset>{at}</fileoffset><partition>b</partition><startblock>7</startblock>"
                      f"<byteoffset>0</byteoffset><bytecount>{count}</bytecount></extent>"
                      for at, count in ((10, 5), (0, 12)))
    keys = "".join(f"<xattr><key>{it}</key><value>x</value></xattr>" for it in "aba")
    found = []
    for name, text, line in (
        ("extents", whole(node("file", 5, f"<length>20</length><extentinfo>{extents}</extentinfo>")),
         "two extents of the file with UID 5 ('n5') share its bytes 10 to 11: that at "),
        ("keys", whole(node("file", 6, f"<length>0</length><extendedattributes>{keys}</extendedattributes>")),
         "the file with UID 6 ('n6') has the key 'a' twice"),
    ):
        ran, lines = lines_of_document(text, "pipe")
        found += compare(f"status of {name}", 2, ran.status)
        found += compare(f"lines of {name}", [line], [it[:len(line)] for it in lines])
    return found


def input_of_index_tool():
    """What stands behind the place where standard input stood is read, and no copy of a pipe is left."""
    here, temporary = fresh_folder(), fresh_folder()
    (here / "two").write_bytes(b"a line\n<ltfsindex/>\n")
    line = f"{{ read -r; '{ready()}/index_tool' check; }} < two"
    ran = run_at_terminal(["bash", "-c", line], here)
    found = compare("status", 2, ran.status)
    told = "index_tool: line 1, column 1: no version stands there; those of 2.0 to 2.4 are read, as 2.4.0"
    found += compare("line", told, ran.lines()[-1])
    ran = run_at_terminal([ready() / "index_tool", "check"], here, b"<ltfsindex/>", environment(TMPDIR=temporary))
    found += compare("status of a pipe", 2, ran.status) + compare("left behind", [], os.listdir(temporary))
    status, out, said = at_both_terminals([ready() / "index_tool", "check"], b"<ltfsindex/>\n\x04", here)
    found += compare("what is typed", [2, b"Version\n"], [status, out])
    return found + compare("its line", told, said.splitlines()[-1]) + interrupted(temporary)


def interrupted(temporary):
    """A run that is told to stop while it reads leaves neither a copy nor who makes it."""
    def tell(process):
        await_program(process)
        time.sleep(1)
        os.killpg(process.pid, signal.SIGINT)
        process.wait(timeout=60)

    ran = run_at_terminal(["./index_tool", "check"], ready(), env=environment(TMPDIR=temporary), meanwhile=tell,
                          start_new_session=True)
    found = compare("status of an interrupt", 130, ran.status)
    return found + compare("left behind it", [[], []], [os.listdir(temporary), processes_of(temporary)])


# ---- the question before a volume is wiped

def at_both_terminals(words, typed, cwd):
    """A run with a terminal for standard input and standard error, at which this is typed."""
    here, there = pty.openpty()
    how = {"stdin": there, "stdout": subprocess.PIPE, "stderr": there}
    with subprocess.Popen(words, cwd=cwd, env=environment(), **how) as process:
        os.close(there)
        said = []
        reading = threading.Thread(target=read_terminal, args=[here, said])
        reading.start()
        os.write(here, typed)
        out = process.stdout.read()
        status = process.wait(timeout=900)
        reading.join()
    os.close(here)
    return status, out, b"".join(said).decode().replace("\r\n", "\n")


def sums(folder):
    return [it.read_bytes() for it in sorted(folder.iterdir())]


def asks_before_format():
    """At a terminal the name of a volume is asked for before it is wiped."""
    where, found = ready(), []
    named, unnamed, empty = archive(), volume(where), fresh_folder()
    done = f"formatted {UUID}\n".encode()
    for folder, typed, more, asked in (
        (named, b"archive\n", [], "name, 'Archive'"), (named, b"\n", [], "name, 'Archive'"),
        (named, b"\x04", [], "name, 'Archive'"), (named, b"yes\nArchive\n", [], "name, 'Archive'"),
        (unnamed, b"TAPE02\n", [], "identifier, 'TAPE01'"),
    ):
        before = sums(folder)
        status, out, said = at_both_terminals([where / "ltfs_server", *format_words(folder), *more], typed, where)
        of = f" where {typed} is typed"
        found += compare("status" + of, 1, status) + compare("output" + of, b"", out)
        found += compare("files" + of, before, sums(folder))
        found += compare("question" + of, True, f"type its {asked}, to go on: " in said)
        found += compare("end" + of, True, said.endswith("nothing was changed\n"))
    for folder, typed, more in ((named, b"Archive\n", []), (unnamed, b"TAPE01\n", []), (unnamed, b"", ["--yes"]),
                                (empty, b"", [])):
        status, out, said = at_both_terminals([where / "ltfs_server", *format_words(folder), *more], typed, where)
        of = f" of {folder} where {typed} is typed"
        found += compare("status" + of, 0, status) + compare("output" + of, done, out)
        found += compare("whether it asks" + of, bool(typed), "type its " in said)
    return found


def asks_nobody_else():
    """No question is asked where there is no terminal, of words that don't fit, or of a command that wipes nothing."""
    where, found = ready(), []
    for words, status in ((format_words(archive()), 0), ([*format_words(archive()), "--yes"], 0)):
        ran = run(["./ltfs_server", *words], where)
        found += compare("status", status, ran.status) + compare("output", f"formatted {UUID}\n".encode(), ran.out)
    folder = archive()
    before = sums(folder)
    status, out, said = at_both_terminals(["./ltfs_server", "format", folder, "TAPE01"], b"", where)
    found += compare("status of words that don't fit", [1, b"words\n"], [status, out])
    found += compare("whether it asks then", False, "type its" in said) + compare("files", before, sums(folder))
    status, out, said = at_both_terminals(["./ltfs_server", "list", folder], b"", where)
    return found + compare("a list", [0, False], [status, "type its" in said])


# ---- other forms of output

def json_of(words, status=0):
    ran = run([ready() / "ltfs_server", *words, "--json"], fresh_folder())
    return json.loads(ran.out), compare(f"status of {words[0]} --json", status, ran.status)


def json_and_human():
    """By hand from the lines that `list` and `generations` print of examples/archive."""
    folder, found = TOP / "examples/archive", []
    for words, status, wanted in (
        (["list", folder], 0,
         {"nodes": [{"kind": "directory", "uid": 1, "path": "/"}, {"kind": "directory", "uid": 2, "path": "/docs"},
                    {"kind": "file", "uid": 3, "length": 5, "path": "/docs/read me.txt"},
                    {"kind": "link", "uid": 4, "path": "/latest", "target": "docs/read me.txt"}],
          "generation": 3, "partition": "b", "block": 9}),
        (["list", folder, "--all"], 0,
         {"nodes": [{"kind": "directory", "uid": 1, "path": "/"}, {"kind": "directory", "uid": 2, "path": "/docs"},
                    {"kind": "file", "uid": 3, "length": 5, "path": "/docs/read me.txt"},
                    {"kind": "link", "uid": 4, "path": "/latest", "target": "docs/read me.txt"}],
          "lock": "unlocked", "generation": 3, "partition": "b", "block": 9}),
        (["generations", folder], 0,
         {"generations": [{"generation": 3, "block": 9, "time": "2020-01-28T19:39:57.245954278Z", "nodes": 4},
                          {"generation": 1, "block": 5, "time": "2020-01-28T19:39:57.245954278Z", "nodes": 1}],
          "count": 2}),
        (["list", folder / "missing"], 4, {"nodes": [], "error": "drive 0 1"}),
        (["generations", fresh_folder()], 3, {"generations": [], "error": "volume Vol1 ip"}),
        (["list", folder, "--at", AT], 1, {"nodes": [], "error": "words"}),
    ):
        came, differences = json_of(words, status)
        found += differences + compare(f"document of {words}", wanted, came)
    made = volume(ready())
    script = b"1 create /%C3%A9%0A\n1 truncate /%C3%A9%0A 1536\n1 create /b\n1 truncate /b 1099511627776\n"
    run(["./ltfs_server", "serve", made], ready(), script)
    came, differences = json_of(["list", made])
    found += differences + compare("path", "/é\n", came["nodes"][2]["path"])
    ran = run([ready() / "ltfs_server", "list", "--human", made], fresh_folder())
    found += compare("a flag in place of the folder", 1, ran.status)
    ran = run([ready() / "ltfs_server", "list", made, "--human"], fresh_folder())
    # The labels take the first four positions, the first index three, and a mark opens the second one.
    lines = ["d 1 /", "f 3 1.0TiB /b", "f 2 1.5KiB /%C3%A9%0A", "generation 2 b 8"]
    found += compare("lines for people", lines, ran.out.decode().splitlines())
    full = run([ready() / "ltfs_server", "list", made, "--json"], fresh_folder(), stdout=open("/dev/full", "wb"))
    return found + compare("status of a full disk", 6, full.status)


def large_json():
    """A listing of 65,536 nodes takes the filter a few seconds, and is one document."""
    lines = ["d 1 /", *(f"f {it} {it * 1_000} /n%20{it}" for it in range(2, 65_537)), "generation 2 b 9"]
    words = [sys.executable, "-B", TOP / "launch/filters.py", "json", "list"]
    ran = run(words, TOP, "\n".join(lines).encode() + b"\n")
    found = compare("status", 0, ran.status) + compare("nodes", 65_536, len(json.loads(ran.out)["nodes"]))
    found += compare("whether it takes less than 10 seconds", True, ran.seconds < 10)
    cut = json.loads(run(words, TOP, b"d 1 /\nmemory\n").out)
    wanted = {"nodes": [{"kind": "directory", "uid": 1, "path": "/"}], "error": "memory"}
    return found + compare("what is cut off", wanted, cut)


def all_in_other_forms():
    """What `list --all` prints of attributes, read-only nodes and the lock state, in both other forms."""
    lines = (b"d 1 / readonly\nx 2048 / a%20b\nx 0 / %C3%A9\nf 2 1536 /f readonly\n"
             b"l 3 /l  readonly\nx 7 /l k\nl 4 /m f\n")
    ends = b"lock permlocked\ngeneration 1 b 5\n"
    nodes = [{"kind": "directory", "uid": 1, "path": "/", "readonly": True,
              "attributes": [{"key": "a b", "length": 2_048}, {"key": "é", "length": 0}]},
             {"kind": "file", "uid": 2, "length": 1_536, "path": "/f", "readonly": True},
             {"kind": "link", "uid": 3, "path": "/l", "target": "", "readonly": True,
              "attributes": [{"key": "k", "length": 7}]},
             {"kind": "link", "uid": 4, "path": "/m", "target": "f"}]
    whole = {"nodes": nodes, "lock": "permlocked", "generation": 1, "partition": "b", "block": 5}
    words, found = [sys.executable, "-B", TOP / "launch/filters.py"], []
    for text, wanted in ((lines + ends, whole), (lines + b"memory\n", {"nodes": nodes, "error": "memory"}),
                         (lines + ends[:16], {"nodes": nodes, "error": "cut off"})):
        found += compare("document", wanted, json.loads(run([*words, "json", "list"], TOP, text).out))
    wanted = (lines + ends).replace(b"x 2048", b"x 2.0KiB").replace(b"x 0", b"x 0B").replace(b"1536", b"1.5KiB")
    return found + compare("lines for people", wanted.replace(b"x 7", b"x 7B"),
                           run([*words, "human", "list"], TOP, lines + ends).out)


def sizes_for_people():
    filters = importlib.import_module("filters")
    return [it for size, wanted in ((0, "0B"), (1_023, "1023B"), (1_024, "1.0KiB"), (1_048_575, "1.0MiB"),
                                    (1_048_576, "1.0MiB"), (2_621_440, "2.5MiB"), (2**40, "1.0TiB"))
            for it in compare(f"{size} bytes", wanted, filters.human(size))]


# ---- pages

def completed(program, *words):
    """What bash completes behind these words, of which the last one is completed."""
    script = f"""source <(./{program} --completions); COMP_WORDS=({program} {' '.join(words)})
    COMP_CWORD={len(words)}; _{program}; printf '%s\\n' "${{COMPREPLY[@]}}\""""
    return run(["bash", "-c", script], ready()).out.decode().split()


def completions():
    found, files = [], [f"examples/archive{it}" for it in ("", ".log", ".script", ".words", ".xml")]
    for words, wanted in (
        (["ltfs_server", "l"], ["label", "list"]), (["ltfs_server", "help", "se"], ["serve"]),
        (["ltfs_server", "list", "d", "--"], ["--all", "--human", "--json", "--help"]),
        (["ltfs_server", "format", "d", "--ip"], ["--ip-size", "--ip-names"]),
        (["ltfs_server", "--ver"], ["--version"]), (["ltfs_server", "list", "exam"], ["examples"]),
        (["index_tool", "c"], ["check", "canon"]), (["index_tool", "check", "examples/arch"], files),
    ):
        found += compare(f"what {words} becomes", sorted(wanted), sorted(completed(*words)))
    return found


def man_pages():
    """The page has the lines of each help as they are, and groff says nothing against it."""
    found = []
    for program in PROGRAMS:
        ran = run([f"./{program}", "--man"], ready())
        text = ran.out.decode()
        found += compare(f"status of {program} --man", 0, ran.status)
        plain = text.replace("\\-", "-").replace("\\e", "\\").replace("\\&", "")
        for it in (TOP / "launch/help").glob(f"{program}-*.txt"):
            found += compare(f"whether it has {it.name}", True, it.read_text().strip("\n") in plain)
        if shutil.which("groff"):
            shown = run(["groff", "-man", "-ww", "-Tutf8"], ready(), ran.out)
            found += compare(f"what groff says of {program}", [0, b""], [shown.status, shown.err])
    return found


CASES = {
    "words_fit": words_fit,
    "usage_lines": usage_lines,
    "words_at_terminal": words_at_terminal,
    "help_and_version": help_and_version,
    "index_files": index_files,
    "documents": documents,
    "input_of_index_tool": input_of_index_tool,
    "asks_before_format": asks_before_format,
    "asks_nobody_else": asks_nobody_else,
    "json_and_human": json_and_human,
    "large_json": large_json,
    "all_in_other_forms": all_in_other_forms,
    "sizes_for_people": sizes_for_people,
    "completions": completions,
    "man_pages": man_pages,
}
