"""What a person at a terminal is told of a run that failed: what can be seen, and nothing that could cost a volume."""

import fcntl
import os
import shutil
import subprocess
import time

import images
from cases import NotTried, compare
from clones import (NOBODY, TOP, UUID, environment, fresh_folder, ready, run, run_at_terminal, volume)

# Words that no advice has, where a volume may be sound.
HARMFUL = ("remove", "wipe", "delete", "format it", "rm ")


def told(words, **more):
    """A run at a terminal, and the lines that are told behind the sentence of its status."""
    ran = run_at_terminal(["./ltfs_server", *words], ready(), **more)
    lines = ran.lines()
    at = [nth for nth, it in enumerate(lines) if it.startswith(f"ltfs_server: status {ran.status}: ")]
    return ran, [it[len("ltfs_server: "):] for it in lines[at[0] + 1:]] if at else []


def compare_told(of, words, status, lines, **more):
    """Compares how a run ends, and what is told then."""
    ran, came = told(words, **more)
    return compare(f"status of {of}", status, ran.status) + compare(f"lines of {of}", lines, came)


def without_harm(of, ran):
    """No line of what was told proposes to remove or to format anything."""
    return compare(f"harmful words of {of}", [], [it for it in HARMFUL if it in ran.err.decode()])


def format_words(folder):
    return ["format", folder, "TAPE01", UUID]


def as_nobody():
    """How to run as a user who may not write what belongs to others; nothing where this one is such a user."""
    return {"user": NOBODY, "group": NOBODY, "extra_groups": []} if os.geteuid() == 0 else {}


def archive():
    """A folder with a sound volume, of generations 3 and 1."""
    folder = fresh_folder() / "archive"
    shutil.copytree(TOP / "examples/archive", folder)
    folder.parent.chmod(0o755)
    return folder


def owner(path):
    """To whom a file belongs, as `ls` says it."""
    facts = subprocess.run(["stat", "-c", "%U:%G %04a", path], capture_output=True, check=True).stdout.decode().split()
    return f"it belongs to {facts[0]}, and its mode is {facts[1]}"


def no_wipe_of_what_cannot_be_written():
    """A sound volume that the user may not write is not called damaged, and nothing of it is to be removed."""
    folder, found = archive(), []
    for it in folder.iterdir():
        it.chmod(0o444)
    folder.chmod(0o555)
    lines = [f"you may not write {folder}/{it}.img: {owner(folder / 'cm.img')}" for it in ("cm", "ip", "dp")]
    before = [it.read_bytes() for it in sorted(folder.iterdir())]
    for words in (format_words(folder), ["serve", folder], ["make", folder, "1"]):
        given = {} if words[0] != "serve" else {"given": b"1 create /x\n"}
        ran, came = told(words, **as_nobody(), **given)
        found += compare(f"status of {words[0]}", 4, ran.status) + compare(f"lines of {words[0]}", lines, came)
        found += without_harm(words[0], ran)
    found += compare("status of a list", 0, told(["list", folder], **as_nobody())[0].status)
    folder.chmod(0o755)
    return found + compare("the files", before, [it.read_bytes() for it in sorted(folder.iterdir())])


def no_generation():
    """A generation that a sound volume lacks is told as that."""
    folder = archive()
    ran, lines = told(["view", folder, "99"])
    found = compare("status", 3, ran.status) + compare("output", b"volume NoGeneration 99\n", ran.out)
    wanted = [f"the volume in {folder} has no generation 99; which it has is told by:"
              f" ./ltfs_server generations '{folder}'"]
    return found + compare("lines", wanted, lines) + without_harm("view", ran)


def broken():
    """An older index that isn't sound is told as that: the first character of generation 1's is another one."""
    folder = archive()
    items = images.read(folder)
    items["dp"][5] = b"#" + items["dp"][5][1:]
    images.write(folder, items["ip"], items["dp"])
    found = []
    for words in (["generations", folder], ["view", folder, "1"]):
        ran, lines = told(words)
        found += compare(f"status of {words[0]}", 3, ran.status)
        found += compare(f"output of {words[0]}", b"volume Broken 5 Text Syntax 0\n", ran.out)
        wanted = ["of the indexes on the data partition, from the newest back, the one that begins at block 5 isn't"
                  " sound (Text Syntax 0), and none older can be told; whether the newest tree can be read is told by:"
                  f" ./ltfs_server list '{folder}'"]
        found += compare(f"lines of {words[0]}", wanted, lines) + without_harm(words[0], ran)
    return found + compare("status of the list", 0, told(["list", folder])[0].status)


def folders():
    """A folder that isn't there, is no folder, or can't be looked into."""
    here, found = fresh_folder(), []
    here.chmod(0o755)
    (here / "file").write_bytes(b"")
    (here / "link").symlink_to("gone")
    (here / "closed").mkdir(mode=0o700)
    for words, line in (
        (["list", here / "missing"], f"there is no folder {here}/missing"),
        (format_words(here / "missing"), f"there is no folder {here}/missing"),
        (["serve", here / "file"], f"{here}/file is a file, and has to be a folder"),
        (["label", here / "file/under"], f"{here}/file/under can't be looked at: Not a directory"),
        (["view", here / "link", "1"], f"{here}/link is a link to gone, which isn't there"),
        (["generations", ""], "the name of the folder is empty"),
    ):
        found += compare_told(f"{words[0]} {words[1]}", words, 4, [line])
    line = f"you may not read the folder {here}/closed: {owner(here / 'closed')}"
    (here / "closed").chmod(0o700 if os.geteuid() == 0 else 0)
    line = line if os.geteuid() == 0 else line.replace("0700", "0000")
    return found + compare_told("list of a closed folder", ["list", here / "closed"], 4, [line], **as_nobody())


def empty_folders():
    """Only a folder without any file of a cartridge is told to be formatted."""
    empty, other, older, short = (fresh_folder() for _ in "1234")
    (other / "letter.txt").write_bytes(b"x")
    (older / "ip.map").write_bytes(b"")
    for name, size in (("cm", 100), ("ip", 0), ("dp", 0)):
        (short / f"{name}.img").write_bytes(bytes(size))
    found, first = [], "format it first, as './ltfs_server help format' tells, if it is the right folder"
    for folder, line in (
        (empty, f"{empty} is empty: {first}"),
        (other, f"{other} has no file of a cartridge: {first}"),
        (older, f"the files of {older} are of an earlier form, which is not read; docs/FORMATS.md says how to bring"
                " them over"),
        (short, f"ip.img and dp.img of {short} have no bytes, and cm.img has 100 bytes of 512: nothing was written"
                " there"),
    ):
        for words in (["list", folder], ["serve", folder]):
            found += compare_told(f"{words[0]} {folder}", words, 3, [line])
    return found


def changed(folder, name, at, new):
    """A copy of the folder in which a file has these bytes at a place; None cuts it off there."""
    where = fresh_folder() / "changed"
    shutil.copytree(folder, where)
    text = (where / name).read_bytes()
    (where / name).write_bytes(text[:at] if new is None else text[:at] + new + text[at + len(new):])
    return where


def refused_images():
    """Header and record reach a person, with the file and the byte. Places are counted by docs/FORMATS.md: the data
    partition begins with a VOL1 block of 80 bytes and a mark, so that record 2 begins at byte 90."""
    folder, found = archive(), []
    for it in ("cm", "ip", "dp"):
        (folder / f"{it}.img").touch()
    images.write(folder, **images.read(folder))
    end = (folder / "dp.img").stat().st_size
    for (name, at, new), what, where, why in (
        (("cm.img", 511, None), "Header", 511, "it has 511 bytes, and that of an image has 512"),
        (("cm.img", 0, None), "Header", 0, "it has 0 bytes, and that of an image has 512"),
        (("cm.img", 512, b"\0"), "Header", 512, "it has 513 bytes, and that of an image has 512"),
        (("cm.img", 0, b"\0"), "Header", 0, "the gates of both slots are closed"),
        (("cm.img", 33, b"\2"), "Header", 33, "a flag is 02h in place of 00h or 01h"),
        (("cm.img", 17, (65_537).to_bytes(8, "big")), "Header", 17,
         "65,537 records of ip.img are to count, and 65,536 is the most"),
        (("dp.img", 0, b"x"), "Record(Dp, 0)", 0, "it begins with the byte 78h in place of B, M or T"),
        (("dp.img", 86, b"\0\0\0\1"), "Record(Dp, 1)", 86,
         "four zeros have to stand behind its letter, and 00000001h does"),
        (("dp.img", 91, b"\0\x10\0\1"), "Record(Dp, 2)", 91,
         "it is a block of 1,048,577 bytes, and one has 1 to 1,048,576"),
        (("dp.img", 88, None), "Record(Dp, 1)", 85,
         f"its head isn't whole: the file ends at byte 88, and its records at {end:,}"),
        (("dp.img", 0, None), "Record(Dp, 0)", 0,
         f"its head isn't whole: the file ends at byte 0, and its records at {end:,}"),
    ):
        damaged = changed(folder, name, at, new)
        lines = [f"{what}: {damaged}/{name}, byte {where:,}: {why}",
                 f"no command writes over such files; keep a copy of {damaged}, and take a new folder for a new"
                 " volume"]
        # `format` judges a folder as `list` does, and is asked of two of them.
        for words in (["list", damaged], format_words(damaged))[:2 if at == 0 else 1]:
            ran, came = told(words)
            found += compare(f"status of {words[0]} where {why}", 4, ran.status) + compare("lines", lines, came)
            found += without_harm(f"{words[0]} where {why}", ran)
    return found + missing_files(folder)


def missing_files(folder):
    """One of the three files is missing, and one is no file."""
    found = []
    for name, what, why in (
        ("cm.img", "Header", "it has 0 bytes, and that of an image has 512"),
        ("ip.img", "Record(Ip, 0)", "the file is missing, and 7 records of it count"),
        ("dp.img", "Record(Dp, 0)", "the file is missing, and 11 records of it count"),
    ):
        where = changed(folder, name, 0, b"")
        (where / name).unlink()
        ran, lines = told(["list", where])
        found += compare(f"status without {name}", 4, ran.status)
        found += compare(f"line without {name}", f"{what}: {where}/{name}, byte 0: {why}", (lines or [""])[0])
        (where / name).symlink_to(folder / name)
        line = f"{where}/{name} is a link, and has to be a file"
        found += compare_told(f"a link {name}", ["list", where], 4, [line])
    return found


def in_use():
    """Who has the folder is told by its number and its command: this process, and another user's."""
    folder, found = volume(ready()), []
    here, words = os.getpid(), "sleep 600"
    held = os.open(folder, os.O_RDONLY)
    for lock, reads, runs in ((fcntl.LOCK_EX, "", ("list", "serve")), (fcntl.LOCK_SH, " to read", ("serve",))):
        fcntl.flock(held, lock)
        for command in runs:
            ran, lines = told([command, folder])
            begins = f"{folder} is in use{reads} by process {here}: "
            found += compare(f"status of {command}", 4, ran.status) + without_harm(command, ran)
            found += compare(f"line of {command}", [begins], [it[:len(begins)] for it in lines])
    os.close(held)
    with subprocess.Popen(["flock", folder, *words.split()], start_new_session=True) as process:
        try:
            while not is_locked(folder):
                time.sleep(0.05)
            ran, lines = told(["list", folder])
            wanted = f"{folder} is in use by process {process.pid}: flock {folder} {words}"
            found += compare("lines where flock has it", [wanted], lines)
            folder.chmod(0o755)
            ran, lines = told(["list", folder], **as_nobody())
            found += compare("who else is told so", [4, 1], [ran.status, len(lines)])
            found += compare("how that begins", f"{folder} is in use by ", lines[0][:len(f"{folder} is in use by ")])
        finally:
            os.killpg(process.pid, 15)
    return found


def is_locked(folder):
    opened = os.open(folder, os.O_RDONLY)
    try:
        fcntl.flock(opened, fcntl.LOCK_SH | fcntl.LOCK_NB)
        return False
    except BlockingIOError:
        return True
    finally:
        os.close(opened)


def mounted(size, *more):
    """A small file system of its own, or None where none can be mounted."""
    place = fresh_folder()
    words = ["mount", "-t", "tmpfs", "-o", ",".join([f"size={size}", *more]), "tmpfs", place]
    return place if os.geteuid() == 0 and subprocess.run(words, capture_output=True).returncode == 0 else None


def full_and_read_only():
    """No space left, and a file system that can only be read."""
    place, found = mounted(1 << 20), []
    if place is None:
        return NotTried("no file system can be mounted here")
    try:
        run(["./ltfs_server", *format_words(place), "--block", "4096"], ready())
        script = b"1 create /f\n" + b"".join(b"1 write /f %d fill:61:65536\n" % (65_536 * it) for it in range(20))
        ran, lines = told(["serve", place], given=script)
        found += compare("status of a serve without space", 4, ran.status) + without_harm("serve", ran)
        found += compare("lines", [f"the file system of {place} has 0 bytes left"], lines)
        subprocess.run(["mount", "-o", "remount,ro", place], check=True)
        found += compare_told("a serve of what can only be read", ["serve", place], 4,
                              [f"{place} lies on a file system that can only be read"], given=b"1 create /g\n")
    finally:
        subprocess.run(["umount", "-l", place], check=True)
    return found


def without_python():
    """Where there is no Python, the program runs, and the sentence of its status is all that is told."""
    here = fresh_folder()
    for it in ("bash", "awk", "find", "sort", "xargs", "sha256sum", "sed", "dirname", "readlink", "env", "git", "cat",
               "head", "cut", "tail", "rt"):
        if shutil.which(it):
            (here / it).symlink_to(shutil.which(it))
    found = []
    for words, status in ((["list", here / "missing"], 4), (["view", archive(), "99"], 3), (["fly"], 1)):
        ran, lines = told(words, env=environment(PATH=here))
        found += compare(f"status of {words[0]}", status, ran.status) + compare(f"lines of {words[0]}", [], lines)
        sentences = [it for it in ran.lines() if it.startswith(f"ltfs_server: status {status}: ")]
        found += compare(f"sentences of {words[0]}", 1, len(sentences)) + without_harm(words[0], ran)
    ran = run(["./ltfs_server", "list", "examples/archive", "--json"], ready(), env=environment(PATH=here))
    found += compare("status of --json", 125, ran.status)
    return found + compare("its line", ["ltfs_server: python3, which does what '--json' asks for, isn't on the path"],
                           ran.lines()[-1:])


def statuses_are_harmless():
    """No sentence of a status proposes to remove or to format anything."""
    texts = [it.read_text() for it in (TOP / "launch/help").glob("*.statuses")]
    return compare("harmful words", [], [it for it in HARMFUL for text in texts if it in text])


CASES = {
    "no_wipe_of_what_cannot_be_written": no_wipe_of_what_cannot_be_written,
    "no_generation": no_generation,
    "broken": broken,
    "folders_that_fail": folders,
    "empty_folders": empty_folders,
    "refused_images": refused_images,
    "in_use": in_use,
    "full_and_read_only": full_and_read_only,
    "without_python": without_python,
    "statuses_are_harmless": statuses_are_harmless,
}
