"""Looks why a run over the folder of a cartridge failed, as far as that can be seen, and changes nothing there."""

import grp
import os
import pwd
import stat

from claims import told_claims, unseen_claim
from image_reader import NAMES, counted, path_of, refusal_of
from shown import shown

EARLIER = ("ip.map", "ip.dat", "dp.map", "dp.dat", "cm")
WRITING = ("format", "serve", "make")
# What a failed write has left free is less than a block.
LITTLE = 2**20
KINDS = {stat.S_IFDIR: "a folder", stat.S_IFLNK: "a link", stat.S_IFIFO: "a pipe", stat.S_IFSOCK: "a socket",
         stat.S_IFCHR: "a device", stat.S_IFBLK: "a device", stat.S_IFREG: "a file"}


def why_failed(folder, command):
    """Lines that say why the drive over the folder failed, or none where nothing of it can be seen. The first look
    that finds something ends it."""
    looks = [no_folder, closed_folder, in_use, no_file, closed_files, no_image, cannot_write, no_space,
             in_use_unseen]
    try:
        return next(filter(None, (look(folder, command) for look in looks)), [])
    except OSError:
        return []  # it changes meanwhile


def kind_of(mode):
    return KINDS.get(stat.S_IFMT(mode), "no file")


def owned(path):
    """To whom a file belongs, and what its mode is."""
    facts = os.stat(path)
    user, group = named(pwd.getpwuid, facts.st_uid), named(grp.getgrgid, facts.st_gid)
    return f"it belongs to {user}:{group}, and its mode is {stat.S_IMODE(facts.st_mode):04o}"


def named(look_up, number):
    try:
        return look_up(number)[0]
    except KeyError:
        return str(number)


def may(path, how):
    return os.access(path, how, effective_ids=os.access in os.supports_effective_ids)


def image_files(folder):
    """The paths of those of the three files that are there."""
    return [it for it in (path_of(folder, name) for name in NAMES) if os.path.lexists(it)]


def earlier_files(folder):
    return [it for it in EARLIER if os.path.lexists(os.path.join(folder, it))]


# ---- the looks

def no_folder(folder, _):
    try:
        mode = os.stat(folder).st_mode
    except FileNotFoundError:
        if os.path.islink(folder):
            return [f"{shown(folder)} is a link to {shown(os.readlink(folder))}, which isn't there"]
        return [f"there is no folder {shown(folder)}" if folder else "the name of the folder is empty"]
    except OSError as error:
        return [f"{shown(folder)} can't be looked at: {error.strerror}"]
    return [] if stat.S_ISDIR(mode) else [f"{shown(folder)} is {kind_of(mode)}, and has to be a folder"]


def closed_folder(folder, _):
    return [] if may(folder, os.R_OK | os.X_OK) else [f"you may not read the folder {shown(folder)}: {owned(folder)}"]


def in_use(folder, command):
    return told_claims(folder, command in WRITING)


def in_use_unseen(folder, command):
    return unseen_claim(folder, command in WRITING)


def no_file(folder, _):
    kinds = [(it, os.lstat(it).st_mode) for it in image_files(folder)]
    return [f"{shown(it)} is {kind_of(mode)}, and has to be a file" for it, mode in kinds if not stat.S_ISREG(mode)]


def closed_files(folder, _):
    return [f"you may not read {shown(it)}: {owned(it)}" for it in image_files(folder) if not may(it, os.R_OK)]


def no_image(folder, _):
    """What the reader of the image says of the first header or record that it refuses."""
    refusal = refusal_of(folder)
    if not refusal:
        return []
    at = f"{shown(path_of(folder, refusal.name))}, byte {refusal.at:,}"
    return [f"{refusal.what}: {at}: {refusal.why}",
            f"no command writes over such files; keep a copy of {shown(folder)}, and take a new folder for a new"
            " volume"]


def cannot_write(folder, command):
    if command not in WRITING:
        return []
    if os.statvfs(folder).f_flag & os.ST_RDONLY:
        return [f"{shown(folder)} lies on a file system that can only be read"]
    files = image_files(folder)
    lines = [f"you may not write {shown(it)}: {owned(it)}" for it in files if not may(it, os.W_OK)]
    if len(files) < len(NAMES) and not may(folder, os.W_OK | os.X_OK):
        lines.append(f"you may make no file in {shown(folder)}: {owned(folder)}")
    return lines


def no_space(folder, command):
    if command not in WRITING:
        return []
    facts = os.statvfs(folder)
    left = facts.f_bavail * facts.f_frsize
    if left < LITTLE:
        return [f"the file system of {shown(folder)} has {counted(left, 'byte')} left"]
    if facts.f_files and not facts.f_favail and len(image_files(folder)) < len(NAMES):
        return [f"the file system of {shown(folder)} has room for no other file"]
    return []
