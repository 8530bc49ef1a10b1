"""Puts folders into disks with `xnfs` as a new user would, gets them back, and compares them.

A folder of files of all sizes, with holes, hard and symbolic links, modes, owners, times and odd names in UTF-8 is put and got back, by one line and by a
shell: `diff -r --no-dereference` has to find nothing, and modes, owners, times, holes and which names are one file are compared. Names that are no UTF-8 are
told and left out. One folder of 100 small files is put, listed, changed line by line and by a shell, repaired and got back. One that the disk is too small
for has to end with a fault that names the limit, and to leave what was put by then whole and the disk sound; another disk is filled and emptied some times,
and has as many free blocks then as before. A folder with thousands of names is filled, listed and emptied. On a terminal `put` and `get` of a folder tell how
many files are done; elsewhere they print nothing. It is run as root, for the owners.
"""

import filecmp
import os
import pty
import random
import re
import shutil
import stat
import subprocess
import tempfile

from trials.disks import XNFS, is_sound
from trials.programs import demand, run
from trials.tally import Tally

NAMES = [
    "größe", "日本語", "e\u0301", "é", " ", "two  words", "-r", "--help", "'", '"', "#", "*", "?", "[a]", "~", "$HOME", ".hidden", "...", "a" * 255, "ü" * 127,
    "😀", "%s", "CON", "a:b", "x;y", "\u200b", "\u202e",
]
# Names of such bytes are left out.
NO_TEXT = [b"\xff", b"a\xffb", b"\xc3", b"\xed\xa0\x80"]


class Wrong(Exception):
    """Something came otherwise than it is to be."""


def write_file(path, data, mode=0o644):
    with open(path, "wb") as file:
        file.write(data)
    os.chmod(path, mode)


def write_files(folder, name, count, most):
    """Makes a folder of the system with small files, a tenth of them in a folder below."""
    rng = random.Random(count)
    os.makedirs(os.path.join(folder, name, "below"))
    for number in range(count):
        below = "below/" if number % 10 == 0 else ""
        write_file(os.path.join(folder, name, f"{below}file{number:03}.txt"), rng.randbytes(rng.randrange(most)))


def line(folder, *words, given=b"", status=0):
    """What a line prints, which has to be done."""
    done, out, err = run(XNFS, list(words), folder, given)
    if done != status or (status == 0 and err):
        raise Wrong(words, done, err)
    return out if status == 0 else err


def is_same(folder, one, other):
    return subprocess.run(["diff", "-r", "--no-dereference", one, other], cwd=folder, check=False).returncode == 0


def attributes(top):
    """What the system tells of all below a folder: kind, mode, owner, time of files and folders, whether there are holes, and which names are one file."""
    found, names = {}, {}
    for above, folders, files in os.walk(os.fsencode(top)):
        for name in folders + files:
            path = os.path.join(above, name)
            it = os.lstat(path)
            told = path[len(top) :]
            is_link = stat.S_ISLNK(it.st_mode)
            found[told] = it.st_uid, it.st_gid, *((os.readlink(path),) if is_link else (it.st_mode, it.st_mtime_ns))
            if stat.S_ISREG(it.st_mode):
                found[told] += (it.st_size, it.st_blocks * 512 < it.st_size - 4096)
            if stat.S_ISREG(it.st_mode):
                names.setdefault(it.st_ino, set()).add(told)
    return found, {frozenset(paths) for paths in names.values()}


def compare(folder, one, other):
    """That two folders of the system are the same."""
    if not is_same(folder, one, other):
        raise Wrong(one, other, "are not the same")
    (found, names), (others, other_names) = (attributes(os.path.join(folder, it)) for it in (one, other))
    for path in sorted({*found, *others}):
        if found.get(path) != others.get(path):
            raise Wrong(path, found.get(path), others.get(path))
    if names != other_names:
        raise Wrong("names of one file", names ^ other_names)


def write_odd(top, rng):
    """Makes a folder of the system with all that may stand in one."""
    os.makedirs(os.path.join(top, "deep" * 20, "er", "est"))
    os.mkdir(os.path.join(top, "empty"))
    for number, name in enumerate(NAMES):
        where = rng.choice(["", "deep" * 20, os.path.join("deep" * 20, "er", "est")])
        write_file(os.path.join(top, where, name), rng.randbytes(number * 100), rng.choice([0, 0o400, 0o600, 0o644, 0o755, 0o4755, 0o2755, 0o7777]))
    for length in (0, 1, 383, 384, 385, 511, 512, 513, 896, 897, 8191, 8192, 8193, 73_216, 73_217, 262_143, 262_144, 262_145, 600_000):
        write_file(os.path.join(top, f"length{length}"), rng.randbytes(length))
    for name, at, size in (("hole", 0, 200_000), ("holes", 100_000, 9_000_000), ("end", 65_536, 65_536 + 4096), ("large", 10**6, 3 * 10**9)):
        with open(os.path.join(top, name), "wb") as file:
            file.truncate(size)
            for place in (at, size // 2, size - 3):
                file.seek(place)
                file.write(b"abc")
    with open(os.path.join(top, "nothing"), "wb") as file:
        file.truncate(10**6)
    links = [("link", "empty"), ("dangling", "no/such"), ("up", ".."), ("absolute", "/etc/passwd"), ("long", "x/" * 2000), ("tolink", "link"), ("self", "self")]
    for name, target in links:
        os.symlink(target, os.path.join(top, name))
    for one, other in (("length385", "empty/hard"), ("length385", "hard"), ("holes", "hardholes"), ("link", "hardlink")):
        os.link(os.path.join(top, one), os.path.join(top, other), follow_symlinks=False)
    for above, folders, files in os.walk(top, topdown=False):
        for name in files + folders:
            path = os.path.join(above, name)
            os.lchown(path, rng.choice([0, 1, 1000, 2**32 - 2]), rng.choice([0, 1, 1000]))
            if not os.path.islink(path):
                os.chmod(path, rng.choice([0o700, 0o755, 0o1777, 0o2775]) if name in folders else stat.S_IMODE(os.lstat(path).st_mode))
                os.utime(path, ns=(0, rng.choice([0, 1, 10**9 - 1, 10**18 + 123_456_789, 4 * 10**18])))
    os.mkdir(os.path.join(top, "last"))


def odd_folder(folder):
    """A folder with all that may stand in one is put and got back."""
    top = os.path.join(folder, "odd")
    write_odd(top, random.Random(7))
    line(folder, "format", "odd.disk", "16M")
    line(folder, "odd.disk", "put", "odd", "/")
    line(folder, "odd.disk", "get", "/odd", "odd.back")
    compare(folder, "odd", "odd.back")
    line(folder, "odd.disk", "cp", "-r", "/odd", "/copy")
    line(folder, "odd.disk", "get", "/copy", "odd.copied")
    compare(folder, "odd", "odd.copied")
    lines = b"put odd/. /odd\nput odd/. /copy\nmkdir /into\nmv /odd /into\nget /into/odd odd.moved\nget /copy/. odd.copied\nrm -r /copy\n"
    line(folder, "odd.disk", "shell", given=lines)
    compare(folder, "odd", "odd.moved")
    compare(folder, "odd", "odd.copied")
    told = line(folder, "odd.disk", "check")
    if told.count(b"\n") != 1 or not is_sound(folder, "odd.disk"):
        raise Wrong("check", told)
    print(f"{len(attributes(top)[0])} files, folders and links with odd names, holes, modes, owners and times put, copied, moved and got back: the same")


def no_text(folder):
    """Names that are no text are told and left out."""
    top = os.path.join(os.fsencode(folder), b"notext")
    os.makedirs(top)
    for name in [*NO_TEXT, b"text"]:
        with open(os.path.join(top, name), "wb") as file:
            file.write(b"bytes of " + name)
    os.symlink(b"\xff", os.path.join(top, b"link"))
    line(folder, "format", "notext.disk", "1M")
    told = line(folder, "notext.disk", "put", "notext", "/", status=1)
    is_told = b"\xff" not in told and b"no text" in told and b"link" in told
    if line(folder, "notext.disk", "find", "/").split() != [b"/", b"/notext", b"/notext/text"] or not is_told:
        raise Wrong("names that are no text", told)
    print(f"{len(NO_TEXT)} names and a link that are no text are left out: {told.decode().strip()}")


def changed_folder(folder):
    """A folder of 100 files is put, listed, changed and got back."""
    write_files(folder, "many", 100, 1500)
    line(folder, "format", "disk", "2048")
    line(folder, "disk", "put", "many", "/many")
    if line(folder, "disk", "ls", "/many").split() != sorted(os.fsencode(name) + b"/" * (name == "below") for name in os.listdir(f"{folder}/many")):
        raise Wrong("ls")
    line(folder, "disk", "get", "/many", "back")
    compare(folder, "many", "back")
    line(folder, "disk", "put", "many/file002.txt", "/many/file001.txt")
    line(folder, "disk", "rm", "/many/file099.txt")
    lines = b"mkdir /many/new\nmv /many/file003.txt /many/new\ncp /many/file004.txt /many/new\nput many/file005.txt /many/new/5\n"
    lines += b"ln /many/file006.txt /many/new/6\n"
    line(folder, "disk", "shell", "--lazy", given=lines)
    line(folder, "disk", "mv", "/many/below", "/many/under")
    many = os.path.join(folder, "many")
    shutil.copy(f"{many}/file002.txt", f"{many}/file001.txt")
    os.remove(f"{many}/file099.txt")
    os.mkdir(f"{many}/new")
    os.rename(f"{many}/file003.txt", f"{many}/new/file003.txt")
    shutil.copy(f"{many}/file004.txt", f"{many}/new")
    shutil.copy(f"{many}/file005.txt", f"{many}/new/5")
    os.link(f"{many}/file006.txt", f"{many}/new/6")
    os.rename(f"{many}/below", f"{many}/under")
    if line(folder, "disk", "check", "--repair") != line(folder, "disk", "check") or not is_sound(folder, "disk"):
        raise Wrong("check")
    line(folder, "disk", "get", "/many", "changed")
    if not is_same(folder, "many", "changed") or attributes(many)[1] != attributes(os.path.join(folder, "changed"))[1]:
        raise Wrong("changed and got back")
    print("100 files put, listed, changed and got back: the same")


def told_on_a_terminal(folder, *words):
    """What a line prints on standard error where that is a terminal."""
    ours, theirs = pty.openpty()
    done = subprocess.run([XNFS, *words], cwd=folder, stdin=subprocess.DEVNULL, stdout=subprocess.DEVNULL, stderr=theirs, check=False)
    os.write(theirs, b"\n")
    os.close(theirs)
    told = os.read(ours, 65_536)
    os.close(ours)
    if done.returncode != 0:
        raise Wrong(words, told)
    return told.removesuffix(b"\r\n")


def progress(folder):
    """What is told of the files of a folder that are done, on a terminal: it is taken away at the end."""
    write_files(folder, "few", 12, 1500)
    line(folder, "format", "few.disk", "256")
    for words in (("put", "few", "/few"), ("get", "/few", "few.back")):
        told = told_on_a_terminal(folder, "few.disk", *words)
        if told and not re.fullmatch(rb"(\r[^\r\n]*)+\r\x1b\[K", told):
            raise Wrong("progress", words, told)
        print(f"{words[0]} of 12 files on a terminal tells {told!r}")
    compare(folder, "few", "few.back")


def too_much(folder):
    """A folder that a disk has no room for: what was put by then is whole, and the fault names the limit."""
    write_files(folder, "large", 100, 20_000)
    line(folder, "format", "large.disk", "400")
    status, out, err = run(XNFS, ["large.disk", "put", "large", "/all"], folder)
    if status != 1 or out or b"no space: " not in err or err.count(b"\n") != 1:
        raise Wrong("large", status, err)
    line(folder, "large.disk", "get", "/all", "large.some")
    files = [os.path.relpath(os.path.join(above, file), f"{folder}/large.some") for above, _, found in os.walk(f"{folder}/large.some") for file in found]
    _, other, missing = filecmp.cmpfiles(f"{folder}/large.some", f"{folder}/large", files, shallow=False)
    sound = line(folder, "large.disk", "check")
    if other or missing or sound.count(b"\n") != 1 or not is_sound(folder, "large.disk"):
        raise Wrong("large", other, missing, sound)
    print(f"100 files on 400 blocks: {err.decode().strip()}\n{len(files)} of them are there, whole")


def filled_again(folder):
    """A disk is filled by files, holes and folders and emptied some times: no block is lost."""
    line(folder, "format", "again.disk", "600")
    write_files(folder, "again", 40, 8_000)
    with open(f"{folder}/again/holes", "wb") as file:
        file.write(b"a")
        file.truncate(90_000)
    free = None
    for number in range(6):
        words = [["put", "again", "/x"], ["cp", "-r", "/x", "/y"], ["put", "again/holes", "/h"], ["truncate", "-s", "40000", "/x/file001.txt"]]
        ended = [run(XNFS, ["again.disk", *it], folder)[0] for it in [*words, ["mkdir", "-p", "/a/b/c"]]]
        for name in ("/x", "/y", "/h", "/a"):
            line(folder, "again.disk", "rm", "-rf", name)
        free = free or line(folder, "again.disk", "df")
        if line(folder, "again.disk", "df") != free or line(folder, "again.disk", "check").count(b"\n") != 1:
            raise Wrong("filled and emptied", number, ended, line(folder, "again.disk", "df"), free)
    print("a disk was filled and emptied 6 times: each time as many blocks are free")


def crowd(folder):
    """A folder with thousands of names is filled, listed, and emptied, and has each name once."""
    names = [f"{number:05}{'x' * (number % 40)}" for number in range(5000)]
    line(folder, "format", "crowd.disk", "16M")
    line(folder, "crowd.disk", "shell", "--lazy", given=b"mkdir /f\ncd /f\n" + "".join(f"touch {name}\n" for name in names).encode())
    line(folder, "crowd.disk", "shell", "--lazy", given=b"cd /f\n" + "".join(f"mv {name} {name}y\n" for name in names[::7]).encode())
    line(folder, "crowd.disk", "shell", "--lazy", given=b"cd /f\n" + "".join(f"rm {name}\n" for name in names[1::7]).encode())
    wanted = sorted([*(f"{name}y" for name in names[::7]), *(name for place, name in enumerate(names) if place % 7 > 1)])
    if line(folder, "crowd.disk", "ls", "/f").decode().split() != wanted or line(folder, "crowd.disk", "check").count(b"\n") != 1:
        raise Wrong("a folder with thousands of names")
    line(folder, "crowd.disk", "rm", "-r", "/f")
    print(f"{len(names)} names in a folder made, renamed, removed: each stands once")


PUTS = [odd_folder, no_text, changed_folder, progress, too_much, filled_again, crowd]


def play():
    demand([], as_root=True)
    tally = Tally("folders")
    with tempfile.TemporaryDirectory() as folder:
        for put in PUTS:
            tally.count("folders")
            try:
                put(folder)
            except Wrong as wrong:
                tally.fault(f"{put.__name__}:", wrong)
    return tally
