"""Does random lines with `xnfs` to a volume and the same to a folder of the system, and compares the two.

Each of ROUNDS rounds (20) is a fresh volume and an empty folder, to which STEPS lines (250) are done, a part of them in shells, also lazy ones: `put`, `cp`,
`cp -r`, `mv`, `rm`, `rm -r`, `rmdir`, `mkdir`, `mkdir -p`, `ln`, `ln -s`, `chmod`, `chown`, `touch`, `truncate`. A line has to be done where the system does
the like, and else be refused with status 1 and change nothing. Behind every 25 lines `check` has to find the volume sound, and `get` has to bring out what the
folder has: names, kinds, bytes, what symbolic links lead to, which names are one file, and modes, owners and times of files and folders. The last word is the
SEED (1); the disks are of 150 KiB to 16 MiB: a line of a single file that finds no space has to change nothing, and behind any other the round ends. It is run
as root, for the owners.
"""

import collections
import contextlib
import os
import random
import re
import shutil
import stat
import subprocess
import tempfile
import time

from trials.disks import XNFS, fresh
from trials.programs import demand, run, write
from trials.tally import Tally

NAMES = ["a", "b", "c", "d", "notes.txt", "two words", "größe", ".hidden", "-r", "n" * 255, "ü" * 127, "x'y", 'x"y', "#1", "back\\slash"]
LENGTHS = [0, 1, 383, 384, 385, 511, 512, 513, 896, 4096, 8191, 8192, 8193, 20_000, 73_215, 73_216, 73_217, 200_000]
# The system's own `chmod` keeps the bits of folders by which what is made in them gets their owner or group, so none has these.
MODES = ["600", "755", "0", "u+x", "go-rwx", "a=r", "u=rwx,g=rx,o=", "+x", "1777"]
# The system tells the time of a change so exactly, as a line and the like of it are done one behind the other.
SECONDS = 30
NO_SPACE = re.compile(rb"no space: \d+ blocks free|the folder has no place for this name")


class Refused(Exception):
    """The system doesn't do this, or a volume isn't asked for it."""


def inside(top, path):
    """A path of a volume in a folder of the system."""
    return os.path.join(top, path.lstrip("/")) if path.strip("/") else top


def replaced(path, make):
    """Has a name lead to what is made elsewhere."""
    with tempfile.TemporaryDirectory() as room:
        made = os.path.join(room, "made")
        make(made)
        os.replace(made, path)


class Folder:
    """A folder of the system to which lines are done."""

    def __init__(self, top, sources):
        self.top, self.sources = top, sources

    def at(self, path):
        return inside(self.top, path)

    def own(self, path):
        """What has a name of its own: the top folder has none."""
        if not path.strip("/"):
            raise Refused
        return self.at(path)

    def target(self, source, to, own=None):
        """Where something goes: into the folder that is there, else to that name."""
        path = self.at(to)
        with contextlib.suppress(FileNotFoundError):
            os.stat(path)
        if os.path.isdir(path):
            return os.path.join(path, own or os.path.basename(source.rstrip("/")))
        if not os.path.isdir(os.path.dirname(path)):
            raise Refused
        return path

    def want_place(self, source, path):
        """That one thing may take the place of another."""
        if os.path.lexists(path):
            if os.path.samestat(os.lstat(source), os.lstat(path)):
                raise Refused
            if (os.path.isdir(source) and not os.path.islink(source)) != (os.path.isdir(path) and not os.path.islink(path)):
                raise Refused

    def copy_file(self, source, path, keeps):
        """Copies a file or a symbolic link in the place of what has the name; the times too where that is told, else with mode and owner of a file there."""
        self.want_place(source, path)
        if os.path.islink(source):
            replaced(path, lambda made: os.symlink(os.readlink(source), made))
            os.lchown(path, os.lstat(source).st_uid, os.lstat(source).st_gid)
            return

        found = os.stat(source)
        if not keeps and os.path.isfile(path) and not os.path.islink(path):
            found = os.stat(path)

        def make(made):
            shutil.copyfile(source, made)
            os.chown(made, found.st_uid, found.st_gid)
            os.chmod(made, found.st_mode & 0o7777)
            if keeps:
                os.utime(made, ns=(found.st_mtime_ns, found.st_mtime_ns))

        replaced(path, make)

    def has_both_names(self, source, path):
        """Whether a file has the name that it is to get already, beside the one that it is to lose."""
        one, other = (os.path.join(os.path.realpath(os.path.dirname(it)), os.path.basename(it)) for it in (source, path))
        return one != other and os.path.lexists(path) and os.path.samestat(os.lstat(source), os.lstat(path)) and not stat.S_ISDIR(os.lstat(source).st_mode)

    def copy_tree(self, source, path, copied, sets_folders):
        """Copies a folder with all below it into one that may be there. A file with several names among them is copied once."""
        self.want_place(source, path)
        found, is_new = os.lstat(source), not os.path.lexists(path)
        if is_new:
            os.mkdir(path)
        for name in sorted(os.listdir(source)):
            one, other = os.path.join(source, name), os.path.join(path, name)
            if os.path.isdir(one) and not os.path.islink(one):
                self.copy_tree(one, other, copied, sets_folders)
            else:
                self.copy_once(one, other, copied)
        if is_new or sets_folders:
            os.chown(path, found.st_uid, found.st_gid)
            os.chmod(path, found.st_mode & 0o7777)
            os.utime(path, ns=(found.st_mtime_ns, found.st_mtime_ns))

    def copy_once(self, source, path, copied):
        """Copies a file, or gives its copy one more name."""
        found = os.lstat(source)
        key = found.st_dev, found.st_ino
        first = copied.get(key)
        if first and found.st_nlink > 1:
            self.want_place(source, path)
            if not (os.path.lexists(path) and os.path.samestat(os.lstat(first), os.lstat(path))):
                replaced(path, lambda made: os.link(first, made, follow_symlinks=False))
        else:
            self.copy_file(source, path, True)
            copied[key] = path

    def put(self, source, to):
        path, source = self.target(source, to), os.path.join(self.sources, source)
        if os.path.isdir(source):
            self.copy_tree(source, path, {}, True)
        else:
            self.copy_file(source, path, True)

    def cp(self, *words):
        is_recursive, (one, to) = words[0] == "-r", words[-2:]
        source, path = self.own(one), self.target(one, to)
        if not is_recursive:
            os.stat(source)
            source = os.path.realpath(source)
        if not os.path.lexists(source):
            raise Refused
        if os.path.isdir(source) and not os.path.islink(source):
            if not is_recursive or (os.path.realpath(os.path.dirname(path)) + "/").startswith(source + "/"):
                raise Refused
            self.copy_tree(source, path, {}, False)
        else:
            self.copy_file(source, path, is_recursive)

    def mv(self, one, to):
        source = self.own(one)
        if not os.path.lexists(source):
            raise Refused
        path = self.target(one, to)
        if self.has_both_names(source, path):
            os.unlink(source)
            return
        self.want_place(source, path)
        os.rename(source, path)

    def rm(self, *words):
        path = self.own(words[-1])
        if os.path.isdir(path) and not os.path.islink(path):
            if words[0] != "-r":
                raise Refused
            shutil.rmtree(path)
        elif words[0] != "-f" or os.path.lexists(path):
            os.remove(path)

    def rmdir(self, path):
        os.rmdir(self.own(path))

    def mkdir(self, *words):
        if words[0] == "-p":
            os.makedirs(self.at(words[-1]), exist_ok=True)
        else:
            os.mkdir(self.at(words[0]))

    def ln(self, *words):
        target, to = words[-2:]
        path = self.target(target, to)
        if os.path.lexists(path):
            raise Refused
        if words[0] == "-s":
            os.symlink(target, path)
        else:
            os.link(self.at(target), path, follow_symlinks=False)

    def chmod(self, *words):
        path = self.at(words[-1])
        paths = [os.path.join(above, name) for above, folders, files in os.walk(path) for name in folders + files] if words[0] == "-R" else []
        subprocess.run(["chmod", "--", words[-2], path, *(it for it in paths if not os.path.islink(it))], capture_output=True, check=True)

    def chown(self, owner, path):
        user, _, group = owner.partition(":")
        mode = os.stat(self.at(path)).st_mode
        os.chown(self.at(path), int(user or -1), int(group or -1))
        os.chmod(self.at(path), stat.S_IMODE(mode))

    def touch(self, *words):
        path = self.at(words[-1])
        if os.path.islink(path) and not os.path.exists(path):
            raise Refused
        with open(path, "ab") if not os.path.isdir(path) else open(os.devnull, "ab"):
            pass
        os.utime(path, ns=(int(words[1]) * 10**9,) * 2) if words[0] == "-d" else os.utime(path)

    def truncate(self, _, size, path):
        with open(self.at(path), "ab") as file:
            file.truncate(int(size))
        os.utime(self.at(path))

    def do(self, words):
        """Does a line; whether the system does the like."""
        try:
            getattr(self, words[0])(*words[1:])
            return True
        except (OSError, Refused, shutil.Error, subprocess.CalledProcessError):
            return False


class Paths:
    """Paths of a folder from which lines are made."""

    def __init__(self, folder, rng):
        self.rng, top = rng, folder.top
        self.files, self.folders, self.links = [], [], []
        for above, folders, files in os.walk(top):
            path = above[len(top) :]
            self.folders.append(path or "/")
            for name in folders + files:
                one = f"{path}/{name}"
                if os.path.islink(inside(top, one)):
                    self.links.append(one)
                elif name in files:
                    self.files.append(one)

    def new(self):
        """A path in a folder, whose name is perhaps there."""
        return f"{self.rng.choice(self.folders).rstrip('/')}/{self.rng.choice(NAMES)}"

    def file(self):
        return self.rng.choice(self.files) if self.files else self.new()

    def folder(self):
        return self.rng.choice(self.folders)

    def any(self):
        return self.rng.choice([self.file, self.file, self.folder, self.new, lambda: self.rng.choice(self.links or self.folders)])()

    def goal(self):
        return self.rng.choice([self.new, self.new, self.file, self.folder])()


def random_words(paths, rng, sources):
    """The words of a line, which mostly can be done."""
    return rng.choice([
        lambda: ["put", rng.choice(sources), paths.goal()], lambda: ["put", rng.choice(sources), paths.goal()], lambda: ["mkdir", paths.new()],
        lambda: ["mkdir", "-p", f"{paths.new()}/{rng.choice(NAMES)}"], lambda: ["rm", paths.any()], lambda: ["rm", "-r", paths.any()],
        lambda: ["rm", "-f", paths.any()], lambda: ["rmdir", paths.folder()], lambda: ["mv", paths.any(), paths.goal()],
        lambda: ["mv", paths.folder(), paths.goal()], lambda: ["mv", paths.file(), paths.file()], lambda: ["cp", paths.any(), paths.goal()],
        lambda: ["cp", "-r", paths.any(), paths.goal()], lambda: ["ln", paths.file(), paths.goal()],
        lambda: ["ln", "-s", rng.choice(["a", "./b", "/nowhere", "ü" * 200, "long/" * 200]), paths.goal()],
        lambda: ["chmod", rng.choice(MODES), paths.any()], lambda: ["chmod", rng.choice(["4755", "u+s", "2711"]), rng.choice(paths.files or ["/no/such"])],
        lambda: ["chmod", "-R", rng.choice(["u+rwx", "go-w"]), paths.folder()],
        lambda: ["chown", rng.choice(["7", "7:8", ":9", "0:0"]), paths.any()],
        lambda: ["touch", "-d", str(rng.randrange(2 * 10**9)), paths.any()], lambda: ["touch", paths.any()],
        lambda: ["truncate", "-s", str(rng.choice([*LENGTHS, 1_000_000])), paths.file()],
    ])()


def write_sources(top, rng):
    """Writes files and folders of the system that are put, and answers their names."""
    os.makedirs(top)
    names = []
    for length in LENGTHS:
        names.append(f"source{length}")
        write(top, names[-1], rng.randbytes(length))
    with open(os.path.join(top, "holes"), "wb") as file:
        for at in (0, 100_000, 700_000):
            file.seek(at)
            file.write(b"between holes")
    os.symlink("source511", os.path.join(top, "tolink"))
    for folder in ("tree", "tree/below", "tree/empty"):
        os.mkdir(os.path.join(top, folder))
    for name in ("one", "below/two", "below/größe"):
        write(os.path.join(top, "tree"), name, rng.randbytes(rng.randrange(3000)))
    os.link(os.path.join(top, "tree/one"), os.path.join(top, "tree/below/other"))
    os.symlink("../one", os.path.join(top, "tree/below/link"))
    for above, folders, files in os.walk(top, topdown=False):
        for name in files + folders:
            path = os.path.join(above, name)
            if not os.path.islink(path):
                os.chown(path, rng.randrange(3), rng.randrange(3))
                os.chmod(path, rng.choice([0o600, 0o644, 0o755, 0o4755][: 3 if name in folders else 4]))
                os.utime(path, ns=(0, rng.randrange(10**18)))
    return [*names, "holes", "tree", "tree"]


def quoted(word):
    """A word as a shell of `xnfs` reads it."""
    return "'" + word.replace("'", "'\"'\"'") + "'"


def attributes(top):
    """What all below a folder is, by its path."""
    found, numbers = {}, collections.defaultdict(list)
    for above, folders, files in os.walk(top):
        for name in folders + files:
            path = os.path.join(above, name)
            it, told = os.lstat(path), path[len(top) :]
            owner = it.st_uid, it.st_gid
            if stat.S_ISLNK(it.st_mode):
                found[told] = "link", os.readlink(path), *owner
            elif stat.S_ISDIR(it.st_mode):
                found[told] = "folder", stat.S_IMODE(it.st_mode), *owner, it.st_mtime_ns
            else:
                with open(path, "rb") as file:
                    found[told] = "file", file.read(), stat.S_IMODE(it.st_mode), *owner, it.st_mtime_ns
            if not stat.S_ISDIR(it.st_mode):
                numbers[it.st_ino].append(told)
    return found, sorted(sorted(names) for names in numbers.values())


def is_like(one, other, since):
    """Whether two things are the same; the times of what both have changed in this run may be some seconds apart."""
    if one is None or other is None or one[0] != other[0]:
        return False
    if one[0] == "link":
        return one == other
    times = one[-1], other[-1]
    return one[:-1] == other[:-1] and (times[0] == times[1] or min(times) >= since and abs(times[0] - times[1]) < SECONDS * 10**9)


class Round:
    """A volume and a folder to which the same is done."""

    def __init__(self, room, rng, tally):
        self.room, self.rng, self.tally = room, rng, tally
        self.sources = write_sources(os.path.join(room, "sources"), rng)
        os.mkdir(os.path.join(room, "beside"))
        self.folder = Folder(os.path.join(room, "beside"), os.path.join(room, "sources"))
        fresh(room, "disk", rng.choice([300, 600, 2_048, 32_768]))
        self.since, self.done, self.is_full = time.time_ns(), [], False

    def fault(self, *told):
        self.tally.fault(*told, "after", *(" ".join(it)[:200] for it in self.done[-12:]))

    def words(self):
        return random_words(Paths(self.folder, self.rng), self.rng, self.sources)

    def given(self, words):
        """The words as the program gets them: sources stand below their folder, and paths that begin with a minus sign behind `--`."""
        return [words[0], f"sources/{words[1]}", words[2]] if words[0] == "put" else words

    def ended(self, words, is_done, status, told):
        """Looks at the end of a line."""
        self.tally.count("lines")
        self.tally.count("refused", not is_done)
        self.done.append(words)
        if NO_SPACE.search(told):
            self.is_full = True
        elif status != (0 if is_done else 1) or (status == 1) != bool(told):
            self.fault(words, "status", status, told[-300:], "the system does it" if is_done else "the system refuses it")
            self.is_full = True

    def line(self):
        """A single line. One of a single file that finds no space has to change nothing."""
        words = self.words()
        status, out, told = run(XNFS, ["disk", *self.given(words)], self.room)
        if out:
            self.fault(words, "prints", out[:100])
        if status == 1 and NO_SPACE.search(told) and not {"-r", "-p", "tree", "-R"} & set(words):
            self.tally.count("without space")
            self.done.append([*words, "(no space)"])
            return
        self.ended(words, self.folder.do(words), status, told)

    def shell(self):
        """A shell of some lines, of which each is done to the folder before the next one is made."""
        lines = []
        for _ in range(self.rng.randrange(2, 12)):
            words = self.words()
            lines.append((words, self.folder.do(words)))
        given = "".join(f"{' '.join(map(quoted, self.given(words)))}\n" for words, _ in lines).encode()
        _, out, told = run(XNFS, ["disk", "shell", *self.rng.choice([[], ["--lazy"]])], self.room, given)
        if out:
            self.fault(lines, "prints", out[:100])
        for number, (words, is_done) in enumerate(lines, 1):
            mine = b"".join(it for it in told.splitlines(True) if it.startswith(b"xnfs: disk: line %d: " % number))
            self.ended(words, is_done, 1 if mine else 0, mine)
            if self.is_full:
                return

    def compare(self):
        """Compares all."""
        self.tally.count("comparisons")
        status, out, told = run(XNFS, ["disk", "check"], self.room)
        if status != 0 or told or not out.startswith(b"sound: ") or b"\n" in out[:-1]:
            self.fault("check", status, out[:300], told[:300])
        shutil.rmtree(os.path.join(self.room, "out"), ignore_errors=True)
        os.mkdir(os.path.join(self.room, "out"))
        status, _, told = run(XNFS, ["disk", "get", "/.", "out"], self.room)
        if status != 0:
            self.fault("get", status, told[:300])
        (one, numbers), (other, others) = attributes(os.path.join(self.room, "out")), attributes(self.folder.top)
        wrong = sorted(path for path in {*one, *other} if not is_like(one.get(path), other.get(path), self.since))
        for path in wrong[:5]:
            self.fault(f"{path}: {short(one.get(path))}, and in the folder {short(other.get(path))}")
        if numbers != others:
            self.fault("names of one file", [it for it in numbers if it not in others][:3], [it for it in others if it not in numbers][:3])
        return not wrong

    def play(self, steps):
        count = self.tally.counts["lines"]
        while not self.is_full and self.tally.counts["lines"] < count + steps:
            last = self.tally.counts["lines"]
            while not self.is_full and self.tally.counts["lines"] < last + 25:
                self.rng.choice([self.line, self.line, self.line, self.shell])()
            if not self.is_full and not self.compare():
                return
        self.tally.count("ended without space", self.is_full)


def short(found):
    """What something is, with no more than the first of its bytes."""
    return found and tuple(f"{len(it)} bytes {it[:16]!r}" if isinstance(it, bytes) else it for it in found)


def play(rounds=20, steps=250, seed=1):
    demand([], as_root=True)
    rng, tally = random.Random(seed), Tally("rounds", "lines", "refused", "comparisons", "without space", "ended without space")
    os.umask(0o22)
    for _ in range(rounds):
        tally.count("rounds")
        with tempfile.TemporaryDirectory() as room:
            Round(room, rng, tally).play(steps)
    return tally
