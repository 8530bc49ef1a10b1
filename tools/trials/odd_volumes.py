"""Plays all words of `xnfs` on volumes that no program of ours wrote.

Each of IMAGES disks (2,000) is a good volume of trees in whose blocks one to four things were changed: modes, links, sizes, times, parents and types of
inodes, the mark, the key and the word that says that it was closed, names, their lengths and where they lead (to folders above them, to nothing, to each
other), names twice, pointers taken away, set twice or to free blocks, targets of links, random bytes in inodes, buckets or anywhere. One in eight is a volume
of the first file system that is made by hand, with things wrong or rare in it. On each the words are played, with limits of time and memory. Looking words
change no byte of the disk and no file outside of the target. No word ends by a signal or later than it may; nothing but 0 and 1 is ever a status, and 1 is
told; what is printed is text without control bytes, and JSON where that is asked for; the store's check finds a disk that was sound sound after each word. A
volume of the first file system is not changed, and by no word but `check --repair` one that `check` finds damaged. It is counted how many of these that mends,
and after how many `get` brings out less than before. Of a copy of each disk that is sound for the store `check --repair` has to leave each byte as it is, with
status 1, or to mend all, so that `check` and a second repair find nothing; and where the volume was closed or is damaged it frees no inode.
"""

import collections
import json
import os
import random
import resource
import shutil
import struct
import subprocess
import tempfile

from trials import made_volumes, tree_volumes
from trials.disks import XNFS, XNSIM, is_sound, write_sources
from trials.programs import limit, read, run, write
from trials.tally import Tally

# A run that takes longer, or more memory, is wrong.
SECONDS, MEMORY = 30, 400_000_000
# No file of the system may become longer.
LONGEST = 1_000_000_000
# What is told of a volume of the first file system, also where all is well.
FIRST = b"xnfs: d.img: a volume of the first library file system: get its files and put them in a new one\n"
LOOKS = [
    ["ls"], ["ls", "-lR", "/"], ["ls", "--json", "-R"], ["tree"], ["tree", "/a"], ["cat", "/a"], ["cat", "/b"], ["stat", "/"], ["stat", "/a", "/l"],
    ["stat", "--json", "/a/one"], ["df"], ["df", "--json"], ["find", "/"], ["find", "/", "--name", "*e*"], ["du"], ["du", "-s", "/a"],
    ["readlink", "/l", "/a/link"],
    ["get", "/", "room/out"], ["get", "/.", "room/out"], ["get", "/a", "room/out"], ["get", "/b", "-"], ["ls", "/b/a"], ["check"], ["check", "--json"],
]
CHANGES = [
    ["put", "source3000a", "/new"], ["put", "source8193a", "/a"], ["put", "folder", "/"], ["put", "folder", "/b"], ["put", "holes", "/h"], ["mkdir", "/made"],
    ["mkdir", "-p", "/a/b/c"], ["rm", "/a"], ["rm", "-r", "/b"], ["rm", "-r", "/a"], ["rmdir", "/a"], ["mv", "/a", "/moved"], ["mv", "/a", "/b"],
    ["mv", "/b", "/a"], ["cp", "/a", "/copy"], ["cp", "-r", "/", "/copy"], ["cp", "-r", "/a", "/copy"], ["ln", "/a/one", "/more"], ["ln", "-s", "a", "/soft"],
    ["chmod", "-R", "u+x", "/"], ["chown", "-R", "1:1", "/"], ["touch", "/a", "/t"], ["truncate", "-s", "100000", "/a/one"], ["truncate", "-s", "0", "/big"],
    ["check", "--repair"], ["sync"],
]
# How `check --repair` may end on a disk that is sound for the store.
REPAIRS = NOTHING, MENDED, REFUSED = "with nothing to repair", "repaired", "repairs refused"
SHELL = b"ls\nmkdir /m\nput source3000a /m/s\nmv /m/s /s\nrm /s\nrmdir /m\ncd /a\nls -l\ncp -r . /copy\nrm -r /copy\ntree\n"
BASES = [
    b"put folder /a\nput source8193a /b\nln -s a/one /l\nln /a/one /a/other\nput holes /h\nput source75000a /big\nmkdir /empty\n",
    b"mkdir /a\n" + b"".join(b"put source1a /a/%d%s\n" % (number, b"n" * 120) for number in range(12)) + b"ln -s .. /a/link\nput folder /b\nln -s loop /loop\n",
    b"mkdir -p /a/b/c/d/e/f\nput source384a /a/one\nput source385a /a/b/two\nln /a/one /a/b/c/three\nput source20000a /b\nln -s %s /l\n" % (b"x/" * 300),
]


class Trials:
    """Runs on odd disks, and their counts."""

    def __init__(self, folder, rng):
        self.folder, self.rng = folder, rng
        self.tally = Tally("images", "sound for the store", "sound", "runs", "changed though damaged", "less afterwards", *REPAIRS)
        self.kinds = collections.Counter()
        write_sources(folder)
        self.bases = [self.base(lines) for lines in BASES]
        self.first = self.first_volume()

    def base(self, lines):
        """A good volume of trees."""
        self.play(["format", "base", "700"])
        status, _, told = self.play(["base", "shell"], lines)
        if status != 0:
            raise RuntimeError(told)
        image = read(self.folder, "base")
        os.remove(os.path.join(self.folder, "base"))
        return image

    def first_volume(self):
        """An empty volume of the first file system."""
        run(XNSIM, ["format", "first", str(made_volumes.BLOCKS), "--ffs"], self.folder)
        image = bytearray(read(self.folder, "first"))
        struct.pack_into("<II", image, tree_volumes.SLOT, 5, 3)
        struct.pack_into("<I", image, 512 * 5, 4)
        os.remove(os.path.join(self.folder, "first"))
        return bytes(image)

    def play(self, words, given=b""):
        """A run's status, and what it printed on both streams; None of one that took too long."""

        def start():
            limit(resource.RLIMIT_AS, MEMORY)()
            limit(resource.RLIMIT_FSIZE, LONGEST)()

        with tempfile.TemporaryFile() as out:
            try:
                how = {"stdout": out, "stderr": subprocess.PIPE, "timeout": SECONDS, "preexec_fn": start, "check": False}
                done = subprocess.run([XNFS, *words], cwd=self.folder, input=given, **how)
            except subprocess.TimeoutExpired:
                return None, b"", b""
            out.seek(0)
            return done.returncode, out.read(10**7), done.stderr

    def odd_first(self):
        """An odd volume of the first file system."""
        while True:
            volume = made_volumes.Volume(self.first, self.rng)
            kinds = self.rng.choices(made_volumes.ODD, k=self.rng.choice([1, 1, 2, 3, 4]))
            try:
                folders = made_volumes.ordinary(volume, self.rng)
                for make in kinds:
                    make(volume, folders, self.rng)
            except (OverflowError, StopIteration):
                continue
            return volume.image, kinds

    def odd_trees(self):
        """An odd volume of trees."""
        while True:
            volume = tree_volumes.TreeVolume(self.rng.choice(self.bases), self.rng)
            kinds = self.rng.choices(tree_volumes.ODD, k=self.rng.choice([1, 1, 2, 3, 4]))
            if self.rng.random() < 0.5:
                kinds.append(tree_volumes.clean)
            try:
                for make in kinds:
                    make(volume, self.rng)
            except IndexError:
                continue
            return volume.image, kinds

    def odd(self, is_first):
        """An odd disk."""
        while True:
            image, kinds = self.odd_first() if is_first else self.odd_trees()
            write(self.folder, "d.img", image)
            if is_sound(self.folder, "d.img") or self.rng.random() < 0.1:
                self.kinds.update(make.__name__ for make in kinds)
                return bytes(image)

    def fault(self, words, text, image):
        number = self.tally.counts["images"]
        write("/tmp", f"odd_volume_{number}.img", image)
        self.tally.fault(f"image {number}, kept as /tmp/odd_volume_{number}.img: {' '.join(words)}: {text}")

    def try_words(self, words, image, may_change, given=b""):
        """Plays a line on the disk, which had these bytes; its status, and the bytes that the disk has then."""
        self.tally.count("runs")
        files, was_sound = set(os.listdir(self.folder)), is_sound(self.folder, "d.img")
        status, out, err = self.play(["d.img", *words], given)
        if status not in (0, 1):
            self.fault(words, f"status {status}: {err[-200:]!r}", image)
        if (status == 1) != bool(err) and not (status == 0 and err == FIRST):
            self.fault(words, f"status {status}, told: {err[:200]!r}", image)
        shown = err if words[0] == "cat" or words[-1] == "-" else out + err
        if any(byte < 32 and byte not in (9, 10) or byte == 127 for byte in shown):
            self.fault(words, "prints control bytes", image)
        try:
            shown.decode()
            if "--json" in words and status == 0:
                json.loads(out)
        except ValueError as error:
            self.fault(words, f"prints what is no text, or no JSON: {error}", image)
        if set(os.listdir(self.folder)) != files:
            self.fault(words, "makes a file that nobody named", image)
        after = read(self.folder, "d.img")
        if after != image and not may_change:
            self.fault(words, "changes the disk", image)
        if was_sound and after != image and not is_sound(self.folder, "d.img"):
            self.fault(words, "leaves a disk that is not sound", image)
        return status, after

    def try_repair(self, image):
        """Repairs the disk, which is as it was then again."""
        told = json.loads(self.play(["d.img", "check", "--json"])[1] or b"null")
        volume = tree_volumes.TreeVolume(image, self.rng)
        has_to_stay = told is None or told["damage"] or image[512 * volume.root + tree_volumes.CONTENT + 24] == 1
        status, after = self.try_words(["check", "--repair"], image, True)
        if status == 0:
            self.tally.count(NOTHING if told["is_sound"] and not told["left_by_a_crash"] else MENDED)
            freed = set(volume.inodes) - set(tree_volumes.TreeVolume(after, self.rng).inodes) if has_to_stay else []
            found = self.play(["d.img", "check"])
            again = self.play(["d.img", "check", "--repair"])
            if freed or found[0] != 0 or found[1].count(b"\n") != 1 or again != found:
                self.fault(["check", "--repair"], f"frees {sorted(freed)}, and then {found}, {again}", image)
        else:
            self.tally.count(REFUSED)
            if after != image:
                self.fault(["check", "--repair"], "is refused, and changes the disk", image)
        write(self.folder, "d.img", image)

    def room(self):
        """An empty folder to bring files out."""
        shutil.rmtree(os.path.join(self.folder, "room"), ignore_errors=True)
        os.makedirs(os.path.join(self.folder, "room"))

    def got(self):
        """How many names `get` brings out."""
        self.room()
        self.play(["d.img", "get", "/", "room/out"])
        return sum(len(folders) + len(files) for _, folders, files in os.walk(os.path.join(self.folder, "room/out")))

    def try_image(self, is_first):
        image = self.odd(is_first)
        self.tally.count("images")
        self.tally.count("sound for the store", is_sound(self.folder, "d.img"))
        is_good = self.play(["d.img", "check"])[0] == 0
        self.tally.count("sound", is_good)
        if not is_first and is_sound(self.folder, "d.img"):
            self.try_repair(image)
        for words in self.rng.sample(LOOKS, 8):
            self.room()
            _, image = self.try_words(words, image, False)
            if set(os.listdir(os.path.join(self.folder, "room"))) - {"out"}:
                self.fault(words, "writes outside of its target", image)
        before = self.got()
        for words in [["check", "--repair"], *self.rng.sample(CHANGES, 4)][self.rng.randrange(2) :]:
            was = image
            status, image = self.try_words(words, image, not is_first)
            if not is_good and words != ["check", "--repair"] and (status == 0 or image != was):
                self.fault(words, f"status {status}: is done, or changes the disk, though check tells damage", was)
            if not is_good and status == 0:
                self.tally.count("changed though damaged")
                self.tally.count("less afterwards", words[0] in ("check", "sync", "mkdir", "touch", "chmod", "chown") and self.got() < before)
                is_good = True
        self.room()
        self.try_words(["shell", *self.rng.choice([[], ["--lazy"]])], image, not is_first, SHELL)


def play(images=2000, seed=1):
    with tempfile.TemporaryDirectory() as folder:
        trials = Trials(folder, random.Random(seed))
        for number in range(images):
            trials.try_image(number % 8 == 7)
    for kind, number in sorted(trials.kinds.items()):
        print(f"{kind:<16} {number:>5}")
    return trials.tally
