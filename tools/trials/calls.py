"""Makes random calls of the file system of trees beside a plain tree, and looks at images that a crash may leave in the middle of them.

Each of RUNS runs (320) makes some 150 calls on a fresh disk of 80, 200, 600 or 3,000 blocks, in turn; in every second four of them all is written often, in the
others seldom. `treefs_runs --tell` plays a run's calls, and prints what each asks of the store and answers. Beside it stands a plain tree, which says of each
call whether it is done, or which fault it has. The calls are create, mkdir, symlink, put, link, unlink, rmdir, rename, write, truncate, chmod, chown, utimens,
trim, reap, and a file in pieces by begin, more and commit; most meet what is there, some a number or a name that is none, or a file where a folder should be.

- Each answer has to be the one of the plain tree. A number that is answered has to be free before. A call may be refused for want of room too: `NoSpace` where
  few blocks are free, `Full` and `NoInode` where something is pending. Then nothing is changed, but for a size that `truncate` had set, and what `reap` freed.
- Now and then one wave of writes is made. It has to write each block of which an entry waits for nothing that isn't on the disk, and no other block.
- Looks between the calls, which are lookup, stat, readdir, read, readlink, path and check, have to answer what the plain tree has, byte for byte.
- After every few calls the newest state of all blocks, read by the format alone, has to be the plain tree: numbers, kinds, modes, owners, sizes, links, names,
  folders above, bytes; and where all is written the times too.

At random moments, some 7 in a run, a crash is looked at: of what is pending since all was written last, 5 random cuts are made by the rules of the store alone.
For each of them all has to hold that `tools/outside pairs --help` says of a cut; where a name had led to an inode before, that is what is on the disk, or a cut
that takes less. Its image has to be sound before it is mended; `xnfs check --repair` has to mend it, and `check` to find nothing left. In the mended image each
name has to lead to the same inode as in the cut, with the same mode, owner and bytes and as many links as names. One of two names of a folder may be gone, and
an inode without names has to be.

A run has the number SEED (1) and on as its seed, which is told with each fault: `tools/outside calls 1 SEED` plays it again. Another program than that which
`tools/program` would run may be named as TREEFS_RUNS. The work is shared by as many processes as there are processors.
"""

import collections
import os
import random
import re
import struct
import subprocess
import tempfile
import urllib.parse
from concurrent.futures import ProcessPoolExecutor

from trials.disks import XNSIM
from trials.plain_tree import GREATEST, Plain, name_of
from trials.programs import read, run, write
from trials.tally import Tally
from trials.tree_images import (
    BLOCK, FOLDER, LINK, TREEFS_RUNS, Calls, Volume, bytes_of, entries_of, faults_of_image, faults_once_mended, image_of, script_of,
)

SIZES, CALLS, CUTS = [80, 200, 600, 3000], 150, 5
COUNTED = ["runs", "calls", "refused", "without room", "looks compared", "newest states", "waves", "crashes", "images"]
WANTS_OF_ROOM = {"Full", "NoSpace", "NoInode"}
ANSWER_NUMBERS = {"create", "mkdir", "symlink", "put", "begin", "more", "commit", "write"}
# No call needs more free blocks than this.
MOST_BLOCKS = 40
NAMES = [chr(97 + number) + "x" * (number % 12 * 19) for number in range(22)] + ["%C3%A9%20%2B", "-_.~" * 63 + "end"]
ODD_NAMES = ["", ".", "..", "a%2Fb", "a%00", "n" * 256]
LOOKS = {"lookup", "stat", "readdir", "read", "readlink", "path", "check"}
# How often each call and each look is made, and with what.
FORMS = {
    "create": (4, "FOLDER NAME", "FOLDER NAME 600", "FOLDER NAME 7777"), "mkdir": (3, "FOLDER NAME", "FOLDER NAME 1750"),
    "symlink": (2, "FOLDER NAME TARGET", "FOLDER a TARGET", "FOLDER a 61", "FOLDER a 2e"), "link": (3, "FILE FOLDER NAME"),
    "put": (6, "PLACE HEAD", "PLACE MANY", "FOLDER NAME HEAD", "FOLDER NAME MANY"), "unlink": (5, "PLACE"), "rmdir": (2, "PLACE", "EMPTY", "EMPTY"),
    "rename": (6, "PLACE FOLDER NAME", "PLACE FOLDER NAME", "PLACE PLACE", "EMPTY EMPTY"), "write": (5, "FILE AT SOME", "FILE AT SOME", "FILE AT HEAD"),
    "truncate": (3, "FILE AT"), "chmod": (1, "ANY MODE"), "chown": (1, "ANY OWNER OWNER"), "utimens": (1, "ANY TIME", "ANY PAST"), "trim": (1, "ANY"),
    "reap": (1, "", "", "FILE", "ANY FILE"), "begin": (1, "HEAD"), "more": (2, "BLOCK at SOME"), "commit": (2, "BLOCK PLACE replace", "BLOCK FOLDER NAME new"),
    "time": (2, "TIME"), "lookup": (1, "PLACE"), "stat": (2, "ANY"), "readdir": (1, "FOLDER"), "read": (3, "FILE 0 99999", "FILE AT LENGTH"),
    "readlink": (1, "LINK", "LINK", "FILE"), "path": (2, "PATH follow", "PATH nofollow"), "check": (1, ""),
}
# Calls that are made of one file, many of them one behind the other.
BURST = ["write", "write", "truncate", "truncate", "trim", "chmod", "read"]


class Maker:
    """Makes random lines of calls that meet what a plain tree has."""

    def __init__(self, plain, rng):
        self.plain, self.rng, self.named = plain, rng, set()
        self.makers = {
            "FOLDER": lambda: self.number(True), "FILE": lambda: self.number(False), "ANY": lambda: self.number(rng.random() < 0.2), "LINK": self.link,
            "NAME": self.name, "PLACE": self.place, "EMPTY": self.empty, "PATH": self.path, "TARGET": self.target, "BLOCK": self.block, "AT": self.at,
            "HEAD": lambda: self.data(420), "SOME": lambda: self.data(4_000), "MANY": lambda: self.data(12_000), "LENGTH": lambda: rng.choice([90, 9**5]),
            "MODE": lambda: f"{rng.randrange(4096):o}", "OWNER": lambda: rng.choice([0, 1000, 2**32 - 1]), "TIME": lambda: rng.randrange(2**62),
            "PAST": lambda: -rng.randrange(2**62),
        }

    def lines(self, count):
        """So many lines. A file that was begun is given a name by one of them at most, and isn't written behind that."""
        self.named = set()
        if self.rng.random() < 0.01:
            return self.burst()
        return [self.line(self.rng.choices(list(FORMS), [weight for weight, *_ in FORMS.values()])[0]) for _ in range(count)]

    def burst(self):
        """Seventy lines about one file, which may fill the pending entries of its block."""
        number = str(self.number(False))
        forms = [f"{word} {form}" for word in BURST for form in FORMS[word][1:]]
        return [" ".join(self.made([number if part in ("FILE", "ANY") else part for part in self.rng.choice(forms).split(" ")])) for _ in range(70)]

    def made(self, parts):
        """Parts of a form, with what the makers make."""
        return [str(self.makers[part]()) if part in self.makers else part for part in parts if part]

    def line(self, word):
        begun = self.plain.begun.keys() - self.named
        if word in ("more", "commit") and not begun or word == "begin" and len(begun) > 2:
            word = "put"
        form = self.rng.choice(FORMS[word][1:])
        words = [word, *self.made(form.split(" "))]
        if word == "commit":
            self.named.add(int(words[1]))
        return " ".join(words)

    def number(self, is_folder):
        """The number of a folder, or of something else; sometimes that of anything, or of nothing."""
        inodes, rng = self.plain.inodes, self.rng
        fitting = [number for number, inode in inodes.items() if (inode.kind == FOLDER) == is_folder and (inode.links or rng.random() < 0.2)]
        odd = [0, rng.choice(list(inodes)), len(inodes) + rng.randrange(40), 4_000_000_000]
        return rng.choice(fitting if fitting and rng.random() < 0.95 else odd)

    def link(self):
        """The number of a symbolic link, if there is one."""
        links = [number for number, inode in self.plain.inodes.items() if inode.kind == LINK]
        return self.rng.choice(links) if links else self.number(False)

    def block(self):
        """A file that was begun and has no name yet."""
        return self.rng.choice(sorted(self.plain.begun.keys() - self.named))

    def name(self):
        return self.rng.choice(NAMES if self.rng.random() < 0.97 else ODD_NAMES)

    def place(self):
        """A folder and a name; mostly the name is there."""
        there = [(number, name) for number, inode in self.plain.inodes.items() for name in inode.names]
        if there and self.rng.random() < 0.8:
            number, name = self.rng.choice(there)
            return f"{number} {urllib.parse.quote(name, safe='')}"
        return f"{self.number(True)} {self.name()}"

    def empty(self):
        """A folder and the name of an empty folder in it, if there is one."""
        there = [(number, name) for number, inode in self.plain.inodes.items() for name, it in inode.names.items() if self.is_empty(it)]
        number, name = self.rng.choice(there) if there else (1, b"a")
        return f"{number} {urllib.parse.quote(name, safe='')}"

    def is_empty(self, number):
        return self.plain.inodes[number].kind == FOLDER and not self.plain.inodes[number].names

    def data(self, most):
        """At most so many bytes, as a transcript writes them."""
        parts, left = [], self.rng.randrange(most + 1)
        while left > 0:
            digits = self.rng.randbytes(min(left, self.rng.choice([1, 1, 7, 16, 61])))
            count = self.rng.randrange(left // len(digits)) + 1
            parts.append(f"{digits.hex()}*{count}")
            left -= len(digits) * count
        return "+".join(parts) or "-"

    def at(self):
        """A place in a file, or a size."""
        return self.rng.choice([self.rng.randrange(most) for most in [600, 12_000, 12_000, 12_000, 12_000]] * 9 + [self.rng.randrange(90_000), 0, GREATEST + 1])

    def way(self):
        """A path of short names."""
        return self.rng.choice(["", "", "/"]) + "/".join(self.rng.choices(["..", ".", "", *NAMES[:1], *NAMES[12:13]], k=self.rng.randrange(4)))

    def target(self):
        """The target of a symbolic link: mostly a path."""
        return self.way().encode().hex() or "-" if self.rng.random() < 0.7 else self.data(700)

    def path(self):
        """A path from a folder on: mostly one of names that are there, or one through some forty symbolic links that lead to their own folder."""
        inodes = self.plain.inodes
        around = [number for number, inode in inodes.items() if b"a" in inode.names and inodes[inode.names[b"a"]].data == b"."]
        if around and self.rng.random() < 0.7:
            return f"{self.rng.choice(around)} {'/'.join(['a'] * self.rng.randrange(39, 43))}"
        number, names = self.number(True), []
        words = [f"{number} {self.way()}"]
        while there := inodes[number].names if number in inodes else None:
            name, number = self.rng.choice(list(there.items()))
            names.append(urllib.parse.quote(name, safe=""))
            words.append(f"{words[0].split(' ')[0]} {'/'.join(names)}")
        return self.rng.choice(words)


class Run:
    """A run: its calls, the blocks on the disk and those of the newest state, and what is pending between them."""

    def __init__(self, seed, folder):
        self.seed, self.folder, self.rng, self.plain = seed, folder, random.Random(seed), Plain()
        self.blocks, self.is_lazy = SIZES[seed % 4], seed // 4 % 2 == 1
        self.maker = Maker(self.plain, self.rng)
        self.script, self.told, self.wrong, self.counts = [], "", [], collections.Counter(runs=1)
        _, told, _ = self.played([f"mkfs {self.blocks} {seed}"])[0]
        self.base, self.newest, self.dropped, self.pending, self.made = {}, {}, set(), [], 1
        self.image, self.top = self.volume(told)
        self.take(told)
        self.all_is_written()

    def volume(self, told):
        """The image of the volume that the run begins with, and the block of its root."""
        write(self.folder, "script", "\n".join(script_of(told)).encode())
        if run(XNSIM, ["format", "disk", str(self.blocks)], self.folder)[0] != 0 or run(XNSIM, ["run", "disk", "script"], self.folder)[0] != 0:
            raise RuntimeError("no volume could be made")
        return read(self.folder, "disk"), int(next(line for line in told if line.startswith("  root")).split(" ")[4])

    def played(self, lines):
        """What more lines print: each line with those of its edits, and its answer. All that stands before them has to print the same again."""
        self.script += lines
        write(self.folder, "calls", "".join(f"{line}\n" for line in self.script).encode())
        status, out, told = run(TREEFS_RUNS, ["--tell", "calls"], self.folder)
        if status != 0 or not out.startswith(self.told.encode()):
            raise RuntimeError(f"run {self.seed}: status {status}, {out[-100:]} {told}")
        printed, self.told = out.decode()[len(self.told) :].splitlines(), out.decode()
        calls = []
        for line in printed:
            if line.startswith("  "):
                calls[-1][1].append(line)
            elif line.startswith("= "):
                calls[-1][2] = line[2:]
            else:
                calls.append([line, [], ""])
        return calls

    def take(self, lines):
        """Takes what a call asked of the store."""
        self.pending += lines
        for entry in entries_of(lines):
            if isinstance(entry, int):
                self.newest.pop(entry, None)
            else:
                self.newest[entry.block] = entry.apply(self.newest.get(entry.block, bytes(BLOCK)))
                self.dropped.update(entry.drops)

    def wave_is_written(self, told):
        """Takes a wave of writes: what is on the disk then, and which blocks are free."""
        calls = Calls(self.base, self.top, self.pending)
        cut = {block: taken for block, taken in calls.writable().items() if taken}
        if told != [f"  wave >{''.join(f' {block}' for block in sorted(cut)) or ' '}"]:
            self.fault(f"it told {told}, not the blocks {sorted(cut)}")
        written = [entry for block, taken in cut.items() for entry in calls.of[block][:taken]]
        freed = {block for entry in written for block in entry.drops}
        self.base = {block: state for block, state in calls.blocks_of(cut).items() if block not in freed}
        self.newest = {block: state for block, state in self.newest.items() if block not in freed}
        self.dropped -= freed
        done = {entry.number for entry in written}
        self.pending = [line for entry, line in calls.lines if entry.number not in done and entry.block not in freed]

    def all_is_written(self):
        for block in self.dropped:
            del self.newest[block]
        self.base, self.dropped, self.pending = dict(self.newest), set(), []

    def fault(self, what):
        """Notes what is wrong, with all that is needed to play it again."""
        self.wrong.append(f"run {self.seed}, call {self.made}: {self.script[self.made - 1][:200]}: {what}")

    def batch(self):
        """Makes some calls, looks at a crash behind some of them, and compares the newest state."""
        lines = []
        for line in self.maker.lines(self.rng.randrange(1, 12)):
            lines += [line, self.rng.choice(["flush", "sync"])] if self.rng.random() < (0.01 if self.is_lazy else 0.1) else [line]
            lines += ["wave"] if self.rng.random() < 0.05 else []
        wants = self.make(lines)
        if self.rng.random() < wants / 4:
            self.make(["reap", "sync", "reap", "sync"])
        self.compare()

    def make(self, lines):
        """Makes calls, and answers how many were refused for want of room."""
        calls = self.played(lines)
        if [line for line, *_ in calls] != lines:
            self.fault("the calls came back otherwise")
        for line, told, answer in calls:
            self.made += 1
            is_idle = not self.pending
            if line == "wave":
                self.counts["waves"] += 1
                self.wave_is_written(told)
            else:
                self.take(told)
                self.judge(line, answer, is_idle)
            if self.pending and self.rng.random() < 1 / 22:
                self.crash()
        return sum(answer in WANTS_OF_ROOM for *_, answer in calls)

    def judge(self, line, answer, is_idle):
        """Compares the answer of a line with the plain tree."""
        word, *words = line.split(" ")
        if word == "time":
            self.plain.clock = int(words[0])
        elif word in ("flush", "sync"):
            self.counts["calls"] += 1
            if not (answer == "ok" if word == "flush" else answer.isdigit()):
                self.fault(f"it answered {answer}")
            self.all_is_written()
            self.compare(True)
        elif word in LOOKS:
            self.counts["looks compared"] += 1
            wanted = self.plain.look(word, words)
            if word == "check" and answer in [f"faults {number + 1}" for number in range(len(self.plain.untrimmed))]:
                wanted = answer
            if seen(answer, wanted) != wanted:
                self.fault(f"it answered {answer[:200]}, not {str(wanted)[:200]}")
        else:
            self.judge_call(word, words, answer, is_idle)

    def judge_call(self, word, words, answer, is_idle):
        self.counts["calls"] += 1
        fault, done = getattr(self.plain, word)(*words)
        if answer in WANTS_OF_ROOM:
            self.counts["without room"] += 1
            if fault and word not in ("put", "symlink") or self.has_room(answer, is_idle):
                self.fault(f"it answered {answer}, and {fault or 'there is room'}")
            self.settle(word, words, done)
        elif fault:
            self.counts["refused"] += 1
            if answer != fault:
                self.fault(f"it answered {answer}, not {fault}")
        elif not (answer.isdigit() if word in ANSWER_NUMBERS else answer == "ok"):
            self.fault(f"it answered {answer}, and should be done")
        elif wrong := done(int(answer) if word in ANSWER_NUMBERS else None):
            self.fault(wrong)
        elif word == "write":
            volume = Volume(self.newest, self.top)
            self.compare_inode(volume, volume.inodes(), int(words[0]), False)

    def has_room(self, answer, is_idle):
        """Whether nothing speaks for a want of room: many blocks are free, or nothing is pending."""
        return self.blocks - 3 - len(self.newest) > MOST_BLOCKS if answer == "NoSpace" else is_idle

    def settle(self, word, words, done):
        """A call that was refused for want of room may have done a part: `truncate` all but the trim, and `reap` some of its numbers."""
        inodes, volume = Volume(self.newest, self.top).inodes(), Volume(self.newest, self.top)
        if word == "truncate":
            number = int(words[0])
            if volume.size(inodes[number]) == int(words[1]) != len(self.plain.inodes[number].data):
                done(None)
            self.plain.untrimmed.add(number)
        elif word == "reap":
            for number in self.plain.orphans(words):
                if number not in inodes:
                    del self.plain.inodes[number]
                elif (data := volume.content(inodes[number])) != self.plain.inodes[number].data:
                    self.plain.inodes[number].data[:] = bytes(new and old for new, old in zip(data, self.plain.inodes[number].data, strict=True))

    def compare(self, has_times=False):
        """Compares the newest state with the plain tree."""
        self.counts["newest states"] += 1
        volume, plain = Volume(self.newest, self.top), self.plain.inodes
        inodes, names, wrong = volume.tree()
        if inodes.keys() != plain.keys():
            self.fault(f"the numbers are {sorted(inodes)}, not {sorted(plain)}")
            return
        if wrong or {(folder, name, number) for folder, name, _, number in names} != {(at, *it) for at, inode in plain.items() for it in inode.names.items()}:
            self.fault(f"the names are others: {wrong}")
        for number in plain:
            self.compare_inode(volume, inodes, number, has_times)

    def compare_inode(self, volume, inodes, number, has_times):
        """Compares an inode of the newest state with that of the plain tree."""
        inode = self.plain.inodes[number]
        found, fields = list(volume.fields(inodes[number])), list(inode.fields())
        if not has_times:
            found[5:7] = fields[5:7] = 0, 0
        if found != fields:
            self.fault(f"inode {number} says {found}, not {fields}")
        if inode.kind != FOLDER and volume.content(inodes[number]) != inode.data:
            self.fault(f"inode {number} has other bytes")

    def crash(self):
        """Looks at some images that a crash may leave now."""
        self.counts["crashes"] += 1
        calls = Calls(self.base, self.top, self.pending)
        kept, cut, named = Volume(calls.newest, self.top).named(), calls.least(), Volume(self.base, self.top).named()
        least = cut, named
        for _ in range(CUTS):
            cut, named = (cut, named) if self.rng.random() < 0.5 else least
            cut, lesser = calls.grown(cut, self.rng), named
            wrong, named = calls.faults(cut)
            if lost := (lesser & kept) - named:
                wrong.append(f"no name leads to the inodes in {sorted(lost)} any more")
            wrong += faults_of_image(self.folder, image_of(self.image, calls, cut))
            self.counts["images"] += 1
            wrong = wrong or faults_once_mended(Volume(calls.blocks_of(cut), self.top), read(self.folder, "cut"))
            if wrong:
                self.fault(f"{wrong[0]}: {[(block, taken) for block, taken in cut.items() if taken]}")


def seen(answer, wanted):
    """What a look answered, as the plain tree says it."""
    if isinstance(wanted, bytes):
        return bytes_of(answer) if re.fullmatch(r"-|[0-9a-f*+]+", answer) else answer
    if isinstance(wanted, list):
        pairs = [it.rpartition(":") for it in answer.split(" ")] if answer != "-" else []
        return sorted((name_of(name), int(number)) for name, _, number in pairs) if all(it[1] for it in pairs) else answer
    return answer


def run_of(seed):
    """Plays the run of a seed up to its first fault: what it counts, and what is wrong. Blocks that are no volume may have pointers or numbers to nothing."""
    with tempfile.TemporaryDirectory(dir="/dev/shm" if os.path.isdir("/dev/shm") else None) as folder:
        it = Run(seed, folder)
        try:
            while it.counts["calls"] < CALLS and not it.wrong:
                it.batch()
        except (LookupError, RuntimeError, TypeError, ValueError, struct.error, subprocess.TimeoutExpired) as error:
            it.fault(f"it can't be read: {error!r}")
        return it.counts, it.wrong


def play(runs=320, seed=1):
    tally = Tally(*COUNTED)
    with ProcessPoolExecutor() as pool:
        for counts, wrong in pool.map(run_of, range(seed, seed + runs)):
            for name in COUNTED:
                tally.count(name, counts[name])
            for it in wrong[:3]:
                tally.fault(it)
    return tally
