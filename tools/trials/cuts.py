"""Builds the images that a crash may leave in the middle of runs of `xnfs`, and looks at each.

Each of RUNS runs (20) is a random line or a random shell, also a lazy one, on a disk that the runs before it have filled; `strace` records its
writes and syncs, and what it prints. At each point of that record images are built with none, all and SUBSETS (30) random subsets of the writes since
the last good sync kept. Each has to be sound by `xnsim check`. Once `check --repair` or `sync` opened it, `check` has to find nothing, and each file has to
be whole: of the lines that have answered all is there, of a lazy shell up to its last `sync` that has; what the next line does may be there or not, name by
name. After the last point, with status 0, all has to be there. Of one image in forty the opening that mends it is recorded too, and images are built of a
crash in that. On one image in ten the words that look are tried before it is mended: they have to end well and to leave it as it is. A fresh disk is made for
every ten runs; every second one is crowded: it has more inodes than inode 0 has pointers of its own, and most of its runs are lazy shells. The last word is
the SEED (2). A line on standard error tells each run.
"""

import collections
import hashlib
import os
import random
import re
import subprocess
import sys
import tempfile

from trials.disks import XNFS, crowd, fresh, is_looked_at, is_sound, mended, write_sources
from trials.lines import answered_by, random_run
from trials.programs import demand, read, write
from trials.tally import Tally
from trials.tree import Tree

BYTES = r'"((?:\\x[0-9a-f]{2})*)"'
WRITE = re.compile(rf"pwrite64\(\d+(?:<[^>]*>)?, {BYTES}, (\d+), (\d+)\)\s+= (-?\d+)")
OUT = re.compile(rf"write\(1(?:<[^>]*>)?, {BYTES}, (\d+)\)\s+= (-?\d+)")
SYNC = re.compile(r"f(?:data)?sync\(.*\)\s+= 0")
# No write of a run is longer than this.
LONGEST = 200_000


def bytes_of(text, count):
    data = bytes.fromhex(text.replace("\\x", ""))[:count]
    if len(data) != count:
        raise RuntimeError(f"a write of {count} bytes was recorded with {len(data)} of them")
    return data


def recorded(folder, image, words, given=b""):
    """What a run does, in its order: block writes as pairs of offset and bytes, None for a sync, and what it prints as bytes."""
    subprocess.run(
        ["strace", "-f", "-o", "trace", "-e", "trace=pwrite64,write,fsync,fdatasync", "-xx", "-s", str(LONGEST), XNFS, image, *words],
        cwd=folder, input=given, stdout=subprocess.DEVNULL, check=True,
    )
    events = []
    with open(os.path.join(folder, "trace"), encoding="ascii") as lines:
        for line in lines:
            if written := WRITE.search(line):
                events.append((int(written[3]), bytes_of(written[1], int(written[4]))))
            elif printed := OUT.search(line):
                events.append(bytes_of(printed[1], int(printed[3])))
            elif SYNC.search(line):
                events.append(None)
    return events


def with_writes(image, writes):
    image = bytearray(image)
    for offset, data in writes:
        image[offset : offset + len(data)] = data
    return bytes(image)


def subsets(writes, count, rng):
    """None of some writes, all of them, and so many random subsets: few, half or most of them all, or of the first ones."""
    yield []
    if writes:
        yield writes
        for _ in range(count if len(writes) > 1 else 0):
            first, odds = rng.choice([len(writes), rng.randrange(1, len(writes) + 1)]), rng.choice([0.1, 0.5, 0.5, 0.9, 0.98])
            yield [write for write in writes[:first] if rng.random() < odds]


def cuts_of(image, events, count, rng):
    """The images that a crash may leave before each sync of a record, and after the last."""
    open_writes = []
    for event in [*events, None]:
        if event is None:
            yield from (with_writes(image, kept) for kept in subsets(open_writes, count, rng))
            image, open_writes = with_writes(image, open_writes), []
        elif not isinstance(event, bytes):
            open_writes.append(event)


class Cuts:
    """A run's images, of which each is looked at once."""

    def __init__(self, folder, trial, tally, rng):
        self.folder, self.trial, self.tally, self.rng, self.seen = folder, trial, tally, rng, set()

    def look(self, image, answered, is_after):
        """Looks at an image after so many lines have answered, or after all is done."""
        key = (hashlib.sha256(image).digest(), answered, is_after)
        if key in self.seen:
            return
        self.seen.add(key)
        self.tally.count("images")
        self.look_at(image, answered, is_after, len(self.seen) % 10 == 0)
        if len(self.seen) % 40 == 0:
            write(self.folder, "cut", image)
            for again in cuts_of(image, recorded(self.folder, "cut", ["sync"]), 3, self.rng):
                self.tally.count("images of a second crash")
                self.look_at(again, answered, is_after, False)

    def look_at(self, image, answered, is_after, is_seen_first):
        """Looks at an image, also before it is mended where that is told."""
        write(self.folder, "cut", image)
        if not is_sound(self.folder, "cut"):
            self.fault(image, ["not sound"], answered)
        if is_seen_first:
            self.tally.count("looked at")
            if not is_looked_at(self.folder, "cut"):
                self.fault(image, ["not looked at well"], answered)
        if told := self.trial.odd(mended(self.folder, "cut", self.rng.choice([["check", "--repair"], ["sync"]])), None if is_after else answered):
            self.fault(image, told, answered)

    def fault(self, image, told, answered):
        kept = f"/tmp/cut_{self.tally.wrong}.img"
        write("/", kept, image)
        self.tally.fault(*told[:3], f"(kept as {kept})", self.trial.words, self.trial.lines, "answered", answered)

    def take(self, image, events, count, share=1):
        """Looks at the cuts of a record at all its points, or at a random share of them and at its end."""
        open_writes, printed = [], b""
        for event in [*events, "end"]:
            if isinstance(event, bytes):
                printed += event
                continue
            is_looked_at = share == 1 or event == "end" or self.rng.random() < share
            for kept in subsets(open_writes, count, self.rng) if is_looked_at else ():
                self.look(with_writes(image, kept), answered_by(printed) if self.trial.is_shell() else 0, event == "end")
            if event is None:
                image, open_writes = with_writes(image, open_writes), []
            elif event != "end":
                open_writes.append(event)


def play(runs=20, count=30, seed=2):
    demand(["strace"])
    rng, kinds, most = random.Random(seed), collections.Counter(), 0
    tally = Tally("runs", "shells", "lines", "images", "images of a second crash", "looked at", "syncs")
    with tempfile.TemporaryDirectory() as folder:
        write_sources(folder)
        for number in range(runs):
            if number % 10 == 0:
                fresh(folder, "disk", 1024)
                tree = crowd(folder, "disk", rng) if number % 20 == 0 else Tree()
            trial = random_run(tree, rng)
            kinds.update(trial.kinds())
            image = read(folder, "disk")
            events = recorded(folder, "disk", trial.words, trial.given)
            most = max(most, 0 if trial.is_shell() else events.count(None))
            for name, counted in {"runs": 1, "shells": trial.is_shell(), "lines": len(trial.lines), "syncs": events.count(None)}.items():
                tally.count(name, counted)
            Cuts(folder, trial, tally, rng).take(image, events, count)
            tree = trial.trees[-1]
            print(f"{' '.join(trial.words)}: {tally}", file=sys.stderr, flush=True)
    for kind, number in sorted(kinds.items()):
        print(f"{kind:<24} {number:>5}")
    print(f"{most} syncs at most in a line")
    return tally
