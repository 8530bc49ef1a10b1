"""Kills runs of `xnfs`, and looks at what they leave.

A run is a random line or a random shell, also a lazy one, on a disk that the runs before it have filled. It is killed after a random part of the time that
such runs take, or ends before; this goes on until KILLS (1,000) were killed. Then each of STOPPED (30) further runs ends by `--stop K` before its block write
K + 1, for each K up to all of its writes. Each time the disk has to be sound by `xnsim check`, and the words that look have to end well on it and leave it as
it is. Of a copy that the next opening has mended `check` has to find nothing, and each of its files has to be whole: of the lines that have answered all is
there, of a lazy shell up to its last `sync` that has; what the next line does may be there or not, name by name. A part of the copies are mended by a run
that is killed too. A fresh disk is made for every fifty runs that may be killed, and for every five that are stopped. Every second one is crowded: it has
more inodes than inode 0 has pointers of its own, and more names in a folder than its inode has place for. The last word is the SEED (1).
"""

import collections
import itertools
import os
import random
import shutil
import subprocess
import tempfile
import time

from trials.disks import XNFS, crowd, fresh, is_looked_at, is_sound, mended, remove_unfinished, write_sources
from trials.lines import answered_by, random_run
from trials.programs import run, write
from trials.tally import Tally
from trials.tree import Tree

STOPPED = b"stopped before another block was written\n"


class Disks:
    """A disk and what is known of it: its tree, and the counts of all runs."""

    def __init__(self, folder, seed):
        self.folder, self.rng, self.tree = folder, random.Random(seed), Tree()
        self.tally, self.kinds = Tally("runs", "kills", "runs stopped", "stops", "openings killed", "unfinished copies"), collections.Counter()

    def start(self, is_crowded):
        fresh(self.folder, "disk")
        self.tree = crowd(self.folder, "disk", self.rng) if is_crowded else Tree()

    def look(self, trial, status, out, err):
        """Looks at what a run has left; a status is that of one that ended by itself."""
        is_kept = is_sound(self.folder, "disk") and (self.rng.random() < 0.5 or is_looked_at(self.folder, "disk"))
        if self.rng.random() < 0.2:
            self.tally.count("openings killed")
            run(XNFS, ["--stop", str(self.rng.randrange(12)), "disk", "sync"], self.folder)
        left = mended(self.folder, "disk", self.rng.choice([["check", "--repair"], ["sync"]]))
        answered = answered_by(out) if trial.is_shell() else 0
        odd = trial.odd(left, None if status == 0 else answered)
        is_told = not err or (status == 1 and err.endswith(STOPPED))
        if odd or not is_told or not is_kept:
            kept = f"/tmp/killed_{self.tally.wrong}.img"
            shutil.copy(os.path.join(self.folder, "disk"), kept)
            told = odd or ["not told" if is_kept else "not sound, or not looked at well"]
            self.tally.fault(*told[:3], f"(kept as {kept})", trial.words, trial.lines, "status", status, "answered", answered, err.decode())
        self.tree = left or Tree()
        if left is None:
            self.start(False)
        elif answered < len(trial.lines):
            self.tally.count("unfinished copies", remove_unfinished(self.folder, "disk"))


def killed(folder, trial, delay):
    """Begins a run and kills it after a time: its status where it had ended by then, and what it has printed."""
    write(folder, "given", trial.given)
    with open(os.path.join(folder, "given"), "rb") as given:
        child = subprocess.Popen([XNFS, "disk", *trial.words], cwd=folder, stdin=given, stdout=subprocess.PIPE, stderr=subprocess.PIPE)
    try:
        out, err = child.communicate(timeout=delay)
    except subprocess.TimeoutExpired:
        child.kill()
        out, err = child.communicate()
    return (child.returncode if child.returncode >= 0 else None), out, err


def kill_runs(disks, kills):
    """Begins random runs until so many were killed."""
    longest = collections.defaultdict(lambda: 0.05)
    for number in itertools.count():
        if disks.tally.counts["kills"] >= kills:
            return
        if number % 50 == 0:
            disks.start(number % 100 == 50)
        trial = random_run(disks.tree, disks.rng)
        disks.kinds.update([trial.words[0] if trial.is_shell() else "line", *trial.kinds()])
        began = time.monotonic()
        status, out, err = killed(disks.folder, trial, disks.rng.random() * longest[len(trial.lines)])
        if status is not None:
            longest[len(trial.lines)] = 0.9 * longest[len(trial.lines)] + 0.1 * 1.5 * (time.monotonic() - began)
        else:
            longest[len(trial.lines)] *= 1.01
            disks.tally.count("kills")
        disks.tally.count("runs")
        disks.look(trial, status, out, err)


def stop_run(disks):
    """Stops a run before each of its block writes in turn."""
    disk, kept = (os.path.join(disks.folder, name) for name in ("disk", "kept"))
    shutil.copy(disk, kept)
    before = disks.tree
    trial = random_run(before, disks.rng)
    while set(trial.kinds()) <= {"sync", "check --repair"}:
        trial = random_run(before, disks.rng)
    for writes in itertools.count():
        shutil.copy(kept, disk)
        status, out, err = run(XNFS, ["--stop", str(writes), "disk", *trial.words], disks.folder, trial.given)
        disks.look(trial, status, out, err)
        if status == 0 or not err.endswith(STOPPED):
            disks.tally.count("stops", writes)
            return


def play(kills=1000, stops=30, seed=1):
    with tempfile.TemporaryDirectory() as folder:
        write_sources(folder)
        disks = Disks(folder, seed)
        kill_runs(disks, kills)
        for number in range(stops):
            if number % 5 == 0:
                disks.start(number % 10 == 0)
            disks.tally.count("runs stopped")
            stop_run(disks)
    for kind, number in sorted(disks.kinds.items()):
        print(f"{kind:<24} {number:>5}")
    return disks.tally
