"""Runs lines of `xnfs` with the N-th read, write or sync of a file failing, for N from 1 until a run meets no failure.

Each of LINES (12) is a random line on a disk that the lines before it have filled. A run in which a call fails has to end with
status 1 and one line on standard error that names the fault, or with status 0 and all done. Then the disk has to be sound by
`xnsim check`, and once it was opened again to be changed `check` has to find nothing, and each file has to be as it was before the line or as it is after it.

Calls fail by a library of a few lines in C that is loaded before the C library. So a C compiler has to be there.
"""

import itertools
import os
import random
import re
import shutil
import subprocess
import tempfile

from trials.disks import XNFS, fresh, is_sound, mended, write_sources
from trials.lines import random_line
from trials.programs import PATIENCE, built_library, demand
from trials.tally import Tally
from trials.tree import Run, Tree

TOLD = "call failed"
FAULT = re.compile(r"xnfs: [^\n]+\n")
LIBRARY = """
#define _GNU_SOURCE
#include <dlfcn.h>
#include <errno.h>
#include <stdlib.h>
#include <string.h>
#include <sys/types.h>
#include <unistd.h>

static long calls;

static int fails(int file) {
    const char *number = getenv("FAILED");
    if (!number || file < 3 || ++calls != atol(number)) return 0;
    ssize_t told = ((ssize_t (*)(int, const void *, size_t))dlsym(RTLD_NEXT, "write"))(2, "%s\\n", %d);
    errno = EIO;
    return told > 0;
}

#define CALL(result, name, given, passed) \\
    result name given { \\
        if (fails(file)) return -1; \\
        return ((result (*) given)dlsym(RTLD_NEXT, #name)) passed; \\
    }

CALL(ssize_t, read, (int file, void *bytes, size_t count), (file, bytes, count))
CALL(ssize_t, write, (int file, const void *bytes, size_t count), (file, bytes, count))
CALL(ssize_t, pread, (int file, void *bytes, size_t count, off_t at), (file, bytes, count, at))
CALL(ssize_t, pwrite, (int file, const void *bytes, size_t count, off_t at), (file, bytes, count, at))
CALL(ssize_t, pread64, (int file, void *bytes, size_t count, off_t at), (file, bytes, count, at))
CALL(ssize_t, pwrite64, (int file, const void *bytes, size_t count, off_t at), (file, bytes, count, at))
CALL(int, fsync, (int file), (file))
CALL(int, fdatasync, (int file), (file))
""" % (TOLD, len(TOLD) + 1)


def failed_run(folder, library, words, number):
    """A line's status and what it tells, where its call of this number fails, and whether it met that."""
    done = subprocess.run(
        [XNFS, "disk", *words], cwd=folder, stdin=subprocess.DEVNULL, capture_output=True, timeout=PATIENCE, check=False,
        env={"LD_PRELOAD": library, "FAILED": str(number)},
    )
    told = done.stderr.decode()
    is_met = TOLD in told
    return done.returncode, told.replace(TOLD + "\n", ""), is_met


class Failures:
    """Lines with failing calls: how many calls failed, how many lines were done all the same, and what faults were told."""

    def __init__(self, folder):
        self.folder, self.library = folder, built_library(folder, "fail", LIBRARY)
        self.faults, self.tally = set(), Tally("lines", "failed calls", "lines done all the same")

    def odd(self, status, told, run):
        """What is wrong with how a line ended, and with what it left."""
        if not is_sound(self.folder, "disk"):
            return ["not sound"]
        left = mended(self.folder, "disk", ["sync"])
        if status == 0:
            self.tally.count("lines done all the same")
            return run.odd(left) + ["told"] * bool(told)
        self.faults.add(re.sub(r"/\S*:", "PATH:", told.strip()))
        return run.odd(left, 0) + ["not told in a line"] * (status != 1 or FAULT.fullmatch(told) is None)

    def take(self, run):
        """Fails each call of a line in turn, each time on the disk as it was before it. Leaves the disk as after the line."""
        disk, kept = (os.path.join(self.folder, name) for name in ("disk", "kept"))
        shutil.copy(disk, kept)
        self.tally.count("lines")
        for number in itertools.count(1):
            shutil.copy(kept, disk)
            status, told, is_met = failed_run(self.folder, self.library, run.words, number)
            if not is_met:
                return
            self.tally.count("failed calls")
            if odd := self.odd(status, told, run):
                self.tally.fault(*odd[:3], run.words, "call", number, "status", status, told)


def play(lines=12):
    demand(["cc"])
    rng, tree = random.Random(5), Tree()
    with tempfile.TemporaryDirectory() as folder:
        write_sources(folder)
        fresh(folder, "disk", 600)
        failures = Failures(folder)
        for _ in range(lines):
            words, after = random_line(tree, rng, 300)
            failures.take(Run(words, b"", [words], [tree, after]))
            tree = after
    for fault in sorted(failures.faults):
        print(fault)
    return failures.tally
