"""Runs `xnsim` where the system refuses it something: a part of `hostile`."""

import os
import re
import resource
import shutil
import stat
import subprocess

from trials.programs import PATIENCE, disk_in_memory, limit, outputs_refused, read, write
from trials.scripts import BLOCKS, CHAIN, XNSIM, answers_of, program_runs, reference
from trials.tally import DONE, NAMED_FAULT, Tally

NAMED = re.compile(r"(no memory|cannot (read|write) \S+)\n")
NOT_STARTED = 127
IMAGE_LENGTH = 512 * BLOCKS
SCRIPT = b"init 0 2 414243\nroot 0 1\ndrain\nread 0 1\n"
OLD = reference.formatted(BLOCKS, [])
STORE = reference.Store(OLD)
REPLIES = reference.run(STORE, SCRIPT)
NEW = b"".join(STORE.image)
TEXTS = {"chain": b"LD4 1 0\nIFLT 0 1\nSET 2 3\nEMIT 1 2\nEND\n", "four": b"SET 0 4\n"}
FILES = {"disk": OLD, "script": SCRIPT, **TEXTS}
LENGTHS = (0, 1, IMAGE_LENGTH // 2, IMAGE_LENGTH - 1, IMAGE_LENGTH)
# Lines with their answers and with what they leave as `disk`.
LINES = [
    (["run", "disk", "script"], REPLIES, NEW),
    (["format", "disk", "32", "--ffs"], ["blocks 32 templates 3"], reference.formatted(BLOCKS, reference.TEMPLATES)),
    (["asm", "chain", "four", "disk"], ["template owns 5 size 1"], CHAIN),
    (["verify", "chain", "owns"], ["accepted cost 4 emits 1"], OLD),
    (["check", "disk"], ["reached 1 free 31"], OLD),
]


class Trials:
    """A folder with the files that are tried, and how the runs in it ended."""

    def __init__(self, folder):
        self.folder, self.tally = folder, Tally(DONE, NAMED_FAULT)

    def put_files(self, mode=0o644):
        for name, data in FILES.items():
            write(self.folder, name, data)
            os.chmod(os.path.join(self.folder, name), mode)

    def note(self, what, is_well, is_named, left, new):
        """Counts a run, by its end and by what it left."""
        beside = set(os.listdir(self.folder)) - set(FILES)
        is_right = is_well and left == new or is_named and left in (OLD, new)
        if beside or not is_right:
            self.tally.fault(f"{what}: {'done' if is_well else 'named' if is_named else 'another end'}, {len(left)} bytes left, beside it {beside}")
        self.tally.count(DONE, is_well)
        self.tally.count(NAMED_FAULT, is_named)
        for name in beside:
            os.remove(os.path.join(self.folder, name))

    def run(self, what, line, mode=0o644, **how):
        """Runs a line whose output is read."""
        words, answer, new = line
        self.put_files(mode)
        status, out, err = program_runs(words, self.folder, **how)
        if status == NOT_STARTED:
            self.tally.count("not started")
            return
        is_named = status == 1 and bool(NAMED.fullmatch(err))
        self.note(f"{what}, {words}", (status, out, err) == answers_of(answer), is_named, read(self.folder, "disk"), new)

    def run_unheard(self, what, line, **how):
        """Runs a line whose output goes nowhere: that alone is told by its status."""
        words, _, new = line
        self.put_files()
        given = {"cwd": self.folder, "stdin": subprocess.DEVNULL, "stderr": subprocess.PIPE, "timeout": PATIENCE}
        done = subprocess.run([XNSIM, *words], check=False, **given, **how)
        is_named = done.returncode == 1 and (not done.stderr or NAMED.fullmatch(done.stderr.decode()))
        self.note(f"{what}, {words}", False, bool(is_named), read(self.folder, "disk"), new)


def unheard(folder):
    """Standard output is a full device, is closed, or is a pipe that nobody reads."""
    trials = Trials(folder)
    with outputs_refused() as outputs:
        for line in LINES:
            for what, how in outputs.items():
                trials.run_unheard(what, line, **how)
    return trials


def lengths(folder):
    """Files may not grow past each length in whole blocks and a byte beside."""
    trials = Trials(folder)
    for length in range(0, IMAGE_LENGTH + 513, 512):
        for line in LINES[:3]:
            for value in {length, max(length - 1, 0)}:
                trials.run(f"files of {value} bytes at most", line, preexec_fn=limit(resource.RLIMIT_FSIZE, value))
    return trials


def full_disks(folder):
    """Disks in memory on which the image fits, and not always a second one."""
    trials = Trials(folder)
    for pages in range(7, 14):
        with disk_in_memory(folder, 4096 * pages):
            for line in LINES[:3]:
                trials.run(f"a disk of {pages} pages", line)
    return trials


def rights(folder):
    """Folders and files in which the user nobody may do some things and not others."""
    trials = Trials(os.path.join(folder, "tried"))
    os.mkdir(trials.folder)
    os.chmod(folder, 0o755)
    how = {"path": shutil.copy(XNSIM, folder), "user": "nobody", "group": "nogroup", "extra_groups": []}
    for mode in (0o755, 0o711, 0o777, 0o1777):
        os.chmod(trials.folder, mode)
        for file_mode in (0o644, 0o666, 0o444, 0o600, 0o222):
            for line in LINES:
                trials.run(f"folder {mode:o}, files {file_mode:o}", line, mode=file_mode, **how)
        for length in LENGTHS:
            start = limit(resource.RLIMIT_FSIZE, length)
            trials.run(f"folder {mode:o}, files of {length} bytes at most", LINES[0], mode=0o666, preexec_fn=start, **how)
    os.chmod(trials.folder, stat.S_IRWXU)
    for words, answer, new in LINES:
        words = [os.path.join(trials.folder, word) if word in FILES else word for word in words]
        trials.run("a folder that may not be entered", (words, answer, new), **{**how, "cwd": "/"})
    return trials


def links(folder):
    """The file that is written is a symbolic link to one in another folder."""
    trials = Trials(os.path.join(folder, "tried"))
    os.mkdir(trials.folder)
    os.symlink("../linked", os.path.join(trials.folder, "disk"))
    for length in LENGTHS:
        for line in LINES[:3]:
            trials.run(f"a link, files of {length} bytes at most", line, preexec_fn=limit(resource.RLIMIT_FSIZE, length))
    return trials


def spaces(folder):
    """Little address space, from 2 MiB on. Below some of it the system's loader doesn't start the program."""
    trials = Trials(folder)
    for step in range(8, 160):
        for line in LINES:
            trials.run(f"{step} quarters of a MiB", line, preexec_fn=limit(resource.RLIMIT_AS, step << 18))
    return trials


KINDS = (unheard, lengths, full_disks, rights, links, spaces)
