"""Runs `xnfs` where the system or another process refuses it something: a part of `hostile`."""

import itertools
import os
import re
import resource
import shutil
import signal
import subprocess

from trials.disks import XNFS, fresh, is_sound, mended, write_sources
from trials.memory import LIBRARY
from trials.memory import TOLD as REFUSED_TOLD
from trials.programs import PATIENCE, built_library, disk_in_memory, limit, outputs_refused, read, run, write
from trials.tally import DONE, NAMED_FAULT, Tally
from trials.tree import SOURCES, Run, Tree, odd

REFUSED = REFUSED_TOLD.encode() + b"\n"
FAULT = re.compile(rb"xnfs: [^\n]+\n")
MADE = [["mkdir", "/a"], ["put", "source3000a", "/a/b"], ["put", "source1a", "/c"], ["ln", "-s", "a/b", "/link"]]
START = Tree()
for made in MADE:
    START.change(made)
LOOKS = [
    ["ls"], ["ls", "-l"], ["ls", "--json"], ["tree"], ["cat", "/a/b"], ["stat", "/c"], ["df"], ["check"], ["get", "/c", "-"], ["readlink", "/link"], ["find"],
    ["du"],
]
CHANGES = [
    ["mkdir", "/d"], ["put", "source20000a", "/d"], ["put", "source8192a", "/c"], ["put", "holes", "/d"], ["cp", "/a/b", "/d"], ["cp", "-r", "/a", "/d"],
    ["mv", "/c", "/d"], ["mv", "/c", "/a/b"], ["rm", "/c"], ["rm", "-r", "/a"], ["ln", "/c", "/d"], ["ln", "-s", "c", "/d"], ["chmod", "600", "/c"],
    ["truncate", "-s", "9000", "/c"], ["touch", "-d", "1000000000", "/c"], ["sync"], ["check", "--repair"],
]


class Trials:
    """A folder with a disk that each line finds anew, and how the lines ended."""

    def __init__(self, folder):
        self.folder, self.tally = folder, Tally(DONE, NAMED_FAULT)
        write_sources(folder)
        fresh(folder, "kept", 128)
        for words in MADE:
            if run(XNFS, ["kept", *words], folder)[0] != 0:
                raise RuntimeError(words)
        self.put_disk()

    def put_disk(self):
        shutil.copy(os.path.join(self.folder, "kept"), os.path.join(self.folder, "disk"))

    def after(self, words):
        return START.after(words) or START

    def count(self, what, words, status, err, is_well):
        """Counts a run by its end."""
        is_named = status == 1 and FAULT.fullmatch(err)
        is_done = status == 0 and not err
        self.tally.count(DONE, is_done)
        self.tally.count(NAMED_FAULT, bool(is_named))
        if not is_well or not (is_named or is_done):
            self.tally.fault(f"{what}, {words}: status {status}, {err.decode()}")

    def is_left(self, words, status):
        """Whether the disk has what a line may leave."""
        trial = Run(words, b"", [words], [START, self.after(words)])
        return is_sound(self.folder, "disk") and not trial.odd(mended(self.folder, "disk", ["sync"]), None if status == 0 else 0)

    def try_line(self, what, words, **how):
        """Runs a line on the disk as it was, under some refusal."""
        self.put_disk()
        given = {"cwd": self.folder, "stdin": subprocess.DEVNULL, "stdout": subprocess.DEVNULL, "stderr": subprocess.PIPE, "timeout": PATIENCE, **how}
        done = subprocess.run([XNFS, "disk", *words], check=False, **given)
        self.count(what, words, done.returncode, done.stderr, self.is_left(words, done.returncode))


def unheard(folder):
    """Standard output is a full device, is closed, or is a pipe that nobody reads: a fault of each word that prints, and of no other."""
    trials = Trials(folder)
    with outputs_refused() as outputs:
        for words in [*LOOKS, *CHANGES]:
            for what, how in outputs.items():
                trials.try_line(what, words, **how)
    prints = len(LOOKS) + 1
    wanted = {DONE: 3 * (len(LOOKS) + len(CHANGES) - prints), NAMED_FAULT: 3 * prints}
    if trials.tally.counts != wanted:
        trials.tally.fault(f"outputs: {trials.tally}, wanted: {wanted}")
    return trials


def two_at_once(folder):
    """Another process has the disk open; then ten that start together: what each that was done has made is there, and nothing else."""
    trials = Trials(folder)
    with subprocess.Popen([XNFS, "disk", "shell"], cwd=folder, stdin=subprocess.PIPE, stdout=subprocess.PIPE) as holder:
        holder.stdin.write(b"pwd\n")
        holder.stdin.flush()
        holder.stdout.readline()
        for words in [*LOOKS, *CHANGES]:
            status, out, err = run(XNFS, ["disk", *words], folder)
            trials.count("a second process", words, status, err, (status, out, err) == (1, b"", b"xnfs: disk: the file is in use\n"))
        holder.stdin.close()
        holder.wait()
    for number in range(20):
        trials.put_disk()
        lines = [["put", "source513a", f"/f{each}"] for each in range(10)]
        runs = [subprocess.Popen([XNFS, "disk", *words], cwd=folder, stderr=subprocess.PIPE) for words in lines]
        tree = START.copy()
        for words, each in zip(lines, runs):
            err = each.communicate()[1]
            trials.count(f"ten at once, {number}", words, each.returncode, err, True)
            if each.returncode == 0:
                tree.change(words)
        left = mended(folder, "disk", ["sync"])
        if left is None or odd(left, [tree]) or not is_sound(folder, "disk"):
            trials.tally.fault("ten at once")
    return trials


def try_format(trials, folder, what, **how):
    """Makes a disk under some refusal: it is whole then, or no disk, or not there."""
    path = os.path.join(folder, "made")
    if os.path.exists(path):
        os.remove(path)
    given = {"cwd": folder, "stdin": subprocess.DEVNULL, "capture_output": True, "timeout": PATIENCE, **how}
    done = subprocess.run([XNFS, "format", "made", "64"], check=False, **given)
    is_whole = os.path.exists(path) and is_sound(folder, "made")
    trials.count(what, ["format"], done.returncode, done.stderr, is_whole or done.returncode == 1)


def try_get(trials, what, **how):
    """Brings a file out over one that is there, under some refusal: it is the old or the new one then, and nothing stands beside it."""
    trials.put_disk()
    write(trials.folder, "target", b"old")
    files = sorted(os.listdir(trials.folder))
    given = {"cwd": trials.folder, "stdin": subprocess.DEVNULL, "capture_output": True, "timeout": PATIENCE, **how}
    done = subprocess.run([XNFS, "disk", "get", "/a/b", "target"], check=False, **given)
    data = read(trials.folder, "target")
    is_well = data == SOURCES["source3000a"] if done.returncode == 0 else data == b"old"
    trials.count(what, ["get"], done.returncode, done.stderr, is_well and sorted(os.listdir(trials.folder)) == files)


def lengths(folder):
    """No file may grow or be written past a length."""
    trials = Trials(folder)
    for length in range(0, 128 * 512 + 513, 1024):
        for value in {length, max(length - 1, 0)}:
            start = limit(resource.RLIMIT_FSIZE, value)
            try_format(trials, folder, f"files of {value} bytes at most", preexec_fn=start)
            if length <= 4096:
                try_get(trials, f"files of {value} bytes at most", preexec_fn=start)
        for words in CHANGES:
            trials.try_line(f"files of {length} bytes at most", words, preexec_fn=limit(resource.RLIMIT_FSIZE, length))
    return trials


def fill(folder):
    """Takes all room that is left."""
    with open(os.path.join(folder, "filling"), "wb", buffering=0) as file:
        try:
            while file.write(bytes(4096)):
                pass
        except OSError:
            pass


def full_disks(folder):
    """The file is on a disk in memory that is full, and has holes where its blocks are zeros: what is written there is refused."""
    trials = Trials(folder)
    inner = os.path.join(folder, "inner")
    os.mkdir(inner)
    for pages in range(1, 24):
        with disk_in_memory(inner, 4096 * pages):
            try_format(trials, inner, f"a disk of {pages} pages")
    for words in CHANGES:
        for pages in (0, 1, 2, 3):
            with disk_in_memory(inner, "192k"):
                with_holes(trials, inner, words, pages)
    return trials


def with_holes(trials, inner, words, pages):
    """Runs a line on a disk with holes for which so many pages are left."""
    subprocess.run(["cp", "--sparse=always", os.path.join(trials.folder, "kept"), os.path.join(inner, "disk")], check=True)
    write(inner, "spare", bytes(4096 * pages))
    fill(inner)
    os.remove(os.path.join(inner, "spare"))
    words = [f"../{word}" if word in SOURCES or word == "holes" else word for word in words]
    done = subprocess.run([XNFS, "disk", *words], cwd=inner, capture_output=True, timeout=PATIENCE, check=False)
    shutil.copy(os.path.join(inner, "disk"), os.path.join(trials.folder, "disk"))
    words = [os.path.basename(word) if word.startswith("../") else word for word in words]
    trials.count(f"a full disk but for {pages} pages", words, done.returncode, done.stderr, trials.is_left(words, done.returncode))


def rights(folder):
    """Files and folders in which the user nobody may do some things and not others. A word that looks needs no right to write the disk."""
    trials = Trials(folder)
    os.chmod(folder, 0o755)
    program = shutil.copy(XNFS, folder)
    os.chmod(program, 0o755)
    how = {"user": "nobody", "group": "nogroup", "extra_groups": [], "cwd": folder, "capture_output": True, "timeout": PATIENCE, "check": False}
    for mode in (0o666, 0o444, 0o222, 0o000):
        for words in [*LOOKS, *CHANGES]:
            trials.put_disk()
            os.chmod(os.path.join(folder, "disk"), mode)
            done = subprocess.run([program, "disk", *words], **how)
            os.chmod(os.path.join(folder, "disk"), 0o644)
            may_do = mode == 0o666 or (mode == 0o444 and words in LOOKS)
            is_right = trials.is_left(words, done.returncode) and (done.returncode == 0) == may_do
            trials.count(f"a disk of mode {mode:o}", words, done.returncode, done.stderr, is_right)
    for words in [["format", "made", "128"], ["disk", "get", "/c", "target"], ["disk", "put", "hidden", "/h"]]:
        trials.put_disk()
        os.chmod(os.path.join(folder, "disk"), 0o666)
        shutil.copy(os.path.join(folder, "source1a"), os.path.join(folder, "hidden"))
        os.chmod(os.path.join(folder, "hidden"), 0o600)
        done = subprocess.run([program, *words], **how)
        trials.count("a folder of mode 755", words, done.returncode, done.stderr, done.returncode == 1 and trials.is_left(["sync"], 0))
    return trials


def requests(folder):
    """Every thirteenth request for memory is refused in turn, each in a run of its own. Before the words are read that is told with status 2."""
    trials = Trials(folder)
    library = built_library(folder, "refuse", LIBRARY)
    for words in [*LOOKS[:4], *CHANGES]:
        for number in itertools.count(1, 13):
            trials.put_disk()
            env = {"LD_PRELOAD": library, "REFUSED": str(number)}
            done = subprocess.run([XNFS, "disk", *words], cwd=folder, capture_output=True, timeout=PATIENCE, check=False, env=env)
            told = done.stderr.replace(REFUSED, b"")
            if told == done.stderr:
                break
            is_read = (done.returncode, told) != (2, b"error: out of memory\n")
            is_well = trials.is_left(words, done.returncode)
            trials.count(f"request {number} refused", words, done.returncode if is_read else 1, told if is_read else b"xnfs: no memory\n", is_well)
    return trials


def spaces(folder):
    """Little address space, from 2 MiB on. Below some of it the system's loader doesn't start the program, which says so with status 127 or by a signal."""
    trials = Trials(folder)
    for quarters in range(8, 80, 6):
        for words in [*LOOKS[:3], *CHANGES]:
            trials.put_disk()
            how = {"cwd": folder, "capture_output": True, "timeout": PATIENCE, "check": False, "preexec_fn": limit(resource.RLIMIT_AS, quarters << 18)}
            done = subprocess.run([XNFS, "disk", *words], **how)
            if done.returncode in (127, -signal.SIGSEGV, -signal.SIGKILL) and not done.stderr.startswith(b"xnfs: "):
                trials.tally.count("not started")
                continue
            is_read = (done.returncode, done.stderr) != (2, b"error: out of memory\n")
            status, told = (done.returncode, done.stderr) if is_read else (1, b"xnfs: no memory\n")
            trials.count(f"{quarters} quarters of a MiB", words, status, told, trials.is_left(words, done.returncode))
    return trials


KINDS = (unheard, two_at_once, lengths, full_disks, rights, requests, spaces)
