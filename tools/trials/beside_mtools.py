"""Measures `xnfs` beside mtools on a FAT image and debugfs on one of ext4, and prints a table.

Of each: a folder of FILES small files (500) put and got, a file of 64 MB put and got, and a folder of 10,000 names listed. A row tells the seconds of the
fastest of three runs, and by `strace` of one more how many syncs there were, how many seconds they took, and how many bytes were written to the image. mcopy,
which takes minutes for 10,000 names, isn't asked for these. mtools sync nothing, and debugfs little, so what they wrote may be lost with the power; `xnfs`
has it on the disk when it ends. It counts nothing as wrong but a program that fails; on a machine that does anything else the seconds say little.
"""

import os
import random
import re
import shutil
import subprocess
import tempfile
import time

from trials.disks import XNFS
from trials.programs import give_up
from trials.tally import Tally

RUNS, SECONDS = 3, 600
PACKAGES = {"mcopy": "mtools", "mkfs.fat": "dosfstools", "debugfs": "e2fsprogs", "mkfs.ext4": "e2fsprogs", "strace": "strace"}
CALLS = "trace=write,pwrite64,writev,pwritev,fsync,fdatasync,sync_file_range,msync"
WRITTEN = r"(?:write|writev|pwrite64|pwritev)\(\d+<[^>]*/{}>.*= (\d+) <"
SYNCED = re.compile(r"(?:fsync|fdatasync)\(.*= 0 <([\d.]+)>")
LARGE, NAMES = 64_000_000, 10_000


def done(folder, words, given=b""):
    """Runs a program, which has to end well. debugfs answers 0 also where it could do nothing."""
    ended = subprocess.run(words, cwd=folder, input=given, capture_output=True, timeout=SECONDS, check=False)
    if ended.returncode != 0 or (words[0] == "debugfs" and ended.stderr.count(b"\n") > 1):
        raise RuntimeError(f"{words[:4]}: {ended.stderr[:300]!r}")


def write_files(folder, count):
    """Makes the files of the system that are put."""
    rng = random.Random(3)
    for name in ("many", "names"):
        os.mkdir(os.path.join(folder, name))
    for number in range(count):
        with open(os.path.join(folder, f"many/file{number:03}"), "wb") as file:
            file.write(rng.randbytes(rng.randrange(100, 8_000)))
    for number in range(NAMES):
        with open(os.path.join(folder, f"names/name{number:05}"), "wb"):
            pass
    with open(os.path.join(folder, "large"), "wb") as file:
        file.write(rng.randbytes(LARGE))


def scripts(folder, count):
    """Scripts of debugfs, which puts one file at a time."""
    for name, number in (("many", count), ("names", NAMES)):
        files = sorted(os.listdir(os.path.join(folder, name)))[:number]
        with open(os.path.join(folder, f"{name}.script"), "w", encoding="ascii") as script:
            script.write(f"mkdir /{name}\ncd /{name}\n" + "".join(f"write {name}/{it} {it}\n" for it in files))


def formatted(folder):
    """Fresh images of 256 MiB, and what was there when they were made."""
    done(folder, [XNFS, "format", "xnfs.kept", "256M"])
    done(folder, ["mkfs.fat", "-C", "mtools.kept", str(256 * 1024)])
    done(folder, ["mkfs.ext4", "-q", "-F", "debugfs.kept", "256M"])


def rows(count):
    """What is measured, and the words of each program."""
    return {
        f"put of {count} small files": {
            "xnfs": [XNFS, "xnfs", "put", "many", "/"], "mtools": ["mcopy", "-s", "-i", "mtools", "many", "::/"],
            "debugfs": ["debugfs", "-w", "-f", "many.script", "debugfs"],
        },
        f"get of {count} small files": {
            "xnfs": [XNFS, "xnfs", "get", "/many", "out"], "mtools": ["mcopy", "-s", "-i", "mtools", "::/many", "out"],
            "debugfs": ["debugfs", "-R", "rdump /many out", "debugfs"],
        },
        "put of 64 MB": {
            "xnfs": [XNFS, "xnfs", "put", "large", "/"], "mtools": ["mcopy", "-i", "mtools", "large", "::/"],
            "debugfs": ["debugfs", "-w", "-R", "write large large", "debugfs"],
        },
        "get of 64 MB": {
            "xnfs": [XNFS, "xnfs", "get", "/large", "out/large"], "mtools": ["mcopy", "-i", "mtools", "::/large", "out/large"],
            "debugfs": ["debugfs", "-R", "dump /large out/large", "debugfs"],
        },
        "put of 10,000 empty files": {
            "xnfs": [XNFS, "xnfs", "put", "names", "/"], "debugfs": ["debugfs", "-w", "-f", "names.script", "debugfs"],
        },
        "ls of 10,000 names": {
            "xnfs": [XNFS, "xnfs", "ls", "/names"], "debugfs": ["debugfs", "-R", "ls /names", "debugfs"],
        },
    }


def prepare(folder, name):
    """Puts the image in its place as it was, and an empty folder to bring files out."""
    shutil.copy(os.path.join(folder, f"{name}.kept"), os.path.join(folder, name))
    shutil.rmtree(os.path.join(folder, "out"), ignore_errors=True)
    os.mkdir(os.path.join(folder, "out"))
    os.sync()


def measured(folder, name, words):
    """The least seconds of some runs, each on the image as it was; then the syncs of one more, their seconds, and the bytes that it wrote to the image."""
    best = float("inf")
    for _ in range(RUNS):
        prepare(folder, name)
        began = time.monotonic()
        done(folder, words)
        best = min(best, time.monotonic() - began)
    prepare(folder, name)
    done(folder, ["strace", "-f", "-T", "-s", "0", "-y", "-o", "trace", "-e", CALLS, *words])
    with open(os.path.join(folder, "trace"), encoding="utf-8", errors="replace") as file:
        trace = file.read()
    syncs = [float(it) for it in SYNCED.findall(trace)]
    return best, len(syncs), sum(syncs), sum(int(it) for it in re.findall(WRITTEN.format(name), trace))


def play(count=500):
    missing = sorted({package for program, package in PACKAGES.items() if not shutil.which(program)})
    if missing:
        give_up(f"install what is missing: apt-get install {' '.join(missing)}")
    tally = Tally("rows")
    with tempfile.TemporaryDirectory() as folder:
        write_files(folder, count)
        scripts(folder, count)
        formatted(folder)
        print("| What | Program | Seconds | Syncs | Seconds of syncs | Bytes written |\n|---|---|---|---|---|---|")
        for what, programs in rows(count).items():
            for name, words in programs.items():
                try:
                    seconds, syncs, waited, written = measured(folder, name, words)
                    print(f"| {what} | {name} | {seconds:.3f} | {syncs} | {waited:.3f} | {written:,} |", flush=True)
                except (RuntimeError, subprocess.TimeoutExpired) as fault:
                    tally.fault(what, name, fault)
                if what.startswith("put"):
                    shutil.copy(os.path.join(folder, name), os.path.join(folder, f"{name}.kept"))
                tally.count("rows")
    return tally
