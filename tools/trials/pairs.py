"""Makes all pairs of some fifty calls of the file system of trees, and looks at each image that a crash may leave of each.

On a volume that is on the disk, two calls are made one behind the other, and none of their edits is written. `treefs_runs --tell` prints these edits. Of them
all cuts are made here, by the rules of the store alone: of each block a state, such that each entry that is taken has what it adds, what it drops, and what it
comes after. Each cut is an image of a disk. `xnsim check` has to find it sound, and a reader of the format, which knows nothing of the programs, has to find:

- that each name leads to an inode with at least as many links as names lead to it, and no folder has a name twice;
- that a name that was made or moved shows at least the state of its inode's block at that moment;
- that each byte below a size is one that stood there at some moment since the size passed it;
- that what had a name before, or in a lesser cut, and has one in the end, has one.

Then `xnfs check --repair` mends it, and `check` has to find nothing left. TRIPLES random triples of calls are made so too (400), with the SEED (1). Another
program than that which `tools/program` would run may be named as TREEFS_RUNS. The work is shared by as many processes as there are processors.
"""

import itertools
import os
import random
import tempfile
from concurrent.futures import ProcessPoolExecutor

from trials.disks import XNSIM
from trials.programs import run, write
from trials.tally import Tally
from trials.tree_images import BLOCK, TREEFS_RUNS, Calls, Volume, entries_of, faults_of_image, image_of, script_of

BLOCKS = 400
LONG = "k" * 110
# Numbers of inodes: folders 2 d, 3 e, 4 d/s, 11 e/empty, 12 m; files 5 f, 6 g, 7 d/x and e/x2, 8 d/y, 10 e/z; 9 a symbolic link.
SETUP = [
    f"mkfs {BLOCKS} 7", "time 1", "mkdir 1 d", "mkdir 1 e", "mkdir 2 s", "put 1 f 61*3000", "put 1 g 62*3000", "put 2 x 63*300", "create 2 y",
    "symlink 1 l 2f66", "put 3 z 64*9000", "link 7 3 x2", "flush", "mkdir 3 empty", "mkdir 1 m", *(f"put 12 {LONG}{number} 65*20" for number in range(3)),
    "put 1 gone 66*40", "flush", "unlink 1 gone", "flush", "reap", "flush", "time 2",
]
CALLS = [
    "create 1 n", "create 2 n", "mkdir 1 nd", "mkdir 2 nd", "symlink 1 nl 2f66", "put 1 n 71*300", "put 1 n 71*3000", "put 1 f 72*3000", "put 1 f 72*300",
    "put 2 x 73*9000", "put 1 gone 74*100", f"put 12 {LONG}new 75*30", "link 5 2 f2", "link 5 1 f2", "link 7 1 x3", "unlink 1 f", "unlink 2 x", "unlink 3 x2",
    "unlink 3 z", "unlink 1 l", "rmdir 3 empty", "rmdir 2 s", "rename 1 f 1 f9", "rename 1 f 2 f9", "rename 1 f 1 g", "rename 2 x 3 z", "rename 2 s 3 s",
    "rename 2 s 3 empty", "rename 3 empty 2 empty", "rename 1 d 3 d", "rename 1 e 2 e", f"rename 1 f 12 {LONG}f", "write 5 0 76*100", "write 5 600 76*100",
    "write 5 2950 76*200", "write 5 3000 76*2000", "write 10 9000 76*5000", "write 8 5000 76*100", "truncate 5 100", "truncate 5 0", "truncate 5 5000",
    "truncate 10 8500", "chmod 5 600", "chown 5 7 8", "utimens 5 77", "reap", "trim 5", "write 13 0 77*50",
]


def look_at(image, base, top, work):
    """Looks at all cuts of some calls: how many there are, and what is wrong."""
    asked, lines = work
    calls, named, told = Calls(base, top, lines), {}, []
    kept = Volume(calls.newest, top).named()
    with tempfile.TemporaryDirectory(dir="/dev/shm" if os.path.isdir("/dev/shm") else None) as folder:
        for cut, lesser in calls.cuts():
            wrong, now = calls.faults(cut)
            named[tuple(cut.items())] = now
            if lesser is not None and (lost := (named[tuple(lesser.items())] & kept) - now):
                wrong.append(f"no name leads to the inodes in {sorted(lost)} any more")
            wrong += faults_of_image(folder, image_of(image, calls, cut))
            if wrong:
                told.append(f"{asked}: {wrong[0]}: {[(block, taken) for block, taken in cut.items() if taken]}")
    return len(named), told


def told_by(folder, lists):
    """What each of some lists of calls prints, made on a volume of its own: the lines of the volume, and those of its calls."""
    write(folder, "calls", "".join("\n".join([*SETUP, *calls]) + "\n" for calls in lists).encode())
    status, out, told = run(TREEFS_RUNS, ["--tell", "calls"], folder)
    if status != 0:
        raise RuntimeError(told or out[-200:])
    volumes = out.decode().split(f"{SETUP[0]}\n")[1:]
    setup = volumes[0].split(f"{SETUP[-1]}\n= ok\n")[0].splitlines()
    return setup, [volume.split(f"{SETUP[-1]}\n= ok\n")[1].splitlines() for volume in volumes]


def made(folder, setup):
    """The image of the volume, its blocks, and its root."""
    write(folder, "script", "\n".join(script_of(line for line in setup if line.startswith("  "))).encode())
    if run(XNSIM, ["format", "disk", str(BLOCKS)], folder)[0] != 0 or run(XNSIM, ["run", "disk", "script"], folder)[0] != 0:
        raise RuntimeError("no volume could be made")
    with open(os.path.join(folder, "disk"), "rb") as file:
        image = file.read()
    base = {}
    for entry in entries_of(setup):
        if isinstance(entry, int):
            del base[entry]
        else:
            base[entry.block] = entry.apply(base.get(entry.block, bytes(BLOCK)))
            for block in entry.drops:
                del base[block]
    top = int(next(line for line in setup if line.startswith("  root")).split(" ")[4])
    for block, data in base.items():
        if image[BLOCK * block : BLOCK * (block + 1)] != data:
            raise RuntimeError(f"block {block} of the volume isn't as it was told")
    return image, base, top


def play(triples=400, seed=1):
    rng = random.Random(seed)
    tally = Tally("pairs", "cuts of them", "triples", "cuts of these")
    lists = [*itertools.product(CALLS, CALLS), *([rng.choice(CALLS) for _ in range(3)] for _ in range(triples))]
    with tempfile.TemporaryDirectory() as folder, ProcessPoolExecutor() as pool:
        told = [told_by(folder, lists[start : start + 100]) for start in range(0, len(lists), 100)]
        image, base, top = made(folder, told[0][0])
        works = [("; ".join(calls), [line for line in lines if line.startswith("  ")])
                 for calls, lines in zip(lists, itertools.chain.from_iterable(it[1] for it in told))]
        looked = pool.map(look_at, *(itertools.repeat(it) for it in (image, base, top)), works, chunksize=4)
        for calls, (count, wrong) in zip(lists, looked):
            kind, cuts = ("pairs", "cuts of them") if len(calls) == 2 else ("triples", "cuts of these")
            tally.count(kind)
            tally.count(cuts, count)
            for it in wrong[:3]:
                tally.fault(it)
    return tally
