"""Disks with volumes of `xnfs`: how they are made and filled, and what is found in them."""

import os
import shutil
import stat

from trials.lines import CROWD
from trials.programs import program, read, run, write
from trials.tree import HOLES, IN_FOLDER, SOURCES, TOP, Tree

XNFS, XNSIM = program("xnfs"), program("xnsim")
# A file with holes, and a further name that takes the place of a file, have such names until they are whole. A stop leaves them.
UNFINISHED = ".xnfs-copy-"
# Words that look, and that have to end well, or with a fault, also where a stop has left something to be mended.
LOOKS = [["ls", "-lR", "/"], ["tree"], ["find"], ["du"], ["df"], ["check", "--json"]]


def write_sources(folder):
    """Writes the files of the system that lines bring in."""
    os.makedirs(os.path.join(folder, "folder/below"))
    for name, data in [*SOURCES.items(), *((f"folder/{name}", data) for name, data in IN_FOLDER.items())]:
        write(folder, name, data)
    for name, data in HOLES.items():
        with open(os.path.join(folder, name), "wb") as file:
            file.write(data[:5000])
            file.seek(len(data) - 3000)
            file.write(data[-3000:])
    for above, folders, files in os.walk(folder):
        for name in folders + files:
            os.chmod(os.path.join(above, name), 0o755 if name in folders else 0o644)


def tree_below(top):
    """What a folder of the system has, but for unfinished copies."""
    tree, numbers = Tree(), {top: TOP}
    for above, folders, files in os.walk(top):
        for name in sorted(it for it in folders + files if not it.startswith(UNFINISHED)):
            path = os.path.join(above, name)
            it = os.lstat(path)
            if stat.S_ISLNK(it.st_mode):
                thing = "link", os.readlink(path)
            elif stat.S_ISDIR(it.st_mode):
                thing = "folder", stat.S_IMODE(it.st_mode)
            else:
                thing = "file", read(above, name), stat.S_IMODE(it.st_mode)
            if thing[0] == "folder" or it.st_ino not in numbers:
                numbers[path] = numbers[it.st_ino] = tree.make((numbers[above], name), thing)
            else:
                tree.names[numbers[above]][name] = numbers[it.st_ino]
    return tree


def found(folder, image):
    """The tree that a volume has; None where it can't be got."""
    out = os.path.join(folder, "found")
    shutil.rmtree(out, ignore_errors=True)
    os.mkdir(out)
    return tree_below(out) if run(XNFS, [image, "get", "/.", "found"], folder)[0] == 0 else None


def remove_unfinished(folder, image):
    """Removes the unfinished copies that a stop has left, as a user would, and answers how many there were."""
    paths = run(XNFS, [image, "find", "--name", f"{UNFINISHED}*", "/"], folder)[1].decode().splitlines()
    if paths and run(XNFS, [image, "rm", *paths], folder)[0] != 0:
        raise RuntimeError(paths)
    return len(paths)


def is_sound(folder, image):
    """Whether the simulator finds the image sound."""
    return run(XNSIM, ["check", image], folder)[0] == 0


def is_looked_at(folder, image):
    """Whether the words that look end well on a disk as it is, and leave it as it is."""
    before = read(folder, image)
    ended = [run(XNFS, [image, *words], folder)[0] for words in LOOKS]
    shutil.rmtree(os.path.join(folder, "looked"), ignore_errors=True)
    os.mkdir(os.path.join(folder, "looked"))
    ended.append(run(XNFS, [image, "get", "/.", "looked"], folder)[0])
    return set(ended) <= {0, 1} and ended[LOOKS.index(["check", "--json"])] == 0 and read(folder, image) == before


def mended(folder, image, words):
    """The tree of a copy of a disk that a word has opened to change it; None where that isn't sound then, or has anything left to mend."""
    shutil.copy(os.path.join(folder, image), os.path.join(folder, "mended"))
    status, out, told = run(XNFS, ["mended", *words], folder)
    checked, sound, _ = run(XNFS, ["mended", "check"], folder)
    is_whole = checked == 0 and sound.startswith(b"sound: ") and sound.count(b"\n") == 1
    return found(folder, "mended") if status == 0 and is_whole and is_sound(folder, "mended") else None


def fresh(folder, image, blocks=2048):
    """Makes a disk."""
    path = os.path.join(folder, image)
    if os.path.exists(path):
        os.remove(path)
    status, _, told = run(XNFS, ["format", image, str(blocks)], folder)
    if status != 0:
        raise RuntimeError(told)


def crowd(folder, image, rng):
    """Fills a fresh disk, so that often the next number and the next name of a folder need a new block, and answers its tree."""
    tree, lines = Tree(), [["mkdir", "/z"], ["mkdir", "/y"]]
    lines += [["put", "source1a", f"/{name}"] for name in CROWD[: rng.randrange(10, 14)]]
    lines += [["put", "source385b", f"/z/{name}"] for name in CROWD[: rng.choice([4, 8, 10])]]
    for words in lines:
        if not tree.change(words):
            raise RuntimeError(f"{words}")
    given = "".join(f"{' '.join(words)}\n" for words in lines).encode()
    status, _, told = run(XNFS, [image, "shell", "--lazy"], folder, given)
    if status != 0:
        raise RuntimeError(told)
    return tree
