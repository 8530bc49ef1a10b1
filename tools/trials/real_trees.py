"""Puts real trees into disks with `xnfs`, gets them back, puts changed ones over them and removes them, and looks at what kills and crashes leave of that.

The trees are the checkout of this repository, a thousand and more of the system's documents, and one with symbolic and hard links, odd names in UTF-8, modes,
holes and times. Of each all is put, checked and got back: `diff -r --no-dereference` has to find nothing, and modes, owners, times of files and folders, holes
and which names are one file are compared; so is what is there once a changed copy was put over it, and what `get` over the folder of the first one leaves.
After `rm -r` as many blocks are free as before, but for those that lead to numbers of files, which stay: a second time none more is taken.

Then parts of these trees are put, put over, got, got over older ones, copied by `cp -r`, also over older ones, moved by `mv` of folders and removed by `rm -r`,
each by a line, and by a shell that does it all; until KILLS (500) of these runs were killed: about a half of them at a random moment, the others by `strace`
before a random one of their writes and syncs, and a `get` before one of its calls for files. And `strace` records the writes and syncs of such runs, of which
IMAGES (5,000) images of a crash are built: at random points with none, all and random subsets of the writes since the last good sync. Each time the disk has
to be sound by `xnsim check`. Once it was opened by `check --repair` or `sync`, `check` has to find nothing, and each name has to lead to the old file or to
the new one, whole; what was there before and after has to be there, and so has what lines before had told as done. What a killed `get` leaves are files that
are whole, the old ones or the new ones, and files with .new and a number behind their names, which nobody but their owner may read unless they have their
mode; it changes nothing of the disk, and a second `get` does all. The last word is the SEED (4). It works in memory where there is a folder /dev/shm, and is
run as root, for the owners. Lines on standard error tell how far it is.
"""

import collections
import os
import random
import re
import shutil
import stat
import subprocess
import sys
import tempfile
import time
from dataclasses import dataclass

from made_from import TOP as REPOSITORY
from trials.cuts import Cuts, recorded
from trials.disks import XNFS, found, fresh, is_sound, tree_below
from trials.folders import Wrong, attributes, compare, line, write_odd
from trials.kill import Disks, killed
from trials.lines import shell_of
from trials.programs import demand, give_up, read, run, write
from trials.tally import Tally
from trials.tree import TOP, Fit, Run, Tree, odd

DOCUMENTS, FEWEST = "/usr/share/doc", 1000
# A part of a tree that is killed has about so many names, one of which crashes are built so many, and no file in it is longer.
KILLED_NAMES, CRASHED_NAMES, LONGEST = 100, 30, 16_000
# Of a run about so many images are built, with so many random subsets of the writes at each point that is chosen.
RUN_IMAGES, SUBSETS = 200, 6
# These parts are killed, and of these crashes are built: a name of a tree begins each.
KILLED, CRASHED = ("checkout_1", "checkout_2", "documents_1", "documents_2", "odd_1"), ("checkout_3", "checkout_4", "documents_3", "documents_4", "odd_2")
# What a killed `get` leaves beside the file that it writes, and the modes of what it has made and not finished.
TWIN, OWN_FILE, OWN_FOLDER = re.compile(r"(.+)\.new\d+"), 0o600, 0o700
# A name of more bytes has no room for what stands behind the name beside it, which is cut for that.
UNCUT = 240
# What stands in the place of what a changed copy changes.
CHANGES = ["bytes", "bytes", "bytes", "mode", "time", "link", "hard", "holes", "moved aside"]
# The changes after which each file is still one, so that `get` can replace it.
KEPT = ["bytes", "mode", "time", "holes"]


def checkout(folder):
    """The files of this repository as they are committed."""
    archive = subprocess.run(["git", "-C", REPOSITORY, "archive", "HEAD"], capture_output=True, check=True).stdout
    os.mkdir(os.path.join(folder, "checkout"))
    subprocess.run(["tar", "x", "-C", os.path.join(folder, "checkout")], input=archive, check=True)


def documents(folder):
    """Documents of the system, symbolic links as they are."""
    os.mkdir(os.path.join(folder, "documents"))
    count = 0
    for name in sorted(os.listdir(DOCUMENTS)):
        below = [os.path.join(above, it) for above, _, files in os.walk(os.path.join(DOCUMENTS, name)) for it in files]
        if count < FEWEST * 3 // 2 and sum(os.lstat(it).st_size for it in below) < 4_000_000:
            subprocess.run(["cp", "-a", os.path.join(DOCUMENTS, name), os.path.join(folder, "documents")], check=True)
            count += len(below)
    if count < FEWEST:
        give_up(f"there are fewer than {FEWEST} files in {DOCUMENTS}")


def odd_names(folder):
    """A tree with all that may stand in one."""
    write_odd(os.path.join(folder, "odd"), random.Random(11))


# Each tree by the name of its folder, how it is made, and a size of a disk that has room for three of them.
TREES = {"checkout": (checkout, "160M"), "documents": (documents, "256M"), "odd": (odd_names, "64M")}


def files_below(top):
    """The paths of all files below a folder, links among them."""
    return sorted(os.path.join(above, name) for above, _, files in os.walk(top) for name in files)


def change(path, kind, rng):
    """Has something else stand at the path of a file, with the owner, and mostly with the mode, of what was there."""
    was, beside = os.lstat(path), path.rpartition("/")[0] + f"/changed{rng.randrange(10**9)}"
    if kind == "moved aside":
        os.rename(path, beside)
        write("/", path, rng.randbytes(rng.randrange(2000)))
    elif kind == "link":
        os.remove(path)
        os.symlink(rng.choice(["..", "no/such", "/etc/passwd", "x" * 300]), path)
    elif kind in ("mode", "time") and stat.S_ISREG(was.st_mode):
        shutil.copy2(path, beside, follow_symlinks=False)
        os.replace(beside, path)
        os.chmod(path, rng.choice([0o400, 0o644, 0o755]) if kind == "mode" else stat.S_IMODE(was.st_mode))
        os.utime(path, ns=(0, rng.randrange(4 * 10**18)))
    else:
        os.remove(path)
        write("/", path, rng.randbytes(rng.choice([0, 10, 384, 385, 3000, 30_000])))
        if kind == "holes":
            os.truncate(path, 200_000)
        if kind == "hard":
            os.link(path, beside)
    os.lchown(path, was.st_uid, was.st_gid)


def change_copy(top, copy, rng, kinds):
    """Makes a copy of a folder of the system in which a half of the files are other ones, with some names more."""
    os.makedirs(os.path.dirname(copy), exist_ok=True)
    subprocess.run(["cp", "-a", top, copy], check=True)
    for path in files_below(copy):
        may_change = os.lstat(path).st_size < 10**6 and len(os.fsencode(os.path.basename(path))) < 200 and not (kinds == KEPT and os.path.islink(path))
        if may_change and rng.random() < 0.5:
            change(path, rng.choice(kinds), rng)
    os.makedirs(os.path.join(copy, "made", "below"))
    write(copy, "made/below/new", b"new")


def is_top_same(folder, one, other):
    """Whether two folders have the same mode, owner and time themselves."""
    one, other = (os.lstat(os.path.join(folder, it)) for it in (one, other))
    return (one.st_mode, one.st_uid, one.st_gid, one.st_mtime_ns) == (other.st_mode, other.st_uid, other.st_gid, other.st_mtime_ns)


def checked(folder):
    """That the disk is sound, and its volume too, with nothing left to mend."""
    told = line(folder, "disk", "check")
    if not told.startswith(b"sound: ") or told.count(b"\n") != 1 or not is_sound(folder, "disk"):
        raise Wrong("check", told)


def got(folder, path, target, wanted, is_top_set=True):
    """That a folder which is got is as it is to be."""
    line(folder, "disk", "get", path, target)
    compare(folder, wanted, target)
    if is_top_set and not is_top_same(folder, wanted, target):
        raise Wrong(path, "has another mode, owner or time")


def free_blocks(folder):
    """How many blocks of the disk are free."""
    return int(re.match(rb"blocks free: (\d+) of", line(folder, "disk", "df"))[1])


def is_all_freed(folder, name, free, names):
    """That after `rm -r` as many blocks are free as before, but for those that lead to the numbers of files, and that these are taken again."""
    left = []
    for _ in range(2):
        line(folder, "disk", "put", name, "/")
        line(folder, "disk", "cp", "-r", f"/{name}", "/copied")
        line(folder, "disk", "rm", "-r", f"/{name}", "/copied")
        left.append(free_blocks(folder))
    checked(folder)
    if not free - names // 20 - 20 <= left[0] == left[1]:
        raise Wrong(name, "of", free, "free blocks rm -r leaves", left[0], "and then", left[1])


def whole_tree(folder, name, size, rng):
    """A tree is put, got back, put over, copied and removed."""
    fresh(folder, "disk", size)
    free, names = free_blocks(folder), len(attributes(os.path.join(folder, name))[0])
    line(folder, "disk", "put", name, "/")
    checked(folder)
    got(folder, f"/{name}", "back", name)
    change_copy(os.path.join(folder, name), os.path.join(folder, "changed", name), rng, CHANGES)
    line(folder, "disk", "put", f"changed/{name}", "/")
    checked(folder)
    got(folder, f"/{name}", "again", f"changed/{name}")
    line(folder, "disk", "cp", "-r", f"/{name}", "/copied")
    got(folder, "/copied", "copied", f"changed/{name}")
    line(folder, "disk", "rm", "-r", f"/{name}", "/copied")
    change_copy(os.path.join(folder, name), os.path.join(folder, "older", name), rng, KEPT)
    line(folder, "disk", "put", f"older/{name}", "/")
    got(folder, f"/{name}/.", "back", f"older/{name}", False)
    checked(folder)
    line(folder, "disk", "rm", "-r", f"/{name}")
    checked(folder)
    is_all_freed(folder, name, free, names)
    print(f"{name}: {names} names put, got, put over, got over older ones, copied and removed: the same", flush=True)


def clear(folder, *names):
    """Removes what a tree has left beside itself."""
    subprocess.run(["rm", "-rf", *names], cwd=folder, check=True)


class RealTree(Tree):
    """A tree into which folders of the system may be put, whose trees are known."""

    sources = {}

    def copy(self):
        return RealTree(self.names, self.things)

    def put_below(self, source, number, place, made):
        """Has a place be what a number of another tree is; folders that are there are filled. Whether that can be done."""
        thing = source.things[number]
        if thing[0] != "folder":
            if not self.may_replace(place, False):
                return False
            if number in made:
                self.names[place[0]][place[1]] = made[number]
            else:
                made[number] = self.put_file(place, thing)
            return True
        folder = self.folder_at(place, thing[1])
        if folder is None:
            return False
        self.things[folder] = thing
        return all(self.put_below(source, below, (folder, name), made) for name, below in sorted(source.names[number].items()))

    def filled(self, source, folder):
        """This tree, with all that another one has below a folder."""
        after, made = self.copy(), {}
        if not all(after.put_below(source, number, (TOP, name), made) for name, number in sorted(source.names[folder].items())):
            raise Wrong("can't be filled")
        return after

    def change(self, words, given=b""):
        match words:
            case ["put", source, "/"]:
                return self.put_below(self.sources[source], TOP, (TOP, os.path.basename(source)), {})
            case ["mv", *paths, to] if len(paths) > 1:
                return all(self.moved(path, to) for path in paths)
        return super().change(words, given)


class Filling(Fit):
    """How a folder of the system that is filled agrees with what it was and is to be: nobody but their owner enters folders that are not full yet."""

    def states(self, number):
        found = super().states(number)
        return found | {("folder", OWN_FOLDER) for thing in found if thing[0] == "folder"}


def tree_of(top):
    """The tree of a folder of the system, with the mode of that; an empty one where there is none."""
    if not os.path.exists(top):
        return RealTree()
    tree = tree_below(top)
    tree.things[TOP] = "folder", stat.S_IMODE(os.lstat(top).st_mode)
    return RealTree(tree.names, tree.things)


@dataclass
class Case:
    """What is killed: a name, a run, the disk before it, and about how long it takes; of a `get` also the folder that its target is a copy of, if it is there,
    and the trees of the target before and after; and how many calls it makes before which it may be killed."""

    name: str
    run: Run
    image: bytes
    longest: float = 0
    old: str = None
    out: list = None
    calls: int = 0

    def traced(self):
        """The calls of the system before one of which it is killed."""
        return "trace=write,fchmod,mkdir,rename,link,symlink" if self.out else "trace=pwrite64,fsync,fdatasync"


class Part:
    """A part of a tree with a changed copy and an older one, and its cases."""

    def __init__(self, folder, name, rng):
        self.folder, self.name, self.rng, self.cases = folder, name, rng, []
        top = os.path.join(folder, name)
        change_copy(top, os.path.join(folder, "changed", name), rng, CHANGES)
        change_copy(top, os.path.join(folder, "older", name), rng, KEPT)
        for it in (name, f"changed/{name}", f"older/{name}"):
            RealTree.sources[it] = tree_of(os.path.join(folder, it))
        self.blocks = 400 + 4 * max(RealTree.sources[it].blocks() for it in (name, f"changed/{name}"))

    def prepared(self, lines):
        """Makes a disk on which some lines are done, and answers its tree."""
        tree = RealTree()
        fresh(self.folder, "disk", self.blocks)
        for words in lines:
            line(self.folder, "disk", *words)
            tree = tree.after(words)
        return tree

    def take_time(self, case):
        """Does a case to its end once, which has to be as it is to be, and keeps how long that takes."""
        prepare(self.folder, case)
        began = time.monotonic()
        status, _, told = run(XNFS, ["disk", *case.run.words], self.folder, case.run.given)
        case.longest = time.monotonic() - began
        wrong = case.run.odd(found(self.folder, "disk")) + odd_target(self.folder, case, True)
        if status != 0 or told or wrong:
            raise Wrong(self.name, case.name, case.run.words, "status", status, told, wrong[:3])
        prepare(self.folder, case)
        run("strace", ["-f", "-qq", "-o", "calls", "-e", case.traced(), XNFS, "disk", *case.run.words], self.folder, case.run.given)
        case.calls = read(self.folder, "calls").count(b"\n")
        self.cases.append(case)

    def add(self, name, before, *lines, is_lazy=None):
        """Adds the case of a line, or of a shell, on a disk on which other lines were done."""
        trees = [self.prepared(before)]
        for words in lines:
            trees.append(trees[-1].after(words))
        trial = Run(lines[0], b"", list(lines), trees) if is_lazy is None else shell_of(is_lazy, lines, trees)
        self.take_time(Case(name, trial, read(self.folder, "disk")))

    def add_get(self, name, put, old):
        """Adds the case of a `get` of what is put, over a copy of a folder, if there is one."""
        tree, words = self.prepared([["put", put, "/"]]), ["get", f"/{self.name}", "out"]
        out = tree_of(os.path.join(self.folder, old)) if old else RealTree()
        trees = [out, out.filled(tree, tree.at(f"/{self.name}"))]
        self.take_time(Case(name, Run(words, b"", [words], [tree, tree]), read(self.folder, "disk"), old=old, out=trees))

    def add_all(self):
        """Adds a case of each kind."""
        name, put, over = self.name, ["put", self.name, "/"], ["put", f"changed/{self.name}", "/"]
        copy, remove, into = ["cp", "-r", f"/{name}", "/copy"], ["rm", "-r", f"/{name}"], ["mkdir", "/into"]
        top = os.path.join(self.folder, name)
        folders = [f"/{name}/{it}" for it in sorted(os.listdir(top)) if os.path.isdir(os.path.join(top, it)) and re.fullmatch(r"[\w.+-]+", it)]
        move, rename = ["mv", *folders, "/into"], ["mv", f"/{name}", "/moved"]
        self.add("put", [], put)
        self.add("put over", [put], over)
        self.add("cp -r", [put], copy)
        self.add("cp -r over", [put, into, ["mv", f"/{name}", "/into"], over], ["cp", "-r", f"/{name}", "/into"])
        self.add("mv of folders", [put, into], move)
        self.add("mv of folders", [put], rename)
        self.add("rm -r", [put], remove)
        for is_lazy in (False, True):
            lines = [put, into, over, move, copy, rename, put, ["rm", "-r", "/copy"], ["sync"], over, remove, ["rm", "-r", "/moved"]]
            self.add("lazy shell" if is_lazy else "shell", [], *lines, is_lazy=is_lazy)
        self.add_get("get", name, None)
        self.add_get("get over", f"older/{name}", name)


def part_of(folder, name, top, most, rng):
    """Makes a folder of about so many names of a tree, its folders in a random order."""
    os.mkdir(os.path.join(folder, name))
    count, names = 0, sorted(os.listdir(top))
    rng.shuffle(names)
    for it in names:
        below = files_below(os.path.join(top, it))
        if below and count < most and count + len(below) < 2 * most and max(os.lstat(path).st_size for path in below) < LONGEST:
            subprocess.run(["cp", "-a", os.path.join(top, it), os.path.join(folder, name)], check=True)
            count += len(below)


def odd_part(folder, name, most, rng):
    """Makes a folder of the tree with odd names, without its long files, and with about so many of the others."""
    top = os.path.join(folder, name)
    subprocess.run(["cp", "-a", os.path.join(folder, "odd"), top], check=True)
    files = files_below(top)
    for path in files:
        if os.lstat(path).st_size > 20 * LONGEST or rng.random() * len(files) > most:
            os.remove(path)


def cases_of(folder, names, most, rng, tally):
    """The cases of parts of the trees that have about so many names."""
    cases = []
    for name in names:
        tree = name.split("_")[0]
        if tree == "odd":
            odd_part(folder, name, most, rng)
        else:
            part_of(folder, name, os.path.join(folder, tree, "crates" if tree == "checkout" else ""), most, rng)
        part = Part(folder, name, rng)
        tally.count("parts")
        try:
            part.add_all()
        except Wrong as wrong:
            tally.fault(part.name, wrong)
        cases += part.cases
    tally.count("cases", len(cases))
    return cases


def prepare(folder, case):
    """Puts the disk of a case in its place, and the folder that is the target of a `get`."""
    write(folder, "disk", case.image)
    shutil.rmtree(os.path.join(folder, "out"), ignore_errors=True)
    if case.old:
        subprocess.run(["cp", "-a", case.old, "out"], cwd=folder, check=True)


def written_beside(tree, start):
    """The path of the file or link of a tree that begins so and beside which a `get` writes: this path itself, or one whose last name is too long to be kept whole."""
    if tree.kind(start) in ("file", "link"):
        return start
    for path, _ in tree.walk():
        if path.startswith(start) and "/" not in path[len(start):] and len(os.fsencode(path.rpartition("/")[2])) > UNCUT and tree.kind(path) in ("file", "link"):
            return path
    return None


def without_twins(top, after):
    """The tree of a target but for what a `get` has not finished, and what is odd about the modes of that."""
    tree, wrong = tree_of(top), []
    for path, number in list(tree.walk()):
        twin = TWIN.fullmatch(path)
        beside = written_beside(after, twin[1]) if twin and after.at(path) is None else None
        if beside:
            thing = tree.things[number]
            if thing[0] == "file" and thing[2] not in (OWN_FILE, after.things[after.at(beside)][-1]):
                wrong.append(f"{path} has mode {thing[2]:o}")
            tree.take(path)
    return tree, wrong


def odd_target(folder, case, is_done):
    """What is odd about the target of a `get` that was killed, or is done, and about the disk."""
    if not case.out:
        return []
    tree, wrong = without_twins(os.path.join(folder, "out"), case.out[1])
    fit = Filling(tree, case.out)
    fit.play()
    wrong += odd(tree, [case.out[1]]) if is_done else fit.odd
    return wrong + ["the disk was changed"] * (read(folder, "disk") != case.image)


class RealDisks(Disks):
    """A disk on which cases are killed."""

    def __init__(self, folder, cases, rng):
        super().__init__(folder, 0)
        self.cases, self.rng = cases, rng
        self.by_name = collections.Counter()
        for name in ("left in the middle", "second gets", "runs recorded", "images", "images of a second crash", "looked at"):
            self.tally.count(name, 0)

    def killed(self, case):
        """Kills a case at a random moment or before a random call: its status where it had ended by then, and what it has printed."""
        if self.rng.random() < 0.5:
            return killed(self.folder, case.run, 1.1 * self.rng.random() * case.longest)
        when = f"inject={case.traced()[6:]}:signal=KILL:when={self.rng.randrange(case.calls) + 1}"
        words = ["-f", "-qq", "-o", "calls", "-e", case.traced(), "-e", when, XNFS, "disk", *case.run.words]
        status, out, err = run("strace", words, self.folder, case.run.given)
        return (status if status >= 0 else None), out, err

    def kill(self, case):
        """Kills a case and looks at what it leaves."""
        prepare(self.folder, case)
        status, out, err = self.killed(case)
        self.tally.count("runs")
        case.longest *= 1.01 if status is None else 0.99
        if status is None:
            self.tally.count("kills")
            self.by_name[case.name] += 1
        wrong = odd_target(self.folder, case, status == 0)
        if case.out and status is None:
            self.tally.count("second gets")
            done, _, told = run(XNFS, ["disk", *case.run.words], self.folder)
            wrong += odd_target(self.folder, case, True) + [f"status {done}, {told!r}"] * (done != 0)
        if wrong:
            self.tally.fault(case.name, *wrong[:3], case.run.words)
        unfinished = self.tally.counts["unfinished copies"]
        self.look(case.run, status, out, err)
        if self.tally.counts["unfinished copies"] > unfinished and not ("over" in case.name or case.run.is_shell()):
            self.tally.fault(case.name, "leaves an unfinished copy")
        first, last = case.run.trees[0], case.run.trees[-1]
        self.tally.count("left in the middle", bool(odd(self.tree, [first]) and odd(self.tree, [last])))

    def kill_runs(self, kills):
        """Kills random cases until there were so many kills."""
        while self.tally.counts["kills"] < kills:
            self.kill(self.rng.choice(self.cases))
            if self.tally.counts["runs"] % 50 == 0:
                print(self.tally, file=sys.stderr, flush=True)


def crashes(folder, cases, images, tally, rng):
    """Builds images of a crash of cases, until there are so many, and looks at each."""
    cases = [case for case in cases if not case.out]
    rng.shuffle(cases)
    while cases and tally.counts["images"] < images:
        for case in cases:
            if tally.counts["images"] >= images:
                break
            write(folder, "disk", case.image)
            tally.count("runs recorded")
            events = recorded(folder, "disk", case.run.words, case.run.given)
            share = RUN_IMAGES / (SUBSETS + 2) / len(events)
            Cuts(folder, case.run, tally, rng).take(case.image, events, SUBSETS, min(share, 1))
            print(f"{case.name}: {tally}", file=sys.stderr, flush=True)


def play(kills=500, images=5000, seed=4):
    demand(["strace", "git", "tar", "diff"], as_root=True)
    rng, tally = random.Random(seed), Tally("trees", "parts", "cases")
    with tempfile.TemporaryDirectory(dir="/dev/shm" if os.path.isdir("/dev/shm") else None) as folder:
        for name, (make, size) in TREES.items():
            make(folder)
            tally.count("trees")
            try:
                whole_tree(folder, name, size, rng)
            except Wrong as wrong:
                tally.fault(name, wrong)
            clear(folder, "back", "again", "copied", "changed", "older")
        disks = RealDisks(folder, cases_of(folder, KILLED, KILLED_NAMES, rng, tally), rng)
        disks.kill_runs(kills)
        crashes(folder, cases_of(folder, CRASHED, CRASHED_NAMES, rng, tally), images, disks.tally, rng)
        tally.add(disks.tally)
    for name, number in sorted(disks.by_name.items()):
        print(f"kills of {name:<24} {number:>5}")
    return tally
