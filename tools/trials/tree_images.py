"""The images that a crash may leave of calls of the file system of trees: what `treefs_runs --tell` tells of them, their cuts by the rules of the store alone,
what stands in them by the format alone, and what has to hold of them."""

import bisect
import collections
import itertools
import struct

from trials.disks import XNFS, XNSIM
from trials.programs import program, run, write

TREEFS_RUNS = program("treefs_runs")
BLOCK, FS = 512, 1
# From which byte of block 0 on the roots of the file systems stand.
ROOTS = 72
FOLDER, FILE, LINK = 0o040000, 0o100000, 0o120000


def bytes_of(text):
    """The bytes that a transcript writes so."""
    parts = [] if text == "-" else text.split("+")
    return b"".join(bytes.fromhex(digits) * int(count or 1) for digits, _, count in (part.partition("*") for part in parts))


class Entry:
    """A pending entry: the start of a block's life, or an edit of it."""

    def __init__(self, number, block, after, patches, adds, drops):
        self.number, self.block, self.after, self.patches, self.adds, self.drops = number, block, after, patches, adds, drops

    def apply(self, old):
        new = bytearray(old)
        for offset, data in self.patches:
            new[offset : offset + len(data)] = data
        return bytes(new)


def entry_of(line):
    """The entry that a line of a transcript tells, a block that is forgotten, or nothing."""
    asked, _, answer = line.strip().partition(" > ")
    word, _, *words = asked.split(" ")
    told = answer.split(" ")
    if told[0] == "refused":
        return None
    if word == "init":
        return Entry(int(told[3]), int(told[1]), None, [(0, bytes_of(words[1]).ljust(BLOCK, b"\0"))], [], [])
    if word == "forget":
        return int(words[0])
    block, after, patches, adds, drops = int(words[0]), None, [], [], []
    for part in words[1:]:
        if part[0] == "@":
            after = int(part[1:])
        elif part[0] == "+":
            adds.append(int(part[1:].split(":")[0]))
        elif part[0] == "-":
            drops.append(int(part[1:]))
        else:
            offset, _, data = part.partition("=")
            patches.append((int(offset), bytes_of(data)))
    return Entry(int(told[1]), block, after, patches, adds, drops)


def entries_of(lines):
    """The entries that some lines tell, and the blocks that are forgotten, in their order."""
    return filter(None, map(entry_of, (line for line in lines if line.startswith(("  init", "  edit", "  forget")))))


def script_of(lines):
    """The lines of a transcript as a script of `xnsim`."""
    for line in lines:
        word, _, rest = line.strip().partition(" > ")[0].partition(" ")
        if word in ("init", "install"):
            front, _, data = rest.rpartition(" ")
            yield f"{word} {front} {bytes_of(data).hex() or '-'}".replace("  ", " ")
        elif word == "edit":
            parts = [f"{part.split('=')[0]}={bytes_of(part.split('=')[1]).hex()}" if "=" in part else part for part in rest.split(" ")]
            yield f"edit {' '.join(parts)}"
        elif word in ("root", "forget", "drain"):
            yield f"{word} {rest}".strip()


class Volume:
    """What stands in some blocks, read by the format alone."""

    def __init__(self, blocks, top):
        self.blocks, self.top = blocks, top

    def word(self, block, at):
        return struct.unpack_from("<I", self.blocks[block], at)[0]

    def parts(self, inode):
        """The leaves of an inode, each with its place, and its nodes, without one."""
        for place, leaf in enumerate(struct.unpack_from("<16I", self.blocks[inode], 48)):
            if leaf:
                yield place, leaf
        first = 16
        for height, node in enumerate(struct.unpack_from("<4I", self.blocks[inode], 112), 1):
            if node:
                yield from self.below(node, height, first)
            first += 127**height

    def below(self, node, height, first):
        yield None, node
        for place, child in enumerate(struct.unpack_from("<127I", self.blocks[node], 4)):
            if child and height == 1:
                yield first + place, child
            elif child:
                yield from self.below(child, height - 1, first + place * 127 ** (height - 1))

    def leaves(self, inode):
        """The leaves of an inode, by their places."""
        return ((place, leaf) for place, leaf in self.parts(inode) if place is not None)

    def inodes(self):
        """The blocks of inodes, by their numbers."""
        return {place + 1: leaf for place, leaf in self.leaves(self.top)}

    def fields(self, inode):
        """The mode, the links, the user, the group, the size, the two times and the parent of an inode."""
        return struct.unpack_from("<HIIIQqqI", self.blocks[inode], 2)

    def kind(self, inode):
        return self.fields(inode)[0] & 0o170000

    def links(self, inode):
        return self.word(inode, 4)

    def size(self, inode):
        return struct.unpack_from("<Q", self.blocks[inode], 16)[0]

    def content(self, inode):
        """The bytes below the size of a file or a symbolic link."""
        size = self.size(inode)
        data = bytearray(self.blocks[inode][128:512].ljust(size, b"\0")[:size])
        for place, leaf in self.leaves(inode):
            start, end = max(BLOCK * place, 384), min(BLOCK * (place + 1), size)
            if start < end:
                data[start:end] = self.blocks[leaf][start - BLOCK * place : end - BLOCK * place]
        return bytes(data)

    def records(self, inode):
        """The live records of a folder: the block, the name, and the number."""
        for block, data in [(inode, self.blocks[inode][128:]), *((leaf, self.blocks[leaf]) for _, leaf in self.leaves(inode))]:
            for name, number in records_of(data):
                yield block, name, number

    def tree(self):
        """The names that lead on from inode 1, each with its folder's number, its record's block and its number, and what is wrong with them."""
        inodes, names, wrong, seen, folders = self.inodes(), [], [], {1}, [1]
        for folder in folders:
            found = list(self.records(inodes[folder]))
            if len({name for _, name, _ in found}) < len(found):
                wrong.append(f"a name twice in {folder}")
            for block, name, number in found:
                if number not in inodes:
                    wrong.append(f"{name} of {folder} leads to no inode")
                    continue
                names.append((folder, name, block, number))
                if self.kind(inodes[number]) == FOLDER and number not in seen:
                    seen.add(number)
                    folders.append(number)
        return inodes, names, wrong

    def named(self):
        """The blocks of the inodes to which names lead."""
        inodes, names, _ = self.tree()
        return {inodes[number] for *_, number in names}


def records_of(data):
    """The live records of a bucket."""
    at = 0
    while at + 5 <= len(data) and data[at + 4]:
        length, number = data[at + 4], struct.unpack_from("<I", data, at)[0]
        if number:
            yield bytes(data[at + 5 : at + 5 + length]), number
        at += 5 + length


def never_there(shown, whole, start, end):
    """The first place between two at which some bytes are as none of these contents; None where each is as one of them."""
    if any(data[start:end] == shown[start:end] for data in whole):
        return None
    if end - start == 1:
        return start
    middle = (start + end) // 2
    first = never_there(shown, whole, start, middle)
    return never_there(shown, whole, middle, end) if first is None else first


class Calls:
    """What calls leave pending of a volume that is on the disk, and the moments of its newest state: before the first entry, and behind each."""

    def __init__(self, base, top, lines):
        self.base, self.top, self.lines = dict(base), top, []
        for line in lines:
            for entry in entries_of([line]):
                if isinstance(entry, int):
                    self.lines = [it for it in self.lines if it[0].block != entry]
                    self.base.pop(entry, None)
                else:
                    self.lines.append((entry, line))
        entries = [entry for entry, _ in self.lines]
        self.entries, self.of, self.states, self.place, self.moments = entries, {}, {}, {}, {}
        for moment, entry in enumerate(entries, 1):
            states = self.states.setdefault(entry.block, [self.base.get(entry.block, bytes(BLOCK))])
            states.append(entry.apply(states[-1]))
            self.of.setdefault(entry.block, []).append(entry)
            self.moments.setdefault(entry.block, []).append(moment)
            self.place[entry.number] = entry.block, len(states) - 1
        self.newest = {**self.base, **{block: states[-1] for block, states in self.states.items()}}
        self.inodes = self.all_inodes()
        self.contents, self.made_in = self.all_contents(), {}

    def walked(self):
        """The moments of the newest state, each with its blocks, and the block of the entry that made it; the blocks are changed from moment to moment."""
        newest, taken = dict(self.base), collections.Counter()
        yield 0, newest, None
        for moment, entry in enumerate(self.entries, 1):
            taken[entry.block] += 1
            newest[entry.block] = self.states[entry.block][taken[entry.block]]
            yield moment, newest, entry.block

    def all_inodes(self):
        """The blocks that are an inode's at some moment."""
        inodes, table = set(), {self.top}
        for moment, newest, block in self.walked():
            if moment == 0 or block in table:
                parts = list(Volume(newest, self.top).parts(self.top))
                table |= {node for place, node in parts if place is None}
                inodes |= {leaf for place, leaf in parts if place is not None}
        return inodes

    def all_contents(self):
        """The contents of the files and symbolic links, each with the moment since which it is there, by the blocks of their inodes."""
        contents, owners = {}, {}
        for moment, newest, block in self.walked():
            volume = Volume(newest, self.top)
            changed = self.inodes & newest.keys() if moment == 0 else {block if block in self.inodes else owners.get(block)}
            for inode in changed - {None}:
                if volume.kind(inode) == FOLDER:
                    continue
                owners.update((part, inode) for _, part in volume.parts(inode))
                data, past = volume.content(inode), contents.setdefault(inode, [])
                if not past or past[-1][1] != data:
                    past.append((moment, data))
        return contents

    def awaited(self, cut, entry):
        """A block of which a cut has to take more before it may take this entry, the next one of its block; None where it may."""
        block, place = self.place.get(entry.after, (entry.block, 0))
        if block != entry.block and cut.get(block, 0) < place:
            return block
        for block in entry.adds:
            if block in self.of and block not in self.base and cut.get(block, 0) == 0:
                return block
        return next((block for block in entry.drops if cut.get(block, 0) < len(self.of.get(block, []))), None)

    def least(self):
        """The least cut. The start of a block's life is always taken: until the block is added, nothing reaches it."""
        return {block: int(block not in self.base) for block in sorted(self.of)}

    def cuts(self):
        """All cuts, each with one that takes an entry less."""
        blocks, least = sorted(self.of), tuple(self.least().values())
        seen, line = {least}, [(least, None)]
        for key, lesser in line:
            yield dict(zip(blocks, key)), None if lesser is None else dict(zip(blocks, lesser))
            cut = dict(zip(blocks, key))
            for place, block in enumerate(blocks):
                taken = key[place]
                if taken < len(self.of[block]) and self.awaited(cut, self.of[block][taken]) is None:
                    more = key[:place] + (taken + 1,) + key[place + 1 :]
                    if more not in seen:
                        seen.add(more)
                        line.append((more, key))

    def grown(self, cut, rng):
        """A random cut that takes what this one takes, and maybe more: some blocks may be held back, and then all that may be taken without them is."""
        cut, waiting = dict(cut), {}
        held = set(rng.sample(sorted(self.of), min(len(self.of), rng.choice([0, 1, 1, 5, len(self.of) // 4, len(self.of) // 2]))))
        ready = [block for block in self.of if cut[block] < len(self.of[block]) and block not in held]
        left = sum(len(self.of[block]) - cut[block] for block in ready)
        left = rng.choice([left, left, rng.randrange(left + 1), rng.randrange(left + 1), rng.randrange(min(left, 9) + 1)])
        while ready and left > 0:
            place = rng.randrange(len(ready))
            ready[place], ready[-1] = ready[-1], ready[place]
            block = ready.pop()
            if (awaited := self.awaited(cut, self.of[block][cut[block]])) is not None:
                waiting.setdefault(awaited, []).append(block)
                continue
            cut[block] += 1
            left -= 1
            ready += [*waiting.pop(block, []), *([block] if cut[block] < len(self.of[block]) else [])]
        return cut

    def writable(self):
        """The cut that one wave leaves: of each block all entries are taken that wait for nothing that isn't on the disk yet."""
        cut = {}
        for block, entries in self.of.items():
            waiting = (place for place, entry in enumerate(entries) if self.awaited({block: place}, entry) is not None)
            cut[block] = next(waiting, len(entries))
        return cut

    def blocks_of(self, cut):
        """What stands in the blocks of a cut's image."""
        return {**self.base, **{block: self.states[block][taken] for block, taken in cut.items() if taken}}

    def raised(self, inode, taken):
        """Of the entries of an inode's block that a cut takes, those that raise its size: moments, with the sizes before and behind."""
        sizes = [struct.unpack_from("<Q", state, 16)[0] for state in self.states.get(inode, [])[: taken + 1]]
        for moment, (before, size) in zip(self.moments.get(inode, []), itertools.pairwise(sizes)):
            if size > before:
                yield moment, before, size

    def faults_of_bytes(self, cut, volume, inode):
        """Whether a byte of a file was never there since the size passed it."""
        shown, raised = volume.content(inode), list(self.raised(inode, cut.get(inode, 0)))
        bounds = sorted({0, len(shown), *(bound for _, before, size in raised for bound in (before, size) if bound < len(shown))})
        past = self.contents.get(inode, [])
        for start, end in itertools.pairwise(bounds):
            since = max((moment for moment, before, size in raised if before <= start < size), default=0)
            first = max(bisect.bisect_right(past, since, key=lambda it: it[0]) - 1, 0)
            at = never_there(shown, [data for _, data in past[first:]], start, end)
            if at is not None:
                return [f"byte {at} of the inode in {inode} was never there"]
        return []

    def makings(self, block):
        """The names that entries of a bucket's block made: the place of the entry, its moment, the name and the number."""
        if block not in self.made_in:
            start = 128 if block in self.inodes else 0
            records = [dict(records_of(state[start:])) for state in self.states.get(block, [])]
            self.made_in[block] = [
                (place, self.moments[block][place - 1], name, number)
                for place, (before, behind) in enumerate(itertools.pairwise(records), 1)
                for name, number in behind.items() if before.get(name) != number
            ]
        return self.made_in[block]

    def faults_of_name(self, cut, block, name, number, inode):
        """Whether a name that an entry of its block made shows less of its inode than it had then."""
        taken = cut.get(block, 0)
        made = max((moment for place, moment, *what in self.makings(block) if place <= taken and what == [name, number]), default=0)
        had = bisect.bisect_right(self.moments.get(inode, []), made)
        return [f"{name} shows {cut.get(inode, 0)} of {had} entries of its inode"] if cut.get(inode, 0) < had else []

    def faults(self, cut):
        """What is wrong with a cut, and the blocks of the inodes that have a name in it."""
        volume = Volume(self.blocks_of(cut), self.top)
        inodes, names, wrong = volume.tree()
        for number, count in collections.Counter(number for *_, number in names).items():
            if count > volume.links(inodes[number]):
                wrong.append(f"{count} names and {volume.links(inodes[number])} links of {number}")
            if volume.kind(inodes[number]) != FOLDER:
                wrong += self.faults_of_bytes(cut, volume, inodes[number])
        for _, name, block, number in names:
            wrong += self.faults_of_name(cut, block, name, number, inodes[number])
        return wrong, {inodes[number] for *_, number in names}


def image_of(image, calls, cut):
    """The image of a cut, over that of the volume."""
    data = bytearray(image)
    for block, bytes_there in calls.blocks_of(cut).items():
        data[BLOCK * block : BLOCK * (block + 1)] = bytes_there
    return bytes(data)


def faults_of_image(folder, image):
    """What the programs say of an image, which is mended then."""
    write(folder, "cut", image)
    if run(XNSIM, ["check", "cut"], folder)[0] != 0:
        return ["not sound"]
    if run(XNFS, ["cut", "--fs", str(FS), "check", "--repair"], folder)[0] != 0:
        return ["not mended"]
    status, out, _ = run(XNFS, ["cut", "--fs", str(FS), "check"], folder)
    return [] if status == 0 and out.count(b"\n") == 1 else ["not whole once mended"]


def faults_once_mended(cut, image):
    """What of the files and names that a cut shows isn't so in its image, once that is mended."""
    blocks = {place // BLOCK: image[place : place + BLOCK] for place in range(0, len(image), BLOCK)}
    mended = Volume(blocks, struct.unpack_from("<I", image, ROOTS + 8 * FS)[0])
    inodes, names, wrong = cut.tree()
    inodes_now, names_now, wrong_now = mended.tree()
    before, now = ({(folder, name, number) for folder, name, _, number in it} for it in (names, names_now))
    links = collections.Counter(number for *_, number in now)
    wrong = wrong + wrong_now + ["a name is new" for _ in now - before]
    wrong += [f"{name} is gone" for _, name, number in before - now if cut.kind(inodes[number]) != FOLDER or links[number] != 1]
    wrong += [f"no name leads to {number}" for number in inodes_now if number not in links and number != 1]
    for number in links:
        old, new = inodes[number], inodes_now.get(number)
        (mode, _, *fields), (mode_now, links_now, *fields_now) = cut.fields(old), mended.fields(new)
        if (mode, fields[:5], links[number]) != (mode_now, fields_now[:5], links_now) or cut.content(old) != mended.content(new):
            wrong.append(f"{number} is another one: {mode, fields, links[number]}, {mode_now, fields_now, links_now}")
    return wrong
