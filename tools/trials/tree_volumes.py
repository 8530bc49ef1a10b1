"""Volumes of trees that no program of ours wrote: good ones, in whose blocks something is changed."""

import struct

BLOCK = 512
# Where block 0 has the root slot of file system 0, and where inodes have their fields.
SLOT, LINKS, SIZE, PARENT, POINTERS, NODES, CONTENT = 72, 4, 16, 40, 48, 112, 128
FOLDER, FILE, LINK = 0o040000, 0o100000, 0o120000
ODD_NAMES = [
    b"..", b".", b"a/b", b"../up", b"/etc", b"nul\0in", b"\x1b[2J", b"new\nline", b"\xff\xfe", b"back\\slash", b"\r", b"\x7f", b"\xc2\x9b1m", b"-", b"-r",
    b"'quote\"", b" ", b"d.img", b"out", b".xnfs-copy-0", b"y" * 255,
]
NUMBERS = [0, 1, 2, 3, 5, 9, 16, 17, 40, 262_209_296, 262_209_297, 2**31, 2**32 - 1]
SIZES = [0, 1, 383, 384, 385, 512, 4096, 4097, 8192, 8193, 10**6, 134_251_159_552, 134_251_159_553, 2**63 - 1, 2**63, 2**64 - 1]


class TreeVolume:
    """A good volume, its blocks by kind, and what is changed in them."""

    def __init__(self, image, rng):
        self.image, self.rng = bytearray(image), rng
        self.inodes, self.nodes, self.leaves = {}, [], {}
        self.root = struct.unpack_from("<I", self.image, SLOT)[0]
        for leaf, block in self.walk(self.root):
            self.inodes[leaf + 1] = block
        for number, block in self.inodes.items():
            for leaf, data in self.walk(block):
                self.leaves.setdefault(number, []).append(data)

    def word(self, at):
        return struct.unpack_from("<I", self.image, at)[0]

    def walk(self, block):
        """The leaves of an inode, by their places."""
        at = BLOCK * block
        for place in range(16):
            if leaf := self.word(at + POINTERS + 4 * place):
                yield place, leaf
        first = 16
        for height in range(1, 5):
            if node := self.word(at + NODES + 4 * (height - 1)):
                yield from self.below(node, height, first)
            first += 127**height

    def below(self, node, height, first):
        self.nodes.append(node)
        for place in range(127):
            if child := self.word(BLOCK * node + 4 + 4 * place):
                if height == 1:
                    yield first + place, child
                else:
                    yield from self.below(child, height - 1, first + place * 127 ** (height - 1))

    def mode(self, number):
        return struct.unpack_from("<H", self.image, BLOCK * self.inodes[number] + 2)[0]

    def of_kind(self, *kinds):
        """An inode of one of some kinds."""
        return self.rng.choice([number for number in self.inodes if self.mode(number) & 0o170000 in kinds])

    def field(self, number, form, at, value):
        struct.pack_into(form, self.image, BLOCK * self.inodes[number] + at, value)

    def buckets(self, number):
        """Where the buckets of a folder begin and end."""
        yield BLOCK * self.inodes[number] + CONTENT, BLOCK * self.inodes[number] + BLOCK
        for block in self.leaves.get(number, []):
            yield BLOCK * block, BLOCK * block + BLOCK

    def records(self, number):
        """Where the records of a folder's names stand."""
        for at, end in self.buckets(number):
            while at + 5 <= end and self.image[at + 4] and at + 5 + self.image[at + 4] <= end:
                yield at
                at += 5 + self.image[at + 4]

    def record(self):
        """A record of a name in some folder, and that folder."""
        found = [(at, number) for number in self.inodes if self.mode(number) & 0o170000 == FOLDER for at in self.records(number)]
        return self.rng.choice(found)

    def add_record(self, folder, name, number):
        """A record more in a folder, where one of its buckets has room."""
        for at, end in self.buckets(folder):
            records = [it for it in self.records(folder) if at <= it < end]
            at = max((it + 5 + self.image[it + 4] for it in records), default=at)
            if at + 5 + len(name) <= end:
                self.image[at : at + 5 + len(name)] = struct.pack("<IB", number % 2**32, len(name)) + name
                return


def mode(volume, rng):
    number = rng.choice(list(volume.inodes))
    volume.field(number, "<H", 2, rng.choice([0, FOLDER | 0o755, FILE | 0o644, LINK | 0o777, 0o060644, 0o140000, 0xFFFF, rng.randrange(65536)]))


def links(volume, rng):
    volume.field(rng.choice(list(volume.inodes)), "<I", LINKS, rng.choice([0, 1, 2, 3, 2**32 - 1]))


def size(volume, rng):
    volume.field(volume.of_kind(FILE, FILE, LINK, FOLDER), "<Q", SIZE, rng.choice(SIZES))


def times(volume, rng):
    volume.field(rng.choice(list(volume.inodes)), "<q", rng.choice([24, 32]), rng.choice([-1, -(2**63), 2**63 - 1, 0, -(10**18)]))


def parent(volume, rng):
    volume.field(volume.of_kind(FOLDER), "<I", PARENT, rng.choice(NUMBERS))


def types(volume, rng):
    volume.image[BLOCK * rng.choice([*volume.inodes.values(), *volume.nodes, volume.root]) + rng.choice([0, 0, 1])] = rng.choice([0, 1, 2, 3, 4, 5, 255])


def mark(volume, rng):
    volume.image[BLOCK * volume.root + CONTENT + rng.randrange(8)] ^= 1 << rng.randrange(8)


def key(volume, rng):
    volume.image[BLOCK * volume.root + CONTENT + 8 + rng.randrange(16)] ^= 1 << rng.randrange(8)


def clean(volume, rng):
    volume.image[BLOCK * volume.root + CONTENT + 24] = rng.choice([0, 0, 2, 255])


def name(volume, rng):
    at, _ = volume.record()
    odd = rng.choice(ODD_NAMES) if rng.random() < 0.7 else rng.randbytes(rng.randrange(1, 255))
    length = volume.image[at + 4]
    volume.image[at + 5 : at + 5 + length] = odd[:length].ljust(length, rng.choice([b"x", b"\0", b"/"]))


def name_more(volume, rng):
    volume.add_record(volume.of_kind(FOLDER), rng.choice(ODD_NAMES), rng.choice([*volume.inodes, *NUMBERS]))


def length(volume, rng):
    at, _ = volume.record()
    volume.image[at + 4] = rng.choice([0, 1, 200, 255, rng.randrange(256)])


def leads(volume, rng):
    at, _ = volume.record()
    struct.pack_into("<I", volume.image, at, rng.choice([*volume.inodes, *NUMBERS]))


def leads_above(volume, rng):
    at, folder = volume.record()
    struct.pack_into("<I", volume.image, at, rng.choice([folder, 1, volume.of_kind(FOLDER)]))


def name_twice(volume, rng):
    at, folder = volume.record()
    length = volume.image[at + 4]
    volume.add_record(folder, bytes(volume.image[at + 5 : at + 5 + length]), rng.choice([volume.word(at), *volume.inodes]))


def pointer_gone(volume, rng):
    block = rng.choice([*volume.inodes.values(), *volume.nodes, volume.root])
    places = range(4, 512, 4) if block in volume.nodes else range(POINTERS, CONTENT, 4)
    used = [it for it in places if volume.word(BLOCK * block + it)]
    if used:
        struct.pack_into("<I", volume.image, BLOCK * block + rng.choice(used), 0)


def pointer_twice(volume, rng):
    block = rng.choice([*volume.inodes.values(), volume.root])
    struct.pack_into("<I", volume.image, BLOCK * block + rng.randrange(POINTERS, CONTENT, 4), rng.choice([*volume.inodes.values(), 10**9, 1]))


def pointer_to_free(volume, rng):
    block = rng.choice([*volume.inodes.values(), *volume.nodes])
    struct.pack_into("<I", volume.image, BLOCK * block + rng.randrange(POINTERS, CONTENT, 4), len(volume.image) // BLOCK - 1 - rng.randrange(50))


def random_in_inode(volume, rng):
    block = rng.choice(list(volume.inodes.values()))
    for _ in range(rng.randrange(1, 5)):
        volume.image[BLOCK * block + rng.choice([*range(2, POINTERS), *range(CONTENT, BLOCK)])] = rng.randrange(256)


def random_in_bucket(volume, rng):
    at, end = rng.choice(list(volume.buckets(volume.of_kind(FOLDER))))
    for _ in range(rng.randrange(1, 9)):
        volume.image[rng.randrange(at, min(end, at + rng.choice([20, 384])))] = rng.randrange(256)


def random_anywhere(volume, rng):
    for _ in range(rng.randrange(1, 4)):
        volume.image[BLOCK * rng.choice([0, *range(1, 4), *volume.inodes.values(), *volume.nodes]) + rng.randrange(BLOCK)] = rng.randrange(256)


def link_target(volume, rng):
    number = volume.of_kind(LINK)
    at = BLOCK * volume.inodes[number] + CONTENT
    target = rng.choice([b"", b"\0", b"..", b"../../..", b"/", b"\xff\xfe", b"loop", b"x" * 384, b"a\0b", b"\x1b[2J"])
    volume.image[at : at + len(target)] = target
    volume.field(number, "<Q", SIZE, rng.choice([len(target), 4096, 4097, 384]))


ODD = [
    mode, links, size, size, times, parent, types, mark, key, clean, name, name, name_more, name_more, length, leads, leads, leads_above, leads_above,
    name_twice, pointer_gone, pointer_twice, pointer_to_free, random_in_inode, random_in_bucket, random_in_bucket, random_anywhere, link_target,
]
