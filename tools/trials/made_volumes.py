"""Volumes that are made by hand: ordinary files and folders, and what may be wrong or rare beside them."""

import struct

BLOCKS = 300
FILE, FOLDER = 1, 2
NAMES = [b"a", b"b", b"notes.txt", b"two words", "größe".encode(), b"x" * 28]
ODD_NAMES = [
    b"..", b".", b"", b"a/b", b"../up", b"/etc", b"nul\0in", b"\x1b[2J", b"new\nline", b"\xff\xfe", b"back\\slash", b"\r", b"\x7f",
    b"\xc2\x9b1m", b".xnfs-put", b"-", b"-r", b"'quote\"", b" ", b"d.img", b"out",
]


class Volume:
    """A volume that is made by hand: inodes, and blocks of a disk."""

    def __init__(self, image, rng):
        self.image, self.rng = bytearray(image), rng
        self.root = struct.unpack_from("<I", image, 72)[0]
        self.first = struct.unpack_from("<I", image, 512 * self.root)[0]
        self.next = max(self.root, self.first) + 1
        self.used = {}
        self.inode(1, FOLDER, 1, 0, [])

    def block(self, data=b""):
        """A block of its own with these bytes."""
        number = self.next
        self.next += 1
        if self.next > BLOCKS:
            raise OverflowError
        self.image[512 * number : 512 * number + 512] = data.ljust(512, b"\0")[:512]
        return number

    def place(self, number):
        """Where an inode stands, whose block is made where it has none."""
        at = 512 * self.root + 4 * ((number - 1) // 8)
        block = struct.unpack_from("<I", self.image, at)[0]
        if block == 0:
            block = self.block()
            struct.pack_into("<I", self.image, at, block)
        return 512 * block + 64 * ((number - 1) % 8)

    def inode(self, number, mode, links, size, blocks, indirect=0):
        at = self.place(number)
        pointers = (list(blocks) + [0] * 12)[:12]
        struct.pack_into("<HHI12II", self.image, at, mode, links, size, *pointers, indirect)
        self.used[number] = mode

    def field(self, number, form, at, value):
        struct.pack_into(form, self.image, self.place(number) + at, value)

    def free_number(self):
        return next(number for number in range(2, 129) if number not in self.used)

    def file(self, length):
        """A file of so many bytes."""
        number, blocks = self.free_number(), -(-length // 512)
        direct = [self.block(self.rng.randbytes(min(512, length - 512 * at))) for at in range(min(blocks, 12))]
        indirect = 0
        if blocks > 12:
            rest = [self.block(self.rng.randbytes(512 if 512 * at + 512 <= length else length % 512)) for at in range(12, blocks)]
            indirect = self.block(struct.pack(f"<{len(rest)}I", *rest))
        self.inode(number, FILE, 1, length, direct, indirect)
        return number

    def folder(self):
        number = self.free_number()
        self.inode(number, FOLDER, 1, 0, [])
        return number

    def enter(self, folder, name, inode, length=None):
        """An entry more in a folder."""
        at = self.place(folder)
        for pointer in range(12):
            block = struct.unpack_from("<I", self.image, at + 8 + 4 * pointer)[0]
            if block == 0:
                block = self.block()
                struct.pack_into("<I", self.image, at + 8 + 4 * pointer, block)
                struct.pack_into("<I", self.image, at + 4, 512 * (pointer + 1))
            for place in range(16):
                entry = 512 * block + 32 * place
                if self.image[entry : entry + 2] == b"\0\0":
                    self.image[entry : entry + 32] = struct.pack("<HBB28s", inode, len(name) if length is None else length, 0, name)
                    return entry
        raise OverflowError

    def links(self, number, more):
        at = self.place(number)
        links = struct.unpack_from("<H", self.image, at + 2)[0]
        struct.pack_into("<H", self.image, at + 2, min(65535, links + more))


def ordinary(volume, rng):
    """Some files and folders."""
    folders = [1]
    for name in rng.sample(NAMES, rng.randrange(1, 6)):
        folder = rng.choice(folders)
        if rng.random() < 0.4:
            number = volume.folder()
            folders.append(number)
        else:
            number = volume.file(rng.choice([0, 1, 511, 512, 6144, 6145, 9000]))
        volume.enter(folder, name, number)
    return folders


def number_of(volume, rng, mode):
    """An inode of a mode that is there, or a new one with a name."""
    numbers = [number for number, used in volume.used.items() if used == mode and number != 1]
    if numbers:
        return rng.choice(numbers)
    number = volume.file(600) if mode == FILE else volume.folder()
    volume.enter(1, rng.choice(NAMES), number)
    return number


def odd_name(volume, folders, rng):
    name = rng.choice(ODD_NAMES) if rng.random() < 0.8 else rng.randbytes(rng.randrange(1, 28))
    number = volume.folder() if rng.random() < 0.3 else volume.file(20)
    volume.enter(rng.choice(folders), name, number)


def long_name(volume, folders, rng):
    volume.enter(rng.choice(folders), b"y" * 28, volume.file(20), rng.choice([29, 32, 100, 255]))


def same_name(volume, folders, rng):
    folder, name = rng.choice(folders), rng.choice(NAMES)
    for _ in range(rng.choice([2, 2, 3, 20])):
        volume.enter(folder, name, volume.file(9))


def odd_mode(volume, folders, rng):
    volume.field(number_of(volume, rng, rng.choice([FILE, FOLDER])), "<H", 0, rng.choice([3, 7, 0x4000, 65535]))


def odd_size(volume, folders, rng):
    volume.field(number_of(volume, rng, rng.choice([FILE, FILE, FOLDER])), "<I", 4, rng.choice([6145, 71680, 71681, 2**31, 2**32 - 1, 513, 1]))


def odd_links(volume, folders, rng):
    volume.field(number_of(volume, rng, rng.choice([FILE, FOLDER])), "<H", 2, rng.choice([1, 2, 7, 65535]))


def odd_top(volume, folders, rng):
    volume.field(1, "<H", 0, rng.choice([0, 1, 7]))


def leftover(volume, folders, rng):
    number = volume.free_number()
    volume.inode(number, 0, rng.choice([0, 1, 3]), rng.choice([0, 5]), [volume.block(b"left")] if rng.random() < 0.5 else [], 0)
    if rng.random() < 0.3:
        volume.field(number, "<I", 4, 77)


def without_name(volume, folders, rng):
    number = volume.folder() if rng.random() < 0.6 else volume.file(700)
    if volume.used[number] == FOLDER and rng.random() < 0.6:
        volume.enter(number, b"inside", volume.file(3))


def two_names(volume, folders, rng):
    number, folder = number_of(volume, rng, rng.choice([FILE, FOLDER])), rng.choice(folders)
    volume.enter(folder, b"other", number)
    volume.links(number, 1)


def in_itself(volume, folders, rng):
    number = volume.folder()
    volume.enter(number, b"self", number)
    if rng.random() < 0.5:
        volume.enter(rng.choice(folders), b"loop", number)
        volume.links(number, 1)


def in_each_other(volume, folders, rng):
    numbers = [volume.folder() for _ in range(rng.choice([2, 3, 9]))]
    for one, other in zip(numbers, numbers[1:] + numbers[:1]):
        volume.enter(one, b"next", other)
    if rng.random() < 0.6:
        volume.enter(1, b"ring", numbers[0])
        volume.links(numbers[0], 1)


def top_below(volume, folders, rng):
    volume.enter(rng.choice(folders), b"top", 1)
    volume.links(1, 1)


def chain(volume, folders, rng):
    above, names = 1, rng.choice([[b"deep"], [b"one", b"two"]])
    for _ in range(rng.choice([10, 40, 90])):
        number = volume.folder()
        for name in names:
            volume.enter(above, name, number)
        volume.links(number, len(names) - 1)
        above = number


def gaps(volume, folders, rng):
    number = number_of(volume, rng, FILE)
    block = volume.block(struct.pack("<128I", *[volume.block() if rng.random() < 0.1 else 0 for _ in range(128)]))
    volume.inode(number, FILE, 1, rng.randrange(71_681), [volume.block() if rng.random() < 0.5 else 0 for _ in range(12)], block)


def random_bytes(volume, folders, rng):
    """Random bytes in an inode, beside its pointers, or in a folder's entries."""
    at = volume.place(rng.choice(list(volume.used)))
    block = struct.unpack_from("<I", volume.image, at + 8)[0]
    if rng.random() < 0.5 or block == 0:
        for _ in range(rng.randrange(1, 5)):
            volume.image[at + rng.choice([0, 1, 2, 3, 4, 5, 6, 7, 60, 61, 62, 63])] = rng.randrange(256)
    else:
        for _ in range(rng.randrange(1, 9)):
            volume.image[512 * block + rng.randrange(512)] = rng.randrange(256)


ODD = [
    odd_name, odd_name, odd_name, long_name, same_name, odd_mode, odd_size, odd_size, odd_links, odd_top, leftover, without_name, two_names, two_names,
    in_itself, in_each_other, top_below, chain, gaps, random_bytes, random_bytes,
]
