#!/usr/bin/env python3
"""Reads a disk image, by docs/FORMAT.md alone.

read_disk.py IMAGE [FILESYSTEM]          prints the tree of a volume as `xnfs IMAGE tree` does
read_disk.py --check IMAGE               prints what `xnsim check IMAGE` prints
read_disk.py --compare XNFS IMAGE..      compares the trees and files of disks of the first library file system with the program XNFS
read_disk.py --compare-check XNSIM [COUNT]   compares what is told of pseudo-random images with the program XNSIM
"""
import os
import random
import subprocess
import sys
import tempfile

import run_language

BLOCK = 512
# The templates of the library file system, without the zeros behind them.
LIBRARY = [bytes.fromhex(template) for template in (
    "585408010101040012021000050302010c0403000e0004000d040100110000001100000001004000",
    "58541701010140000102040001030800010402000105050001063800120708000508070103090803120a0c00050b0a02030b0b090c0c0b000e000c000d0c0400"
    "1100000011000000030908060c0c09000e000c000d0c0500110000001100000001000002",
    "58540901010104000102020012038000050403010c0504000e0005000d050200110000001100000001000002")]


class NoVolume(Exception):
    """The file system has no volume of the library there, or one that can't be read."""


class ImageFault(Exception):
    """A fault of an image, as `xnsim check` numbers and names it."""


def read_image(path):
    """The bytes of an image."""
    with open(path, "rb") as file:
        return file.read()


def read_number(data, start, length=4):
    """The number in the bytes from an offset on, the lowest first."""
    return int.from_bytes(data[start:start + length], "little")


def read_block(image, number):
    """The bytes of a block."""
    return image[BLOCK * number:BLOCK * (number + 1)]


def find_volume(image, filesystem):
    """The root block of a file system's volume."""
    places = [read_number(image, 8 + 4 * place) for place in range(3)]
    if any(place == 0 or read_block(image, place) != template.ljust(BLOCK, b"\0") for place, template in zip(places, LIBRARY)):
        raise NoVolume("the disk has no templates of the library file system")
    block, kind = read_number(image, 72 + 8 * filesystem), read_number(image, 76 + 8 * filesystem)
    root = read_block(image, block)
    if block == 0 or kind != 3 or read_number(root, 0) == 0:
        raise NoVolume("the file system has no volume")
    return root


def find_inode(image, root, number):
    """The 64 bytes of an inode."""
    block = read_block(image, read_number(root, 4 * ((number - 1) // 8)))
    return block[64 * ((number - 1) % 8):64 * ((number - 1) % 8 + 1)]


def read_file(image, inode):
    """The bytes of a file."""
    size, indirect = read_number(inode, 4), read_number(inode, 56)
    further = read_block(image, indirect) if indirect else bytes(BLOCK)
    pointers = [read_number(inode, 8 + 4 * place) for place in range(12)] + [read_number(further, 4 * place) for place in range(128)]
    return b"".join(read_block(image, pointer) if pointer else bytes(BLOCK) for pointer in pointers)[:size]


def read_entries(image, inode):
    """The names of a folder and the numbers of their inodes, in rising order of the names."""
    entries = []
    for pointer in filter(None, (read_number(inode, 8 + 4 * place) for place in range(12))):
        block = read_block(image, pointer)
        for start in range(0, BLOCK, 32):
            if read_number(block, start, 2):
                entries.append((block[start + 4:start + 4 + block[start + 2]], read_number(block, start, 2)))
    return sorted(entries)


def walk(image, root, number=1, path=(), above=()):
    """Each name below a folder as its path, a tuple of names, with its inode."""
    if number in above:
        raise NoVolume("a folder stands in itself")
    for name, inode_number in read_entries(image, find_inode(image, root, number)):
        inode = find_inode(image, root, inode_number)
        yield (*path, name), inode
        if read_number(inode, 0, 2) == 2:
            yield from walk(image, root, inode_number, (*path, name), (*above, number))


def format_tree(image, filesystem):
    """The lines of the tree of a file system's volume, in bytes."""
    lines = [b"  " * (len(path) - 1) + path[-1] + (b"/" if read_number(inode, 0, 2) == 2 else b"") + b"\n"
             for path, inode in walk(image, find_volume(image, filesystem))]
    return b"".join(lines)


def read_template(block):
    """The verified owns and size programs of a template's block."""
    owns_end = 4 + 4 * block[2]
    size_end = owns_end + 4 * block[3]
    if block[:2] != b"XT" or block[2] + block[3] > 127 or any(block[size_end:]):
        raise run_language.Fault("BadTemplate", 0)
    owns, size = run_language.read_program(block[4:owns_end]), run_language.read_program(block[owns_end:size_end])
    run_language.verify(owns, "owns")
    run_language.verify(size, "size")
    return owns, size


def read_catalogue(image, count):
    """Of each filled place of the catalogue its type, its block and its programs."""
    templates = {}
    for place in range(16):
        number = read_number(image, 8 + 4 * place)
        if number >= count:
            raise ImageFault(f"7 OutOfRange(0, {number})")
        if number:
            try:
                templates[3 + place] = number, read_template(read_block(image, number))
            except run_language.Fault:
                raise ImageFault(f"5 BadTemplate({3 + place})") from None
    return templates


def describe_block(block, kind, templates):
    """From which byte on a block is zeros, and the pairs of a block and a type that it names."""
    if kind == 0:
        slots = [(read_number(block, start), read_number(block, start + 4)) for start in range(72, 328, 8)]
        return 328, [(number, 1) for number, programs in templates.values()] + [slot for slot in slots if slot[0]]
    if kind in (1, 2):
        return BLOCK, []
    owns, size = templates[kind][1]
    return run_language.run(size, block)[0], run_language.run(owns, block)[1]


def check(image):
    """How many blocks of an image are reached."""
    count = len(image) // BLOCK
    if len(image) % BLOCK or not 32 <= count <= 1048576:
        raise ImageFault("2 BadLength")
    if image[:4] != b"XN97":
        raise ImageFault("3 BadMark")
    if read_number(image, 4) != count:
        raise ImageFault("4 BadCount")
    templates = read_catalogue(image, count)
    named, reached = [(0, 0)], {0}
    for number, kind in named:
        used, pairs = describe_block(read_block(image, number), kind, templates)
        if any(read_block(image, number)[used:]):
            raise ImageFault(f"9 SizeWrong({number})")
        for pair in pairs:
            if not 0 < pair[0] < count:
                raise ImageFault(f"7 OutOfRange({number}, {pair[0]})")
            if pair[1] not in (1, 2, *templates):
                raise ImageFault(f"6 UnknownType({number}, {pair[1]})")
            if pair[0] in reached:
                raise ImageFault(f"8 TwoOwners({pair[0]})")
            reached.add(pair[0])
            named.append(pair)
    return len(reached)


def tell_check(image):
    """The line that `xnsim check` prints of an image."""
    try:
        reached = check(image)
    except ImageFault as fault:
        return f"fault {fault}"
    return f"reached {reached} free {len(image) // BLOCK - reached}"


SEED = 97


def start(program, *words):
    """What a program prints on standard output, and its status."""
    done = subprocess.run([program, *words], stdin=subprocess.DEVNULL, stdout=subprocess.PIPE, stderr=subprocess.DEVNULL)
    return done.stdout, done.returncode


def compare(program, paths):
    """Compares the trees and the files of disks with what the program tells, and prints how many differ."""
    names, differences = 0, 0
    for path in paths:
        found, wrong = compare_disk(program, path, read_image(path), 0)
        names, differences = names + found, differences + wrong
    print(f"{len(paths)} images, {names} names, {differences} differences")
    return 1 if differences else 0


def make_image(source):
    """An image with random templates and roots, and blocks that mostly name others."""
    count = source.choice([32, 33, 40, 64])
    image = bytearray(source.choice(LIBRARY if source.random() < 0.1 else [b""]).ljust(BLOCK * count, b"\0"))
    image[:8] = b"XN97" + count.to_bytes(4, "little")
    for number in range(BLOCK, len(image), 4):
        if source.random() < source.choice([0.01, 0.1]) and number % BLOCK < 64:
            image[number] = source.choice([source.randrange(2 * count), source.randrange(8, count), source.randrange(256)])
    for place in source.sample(range(16), source.choice([0, 1, 1, 2, 3])):
        owns, size = (run_language.encode(make_text(source, role)) for role in ("owns", "size"))
        if len(owns + size) <= 508:
            number = source.randrange(1, 8)
            image[8 + 4 * place] = number
            image[BLOCK * number:BLOCK * (number + 1)] = (b"XT" + bytes([len(owns) // 4, len(size) // 4]) + owns + size).ljust(BLOCK, b"\0")
    for slot in range(72, 328, 8):
        if source.random() < 0.1:
            types = [3 + place for place in range(16) if image[8 + 4 * place]]
            image[slot], image[slot + 4] = source.randrange(8, count), source.choice([1, 2, 3 + source.randrange(16)] + types * 6)
    return image


def make_text(source, role):
    """The text of a program of a template."""
    worked = [text for text, told_role, told, blocks in run_language.WORKED if told_role == role and told.startswith("accepted")]
    while True:
        text = run_language.grow(source, role) if source.random() < 0.5 else source.choice(worked + ["", "SET 0 512\n"])
        if not run_language.tell(text, role).startswith("line"):
            return text


def damage(source, image):
    """Changes an image at a few places."""
    for number in range(source.choice([0, 0, 1, 2, 4])):
        at = source.choice([source.randrange(len(image)), source.randrange(BLOCK), source.randrange(72), source.randrange(72, 328)])
        image[at] = source.choice([0, 1, 2, 3, 4, 5, 6, 40, 255])
    return image[:len(image) - source.choice([1, 511, 512, 1024])] if source.random() < 0.03 else image


def compare_check(program, count):
    """Compares what is told of pseudo-random images with what the program tells, and prints how many are sound and how many differ."""
    source, sound, differences = random.Random(SEED), 0, 0
    with tempfile.TemporaryDirectory() as folder:
        for number in range(count):
            image = damage(source, make_image(source))
            with open(os.path.join(folder, "disk"), "wb") as file:
                file.write(image)
            told, here = start(program, "check", os.path.join(folder, "disk"))[0].decode().rstrip("\n"), tell_check(bytes(image))
            sound += told.startswith("reached")
            if told != here:
                differences += 1
                print(f"image {number}: here {here}, there {told}")
    print(f"{count} images, {sound} sound, {differences} differences")
    return 1 if differences else 0


def compare_disk(program, path, image, filesystem):
    """How many names a disk has, and how many of its tree and its files differ."""
    words = [program, path, "--fs", str(filesystem)]
    differences = [] if (format_tree(image, filesystem), 0) == start(*words, "tree") else ["tree"]
    found = list(walk(image, find_volume(image, filesystem)))
    for names, inode in found:
        name = b"/" + b"/".join(names)
        if read_number(inode, 0, 2) == 1 and (read_file(image, inode), 0) != start(*words, "cat", name):
            differences.append(name)
    if not tell_check(image).startswith("reached"):
        differences.append("check")
    for difference in differences:
        print(f"{len(image) // BLOCK} blocks, file system {filesystem}: {difference}: {tell_check(image)}")
    return len(found), len(differences)


def main(arguments):
    """Does what the words of the line ask, and gives the status."""
    if arguments[:1] == ["--compare"] and len(arguments) > 2:
        return compare(arguments[1], arguments[2:])
    if arguments[:1] == ["--compare-check"] and len(arguments) in (2, 3):
        return compare_check(arguments[1], int(arguments[2]) if len(arguments) == 3 else 200)
    if arguments[:1] == ["--check"] and len(arguments) == 2:
        line = tell_check(read_image(arguments[1]))
        print(line)
        return 0 if line.startswith("reached") else 1
    if len(arguments) not in (1, 2) or arguments[0].startswith("--"):
        print(__doc__, file=sys.stderr)
        return 2
    try:
        sys.stdout.buffer.write(format_tree(read_image(arguments[0]), int(arguments[1]) if len(arguments) == 2 else 0))
    except NoVolume as fault:
        print(fault, file=sys.stderr)
        return 1
    return 0


if __name__ == "__main__":
    sys.exit(main(sys.argv[1:]))
