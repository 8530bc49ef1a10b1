#!/usr/bin/env python3
"""A second implementation of the image check, written from the rules of images alone and with no eye on speed.

It makes the pseudo-random images of the program `random_inputs` (crates/random_inputs), checks each of them, and prints what that
program prints: how many there are, how many of them are sound, how many blocks these reach, and a hash of all answers. With
`--kinds` it also prints how many images have each kind of fault.
"""

import sys
from collections import Counter

from reference import Fault as ProgramFault
from reference import Numbers, Run, Verifier, assemble, decode, encode

CATALOGUE = """SET 1 4; SET 2 8; SET 3 1; FOR 4 16; MUL 5 4 1; ADD 5 5 2; LD4 6 5; IFEQ 6 0; ELSE; EMIT 6 3; END; END; SET 1 8;
SET 2 72; FOR 4 32; MUL 5 4 1; ADD 5 5 2; LD4 6 5; IFEQ 6 0; ELSE; SET 3 4; ADD 5 5 3; LD4 7 5; EMIT 6 7; END; END;"""
ROOT = "SET 1 4; FOR 2 16; MUL 3 2 1; LD4 4 3; IFLT 0 4; EMIT 4 1; END; END;"
INODES = """SET 1 64; SET 2 4; SET 3 8; SET 4 2; SET 5 5; SET 6 56; FOR 7 8; MUL 8 7 1; ADD 9 8 3; FOR 10 12; MUL 11 10 2;
ADD 11 11 9; LD4 12 11; IFLT 0 12; EMIT 12 4; END; END; ADD 9 8 6; LD4 12 9; IFLT 0 12; EMIT 12 5; END; END;"""
POINTERS = "SET 1 4; SET 2 2; FOR 3 128; MUL 4 3 1; LD4 5 4; IFLT 0 5; EMIT 5 2; END; END;"


class Fault(Exception):
    """The first fault of an image, as it is printed."""


def words_of(text):
    return assemble(text.replace("; ", "\n").replace(";\n", "\n").replace(";", "\n"))


def number_at(block, at):
    return int.from_bytes(block[at : at + 4], "little")


# Types: a pair of an owns program and a size program.


def read_template(block):
    """The two programs of a template's block, or None where it spells none."""
    if block[:2] != b"\x58\x54" or block[2] + block[3] > 127:
        return None
    middle = 4 + 4 * block[2]
    end = middle + 4 * block[3]
    try:
        programs = decode(block[4:middle]), decode(block[middle:end])
        for words, role in zip(programs, ("owns", "size")):
            Verifier(words, role).verdict()
    except ProgramFault:
        return None
    return None if any(block[end:]) else programs


def owned(programs, block):
    return Run(programs[0], block).pairs


def size(programs, block):
    return Run(programs[1], block).registers[0]


DATA = words_of(""), words_of("SET 0 512;")
BUILT_IN = {0: (words_of(CATALOGUE), words_of("SET 0 328;")), 1: DATA, 2: DATA}


def check(image):
    """The reached blocks with their types, breadth first, and the others, rising."""
    count = len(image) // 512
    if len(image) % 512 or not 32 <= count <= 1048576:
        raise Fault("2 BadLength")
    blocks = [image[512 * b : 512 * b + 512] for b in range(count)]
    if blocks[0][:4] != b"XN97":
        raise Fault("3 BadMark")
    if number_at(blocks[0], 4) != count:
        raise Fault("4 BadCount")
    types = dict(BUILT_IN)
    for i in range(16):
        c = number_at(blocks[0], 8 + 4 * i)
        if c == 0:
            continue
        if c >= count:
            raise Fault(f"7 OutOfRange(0, {c})")
        types[3 + i] = read_template(blocks[c])
        if types[3 + i] is None:
            raise Fault(f"5 BadTemplate({3 + i})")
    reached, named = [(0, 0)], set()
    for b, ty in reached:
        if any(blocks[b][size(types[ty], blocks[b]) :]):
            raise Fault(f"9 SizeWrong({b})")
        for c, t in owned(types[ty], blocks[b]):
            if not 0 < c < count:
                raise Fault(f"7 OutOfRange({b}, {c})")
            if t == 0 or t not in types:
                raise Fault(f"6 UnknownType({b}, {t})")
            if c in named:
                raise Fault(f"8 TwoOwners({c})")
            named.add(c)
            reached.append((c, t))
    return reached, [b for b in range(1, count) if b not in named]


# From here on, what the program does, in its order.


def template_block(owns, size_text):
    owns, size_words = words_of(owns), words_of(size_text)
    head = b"\x58\x54" + bytes([len(owns), len(size_words)])
    return (head + encode(owns) + encode(size_words)).ljust(512, b"\0")


TEMPLATES = template_block(ROOT, "SET 0 64;"), template_block(INODES, "SET 0 512;"), template_block(POINTERS, "SET 0 512;")


def put(image, at, given):
    for i, byte in enumerate(given):
        if at + i < len(image):
            image[at + i] = byte


def put_number(image, at, number):
    put(image, at, number.to_bytes(4, "little"))


def random_image(numbers):
    below = numbers.below
    blocks = below(4) + 32
    image = bytearray(512 * blocks)
    put(image, 0, b"XN97")
    put_number(image, 4, blocks)
    for i, template in enumerate(TEMPLATES):
        put(image, 512 * (i + 1), template)
        put_number(image, 4 * i + 8, i + 1)
    for _ in range(below(4)):
        at = 8 * below(32) + 72
        put_number(image, at, below(6) + 4)
        put_number(image, at + 4, below(7))
    for _ in range(below(16)):
        at = 512 * (below(12) + 4)
        at += 4 * [0, 1, 2, 3, 4, 14, 15, 18, 19, 30][below(10)]
        put_number(image, at, below(blocks) + 1)
    if below(2) == 0:
        for _ in range(below(3)):
            block = [0, 0, 1, 3, 4, 5, 6, 9][below(8)]
            at = [0, 1, 2, 4, 8, 12, 20, 28, 64, 72, 76, 80, 330, 511][below(14)]
            put(image, 512 * block + at, [below(256)])
    if below(32) == 0:
        image = image[: below(2000) + 15000]
    return bytes(image)


def main():
    numbers, kinds = Numbers(), Counter()
    reached_blocks, value = 0, 0xCBF29CE484222325
    images = 10_000
    for _ in range(images):
        answer = b""
        try:
            reached, free = check(random_image(numbers))
        except Fault as fault:
            answer = str(fault).encode()
            kinds[str(fault).split("(")[0]] += 1
        else:
            kinds["sound"] += 1
            reached_blocks += len(reached)
            for pair in reached:
                answer += b"".join(number.to_bytes(4, "little") for number in pair)
            for block in free:
                answer += block.to_bytes(4, "little")
        for byte in answer:
            value = (value ^ byte) * 0x100000001B3 % 2**64
    print(f"images {images} sound {kinds['sound']} reached {reached_blocks} hash {value:#x}")
    if "--kinds" in sys.argv:
        for kind, count in sorted(kinds.items()):
            print(f"{kind} {count}")


if __name__ == "__main__":
    main()
