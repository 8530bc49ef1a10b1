"""The small disk of docs/FORMAT.md, by the numbers of the code, for `document_numbers.py`."""

import os
import re

from made_from import TOP

# The blocks behind those of the templates, in the order in which they were taken.
INODES, ROOT, ENTRIES, DATA = 1, 2, 3, 4
ARRAY = r"(?s)const {}: \[u8; \d+\] = \[(.*?)\];"


def array_of(source, name):
    """The bytes of an array of the source, with the zeros behind it left out."""
    return bytes(int(it, 16) for it in re.findall(r"0x[0-9a-f]{2}", re.sub(r"//.*", "", re.search(ARRAY.format(name), source)[1])))


class SmallDisk:
    """The disk that the text above the dump tells of. `names` has the numbers of the code, and `source` the arrays of the templates."""

    def __init__(self, names, source, text):
        self.code = names
        self.templates = [array_of(source, name) for name in ("ROOT", "INODES", "POINTERS")]
        self.blocks = int(re.search(r"A disk of (\d+) blocks with a volume of the first library file system", text)[1])
        self.file_name, self.text = (it.replace("\\n", "\n").encode() for it in re.search(r"the file `/(\w+)` has the bytes `([^`]*)`", text).groups())
        self.folder_name = re.search(r"the folder `/(\w+)` stands", text)[1].encode()
        self.path = re.search(r"It is `(\S+)`", text)[1]
        self.template = names["first_template"]
        last = self.template + len(self.templates) - 1
        self.inodes, self.root, self.entries, self.data = (last + it for it in (INODES, ROOT, ENTRIES, DATA))
        # The file's inode is the second and the folder's the third; the folder's entry stands where the name of a file that is being put has stood.
        self.file, self.folder = 2, 3

    def at(self, block):
        """The byte at which a block begins."""
        return block * self.code["block_len"]

    def owns(self, block):
        """How many words the owns program of a template's block has."""
        return self.templates[block - self.template][self.code["owns_count"]]

    def sizes(self, block):
        """How many the size program has."""
        return self.templates[block - self.template][self.code["size_count"]]

    def number(self, number):
        """A number as its bytes."""
        return number.to_bytes(self.code["number_len"], "little")

    def half(self, number):
        """A number as the bytes of a half."""
        return number.to_bytes(self.code["half_len"], "little")

    def inode(self, mode, size, pointer):
        """The bytes of an inode with one link."""
        code = self.code
        pieces = {code["mode"]: self.half(mode), code["links"]: self.half(1), code["size"]: self.number(size), code["direct"]: self.number(pointer)}
        return placed(code["inode_len"], pieces)

    def entry(self, inode, name):
        """The bytes of an entry."""
        code = self.code
        return placed(code["entry_len"], {0: self.half(inode), code["name_len_at"]: bytes([len(name)]), code["name_at"]: name})

    def bytes(self):
        """The bytes of the disk."""
        code = self.code
        pointers = {code["pointers_start"] + code["pointer_len"] * i: self.number(self.template + i) for i in range(len(self.templates))}
        slot = {code["slots_start"]: self.number(self.root), code["slots_start"] + code["slot_type"]: self.number(code["volume_type"])}
        inodes = (
            self.inode(code["a_directory"], code["block_len"], self.entries)
            + self.inode(code["a_file"], len(self.text), self.data)
            + self.inode(code["a_directory"], 0, 0)
        )
        blocks = {self.at(self.template + i): template for i, template in enumerate(self.templates)}
        blocks[0] = placed(code["block_len"], {0: code["root_mark"], code["count_start"]: self.number(self.blocks), **pointers, **slot})
        blocks[self.at(self.inodes)] = inodes
        blocks[self.at(self.root)] = self.number(self.inodes)
        blocks[self.at(self.entries)] = self.entry(self.folder, self.folder_name) + self.entry(self.file, self.file_name)
        blocks[self.at(self.data)] = self.text
        return placed(self.at(self.blocks), blocks)

    def dump(self):
        """The lines of the dump: those that aren't all zeros. The file that the text names has the same bytes."""
        data = self.bytes()
        with open(os.path.join(TOP, self.path), "rb") as file:
            if file.read() != data:
                raise ValueError(f"{self.path} has other bytes than docs/FORMAT.md tells")
        return [f"{at:06x} {data[at : at + 16].hex(' ')}" for at in range(0, len(data), 16) if any(data[at : at + 16])]


def placed(length, pieces):
    """So many bytes with these pieces at their places, and zeros else."""
    data = bytearray(length)
    for at, piece in pieces.items():
        data[at : at + len(piece)] = piece
    return bytes(data)
