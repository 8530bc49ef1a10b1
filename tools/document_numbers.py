"""Compares the numbers of the tables of two documents with the code, for `tools/documents`.

`document_numbers.txt` says what each number of a table is. Its section `quotes` names numbers of the code: the crate, and a piece of its source or of its
definitions in which `#` stands for the number. Each other section has a table's document and the heading above it, and a line for each of the table's rows
with what its numbers are, in their order, parted by semicolons; `-` is a row without numbers. A word that has a digit, as `LD1`, is one of them.

- A row has exactly these numbers, and each table of the two documents has its section.
- Where the last column of a table is headed `Code`, its cell quotes a piece of code and its crate, as `const SIZE: usize = 4;` (ffs_format), which stands in
  that crate; `-` quotes none.
- The dump of the small disk has the bytes that the numbers of the code and the arrays of the templates in `ffs_format` give (`small_disk.py`).
"""

import os
import random
import re

from small_disk import SmallDisk, array_of

TOP = os.path.dirname(os.path.dirname(os.path.abspath(__file__)))
BOUND = "tools/document_numbers.txt"
QUOTED = re.compile(r"^`([^`]+)` \((\w+)\)$")
# A word with a digit in it, and with the commas that part its thousands.
NUMBER = re.compile(r"\w*[0-9]\w*(?:,[0-9]{3}(?![0-9]))*")
PLAIN = re.compile(r"0x[0-9a-f]+|[0-9][0-9_,]*")
DUMPED = re.compile(r"^([0-9a-f]{6})((?: [0-9a-f]{2}){16})$")


def value(text):
    """The number that a word is, or the word itself."""
    return int(re.sub("[_,]", "", text), 16 if text.startswith("0x") else 10) if PLAIN.fullmatch(text) else text


def cells(line):
    """The cells of a table's row. A bar within backquotes is none of the table's."""
    return [it.strip() for it in re.split(r"\|(?=(?:[^`]*`[^`]*`)*[^`]*$)", line.strip())[1:-1]]


def tables(text):
    """Each table, as the heading above it, whether it has a column of code, and its rows, each with its line's number and its cells."""
    found, heading, inside = [], None, False
    for number, line in enumerate(text.splitlines(), 1):
        if line.startswith("#"):
            heading = line.lstrip("# ")
        if line.startswith("|") and not inside:
            found.append((heading, cells(line)[-1] == "Code", []))
        elif line.startswith("|") and not re.fullmatch(r"[|\s:-]+", line):
            found[-1][2].append((number, cells(line)))
        inside = line.startswith("|")
    return found


def sections():
    """The sections of what is bound: their names, each with its lines."""
    found = []
    with open(os.path.join(TOP, BOUND), encoding="utf-8") as file:
        for line in file.read().splitlines():
            if line.startswith("["):
                found.append((line.strip("[]"), []))
            elif line and not line.startswith("#"):
                found[-1][1].append(line)
    return found


def quoted(source, code):
    """The number, or the bytes, for which a piece of code stands; None where the source hasn't the code, or has it with several numbers."""
    pattern = re.escape(code).replace(r"\#\#", "([0-9a-fx, ]+)").replace(r"\#", "(0x[0-9a-f]+|[0-9][0-9_]*)")
    found = set(re.findall(pattern, source))
    if len(found) != 1:
        return None
    text = found.pop()
    return bytes(value(it) for it in text.split(", ")) if "##" in code else value(text)


# What an expression may call, beside the numbers of the code and the small disk.
WORDS = {
    "len": len,
    "used": lambda code: int.from_bytes(code[2:], "little"),
    "spelled": lambda code: code.hex(" ").split(),
    "letters": lambda code: code.decode(),
    "hexadecimal": lambda number: f"{number:x}",
    "line": lambda number: f"{number:06x}",
    "load": lambda count: f"LD{count}",
    "power": lambda number: [2, number.bit_length() - 1] if number & (number - 1) == 0 else number,
}


class Numbers:
    """The numbers of the code by their names, and what each number of a table is of them."""

    def __init__(self, source_of):
        self.source_of, self.names, self.bound, self.faults = source_of, dict(WORDS), {}, []
        for name, lines in sections():
            if name == "quotes":
                self.read_quotes(lines)
            else:
                document, _, heading = name.partition(": ")
                self.bound.setdefault(document, []).append((heading, lines))

    def read_quotes(self, lines):
        for line in lines:
            name, crate, code = line.split(None, 2)
            self.names[name] = quoted(self.source_of(crate), code)
            if self.names[name] is None:
                self.faults.append(f"{crate} has no number, or more than one, in place of # in: {code}")

    def of(self, line):
        """The numbers that a row has to have."""
        found = []
        for expression in line.split("; ") if line != "-" else ():
            number = eval(expression, {"__builtins__": {}}, self.names)
            found += [value(it) if isinstance(it, str) else it for it in (number if isinstance(number, list) else [number])]
        return found

    def row_faults(self, row, line):
        """What is wrong with the numbers of a row. The cell of code isn't among its cells."""
        found = [value(it) for cell in row for it in NUMBER.findall(cell)]
        wanted = self.of(line)
        if len(found) != len(wanted):
            yield f"{len(found)} numbers stand here, and {BOUND} says of {len(wanted)} what they are: {line}"
        yield from (f"{one} stands here, and it is {other} by the code" for one, other in zip(found, wanted) if one != other)

    def table_faults(self, document, text):
        """What is wrong with the tables of a document."""
        found, bound = tables(text), self.bound[document]
        if [(heading, len(rows)) for heading, _, rows in found] != [(heading, len(lines)) for heading, lines in bound]:
            yield 1, f"{document} has other tables, or other counts of rows, than {BOUND}"
        for (_, has_code, rows), (_, lines) in zip(found, bound):
            for (number, row), line in zip(rows, lines):
                yield from ((number, it) for it in self.row_faults(row[:-1] if has_code else row, line))
                if has_code:
                    yield from ((number, it) for it in self.code_faults(row[-1]))

    def code_faults(self, cell):
        """What is wrong with a cell that quotes code."""
        quotes = QUOTED.match(cell)
        if cell != "-" and not quotes:
            yield f"`{cell}` quotes no code of a crate"
        elif quotes and quotes[1] not in self.source_of(quotes[2]):
            yield f"{quotes[2]} has no such code: {quotes[1]}"

    def dump_faults(self, text):
        """What is wrong with the dump of a document, if it has one."""
        found = [(number, line) for number, line in enumerate(text.splitlines(), 1) if DUMPED.match(line)]
        if not found:
            return
        wanted = self.names["disk"].dump()
        for (number, line), other in zip(found, wanted):
            if line != other:
                yield number, f"the disk has {other}"
        if len(found) != len(wanted):
            yield found[-1][0], f"{len(found)} lines stand here, and the disk has {len(wanted)}"

    def of_document(self, document, text):
        """Each fault of a document, with its line."""
        if self.faults:
            return [(1, it) for it in self.faults]
        if re.search(DUMPED.pattern, text, re.M):
            trees = self.source_of("treefs_format")
            self.names |= {"node_template": array_of(trees, "NODE"), "inode_template": array_of(trees, "INODE"), "tree_mark": b"XNTREE1\0"}
            self.names["disk"] = SmallDisk(self.names, self.source_of("ffs_format"), text)
        return [*self.table_faults(document, text), *self.dump_faults(text)]


def with_other_numbers(text, chance):
    """The text with each number of its tables and of its dump changed, one at a time, with the line that has it and what stands there then."""
    lines = text.splitlines()
    for at, line in enumerate(lines):
        if not line.startswith("|") and not DUMPED.match(line):
            continue
        for found in re.finditer("[0-9]+", line):
            other = found[0]
            while int(other) == int(found[0]):
                other = "".join(chance.choice("0123456789") for _ in found[0])
            changed = f"{line[:found.start()]}{other}{line[found.end():]}"
            yield at + 1, changed, "\n".join([*lines[:at], changed, *lines[at + 1 :]])


def tried(numbers, document, text, seed):
    """How many numbers of a document were changed, and the changes of which no fault of their line was told."""
    count, missed = 0, []
    for line, changed, other in with_other_numbers(text, random.Random(seed)):
        count += 1
        if line not in (number for number, _ in numbers.of_document(document, other)):
            missed.append((line, changed))
    return count, missed
