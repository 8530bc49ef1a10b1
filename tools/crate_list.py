"""Makes the lists of crates in the documents and compares them with what stands there, for `tools/documents`.

A crate is described in one place, the comment at the head of its root file: its first sentence says what the crate is, and its line `May touch: ..` what
it may touch beside its own values. Sections and order are those of crates.txt. A list stands in a document between two lines that are marks.
"""

import re
import textwrap

COLUMNS = 160
BEGIN = "<!-- The crates, as `tools/documents --write` makes them of crates.txt and of the heads of root files. -->"
END = "<!-- The end of the crates. -->"
MARKED = re.compile(f"{re.escape(BEGIN)}\n(.*?){re.escape(END)}\n", re.DOTALL)
TOUCHES = ("memory", "threads", "files", "streams", "clock", "random bytes")
PROMISES = "## What carries each crate's promise"


class Crate:
    """A crate's name, the first sentence of its head, and what the head says that it may touch."""

    def __init__(self, name, root):
        lines = re.match(r"(?://[^\n]*\n)*", root)[0].splitlines()
        head = [it.removeprefix("//").removeprefix("!").strip() for it in lines]
        touches = [it for it in head if it.startswith("May touch: ")]
        text = " ".join(it for it in head if it not in touches).strip()
        sentence = re.match(r"(.+?)\.(?: [A-Z]|  |$)", text)
        self.name = name
        self.is_one = sentence[1] if sentence else ""
        self.may_touch = touches[0].removeprefix("May touch: ").removesuffix(".") if len(touches) == 1 else ""

    def faults(self):
        """What the head lacks."""
        if not self.is_one:
            yield f"the head of {self.name} doesn't begin with a sentence"
        if self.may_touch != "nothing" and self.may_touch.split(", ") != [it for it in TOUCHES if it in self.may_touch.split(", ")]:
            yield f"the head of {self.name} has no one line `May touch: ..` with words of: {', '.join(TOUCHES)}, in this order; or nothing"

    def line(self):
        """The crate's line in the list of docs/ARCHITECTURE.md."""
        says = self.is_one[:1].lower() + self.is_one[1:]
        return wrapped(f"- `{self.name}`: {says} ({self.may_touch})", "  ")


def wrapped(text, indent):
    return textwrap.fill(text, COLUMNS, subsequent_indent=indent, break_long_words=False, break_on_hyphens=False)


def sections(crates_txt):
    """The sections of crates.txt, each with its head and the names of its crates. The first comment is about the file."""
    found = []
    for line in crates_txt.splitlines()[1:]:
        if line.startswith("# "):
            found.append((line.removeprefix("# "), []))
        elif line:
            found[-1][1].append(re.match(r"\w+", line)[0])
    return found


def names_text(parts):
    """The names of all crates, as README.md has them."""
    names = ", ".join(f"`{name}`" for _, names in parts for name in names)
    return wrapped(f"The crates, lowest first: {names}.", "") + "\n"


def sections_text(parts, crates):
    """All sections with a line for each crate, as docs/ARCHITECTURE.md has them."""
    return "".join(f"\n{head[:1].upper()}{head[1:]}:\n\n" + "".join(crates[it].line() + "\n" for it in names) for head, names in parts) + "\n"


def written(text, made):
    """A document with this list between its marks."""
    return MARKED.sub(lambda _: f"{BEGIN}\n{made}{END}\n", text)


def list_faults(text, made):
    """Where the list of a document is another one than this, with the number of the first line that is."""
    found = MARKED.search(text)
    if not found:
        yield 1, f"no list of crates stands between the lines that begin with {BEGIN.split(',')[0]} and {END}"
    elif found[1] != made:
        has, wants = (it.splitlines() + ["the end"] for it in (found[1], made))
        at = next(i for i, pair in enumerate(zip(has, wants)) if pair[0] != pair[1])
        yield text[: found.start(1)].count("\n") + at + 1, f"`tools/documents --write` makes this line of the crates: {wants[at]}"


def table_faults(text, names):
    """Which crates don't stand once in the table of promises."""
    before, head, table = text.partition(PROMISES)
    rows = re.findall(r"(?m)^\| ([^|]+) \|", table.partition("\n## ")[0])
    listed = [it for row in rows for it in re.findall(r"`(\w+)`", row)]
    for name in sorted({*names, *listed}):
        if listed.count(name) != 1 or name not in names:
            yield before.count("\n") + 1, f"{name} doesn't stand once in the table of what carries the promises, or is no crate"


class Lists:
    """The lists of a tree: `read` answers the text of a path, `names` are its crates, and `root_of` answers the path of a crate's root file."""

    def __init__(self, read, names, root_of):
        self.names = set(names)
        self.parts = sections(read("crates.txt"))
        self.order = [name for _, names in self.parts for name in names]
        self.crates = {it: Crate(it, read(root_of(it))) for it in self.order if it in self.names}
        self.is_whole = sorted(self.order) == sorted(self.names)

    def made(self):
        """Each document that has a list, with the list."""
        return {"README.md": names_text(self.parts), "docs/ARCHITECTURE.md": sections_text(self.parts, self.crates)} if self.is_whole else {}

    def faults(self, document, text):
        """What is wrong with the list of a document, and beside it, of docs/ARCHITECTURE.md, with the heads of crates and the table of promises."""
        made = self.made()
        if document in made:
            yield from list_faults(text, made[document])
        if document == "docs/ARCHITECTURE.md":
            if not self.is_whole:
                yield 1, f"crates.txt and the folder of crates differ: {', '.join(sorted({*self.order} ^ self.names)) or 'a crate stands twice'}"
            yield from ((1, it) for crate in self.crates.values() for it in crate.faults())
            yield from table_faults(text, self.names)
