#!/usr/bin/env python3
"""A second implementation of the store, written from its rules alone and with no eye on speed.

    bench/reference_store.py BLOCKS [--ffs] [TEMPLATE].. < SCRIPT     runs a script on a fresh disk, and prints the replies
    bench/reference_store.py --transcript FILE..                      plays transcripts, and compares what they print
    bench/reference_store.py --answers FILE                           prints a transcript with the answers of this program

A TEMPLATE is a file of 512 bytes. Transcripts are those of crates/transcripts/data. Of a transcript are passed over: commands that print on
standard error, since those faults are of files, texts and words and not of the store; commands that this program doesn't know; and those whose
files such a command may have changed.
"""

import shlex
import sys
from collections import namedtuple
from difflib import unified_diff

from reference import Fault as ProgramFault
from reference import Verifier, assemble, encode
from reference_images import BUILT_IN, TEMPLATES, Fault, check, number_at, owned, read_template, size

REFUSALS = {
    2: "NoSuchBlock", 3: "NotInUse", 4: "NotYours", 5: "BadPatch", 6: "BadAfter", 7: "NotFresh", 8: "NotOwned", 9: "NotEmpty",
    10: "ClaimWrong", 11: "SizeWrong", 13: "TooManyPending", 14: "NoSpace", 15: "BadType", 16: "InFlight", 17: "NotMine",
    19: "RootTaken", 20: "NothingSafe", 22: "Cycle", 23: "NotSynced", 24: "NoSlot", 25: "BadTemplate",
}  # fmt: skip


class Refused(Exception):
    """A refusal, as it is printed."""


class Stopped(Exception):
    """A block write would come that may not come any more."""


class Unknown(Exception):
    """A command, or a file, of which this program doesn't know what it does, or holds."""


def refuse(applies, number):
    if applies:
        raise Refused(f"refused {number} {REFUSALS[number]}")


# The whole bytes that an accepted edit leaves, with its number, its claims, and the file system for which it counts.
State = namedtuple("State", "bytes entry adds drops after fs", defaults=(0, (), (), None, None))
Edit = namedtuple("Edit", "patches adds drops after")


class Life:
    """What a block has been since it was last free: all its states, which of them is the last one that is known to be on the disk,
    and which is being written. The status is a word, with the owner that names the block, or has dropped it."""

    def __init__(self, fs, ty, status, state, durable):
        self.fs, self.ty, self.status = fs, ty, status
        self.states, self.durable, self.begun = [state], durable, None

    def pending(self):
        return self.states if self.durable is None else self.states[self.durable + 1 :]

    def newest(self):
        return self.states[-1].bytes


FRESH = ("fresh", None)


def entry_of(catalogue, ty):
    """The block that a catalogue names as a type's template, and 0 where it names none."""
    return number_at(catalogue, 8 + 4 * (ty - 3))


def types_of(catalogue, block_at):
    """The built-in types, and those whose templates a catalogue names."""
    named = {ty: entry_of(catalogue, ty) for ty in range(3, 19)}
    return BUILT_IN | {ty: read_template(block_at(c)) for ty, c in named.items() if c}


class Store:
    def __init__(self, image, writes=None):
        """From the bytes of a sound image. So many block writes may come; None: any number."""
        self.image = [image[at : at + 512] for at in range(0, len(image), 512)]
        self.writes = writes
        self.mount()

    def mount(self):
        """Every block is synced, and then read."""
        self.settled, self.given = list(self.image), [None] * len(self.image)
        reached, free = check(b"".join(self.image))
        self.types = types_of(self.image[0], self.image.__getitem__)
        self.lives, self.next = [None] * len(self.image), 1
        roots = {number_at(self.image[0], 72 + 8 * fs): fs for fs in range(32)}
        self.lives[0] = Life(None, 0, FRESH, State(self.image[0]), 0)
        for b, ty in reached:
            for c, t in owned(self.types[ty], self.image[b]):
                fs = roots.get(c) if b == 0 else self.lives[b].fs
                self.lives[c] = Life(fs, t, ("owned", b), State(self.image[c]), 0)
        return f"mounted {len(reached)} {len(free)}"

    # What is known of blocks.

    def living(self):
        return [(b, life) for b, life in enumerate(self.lives) if life]

    def own(self, fs, b):
        """The life of a file system's own block."""
        refuse(b >= len(self.lives), 2)
        life = self.lives[b]
        refuse(life is None or life.status[0] == "dropped", 3)
        refuse(life.fs != fs, 4)
        return life

    def life(self, b):
        return self.lives[b] if b < len(self.lives) else None

    def owned(self, b):
        return owned(self.types[self.lives[b].ty], self.lives[b].newest())

    def is_fresh(self, fs, b, ty):
        life = self.life(b)
        return life is not None and (life.fs, life.ty, life.status) == (fs, ty, FRESH)

    def is_owned(self, owner, b):
        life = self.life(b)
        return life is not None and life.status == ("owned", owner)

    def root_of(self, fs):
        return number_at(self.lives[0].newest(), 72 + 8 * fs)

    def chain_end(self, b):
        while self.lives[b].status[0] == "owned":
            b = self.lives[b].status[1]
        return b

    def numbers(self, fs):
        """The pending entries of a file system."""
        return [state.entry for _, life in self.living() for state in life.pending() if state.fs == fs]

    def refuse_more(self, fs, pending):
        refuse(len(pending) >= 64 or len(self.numbers(fs)) >= 4096, 13)

    # What may be written.

    def has_type(self, ty, earlier):
        """Whether a type is built in, or named by block 0 on the disk or by one of these states of it."""
        root = self.lives[0]
        return ty in BUILT_IN or any(entry_of(state.bytes, ty) for state in [root.states[root.durable], *earlier])

    def is_safe(self, b, state, earlier):
        waits = {other.entry for _, life in self.living() for other in life.pending()} - {other.entry for other in earlier}
        is_added = all(self.lives[c].durable is not None for c, _ in state.adds)
        is_typed = all(self.has_type(ty, earlier if b == 0 else []) for _, ty in state.adds)
        return is_added and is_typed and not any(self.lives[c].pending() for c in state.drops) and state.after not in waits

    def prefix(self, b):
        """How many pending entries are safe, from the first one on."""
        pending = self.lives[b].pending()
        for k, state in enumerate(pending):
            if not self.is_safe(b, state, pending[:k]):
                return k
        return len(pending)

    def least_writable(self):
        for b, life in self.living():
            if life.begun is None and self.prefix(b):
                return b
        return None

    # Client calls.

    def accept(self, b, state):
        self.lives[b].states.append(state)
        self.next += 1
        for c in state.drops:
            self.lives[c].status = ("dropped", b)
        for c, _ in state.adds:
            self.lives[c].status = ("owned", b)
        return f"edit {state.entry}"

    def init(self, fs, ty, content):
        content = content.ljust(512, b"\0")
        refuse(ty in (0, 1) or ty not in self.types, 15)
        self.refuse_more(fs, [])
        refuse(any(content[size(self.types[ty], content) :]), 11)
        refuse(owned(self.types[ty], content), 10)
        refuse(None not in self.lives, 14)
        b = self.lives.index(None)
        self.lives[b] = Life(fs, ty, FRESH, State(content, self.next, fs=fs), None)
        self.next += 1
        return f"block {b} edit {self.next - 1}"

    def edit(self, fs, b, edit):
        life = self.own(fs, b)
        added, dropped = [c for c, _ in edit.adds], edit.drops
        self.refuse_more(fs, life.pending())
        refuse(len(edit.patches) > 8 or len(added) > 16 or len(dropped) > 128, 5)
        refuse(sum(len(given) for _, given in edit.patches) > 512, 5)
        refuse(any(offset + len(given) > 512 for offset, given in edit.patches), 5)
        refuse(edit.after is not None and not 0 < edit.after < self.next, 6)
        refuse(any(not self.is_fresh(fs, c, t) for c, t in edit.adds) or len(set(added)) < len(added), 7)
        refuse(b in added or self.chain_end(b) in added, 22)
        refuse(any(not self.is_owned(b, c) for c in dropped) or len(set(dropped)) < len(dropped), 8)
        refuse(any(self.owned(c) for c in dropped), 9)
        new = bytearray(life.newest())
        for offset, given in edit.patches:
            new[offset : offset + len(given)] = given
        pairs = owned(self.types[life.ty], new)
        wanted = {pair for pair in self.owned(b) if pair[0] not in dropped} | set(edit.adds)
        refuse(set(pairs) != wanted or len({c for c, _ in pairs}) < len(pairs), 10)
        refuse(any(new[size(self.types[life.ty], new) :]), 11)
        return self.accept(b, State(bytes(new), self.next, edit.adds, edit.drops, edit.after, fs))

    def set_root(self, fs, pair, adds, drops):
        new, at = self.lives[0].newest(), 72 + 8 * fs
        new = new[:at] + b"".join(number.to_bytes(4, "little") for number in pair) + new[at + 8 :]
        return self.accept(0, State(new, self.next, adds, drops, None, fs))

    def root(self, fs, b):
        life = self.own(fs, b)
        refuse(self.root_of(fs), 19)
        refuse(life.status != FRESH, 7)
        self.refuse_more(fs, self.lives[0].pending())
        return self.set_root(fs, (b, life.ty), ((b, life.ty),), ())

    def unroot(self, fs):
        b = self.root_of(fs)
        refuse(b == 0, 8)
        refuse(self.owned(b), 9)
        self.refuse_more(fs, self.lives[0].pending())
        return self.set_root(fs, (0, 0), (), (b,))

    def forget(self, fs, b):
        life = self.own(fs, b)
        refuse(life.status != FRESH, 7)
        refuse(self.owned(b), 9)
        refuse(life.pending() not in ([], life.states[:1]), 13)
        refuse(life.begun is not None, 16)
        self.lives[b] = None
        return "ok"

    def read(self, fs, b):
        return self.own(fs, b).newest().rstrip(b"\0").hex() or "-"

    def floor(self, fs):
        return f"floor {min(self.numbers(fs), default=self.next)}"

    def pending(self, fs):
        return f"pending {len(self.numbers(fs))}"

    # A type's template, which counts for no file system.

    def install(self, content):
        root = self.lives[0]
        ty = next((ty for ty in range(3, 19) if not entry_of(root.newest(), ty)), None)
        refuse(ty is None, 24)
        refuse(len(root.pending()) >= 64, 13)
        refuse(None not in self.lives, 14)
        content = content.ljust(512, b"\0")
        refuse(read_template(content) is None, 25)
        b, first = self.lives.index(None), self.next
        self.lives[b] = Life(None, 1, FRESH, State(content, first), None)
        self.next += 1
        new, at = root.newest(), 8 + 4 * (ty - 3)
        new = new[:at] + b.to_bytes(4, "little") + new[at + 4 :]
        self.accept(0, State(new, self.next, ((b, 1),)))
        self.types = types_of(new, lambda c: self.lives[c].newest())
        return f"type {ty} block {b} edits {first} {first + 1}"

    # Writes. Of each block the device has the newest bytes (the image), which a read gives, and the settled ones, which its last good sync
    # found. A write is open from the moment it is given to the device until a good sync; till then the bytes given are kept beside them.

    def pick(self):
        b = self.least_writable()
        return f"pick {'none' if b is None else b}"

    def begin(self, b):
        refuse(b >= len(self.lives), 2)
        life = self.lives[b]
        refuse(life is None, 3)
        refuse(life.begun is not None, 16)
        count = self.prefix(b)
        refuse(count == 0, 20)
        life.begun = len(life.states) - len(life.pending()) + count - 1
        return f"begun {count}"

    def ticket(self, b):
        """The life of a block of which a write was begun."""
        life = self.life(b)
        return None if life is None or life.begun is None else life

    def write(self, b, stays):
        """A block write of what was begun, if anything was, after which the new bytes or the old ones are read."""
        life = self.ticket(b)
        if life is None:
            return False
        if self.writes == 0:
            raise Stopped
        if self.writes is not None:
            self.writes -= 1
        self.given[b] = life.states[life.begun].bytes
        if stays:
            self.image[b] = self.given[b]
        return True

    def land(self, b):
        return "landed" if self.write(b, True) else "no ticket"

    def fail(self, b, what):
        return "fault" if self.write(b, what == "new") else "no ticket"

    def sync(self, b):
        if self.ticket(b) is None:
            return "no ticket"
        self.settled[b], self.given[b] = self.image[b], None
        return "synced"

    def failsync(self, b):
        return "no ticket" if self.ticket(b) is None else "fault"

    def finish(self, b):
        life = self.ticket(b)
        if life is None:
            return "no ticket"
        refuse(self.given[b] is not None, 23)
        if self.image[b] != life.states[life.begun].bytes:
            refuse(life.durable is not None and self.image[b] != life.states[life.durable].bytes, 17)
            life.begun = None
            return "durable 0 freed 0"
        first = 0 if life.durable is None else life.durable + 1
        settled = life.states[first : life.begun + 1]
        life.durable, life.begun = life.begun, None
        freed = [c for state in settled for c in state.drops]
        for c in freed:
            self.lives[c] = None
        return f"durable {len(settled)} freed {len(freed)}"

    def drain(self):
        refuse(any(life.begun is not None for _, life in self.living()), 16)
        writes = 0
        while (b := self.least_writable()) is not None:
            self.begin(b)
            self.land(b)
            self.sync(b)
            self.finish(b)
            writes += 1
        assert not any(life.pending() for _, life in self.living())
        return f"writes {writes}"

    def lose(self, kept):
        """The open writes of these blocks are on the disk, where they have one, and no others."""
        for b, given in enumerate(self.given):
            self.image[b] = self.settled[b] if given is None or b not in kept else given
        self.settled, self.given = list(self.image), [None] * len(self.image)

    def crash(self, *kept):
        self.lose(kept)
        return self.mount()


# Scripts.


def command_of(line):
    """The name of a command, and what it is given."""
    name, *words = line.split(" ")
    if name == "init":
        return name, [int(words[0]), int(words[1]), bytes.fromhex(words[2].strip("-"))]
    if name == "install":
        return name, [bytes.fromhex(words[0])]
    if name == "edit":
        patches = [word.split("=") for word in words if "=" in word]
        edit = Edit(
            [(int(offset), bytes.fromhex(given)) for offset, given in patches],
            [tuple(map(int, word[1:].split(":"))) for word in words if word[0] == "+"],
            [int(word[1:]) for word in words if word[0] == "-"],
            int(words[2][1:]) if words[2][0] == "@" else None,
        )
        return name, [int(words[0]), int(words[1]), edit]
    if name == "fail":
        return name, [int(words[0]), words[1]]
    return name, [int(word) for word in words]


def run(store, text):
    """The replies to a script's commands."""
    replies = []
    for line in text.decode().splitlines():
        if line and line[0] != "#":
            name, given = command_of(line)
            try:
                replies.append(getattr(store, name)(*given))
            except Refused as refused:
                replies.append(str(refused))
            except Stopped:
                return replies + ["stopped"]
    return replies


def formatted(blocks, templates):
    pointers = b"".join((i + 1).to_bytes(4, "little") for i in range(len(templates)))
    catalogue = b"XN97" + blocks.to_bytes(4, "little") + pointers
    return (catalogue.ljust(512, b"\0") + b"".join(templates)).ljust(512 * blocks, b"\0")


# Transcripts.


def patched(old, lines):
    """The bytes with others written over them: each line is an offset in base 16, and what stands there."""
    new = bytearray(old)
    for line in lines:
        at, given = line.split(": ")
        place = slice(int(at, 16), int(at, 16) + len(given) // 2)
        new[place] = bytes.fromhex(given)
    return bytes(new)


class Files(dict):
    """The bytes of files by their names."""

    def __missing__(self, name):
        raise Unknown

    def templates(self, words):
        found = list(TEMPLATES) if words[:1] == ["--ffs"] else []
        found += [self[name] for name in words if name != "--ffs"]
        if len(found) > 16 or any(len(template) != 512 or read_template(template) is None for template in found):
            raise Unknown
        return found

    def template_of(self, names):
        programs = [assemble(self[name].decode()) for name in names]
        for words, role in zip(programs, ("owns", "size")):
            Verifier(words, role).verdict()
        counts = [len(words) for words in programs]
        if sum(counts) > 127:
            raise Unknown
        block = b"XT" + bytes(counts) + b"".join(map(encode, programs))
        return block.ljust(512, b"\0"), f"template owns {counts[0]} size {counts[1]}"

    def play(self, words, given):
        """What a command prints."""
        match words:
            case ["cat", ">", name]:
                self[name] = given
            case ["printf", text, ">", name]:
                self[name] = text.encode().decode("unicode_escape").encode("latin-1")
            case ["cp", name, other]:
                self[other] = self[name]
            case ["cmp", name, other]:
                return [] if self[name] == self[other] else ["they differ"]
            case ["xxd", "-r", "-", name]:
                self[name] = patched(self[name], given.decode().splitlines())
            case ["xxd", "-p", "-s", start, "-l", length, name]:
                part = self[name][int(start) :][: int(length)]
                return [part[at : at + 30].hex() for at in range(0, len(part), 30)]
            case ["xnsim", "format", name, blocks, *templates]:
                found = self.templates(templates)
                self[name] = formatted(int(blocks), found)
                return [f"blocks {blocks} templates {len(found)}"]
            case ["xnsim", "asm", owns, sizes, name]:
                self[name], line = self.template_of([owns, sizes])
                return [line]
            case ["xnsim", "check", name]:
                reached, free = check(self[name])
                return [f"reached {len(reached)} free {len(free)}"]
            case ["xnsim", "run", name, script, *stop]:
                store = Store(self[name], int(stop[1]) if stop else None)
                replies = run(store, self[script])
                is_lost = stop[2:] == ["--lose"] and replies[-1:] == ["stopped"]
                self[name] = b"".join(store.settled if is_lost else store.image)
                return replies
            case ["xnsim"]:
                return run(Store(formatted(32, [])), given)
            case ["xnsim", "<", name]:
                return run(Store(formatted(32, [])), self[name])
            case _:
                raise Unknown
        return []

    def answer(self, words, given):
        """What a command prints; None where that isn't known."""
        try:
            return self.play(words, given)
        except Fault as fault:
            return [f"fault {fault}", "status 1"]
        except (Unknown, ProgramFault, UnicodeDecodeError):
            for word in words:
                self.pop(word, None)
            return None


def steps_of(lines):
    """Each command with the bytes that it is given, and the places of the lines that it prints."""
    at = 0
    while at < len(lines):
        command, given, at = lines[at][2:] if lines[at].startswith("$ ") else None, b"", at + 1
        if command is None:
            continue
        if " <<" in command:
            command, end = command.rsplit(" <<", 1)
            last = lines.index(end, at)
            given = "".join(line + "\n" for line in lines[at:last]).encode()
            at = last + 1
        first = at
        while at < len(lines) and lines[at] and not lines[at].startswith(("#", "$ ")):
            at += 1
        yield command, given, first, at


def transcript(name):
    """A transcript's lines, the same with this program's answers, and how many of them are answers that it knows."""
    with open(name) as file:
        lines = file.read().split("\n")
    files, answered, copied, known = Files(), [], 0, 0
    for command, given, first, end in steps_of(lines):
        if any(line.startswith("2> ") for line in lines[first:end]):
            continue
        came = files.answer(shlex.split(command), given)
        if came is not None:
            answered += lines[copied:first] + came
            copied, known = end, known + end - first
    return lines, answered + lines[copied:], known


def compare(names):
    """Says where transcripts have other answers; how many answers were compared."""
    compared, others = 0, []
    for name in names:
        lines, answered, known = transcript(name)
        compared += known
        others += unified_diff(lines, answered, name, "this program", lineterm="")
    print("\n".join(others or [f"{len(names)} transcripts, {compared} lines compared, all as written"]))
    return 1 if others else 0


def main():
    words = sys.argv[1:]
    if words[0] == "--transcript":
        sys.exit(compare(words[1:]))
    if words[0] == "--answers":
        print("\n".join(transcript(words[1])[1]), end="")
        return
    files = Files()
    for name in words[1:]:
        if name != "--ffs":
            with open(name, "rb") as file:
                files[name] = file.read()
    store = Store(formatted(int(words[0]), files.templates(words[1:])))
    print("\n".join(run(store, sys.stdin.buffer.read())))


if __name__ == "__main__":
    main()
