"""Runs of `xnsim` and what they come to: the images and scripts that it is given, and the second implementation of the store, which answers as it has to.

A run is an image and a script. Those of the transcripts, the worked examples among them, are found by playing these with the store's second
implementation, `bench/reference_store.py`; random ones are made beside it, so that most of their commands do something.
"""

import os
import random
import subprocess
import sys

from made_from import TOP
from trials.programs import PATIENCE, program

sys.path.insert(0, os.path.join(TOP, "bench"))
import reference_store as reference

XNSIM = program("xnsim")
DATA = os.path.join(TOP, "crates/transcripts/data")
BLOCKS = 32


def template_of(owns, size):
    """The block of a template with these programs."""
    return reference.Files(owns=owns.encode(), size=size.encode()).template_of(["owns", "size"])[0]


def pointing_to(ty, size=4):
    """A template whose blocks own at most one block of this type, which their first four bytes name."""
    return template_of(f"LD4 1 0\nIFLT 0 1\nSET 2 {ty}\nEMIT 1 2\nEND\n", f"SET 0 {size}\n")


# A type whose blocks own at most one block of that type.
CHAIN = pointing_to(3)
# Templates by the type of what their blocks own: data, and the first ones that are installed.
POINTING = {pointing_to(ty, size): ty for ty in range(2, 7) for size in (4, 8)}
# Their blocks own nothing.
LEAVES = [template_of("SET 1 1\n", f"SET 0 {size}\n") for size in (16, 512)]
NO_TEMPLATES = [bytes(512), CHAIN[:2], bytes([CHAIN[0] ^ 1]) + CHAIN[1:], CHAIN[:-1] + b"\1"]


def program_runs(words, folder, path=XNSIM, **how):
    """A program's status with these words, what it prints, and what it prints on standard error."""
    given = {"cwd": folder, "capture_output": True, "stdin": subprocess.DEVNULL, "timeout": PATIENCE, **how}
    done = subprocess.run([path, *words], check=False, **given)
    return done.returncode, done.stdout.decode(), done.stderr.decode()


def answers_of(lines):
    """What a run that found no fault comes to, where it prints these lines."""
    return 0, "".join(line + "\n" for line in lines), ""


class Recorder(reference.Files):
    """Files on which a transcript is played, and the images and scripts that were run on them."""

    def __init__(self):
        self.runs = []

    def play(self, words, given):
        match words:
            case ["xnsim", "run", image, script, *_]:
                self.record(self[image], self[script])
            case ["xnsim"]:
                self.record(reference.formatted(BLOCKS, []), given)
            case ["xnsim", "<", script]:
                self.record(reference.formatted(BLOCKS, []), self[script])
        return super().play(words, given)

    def record(self, image, script):
        """Keeps a run of a sound image."""
        reference.Store(image)
        self.runs.append((image, script))


def runs_of(transcript):
    """The runs that a transcript has, but those that print on standard error."""
    files, lines = Recorder(), transcript.split("\n")
    for command, given, first, end in reference.steps_of(lines):
        if not any(line.startswith("2> ") for line in lines[first:end]):
            files.answer(reference.shlex.split(command), given)
    return files.runs


def transcripts(begin=""):
    """The runs of the transcripts whose names begin so."""
    found = []
    for name in sorted(os.listdir(DATA)):
        if name.startswith(begin):
            with open(os.path.join(DATA, name), encoding="utf-8") as file:
                found += runs_of(file.read())
    return found


def rows():
    """The runs of the worked examples."""
    return transcripts("worked_")


class Nothing(Exception):
    """There is no block for a command."""


class Author:
    """Writes a random script of one file system of data, chains and installed types, and carries it out as it goes."""

    def __init__(self, seed, templates):
        self.random = random.Random(seed)
        self.image = reference.formatted(BLOCKS, templates)
        self.store = reference.Store(self.image)
        self.lines = []

    def blocks(self, holds):
        return [b for b, life in self.store.living() if holds(life)]

    def one(self, blocks):
        """One of these blocks, and now and then any block."""
        if self.random.random() < 0.03:
            return self.random.randrange(BLOCKS + 1)
        if not blocks:
            raise Nothing
        return self.random.choice(blocks)

    def some_bytes(self):
        return self.random.randbytes(self.random.randint(1, 6)).hex()

    def init(self):
        ty = self.random.choice([ty for ty in self.store.types if ty > 1])
        return f"init 0 {ty} {self.some_bytes() if ty == 2 else '-'}"

    def change(self):
        block = self.one(self.blocks(lambda life: life.ty == 2))
        after = f"@{self.random.randrange(1, self.store.next + 1)} " if self.random.random() < 0.3 else ""
        return f"edit 0 {block} {after}{self.random.randrange(500)}={self.some_bytes()}"

    def named_by(self, ty):
        """The type that blocks of a type name at their start, if they name any."""
        block = reference.entry_of(self.store.lives[0].newest(), ty) if ty > 2 else 0
        return POINTING.get(self.store.lives[block].newest()) if block else None

    def attach(self):
        owner = self.one(self.blocks(lambda life: self.named_by(life.ty)))
        life = self.store.lives[owner] if owner < BLOCKS else None
        ty = (self.named_by(life.ty) if life else None) or 3
        target = self.one(self.blocks(lambda life: life.ty == ty and life.status == reference.FRESH))
        return f"edit 0 {owner} 0={target.to_bytes(4, 'little').hex()} +{target}:{ty}"

    def install(self):
        template = self.random.choice([*POINTING, *LEAVES, *NO_TEMPLATES])
        return f"install {template.rstrip(bytes(1)).hex() or '00'}"

    def detach(self):
        owned = self.blocks(lambda life: life.status[0] == "owned" and life.status[1])
        target = self.one(owned)
        owner = self.store.lives[target].status[1] if target in owned else 0
        return f"edit 0 {owner} 0=00000000 -{target}"

    def of_block(self, name, holds):
        return f"{name} {self.one(self.blocks(holds))}"

    def of_fresh(self, name):
        return self.of_block(f"{name} 0", lambda life: life.status == reference.FRESH)

    def of_begun(self, name):
        return self.of_block(name, lambda life: life.begun is not None)

    def crash(self):
        return " ".join(["crash", *(str(b) for b in range(BLOCKS) if self.random.random() < 0.5)])

    def command(self):
        begin = lambda: self.of_block("begin", lambda life: life.begun is None and life.pending())
        end = lambda: self.of_begun(self.random.choice(["land", "land", "sync", "sync", "failsync", "finish", "finish"]))
        fail = lambda: self.of_begun("fail") + self.random.choice([" old", " new"])
        tell = lambda: self.random.choice(["pick", "floor 0", "pending 0", f"read 0 {self.random.randrange(BLOCKS)}", "unroot 0", "drain"])
        makers = [self.init, self.change, self.attach, self.detach, begin, end, fail, tell, self.crash]
        makers += [lambda: self.of_fresh("root"), lambda: self.of_fresh("forget"), self.install]
        return self.random.choices(makers, [4, 8, 5, 3, 9, 24, 3, 3, 1, 2, 1, 1])[0]()

    def script(self, length):
        while len(self.lines) < length:
            try:
                line = self.command()
            except Nothing:
                continue
            self.lines.append(line)
            reference.run(self.store, line.encode())
        return "\n".join(self.lines).encode() + b"\n"


def random_runs(count, length=60):
    """Random runs, the same each time; every other on a disk with a type of chains. Further types are installed meanwhile."""
    authors = [Author(seed, [CHAIN] if seed % 2 else []) for seed in range(count)]
    return [(author.image, author.script(length)) for author in authors]
