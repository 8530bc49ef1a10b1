"""Runs `xnsim` with its N-th request for memory refused, for N from 1 until a run meets no refusal.

Takes the scripts of the worked examples, and a line of each other kind. Each reply has to be the right one, `refused 1 NoMemory` of a command that
takes memory, or `down` behind a crash; a command so answered has done nothing. Or the run ends with status 1, a named answer, and the image as
it was or as it is to be. Each command that a refusal met is then given a second time behind it, and the replies have to be the row's.

Then it runs the program `fault_runs` in the same way, with the word `memory`: it makes calls again that find no memory, and prints the same each
time, but for how many values there was no memory at once: none in a run that meets no refusal, and one at most in another.
Then it refuses every request of that program from the first one on that comes behind its line on calls that take no memory: none may come, and
these calls have to do what they should.

Then it runs the program `random_calls` on its disk whose groups of places come and go, with each request refused in turn: no answer may be another than
what scans of a plain record say, in which a call that found no memory has done nothing; or the program itself ends for want of memory.

Last it makes each call of the trial `pairs` by `treefs_runs --tell` with each of its requests refused in turn. It answers as it does without, or that there was
no memory, and then each image that a crash may leave of what it edited is as that trial has it. Or the program itself ends for want of memory.

Requests are refused by a library of a few lines in C that is loaded before the C library. So a C compiler has to be there.
"""

import itertools
import os
import re
import tempfile

from made_from import TOP
from trials import pairs
from trials.programs import built_library, demand, program, read, write
from trials.scripts import BLOCKS, CHAIN, program_runs, reference, rows
from trials.tally import Tally

# The word by which it makes only the calls that ask for memory, and how its first line behind those begins.
ALONE, BEHIND = "memory", "drains:"
# How many calls of the other program make groups of places come and go, how its last line says that all is right, and what it says where it has no memory.
GROUP_CALLS, ALL_RIGHT, NONE_LEFT = "1200", " answers, 0 wrong,", "Error: Kind(OutOfMemory)"
TOLD = "request refused"
SPARE = "calls that take no memory:"
AT_ONCE = "values for which there was no memory at once: "
LIBRARY = """
#include <stdatomic.h>
#include <stddef.h>
#include <stdlib.h>
#include <unistd.h>

void *__libc_malloc(size_t size);
void *__libc_realloc(void *old, size_t size);

static atomic_long requests;

static int is_refused(void) {
    const char *number = getenv("REFUSED"), *first = getenv("REFUSED_FROM");
    if (!number && !first) return 0;
    long request = atomic_fetch_add(&requests, 1) + 1;
    if (number ? request != atol(number) : request < atol(first)) return 0;
    return write(2, "%s\\n", %d) > 0;
}

void *malloc(size_t size) { return is_refused() ? NULL : __libc_malloc(size); }
void *realloc(void *old, size_t size) { return is_refused() ? NULL : __libc_realloc(old, size); }
""" % (TOLD, len(TOLD) + 1)
NAMED_ERRORS = re.compile(r"no memory|cannot (read|write) \w+")
NAMED_FAULTS = re.compile(r"fault 1 NoMemory|template \d+: NoMemory|((owns|size) )?(line \d+: NoMemory|refused NoMemory at \d+)")
NO_MEMORY, TREES_NO_MEMORY = "refused 1 NoMemory", "= Kernel 1 NoMemory"
TAKE_MEMORY = ("init", "edit", "root", "unroot", "install")


class Ended:
    """How a line of the program ended: whether a request was refused, its status, its lines, and those on standard error."""

    def __init__(self, words, folder, library, number, which="REFUSED", **how):
        env = {"LD_PRELOAD": library, which: str(number)}
        self.status, out, err = program_runs(words, folder, env=env, **how)
        self.out, self.err = out.splitlines(), err.splitlines()
        self.is_refused = TOLD in self.err
        self.err = [line for line in self.err if line != TOLD]

    def is_named(self):
        """Whether it ended for want of memory, and says so."""
        said, named = (self.err, NAMED_ERRORS) if self.err else (self.out[-1:], NAMED_FAULTS)
        return self.status == 1 and len(said) == 1 and bool(named.fullmatch(said[0]))


class Judge:
    """The second implementation, which goes along with the replies of a run some of whose commands had no memory."""

    def __init__(self, image):
        self.store, self.is_down = reference.Store(image), False

    def accepts(self, line, reply):
        """Whether a reply to a command is right. One for want of memory leaves all as it was."""
        name, given = reference.command_of(line)
        if name == "crash":
            self.is_down = reply == "down"
            if self.is_down:
                self.store.lose(given)
                return True
        elif self.is_down:
            return reply == "down"
        elif reply == NO_MEMORY:
            return name in TAKE_MEMORY
        return [reply] == reference.run(self.store, line.encode())

    def image(self):
        return b"".join(self.store.image)


def is_right(image, lines, ended, left):
    """Whether a run ended as it may, and left the image that it may."""
    judge = Judge(image)
    replies = ended.out[:-1] if ended.out[-1:] == ["fault 1 NoMemory"] else ended.out
    if len(replies) > len(lines) or not all(map(judge.accepts, lines, replies)):
        return False
    is_whole = len(replies) == len(lines)
    if ended.status == 0:
        return is_whole and not ended.err and left == judge.image()
    return ended.is_refused and ended.is_named() and (left == image or is_whole and left == judge.image())


class Refusals:
    """What is run with requests refused, and how many runs met a refusal, ended with it, or were wrong, and how many commands were given again."""

    def __init__(self, folder):
        self.folder, self.library = folder, built_library(folder, "refuse", LIBRARY)
        self.tally = Tally("runs", "refused a request", "ended by it", "commands given again")

    def note(self, what, ended, is_well):
        self.tally.count("runs")
        self.tally.count("refused a request", ended.is_refused)
        self.tally.count("ended by it", ended.status != 0)
        if not is_well:
            self.tally.fault(f"{what}: status {ended.status}, {ended.out[-3:]}, {ended.err}")

    def run(self, image, lines, number):
        """Runs a script with a request refused."""
        write(self.folder, "disk", image)
        write(self.folder, "script", "\n".join(lines).encode())
        ended = Ended(["run", "disk", "script"], self.folder, self.library, number)
        self.note(f"{lines}, request {number}", ended, is_right(image, lines, ended, read(self.folder, "disk")))
        return ended

    def give_again(self, image, lines, at, first):
        """Gives a command that a refusal meets a second time. The script is longer, so that it may be another request."""
        twice = lines[: at + 1] + lines[at:]
        for number in itertools.count(first):
            ended = self.run(image, twice, number)
            if not ended.is_refused:
                self.tally.fault(f"{lines[at]}: isn't met again")
                return
            if ended.out[at : at + 1] in ([NO_MEMORY], ["down"]):
                right = reference.run(reference.Store(image), "\n".join(lines).encode())
                self.tally.count("commands given again")
                if ended.out[:at] + ended.out[at + 1 :] != right:
                    self.tally.fault(f"{lines[at]}: given again, {ended.out}")
                return

    def row(self, image, script):
        """Refuses each request of a script in turn."""
        lines, met = script.decode().splitlines(), {}
        for number in itertools.count(1):
            ended = self.run(image, lines, number)
            if not ended.is_refused:
                break
            for at, reply in enumerate(ended.out):
                if reply in (NO_MEMORY, "down"):
                    met.setdefault(at, number)
                    break
        for at, number in met.items():
            self.give_again(image, lines, at, number)

    def line(self, words, files, answer, made):
        """Refuses each request of a line in turn that prints an answer, and writes a file or none."""
        for number in itertools.count(1):
            for name, data in files.items():
                write(self.folder, name, data)
            ended = Ended(words, self.folder, self.library, number)
            is_whole = (ended.status, ended.out, ended.err) == (0, [answer], [])
            name, new = made or (None, None)
            left = read(self.folder, name) if name else None
            is_well = left == new if is_whole else ended.is_named() and left in (files.get(name), new)
            self.note(f"{words}, request {number}", ended, is_well)
            if not ended.is_refused:
                return

    def calls(self):
        """Refuses each request in turn of the program that makes its calls again, and then all that come with the calls that take no memory."""
        path = program("fault_runs")
        with open(os.path.join(TOP, "crates/fault_runs/stdout"), encoding="utf-8") as file:
            right = list(itertools.takewhile(lambda line: not line.startswith(BEHIND), file.read().splitlines()))
        right_again = [AT_ONCE + "1" if line.startswith(AT_ONCE) else line for line in right]
        for number in itertools.count(1):
            ended = Ended([ALONE], self.folder, self.library, number, path=path)
            is_as_stored = ended.out == right or ended.is_refused and ended.out == right_again
            self.note(f"calls, request {number}", ended, (ended.status, ended.err) == (0, []) and is_as_stored)
            if not ended.is_refused:
                break
        self.spare_calls(path, right, number)

    def groups(self):
        """Refuses each request in turn of the program whose groups of places come and go."""
        path = program("random_calls")
        for number in itertools.count(1):
            ended = Ended([GROUP_CALLS], self.folder, self.library, number, path=path)
            is_whole = (ended.status, ended.err) == (0, []) and ALL_RIGHT in ended.out[-1]
            is_ended = ended.is_refused and (ended.status, ended.err, ended.out) == (1, [NONE_LEFT], [])
            self.note(f"groups, request {number}", ended, is_whole or is_ended)
            if not ended.is_refused:
                return

    def told(self, calls, number):
        """What calls of a file system of trees print behind those that make the volume, with a request refused; and the lines of these."""
        write(self.folder, "calls", "".join(f"{line}\n" for line in [*pairs.SETUP, *calls]).encode())
        ended = Ended(["--tell", "calls"], self.folder, self.library, number, path=pairs.TREEFS_RUNS)
        at = len(ended.out) - ended.out[::-1].index(pairs.SETUP[-1]) + 1 if pairs.SETUP[-1] in ended.out else len(ended.out)
        return ended, ended.out[:at], ended.out[at:]

    def trees(self):
        """Refuses each request in turn of each call of a file system of trees."""
        _, setup, _ = self.told([], 0)
        image, base, top = pairs.made(self.folder, setup)
        first = next(number for number in itertools.count(1) if not self.told([], 64 * number)[0].is_refused) * 64 - 64
        for call in pairs.CALLS:
            _, _, right = self.told([call], 0)
            for number in itertools.count(first):
                ended, before, lines = self.told([call], number)
                if not ended.is_refused:
                    break
                if before == setup:
                    self.note(f"{call}, request {number}", ended, self.is_call_right(ended, lines, right, (image, base, top)))

    @staticmethod
    def is_call_right(ended, lines, right, volume):
        """Whether a call that met a refusal went as it may."""
        if ended.status != 0:
            return (ended.status, ended.err) == (1, [NONE_LEFT])
        edits = [line for line in lines if line.startswith("  ")]
        return lines == right or lines[-1] == TREES_NO_MEMORY and not pairs.look_at(*volume, ("", edits))[1]

    def spare_calls(self, path, right, above):
        """Refuses every request of the program from the first one on that isn't made before its line on calls that take no memory."""

        def ended_from(first):
            return Ended([ALONE], self.folder, self.library, first, "REFUSED_FROM", path=path)

        below = 0
        while above - below > 1:
            middle = (below + above) // 2
            below, above = (below, middle) if SPARE in ended_from(middle).out else (middle, above)
        ended = ended_from(above)
        is_well = not ended.is_refused and (ended.status, ended.out, ended.err) == (0, right, [])
        self.note(f"calls that take no memory, requests from {above} on", ended, is_well)
        print(f"calls that take no memory made none of the requests behind the first {above - 1}, all of which were to be refused")


def lines():
    """Lines of the other kinds: their words, the files that they find, their answers, and the files that they make."""
    programs = {"owns": b"LD4 1 0\nIFLT 0 1\nSET 2 3\nEMIT 1 2\nEND\n", "size": b"SET 0 4\n"}
    fresh = reference.formatted(BLOCKS, reference.TEMPLATES)
    old = {"disk": b"old", "chain": b"old", "template": CHAIN}
    yield ["format", "disk", "32", "--ffs"], old, "blocks 32 templates 3", ("disk", fresh)
    yield ["format", "disk", "32", "template"], old, "blocks 32 templates 1", ("disk", reference.formatted(BLOCKS, [CHAIN]))
    yield ["asm", "owns", "size", "chain"], {**old, **programs}, "template owns 5 size 1", ("chain", CHAIN)
    yield ["verify", "owns", "owns"], programs, "accepted cost 4 emits 1", None
    yield ["check", "disk"], {"disk": fresh}, "reached 4 free 28", None


def play():
    demand(["cc"])
    with tempfile.TemporaryDirectory() as folder:
        refusals = Refusals(folder)
        for image, script in rows():
            refusals.row(image, script)
        for given in lines():
            refusals.line(*given)
        refusals.calls()
        refusals.groups()
        refusals.trees()
    return refusals.tally
