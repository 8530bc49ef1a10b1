"""What `tools/program` does: finds out which program is current, builds one where none is, and runs it.

A program is current where the record beside it has the sum of all that it is made from as that is now (names and bytes, no times), the kit's name, and
the sum of the program itself. The record of a program of the code alone has the sum of the text that was copied to be built.

    crates/NAME/out/NAME              the proved program, which `tools/build NAME` makes
    crates/NAME/out/NAME-code-alone   the program of the code alone

Where the checkout can't be written to, the latter goes below ${XDG_CACHE_HOME:-$HOME/.cache}/kandrefosy/SUM, without both below the temporary folder.
The status is the program's, or 125 where there is none.
"""

import sys

if sys.version_info < (3, 9):
    print("tools/program: python3 3.9 is needed, and this is " + sys.version.split()[0], file=sys.stderr)
    sys.exit(125)

import contextlib
import fcntl
import hashlib
import os
import re
import signal
import stat

from made_from import NOT_MADE, TOP, NotMade, kit_id, kit_of, sum_of

# What each kind of program is made from: folders of its crates, and tools of this folder.
PROVED = (("src", "specs", "proofs"), ("build", "program.py", "made_from.py"))
ALONE = (("src",), ("program", "program.py", "code_alone.py", "made_from.py"))
ENDING = (signal.SIGHUP, signal.SIGINT, signal.SIGTERM)


class Ended(BaseException):
    """A signal asks this process to end."""


def tell(name, text):
    print(f"{name}: {text}", file=sys.stderr, flush=True)


def sum_of_file(path):
    """The sum of a file's bytes, or nothing where it can't be read."""
    try:
        with open(path, "rb") as file:
            return hashlib.sha256(file.read()).hexdigest()
    except OSError:
        return None


def kit_name():
    """The name of the kit that is on the path, or nothing where there is none."""
    try:
        return kit_id(kit_of())
    except NotMade:
        return None


def record_of(program):
    """What the record beside a program says of it: a sum of what it was made from, the kit's name, and a sum of the program."""
    try:
        with open(f"{program}.sum", encoding="utf-8") as file:
            lines = file.read().splitlines()
    except OSError:
        return None
    return lines if len(lines) == 3 else None


def is_current(program, name, made_from):
    """Whether a program can be run and is what its record says, which is what there is now. Without a kit its name is not asked for."""
    record = record_of(program)
    if record is None or not os.access(program, os.X_OK):
        return False
    kit = kit_name()
    return kit in (None, record[1]) and record[2] == sum_of_file(program) and record[0] == sum_of(TOP, name, *made_from)


def write_record(program, made_from, kit):
    """Writes the record of a program that stands."""
    with open(f"{program}.sum.new", "w", encoding="utf-8") as file:
        file.write(f"{made_from}\n{kit}\n{sum_of_file(program)}\n")
    os.replace(f"{program}.sum.new", f"{program}.sum")


def own_folder(path):
    """Makes a folder for this user alone, or finds out that it is one."""
    os.makedirs(os.path.dirname(path), exist_ok=True)
    with contextlib.suppress(FileExistsError):
        os.mkdir(path, 0o700)
    found = os.lstat(path)
    if not stat.S_ISDIR(found.st_mode) or found.st_uid != os.geteuid() or found.st_mode & 0o022:
        raise NotMade(f"{path} is no folder of this user's alone")


def temporary():
    """The folder for temporary files."""
    return os.path.abspath(os.environ.get("TMPDIR") or "/tmp")


def cache():
    """Where programs go that can't go into the checkout."""
    if home := os.environ.get("XDG_CACHE_HOME"):
        return os.path.join(home, "kandrefosy")
    if home := os.environ.get("HOME"):
        return os.path.join(home, ".cache", "kandrefosy")
    return os.path.join(temporary(), f"kandrefosy-{os.geteuid()}")


def place_for(name):
    """The folder in which a program of the code alone is built."""
    out = os.path.join(TOP, "crates", name, "out")
    try:
        os.makedirs(out, exist_ok=True)
        if os.access(out, os.W_OK | os.X_OK):
            return out
    except OSError:
        pass
    folder = os.path.join(cache(), sum_of(TOP, name, *ALONE))
    try:
        own_folder(cache())
        own_folder(folder)
    except OSError as error:
        raise NotMade(f"no program can be written to {out} or {folder}: {error.strerror}") from error
    return folder


def places(name):
    """The folders in which a program of the code alone may stand."""
    yield os.path.join(TOP, "crates", name, "out")
    folder = os.path.join(cache(), sum_of(TOP, name, *ALONE))
    with contextlib.suppress(OSError, NotMade):
        if os.path.isdir(folder):
            own_folder(folder)
            yield folder


def proved_of(name):
    return os.path.join(TOP, "crates", name, "out", name)


def found_program(name):
    """The current program of this name and its kind, or nothing."""
    if is_current(proved_of(name), name, PROVED):
        return "proved", proved_of(name)
    for folder in places(name):
        program = os.path.join(folder, f"{name}-code-alone")
        if is_current(program, name, ALONE):
            return "code alone", program
    return None


def remove_folder(path):
    import shutil

    shutil.rmtree(path, ignore_errors=True)


def remove_room(path):
    """Removes the temporary folder of a build that was killed."""
    if os.path.basename(path).startswith("kandrefosy-build-"):
        with contextlib.suppress(OSError):
            if os.lstat(path).st_uid == os.geteuid():
                remove_folder(path)


@contextlib.contextmanager
def held(path, name):
    """Holds the one lock of a program. The file has the path of the temporary folder of the build that holds it."""
    with open(path, "a+", encoding="utf-8") as lock:
        with contextlib.suppress(OSError):
            try:
                fcntl.flock(lock, fcntl.LOCK_EX | fcntl.LOCK_NB)
            except BlockingIOError:
                tell(name, "waits for another start, which builds the program")
                fcntl.flock(lock, fcntl.LOCK_EX)
        lock.seek(0)
        remove_room(lock.read().strip())
        yield lock


@contextlib.contextmanager
def room_for(lock):
    """A temporary folder, whose path stands in the file of the lock as long as it is there."""
    import code_alone

    path = os.path.join(temporary(), f"kandrefosy-build-{os.urandom(8).hex()}")
    lock.truncate(0)
    lock.write(path)
    lock.flush()
    try:
        os.mkdir(path, 0o700)
        yield path
    finally:
        with code_alone.undisturbed():
            remove_folder(path)
            lock.truncate(0)


def told_kit():
    """The kit that README names."""
    with contextlib.suppress(OSError):
        with open(os.path.join(TOP, "README.md"), encoding="utf-8") as file:
            if found := re.search(r"rattle-kit-\S+ logic [0-9a-f]+", file.read()):
                return found[0]
    return None


def build_alone(name):
    """Builds the program of its code alone, where no other start has meanwhile, and answers where it stands."""
    import code_alone

    kit = kit_of()
    code_alone.look_first(kit, TOP, name, temporary())
    known = kit_id(kit)
    folder = place_for(name)
    program = os.path.join(folder, f"{name}-code-alone")
    with held(os.path.join(folder, f"{name}.lock"), name) as lock:
        sum_of.cache_clear()
        if found := found_program(name):
            return found
        if record_of(proved_of(name)):
            tell(name, "what the proved program was made from has changed since")
        if told_kit() not in (None, known):
            tell(name, f"the kit is {known}, and README names {told_kit()}")
        tell(name, f"is built of its code alone, without any proof, in a minute or two; `tools/build {name}` proves it and makes the proved program")
        with room_for(lock) as room:
            # The sum is that of the copy, so what changes in the checkout meanwhile is not taken for what was built.
            tree = code_alone.copy_text(TOP, os.path.join(room, "tree"))
            made_from = sum_of(tree, name, *ALONE)
            beside = f"{program}.new"
            try:
                code_alone.build(kit, tree, name, beside, room)
                code_alone.play(tree, name, beside, room)
                with contextlib.suppress(FileNotFoundError):
                    os.remove(f"{program}.sum")
                os.replace(beside, program)
                write_record(program, made_from, known)
            finally:
                with code_alone.undisturbed(), contextlib.suppress(FileNotFoundError):
                    os.remove(beside)
    return "code alone", program


def end(number, _frame):
    for it in ENDING:
        signal.signal(it, signal.SIG_IGN)
    raise Ended(number)


def program_of(name):
    """The kind and the path of the program that is to run, which is built where none is current."""
    if found := found_program(name):
        return found
    before = {it: signal.getsignal(it) for it in ENDING}
    for it in ENDING:
        if before[it] != signal.SIG_IGN:
            signal.signal(it, end)
    found = build_alone(name)
    for it in ENDING:
        signal.signal(it, before[it])
    return found


def execute(program, words, ignored):
    """Runs the program in place of this process, with the signals ignored that the caller ignores; Python itself ignores these two."""
    for number in (signal.SIGPIPE, signal.SIGXFSZ):
        signal.signal(number, signal.SIG_IGN if ignored >> (number - 1) & 1 else signal.SIG_DFL)
    os.execv(program, [program, *words])


def main():
    ignored, words = int(sys.argv[1], 16), sys.argv[2:]
    only_asks = words[:1] == ["--which"]
    if not words[only_asks:]:
        print("usage: tools/program [--which] NAME [WORD..]", file=sys.stderr)
        return NOT_MADE
    name = words[only_asks]
    try:
        kind, program = program_of(name)
    except NotMade as error:
        tell(name, error)
        return NOT_MADE
    except OSError as error:
        tell(name, f"{error.filename or 'the system'}: {error.strerror}")
        return NOT_MADE
    except Ended as ended:
        number = ended.args[0]
        signal.signal(number, signal.SIG_DFL)
        os.kill(os.getpid(), number)
        return 128 + number
    if only_asks:
        print(f"{kind} {program}")
        return 0
    if kind != "proved" and sys.stderr.isatty():
        tell(name, f"built of its code alone; `tools/build {name}` makes the proved program")
    execute(program, words[1:], ignored)
    return NOT_MADE


if __name__ == "__main__":
    sys.exit(main())
