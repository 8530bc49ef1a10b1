"""What a program of this repository is made from: the text of its crates, by the sum of its names and bytes, and the kit."""

import functools
import hashlib
import os

TOP = os.path.dirname(os.path.dirname(os.path.abspath(__file__)))
# The status of a tool that could not make a program. 1 and 2 are statuses of the programs.
NOT_MADE = 125
# A program is one of these, as `tools/program --which` says.
KINDS = ("proved", "code alone")


class NotMade(Exception):
    """Why a program can't be made, in one line, or as a compiler says it."""


def kit_of():
    """The folder of the kit."""
    for folder in os.get_exec_path():
        rt = os.path.join(folder, "rt")
        if os.path.isfile(rt) and os.access(rt, os.X_OK):
            return os.path.dirname(os.path.dirname(os.path.realpath(rt)))
    raise NotMade("there is no rt on the path: the toolchain Rattle is missing")


def kit_id(kit):
    """The line that names the kit."""
    try:
        with open(os.path.join(kit, "KIT-ID"), encoding="utf-8") as file:
            return file.read().strip()
    except OSError:
        return "without a name"


def crates_of(top):
    """Each crate's libraries, by its name, as crates.txt says."""
    crates = {}
    try:
        with open(os.path.join(top, "crates.txt"), encoding="utf-8") as lines:
            for line in lines:
                head, colon, tail = line.partition("#")[0].partition(":")
                if colon:
                    crates[head.split()[0]] = tail.split()
    except OSError as error:
        raise NotMade(f"crates.txt: {error.strerror}") from error
    return crates


def below(crates, name):
    """The crates of this repository that a crate stands on, lowest first, and itself."""
    if name not in crates:
        raise NotMade(f"there is no crate {name}")
    found = {}

    def take(crate):
        if crate in crates and crate not in found:
            for it in crates[crate]:
                take(it)
            found[crate] = crates[crate]

    take(name)
    return found


def files_below(folder, parts):
    """The files of these names in a folder, and those below the folders of these names, in order, without what was built."""
    found = [os.path.join(folder, part) for part in parts if os.path.isfile(os.path.join(folder, part))]
    for part in parts:
        for at, folders, names in os.walk(os.path.join(folder, part)):
            folders[:] = [it for it in folders if it != "out"]
            found += [os.path.join(at, name) for name in names]
    return sorted(found)


@functools.lru_cache(maxsize=None)
def sum_of(top, name, parts, tools):
    """A sum of the names and bytes of what a program is made from beside the kit: files below these folders of its crates, crates.txt, HANDLES, the tools."""
    total = hashlib.sha256()
    files = [os.path.join(top, "crates.txt"), os.path.join(top, "HANDLES"), *(os.path.join(TOP, "tools", it) for it in tools)]
    for crate in below(crates_of(top), name):
        files += files_below(os.path.join(top, "crates", crate), parts)
    for path in files:
        try:
            with open(path, "rb") as file:
                data = file.read()
        except FileNotFoundError:
            data = b"not there"
        known = os.path.relpath(path, TOP if path.startswith(os.path.join(TOP, "tools")) else top)
        total.update(f"{len(known)} {known} {len(data)} ".encode(errors="surrogateescape") + data)
    return total.hexdigest()


def program_to_try(name):
    """The path of the program that `tools/program` would run, whose kind is printed: for tools that try it from outside."""
    import subprocess

    asked = [os.path.join(TOP, "tools", "program"), "--which", name]
    said = subprocess.run(asked, stdin=subprocess.DEVNULL, stdout=subprocess.PIPE, text=True, check=False)
    if said.returncode:
        raise SystemExit(said.returncode)
    print(said.stdout.strip(), flush=True)
    kind = next(it for it in KINDS if said.stdout.startswith(it))
    return said.stdout.strip()[len(kind) + 1 :]
