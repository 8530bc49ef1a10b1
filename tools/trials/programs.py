"""The programs that are tried, how they are run, and what is refused to them."""

import contextlib
import functools
import os
import resource
import shutil
import signal
import subprocess
import sys

from made_from import program_to_try

# A run that takes more seconds is wrong.
PATIENCE = 60
PACKAGES = {
    "bash": "bash", "cc": "gcc", "diff": "diffutils", "git": "git", "mount": "mount", "prlimit": "util-linux", "setpriv": "util-linux", "strace": "strace",
    "tar": "tar", "timeout": "coreutils",
}


@functools.lru_cache(maxsize=None)
def program(name):
    """The path of a program, whose kind is printed: the one that the environment names, as XNFS, or the one that `tools/program` would run."""
    if path := os.environ.get(name.upper()):
        print(f"named by {name.upper()} {os.path.abspath(path)}", flush=True)
        return os.path.abspath(path)
    return program_to_try(name)


def give_up(why):
    """Ends the run before anything is tried."""
    print(f"tools/outside: {why}", file=sys.stderr)
    sys.exit(2)


def demand(tools, as_root=False):
    """Gives up where a tool of the system is missing that is needed, or root is, who can try another user and a full disk."""
    missing = sorted({PACKAGES[tool] for tool in tools if not shutil.which(tool)})
    if missing:
        give_up(f"install what is missing: apt-get install {' '.join(missing)}")
    if as_root and os.getuid() != 0:
        give_up("run this as root: another user is tried, and a full disk")


def run(path, words, folder, given=b""):
    """A program's status, and what it prints on both streams."""
    done = subprocess.run([path, *words], cwd=folder, input=given, capture_output=True, timeout=PATIENCE, check=False)
    return done.returncode, done.stdout, done.stderr


def write(folder, name, data):
    """Writes a file of a folder."""
    with open(os.path.join(folder, name), "wb") as file:
        file.write(data)


def read(folder, name):
    """The bytes of a file of a folder."""
    with open(os.path.join(folder, name), "rb") as file:
        return file.read()


def limit(kind, value):
    """What is done before a program starts: a limit of its own. A file that is too long is a fault and no signal."""

    def start():
        signal.signal(signal.SIGXFSZ, signal.SIG_IGN)
        resource.setrlimit(kind, (value, value))

    return start


def built_library(folder, name, source):
    """The path of a library that is loaded before the C library, of this source in C."""
    write(folder, f"{name}.c", source.encode())
    subprocess.run(["cc", "-O1", "-shared", "-fPIC", "-o", f"{name}.so", f"{name}.c", "-ldl"], cwd=folder, check=True)
    return os.path.join(folder, f"{name}.so")


@contextlib.contextmanager
def disk_in_memory(folder, size):
    """A disk of this size, as mount says it, in a folder."""
    subprocess.run(["mount", "-t", "tmpfs", "-o", f"size={size}", "tmpfs", folder], check=True)
    try:
        yield
    finally:
        subprocess.run(["umount", folder], check=True)


@contextlib.contextmanager
def outputs_refused():
    """Standard outputs that take nothing, by what they are, each as words for `subprocess.run`."""
    reader, writer = os.pipe()
    os.close(reader)
    with open("/dev/full", "wb") as full:
        yield {
            "a full output": {"stdout": full},
            "a closed output": {"stdout": None, "preexec_fn": lambda: os.close(1)},
            "an output that nobody reads": {"stdout": writer},
        }
    os.close(writer)
