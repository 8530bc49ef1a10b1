"""What scenes have in common: what they are, how programs are run in a scene's folder, and files that many begin with."""

import json
import os
import pwd
import shutil
import subprocess
import time

from trials.programs import PATIENCE, program

XNFS, XNSIM = program("xnfs"), program("xnsim")
# A script that changes an image.
SCRIPT = b"init 0 2 41\nroot 0 1\ndrain\n"


def scene(make):
    """Marks a function as a scene: it works in a folder of its own, which is the current one, and raises a Fault where something is wrong."""
    make.is_scene = True
    return make


class Fault(Exception):
    """What a scene saw and should not have."""


def want(holds, text):
    if not holds:
        raise Fault(text)


def run(*words, stdin=b"", status=None, **more):
    """Runs a program with bounded time; answers its status, output and complaints."""
    done = subprocess.run([str(it) for it in words], input=stdin, capture_output=True, timeout=2 * PATIENCE, check=False, **more)
    if status is not None and done.returncode != status:
        raise Fault(f"{' '.join(map(str, words[1:]))[:80]}: status {done.returncode}, {status} wanted: {done.stderr[:100]!r}")
    return done


def write(name, data):
    with open(name, "wb") as file:
        file.write(data)


def read(name):
    """A file's bytes; nothing where there is none."""
    try:
        with open(name, "rb") as file:
            return file.read()
    except FileNotFoundError:
        return None


def fresh(name="d.img", blocks=256, **files):
    """A fresh disk of xnfs, with these files."""
    run(XNFS, "format", name, blocks, status=0)
    for path, data in files.items():
        write("source", data)
        run(XNFS, name, "put", "source", "/" + path, status=0)


def checked(name, status=0):
    """What `check` tells of a disk."""
    return json.loads(run(XNFS, name, "check", "--json", status=status).stdout)


def image(name="d.img", blocks=32):
    """A fresh image of xnsim, and a script that changes it."""
    run(XNSIM, "format", name, blocks, status=0)
    write("script", SCRIPT)
    return read(name)


def texts():
    """The two programs of a type."""
    write("owns", b"SET 1 4\n")
    write("size", b"SET 0 512\n")


def only(*names):
    """The folder has these files and no others."""
    want(sorted(os.listdir(".")) == sorted(names), f"files here: {sorted(os.listdir('.'))}, wanted: {sorted(names)}")


def as_nobody(*words, **more):
    return run("setpriv", "--reuid", "nobody", "--clear-groups", *words, **more)


def for_nobody(*names):
    """A copy of xnsim that anybody may run, and these files and the folder, which are given to the user nobody."""
    shutil.copy(XNSIM, "xnsim")
    os.chmod("xnsim", 0o755)
    for name in (".", *names):
        os.chown(name, pwd.getpwnam("nobody").pw_uid, -1)


def started(*words):
    """A run that has read its image and waits for its script, which is the pipe `pipe`."""
    os.mkfifo("pipe")
    slow = subprocess.Popen([str(it) for it in words], stdout=subprocess.PIPE, stderr=subprocess.PIPE)
    return slow, open("pipe", "wb")


def slowed_lock(*words):
    """A run whose lock comes late enough that a file can be replaced before it."""
    inject = ["-e", "trace=flock", "-e", "inject=flock:delay_enter=1500000:when=1"]
    slow = subprocess.Popen(["strace", "-f", "-o", "/dev/null", *inject, *words], stdout=subprocess.DEVNULL, stderr=subprocess.DEVNULL)
    time.sleep(0.7)
    return slow
