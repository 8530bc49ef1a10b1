"""Disks and files that others use."""

import fcntl
import os
import shutil
import subprocess
import time

from trials.scenes.room import SCRIPT, XNFS, XNSIM, fresh, image, only, read, run, scene, slowed_lock, started, texts, want, write


@scene
def get_onto_a_disk_that_a_shell_has_open_is_refused():
    fresh(a=b"bytes")
    fresh("o.img", b=b"other bytes")
    shell = subprocess.Popen([XNFS, "o.img", "shell"], stdin=subprocess.PIPE, stdout=subprocess.PIPE, stderr=subprocess.PIPE)
    shell.stdin.write(b"ls /\n")
    shell.stdin.flush()
    shell.stdout.readline()
    done = run(XNFS, "d.img", "get", "/a", "o.img")
    shell.stdin.close()
    shell.wait(60)
    want(done.returncode == 1 and run(XNFS, "o.img", "cat", "/b").stdout == b"other bytes", "a disk that a shell has open was replaced by a get")


@scene
def a_disk_that_is_open_is_replaced_by_nobody():
    fresh(a=b"bytes")
    write("script", b"pending 0\n")
    shell = subprocess.Popen([XNFS, "d.img", "shell"], stdin=subprocess.PIPE, stdout=subprocess.PIPE, stderr=subprocess.PIPE)
    shell.stdin.write(b"ls /\n")
    shell.stdin.flush()
    shell.stdout.readline()
    ran = run(XNSIM, "run", "d.img", "script")
    made = run(XNSIM, "format", "d.img", "64")
    write("source", b"late")
    shell.stdin.write(b"put source /late\n")
    shell.stdin.close()
    shell.wait(60)
    want(b"late" in run(XNFS, "d.img", "ls", "/").stdout, "a line of an open shell answered 0 and its file is gone")
    want(ran.returncode == 1 and made.returncode == 1, f"xnsim took a disk that is open: {ran.returncode}, {made.returncode}")


@scene
def a_disk_that_is_replaced_while_it_is_locked_is_opened_anew():
    fresh(a=b"bytes")
    if not shutil.which("strace"):
        return "not run: needs strace"
    write("source", b"late")
    slow = subprocess.Popen(
        ["strace", "-f", "-o", "/dev/null", "-e", "trace=flock", "-e", "inject=flock:delay_enter=1500000", XNFS, "d.img", "put", "source", "/late"],
        stdout=subprocess.DEVNULL, stderr=subprocess.DEVNULL,
    )
    time.sleep(0.7)
    shutil.copy("d.img", "other")
    os.rename("other", "d.img")
    status = slow.wait(60)
    want(status == 1 or b"late" in run(XNFS, "d.img", "ls", "/").stdout, "a put answered 0, and the disk of that name has no such file")
    return None


@scene
def an_image_that_is_replaced_while_it_is_locked_is_read_anew():
    image()
    image("other", 64)
    slow = slowed_lock(XNSIM, "run", "d.img", "script")
    os.rename("other", "d.img")
    want(slow.wait(60) == 0 and len(read("d.img")) == 512 * 64, "the image of that name was replaced by one that was made of another")


@scene
def an_output_that_is_replaced_while_it_is_locked_is_locked_anew():
    texts()
    write("out", b"old")
    write("other", b"other")
    slow = slowed_lock(XNSIM, "asm", "owns", "size", "out")
    with open("other", "rb") as held:
        fcntl.flock(held, fcntl.LOCK_EX)
        os.rename("other", "out")
        status = slow.wait(60)
    want(status == 1 and read("out") == b"other", f"status {status}: a file was replaced whose lock somebody has")


@scene
def a_run_has_its_image_alone():
    image()
    fresh("other.img", a=b"bytes")
    slow, pipe = started(XNSIM, "run", "d.img", "pipe")
    for words, said in ((("run", "d.img", "script"), b"read"), (("check", "d.img"), b"read"), (("format", "d.img", 64), b"write")):
        done = run(XNSIM, *words, status=1)
        want(done.stderr == b"cannot " + said + b" d.img\n", f"{words[0]} beside a run: {done.stderr!r}")
    run(XNFS, "d.img", "ls", status=1)
    run(XNFS, "other.img", "get", "/a", "d.img", status=1)
    with pipe:
        pipe.write(SCRIPT)
    slow.communicate(timeout=60)
    want(slow.returncode == 0, "a run was disturbed by others")
    run(XNSIM, "run", "d.img", "script", status=0)


@scene
def an_image_that_takes_the_place_of_one_that_is_run_is_kept():
    image()
    other = image("other", 64)
    slow, pipe = started(XNSIM, "run", "d.img", "pipe")
    os.rename("other", "d.img")
    with pipe:
        pipe.write(SCRIPT)
    said = slow.communicate(timeout=60)
    want(slow.returncode == 1 and said[1] == b"cannot write d.img\n", f"status {slow.returncode}: {said[1]!r}")
    want(read("d.img") == other, "an image was replaced by one that was made of another")


@scene
def a_lock_of_anybody_is_kept():
    old = image()
    texts()
    with open("d.img", "rb") as held:
        fcntl.flock(held, fcntl.LOCK_SH)
        run(XNSIM, "check", "d.img", status=0)
        for words in (("run", "d.img", "script"), ("format", "d.img", 64), ("asm", "owns", "size", "d.img")):
            run(XNSIM, *words, status=1)
        fcntl.flock(held, fcntl.LOCK_EX)
        run(XNSIM, "check", "d.img", status=1)
    want(read("d.img") == old, "a file was replaced whose lock somebody has")
    only("d.img", "script", "owns", "size")


@scene
def a_put_waits_for_standard_input_without_the_disk():
    fresh(a=b"bytes")
    os.mkfifo("pipe")
    for words, is_alone in ((["put", "pipe", "/x"], True), (["put", "-", "/y"], False)):
        waiting = subprocess.Popen([XNFS, "d.img", *words], stdin=subprocess.PIPE, stdout=subprocess.PIPE, stderr=subprocess.PIPE)
        time.sleep(0.3)
        done = run(XNFS, "d.img", "put", "source", "/z")
        refused = done.returncode == 1 and b"in use" in done.stderr
        want(refused if is_alone else done.returncode == 0, f"beside {' '.join(words)}, which waits, a put answers {done.returncode}")
        if is_alone:
            write("pipe", b"late")
        waiting.communicate(None if is_alone else b"late", timeout=60)
        want(waiting.returncode == 0 and run(XNFS, "d.img", "cat", words[2]).stdout == b"late", f"{' '.join(words)} of bytes that come late")
    both = subprocess.run(["sh", "-c", '"$1" d.img cat /y | tr a-z A-Z | "$1" d.img put - /y', "sh", XNFS], capture_output=True, timeout=60)
    want(both.returncode == 0 and run(XNFS, "d.img", "cat", "/y").stdout == b"LATE", f"a pipe from a disk to itself: {both.stderr}")


@scene
def two_lines_may_look_at_once():
    fresh(a=b"b" * 60000)
    os.mkfifo("pipe")
    slow = subprocess.Popen([XNFS, "d.img", "get", "/a", "pipe"], stdout=subprocess.PIPE, stderr=subprocess.PIPE)
    time.sleep(0.3)
    looked = run(XNFS, "d.img", "cat", "/a")
    changed = run(XNFS, "d.img", "mkdir", "/d")
    read("pipe")
    slow.wait(60)
    want(looked.returncode == 0, f"a second line can't look: {looked.stderr[:80]!r}")
    want(changed.returncode == 1 and b"in use" in changed.stderr, "a disk that another line looks at is changed")
