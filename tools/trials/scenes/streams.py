"""Streams that are closed or without end, what is read from pipes and devices, and words that are told."""

import os
import stat
import subprocess

from trials.scenes.room import XNFS, XNSIM, fresh, image, only, read, run, scene, texts, want, write


@scene
def a_closed_stream_is_never_the_disk():
    big = b"b" * 20000
    fresh(z=big)
    before = read("d.img")
    for line in (
        "{x} d.img cat /z >&-", "{x} d.img get /z - >&-", "echo ls | {x} d.img shell >&-", "echo 'cat /no' | {x} d.img shell 2>&-",
        "{x} d.img shell <&-", "{x} d.img ls <&- >&- 2>&-",
    ):
        subprocess.run(["bash", "-c", line.format(x=XNFS)], capture_output=True, timeout=60, check=False)
        want(read("d.img") == before, f"a stream that was closed is written over the disk: {line.format(x='xnfs')}")


@scene
def a_link_to_a_stream_stays_a_link():
    fresh(a=b"bytes")
    os.symlink("/proc/self/fd/1", "stream")
    out = run("bash", "-c", f"{XNFS} d.img get /a stream > file").returncode
    want(os.path.islink("stream") and (out != 0 or read("file") == b"bytes"), "a link to standard output became a file")


@scene
def closed_streams_of_xnsim_take_no_file():
    old = image()
    new = image("new")
    run(XNSIM, "run", "new", "script", status=0)
    new = read("new")
    for closed in ("<&-", ">&-", "2>&-", "<&- >&-", "<&- 2>&-", ">&- 2>&-", "<&- >&- 2>&-"):
        for line in ("run d.img script", "run d.img nothing", "check d.img", "verify d.img owns", "asm d.img d.img d.img", ""):
            write("d.img", old)
            done = run("bash", "-c", f"{XNSIM} {line} {closed}")
            want(read("d.img") in ((old, new) if line == "run d.img script" else (old,)), f"{line} {closed}: the image was written over")
            needed = {"run d.img script": " >&-", "check d.img": " >&-", "": " <&-"}.get(line, "")
            want((done.returncode != 0) == (needed in " " + closed), f"{line} {closed}: status {done.returncode}")
    write("d.img", old)
    run("strace", "-f", "-o", "trace", "-e", "trace=openat", "bash", "-c", f"exec {XNSIM} run d.img script <&- >&- 2>&-")
    opened = [it for it in read("trace").decode().splitlines() if "d.img" in it or '"script"' in it]
    want(opened and all(int(it.rsplit("= ", 1)[1].split()[0]) > 2 for it in opened), f"a file has the number of a standard stream: {opened}")
    only("d.img", "new", "script", "trace")


@scene
def a_shell_without_end_is_bounded():
    fresh(a=b"bytes")
    done = run("bash", "-c", f"ulimit -v 400000; exec {XNFS} d.img shell < /dev/zero")
    want(done.returncode in (1, 2) and b"memory" not in done.stderr, f"a line without end: status {done.returncode} {done.stderr[:60]!r}")


@scene
def a_text_without_end_is_refused():
    limit = ["prlimit", "--as=400000000", XNSIM, "verify", "/dev/zero", "owns"]
    done = run(*limit)
    want(done.returncode == 1 and b"memory" not in done.stderr, f"a text without end: {done.returncode} {done.stderr[:60]!r}")


@scene
def texts_and_scripts_are_bounded():
    image()
    write("long", b"\n" * (1 << 20))
    want(run(XNSIM, "verify", "long", "owns").stderr == b"", "a text of 1 MiB is not read")
    write("long", b"\n" * ((1 << 20) + 1))
    for words in (("verify", "long", "owns"), ("asm", "long", "script", "out")):
        want(run(XNSIM, *words, status=1).stderr == b"cannot read long\n", f"{words[0]} of a text of more than 1 MiB")
    write("long", b"\n" * (1 << 26))
    run(XNSIM, "run", "d.img", "long", status=0)
    with open("long", "rb") as script:
        run(XNSIM, stdin=script.read(), status=0)
    write("long", b"\n" * ((1 << 26) + 1))
    want(run(XNSIM, "run", "d.img", "long", status=1).stderr == b"cannot read long\n", "run of a script of more than 64 MiB")
    with open("long", "rb") as script:
        want(run(XNSIM, stdin=script.read(), status=1).stderr == b"cannot read -\n", "a script of more than 64 MiB on standard input")
    for line in ("run d.img /dev/zero", "< /dev/zero"):
        done = run("bash", "-c", f"ulimit -v 400000; exec {XNSIM} {line}", status=1)
        want(done.stderr.startswith(b"cannot read "), f"{line}: {done.stderr!r}")


@scene
def a_line_that_is_too_long_is_told():
    fresh()
    done = run(XNFS, "d.img", "shell", stdin=b"mkdir /a\nmkdir /" + b"n" * 70000 + b"\nmkdir /b\n", status=2)
    want(b"line 2" in done.stderr, f"a line of 70,000 bytes: {done.stderr[:100]!r}")
    want(run(XNFS, "d.img", "ls", "/").stdout == b"a/\n", "what stands before a line that is too long is done, and nothing behind it")
    run(XNFS, "d.img", "shell", stdin=b"# " + b"c" * 65534 + b"\nmkdir /c\n", status=0)


@scene
def pipes_and_devices_are_read():
    image()
    texts()
    with open("d.img", "rb") as source:
        run(XNSIM, "check", "/dev/stdin", stdin=source.read(), status=0)
    run("bash", "-c", f"{XNSIM} asm <(cat owns) <(cat size) out && {XNSIM} check <(cat d.img)", status=0)
    for words in (("check", "/dev/null"), ("check", "."), ("run", ".", "script"), ("run", "d.img", "."), ("verify", ".", "owns"), ("asm", ".", "size", "out")):
        run(XNSIM, *words, status=1)


@scene
def a_pipe_is_no_disk_of_xnfs():
    os.mkfifo("pipe")
    os.mkdir("folder")
    for name in ("pipe", "folder", "/dev/null", "nothing"):
        for words in (("ls", "/"), ("check",), ("mkdir", "/d")):
            run("timeout", "20", XNFS, name, *words, status=1)
    want(stat.S_ISFIFO(os.stat("pipe").st_mode), "a pipe was replaced")


@scene
def words_that_are_no_text_are_told():
    for words in ([b"check", b"\xff"], [b"\xff"], [b"format", b"a", b"32", b"\xc3\x28"]):
        done = subprocess.run([XNSIM.encode(), *words], capture_output=True, timeout=60, check=False)
        want(done.returncode == 2 and b"UTF-8" in done.stderr and b"memory" not in done.stderr, f"{words}: {done.returncode} {done.stderr!r}")


@scene
def faults_say_what_is_meant():
    fresh()
    run(XNFS, "format", "o.img", 64, "--fs", 3, status=0)
    for words, text in (
        (["d.img", "graph"], b"no command 'graph'"), (["d.img", "format", "100"], b"no command 'format'"), (["o.img", "ls"], b"there is that of 3"),
        (["", "ls"], b"IMAGE is empty"), (["d.img", "put", "", "/x"], b"the path is empty"), ([b"d.img", b"ls", b"/\xff"], b"word 3"),
    ):
        done = subprocess.run([XNFS, *words], capture_output=True, timeout=60, check=False)
        want(done.returncode in (1, 2) and text in done.stderr, f"{words}: {done.stderr[:120]!r}")
    image = bytearray(read("d.img"))
    image[600] ^= 1
    write("bad.img", image)
    told = run(XNFS, "bad.img", "ls", status=1).stderr
    fault = run(XNSIM, "check", "bad.img").stdout.split(b"fault ")[-1].strip()
    want(fault and fault in told, f"a disk that is not sound: {told!r}, and the store's check: {fault!r}")
