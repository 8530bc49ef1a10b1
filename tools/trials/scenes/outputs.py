"""What `xnsim` writes among files of the system."""

import os
import pwd
import socket
import stat
import threading

from trials.scenes.room import SCRIPT, XNFS, XNSIM, as_nobody, for_nobody, image, only, read, run, scene, started, texts, want, write


@scene
def files_left_behind_stop_no_later_run():
    run(XNSIM, "format", "d.img", 32, status=0)
    write("script", b"init 0 2 41\n")
    for number in range(100):
        write(f"d.img.new{number}", b"left")
    run(XNSIM, "run", "d.img", "script", status=0)
    want(all(read(f"d.img.new{number}") == b"left" for number in range(100)), "a file that was left behind was changed")


@scene
def asm_keeps_its_sources():
    write("owns", b"SET 1 4\n")
    write("size", b"SET 0 512\n")
    done = run(XNSIM, "asm", "owns", "size", "owns")
    want(done.returncode != 0 and read("owns") == b"SET 1 4\n", "asm overwrites a text that it was given")


@scene
def asm_keeps_a_source_by_any_name():
    texts()
    os.link("owns", "hard")
    os.symlink("size", "soft")
    for out in ("./owns", "hard", "soft", "size", os.path.abspath("size")):
        done = run(XNSIM, "asm", "owns", "size", out, status=1)
        want(done.stderr == f"cannot write {out}\n".encode(), f"{out}: {done.stderr!r}")
    want((read("owns"), read("size")) == (b"SET 1 4\n", b"SET 0 512\n"), "asm overwrites a text that it was given")


@scene
def xnsim_replaces_files_of_any_name_and_keeps_their_owner():
    run(XNSIM, "format", "n" * 255, 32, status=0)
    if os.getuid() != 0:
        return "in part: needs root"
    run(XNSIM, "format", "u.img", 32, status=0)
    nobody = pwd.getpwnam("nobody").pw_uid
    os.chown("u.img", nobody, -1)
    write("script", b"init 0 2 41\n")
    run(XNSIM, "run", "u.img", "script", status=0)
    want(os.stat("u.img").st_uid == nobody, "the owner of a replaced image is another")
    return None


@scene
def a_folder_is_no_target():
    os.mkdir("folder")
    texts()
    for words in (("format", "folder", 32), ("asm", "owns", "size", "folder"), ("format", "folder/", 32), ("format", "", 32)):
        done = run(XNSIM, *words, status=1)
        want(done.stderr.startswith(b"cannot write "), f"{words}: {done.stderr!r}")
    only("folder", "owns", "size")
    want(not os.listdir("folder"), "a folder that was a target has files")


@scene
def a_device_is_written_in_place():
    os.mknod("null", 0o666 | stat.S_IFCHR, os.makedev(1, 3))
    os.symlink("null", "link")
    for name in ("null", "link"):
        run(XNSIM, "format", name, 32, status=0)
    want(stat.S_ISCHR(os.stat("null").st_mode) and os.path.islink("link"), "a device or a link to one was replaced")
    only("null", "link")


@scene
def a_pipe_takes_the_bytes():
    texts()
    os.mkfifo("pipe")
    got = []
    reader = threading.Thread(target=lambda: got.append(read("pipe")))
    reader.start()
    run(XNSIM, "asm", "owns", "size", "pipe", status=0)
    reader.join(60)
    run(XNSIM, "asm", "owns", "size", "file", status=0)
    want(got == [read("file")] and stat.S_ISFIFO(os.stat("pipe").st_mode), "a pipe as OUT got other bytes, or is none any more")


@scene
def a_socket_is_no_target():
    with socket.socket(socket.AF_UNIX) as held:
        held.bind("socket")
        for words in (("format", "socket", 32), ("check", "socket")):
            run(XNSIM, *words, status=1)
        run(XNFS, "socket", "ls", status=1)
        want(stat.S_ISSOCK(os.stat("socket").st_mode), "a socket was replaced")


@scene
def a_link_is_followed_and_stays():
    old = image()
    os.symlink("d.img", "one")
    os.symlink("one", "two")
    run(XNSIM, "run", "two", "script", status=0)
    want(os.readlink("two") == "one" and os.readlink("one") == "d.img" and read("d.img") != old, "a link to a link was not followed")
    os.symlink("nowhere", "dangling")
    run(XNSIM, "format", "dangling", 32, status=1)
    want(os.readlink("dangling") == "nowhere", "a link that leads to nothing was replaced")
    only("d.img", "one", "two", "dangling", "script")


@scene
def another_name_of_a_file_keeps_its_bytes():
    old = image()
    os.link("d.img", "other")
    run(XNSIM, "run", "d.img", "script", status=0)
    want(read("other") == old and read("d.img") != old, "a file is not replaced but changed in place")


@scene
def the_mask_is_for_new_files_alone():
    image("old")
    os.chmod("old", 0o640)
    for name in ("old", "new"):
        run("bash", "-c", f"umask 077; exec {XNSIM} format {name} 32", status=0)
    modes = [stat.S_IMODE(os.stat(name).st_mode) for name in ("old", "new")]
    want(modes == [0o640, 0o600], f"modes {modes}")


@scene
def mode_owner_and_group_are_kept():
    image()
    nobody = pwd.getpwnam("nobody")
    for mode in (0o600, 0o444, 0o2664, 0o4755, 0o777):
        os.chown("d.img", nobody.pw_uid, nobody.pw_gid)
        os.chmod("d.img", mode)
        run(XNSIM, "run", "d.img", "script", status=0)
        seen = os.stat("d.img")
        want((stat.S_IMODE(seen.st_mode), seen.st_uid, seen.st_gid) == (mode, nobody.pw_uid, nobody.pw_gid), f"{mode:o}: {seen}")


@scene
def a_file_is_secret_before_it_has_bytes():
    image()
    os.chmod("d.img", 0o600)
    told = run("strace", "-f", "-e", "trace=openat,fchown,fchmod,write,fsync,rename,flock", XNSIM, "run", "d.img", "script", status=0).stderr.decode()
    calls = [it.split("] ")[-1] for it in told.splitlines()]
    made = next(i for i, it in enumerate(calls) if "O_EXCL" in it)
    names = [it.split("(")[0] for it in calls[made:]]
    names = [it for i, it in enumerate(names) if it != "write" or names[i - 1] != "write"]
    names = names[: names.index("rename") + 2]
    want(names == ["openat", "fchown", "fchmod", "write", "fsync", "rename", "fsync"], f"the calls from the new file on: {names}")
    want(any(it.startswith("flock") for it in calls[:made]), "no lock was taken before the new file")


@scene
def a_file_that_may_not_be_written_is_not_replaced():
    old = image()
    for_nobody()
    os.chmod("d.img", 0o644)
    for words in (("run", "d.img", "script"), ("format", "d.img", "64")):
        as_nobody("./xnsim", *words, status=1)
    want(read("d.img") == old, "a file of another user, which may only be read, was replaced")
    only("d.img", "script", "xnsim")


@scene
def a_file_of_others_that_may_be_written_is_replaced():
    old = image()
    for_nobody()
    os.chmod("d.img", 0o666)
    as_nobody("./xnsim", "run", "d.img", "script", status=0)
    want(read("d.img") != old and stat.S_IMODE(os.stat("d.img").st_mode) == 0o666, "a file that may be written was not replaced, or lost its mode")
    only("d.img", "script", "xnsim")


@scene
def a_folder_that_loses_its_rights_meanwhile():
    old = image()
    for_nobody("d.img")
    slow, pipe = started("setpriv", "--reuid", "nobody", "--clear-groups", "./xnsim", "run", "d.img", "pipe")
    os.chmod(".", 0o555)
    with pipe:
        pipe.write(SCRIPT)
    said = slow.communicate(timeout=60)
    os.chmod(".", 0o755)
    want(slow.returncode == 1 and said[1] == b"cannot write d.img\n", f"status {slow.returncode}: {said[1]!r}")
    want(read("d.img") == old, "an image was changed in a folder without rights")
    only("d.img", "script", "pipe", "xnsim")


@scene
def names_of_each_length_are_taken():
    write("script", SCRIPT)
    for length in (1, 2, 127, 245, *range(249, 256)):
        for name in ("n" * length, "é" * (length // 2) + "x" * (length % 2)):
            run(XNSIM, "format", name, 32, status=0)
            run(XNSIM, "run", name, "script", status=0)
            os.remove(name)
    only("script")
    deep = "/".join(["d" * 250] * 15)
    os.makedirs(deep)
    run(XNSIM, "format", deep + "/" + "n" * 255, 32, status=0)


@scene
def a_signal_leaves_the_old_file_or_the_new_one():
    old = image()
    run(XNSIM, "run", "d.img", "script", status=0)
    new = read("d.img")
    for call in ("openat", "flock", "fchown", "fchmod", "write", "fsync", "rename"):
        for count in range(1, 9):
            write("d.img", old)
            run("strace", "-f", "-o", "/dev/null", "-e", f"inject={call}:signal=KILL:when={count}", XNSIM, "run", "d.img", "script")
            left = set(os.listdir(".")) - {"d.img", "script"}
            want(read("d.img") in (old, new) and all(it.startswith("d.img.new") for it in left), f"killed at {call} {count}: {left}")
            run(XNSIM, "run", "d.img", "script", status=0)
            want(left <= set(os.listdir(".")), f"killed at {call} {count}: a later run removed what was left")
            for name in left:
                os.remove(name)


@scene
def a_call_that_fails_leaves_the_old_file():
    old = image()
    for call in ("flock", "fchmod", "write", "fsync", "rename"):
        write("d.img", old)
        done = run("strace", "-f", "-o", "/dev/null", "-e", f"inject={call}:error=EIO:when=1", XNSIM, "run", "d.img", "script")
        want(done.returncode == 1 and read("d.img") == old, f"{call} failed: status {done.returncode}")
        only("d.img", "script")


@scene
def a_full_disk_leaves_the_old_file():
    os.mkdir("small")
    run("mount", "-t", "tmpfs", "-o", "size=600k", "tmpfs", "small", status=0)
    try:
        old = image("small/d.img", 1024)
        run(XNSIM, "run", "small/d.img", "script", status=1)
        run(XNSIM, "format", "small/other", 1024, status=1)
        want(read("small/d.img") == old and os.listdir("small") == ["d.img"], f"a full disk: {os.listdir('small')}")
    finally:
        run("umount", "small", status=0)
