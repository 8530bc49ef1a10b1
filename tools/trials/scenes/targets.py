"""What `get` and `format` of `xnfs` write among files of the system, and what `put` takes of a folder."""

import os
import pwd
import shutil
import stat
import time

from trials.scenes.room import XNFS, fresh, read, run, scene, want, write


@scene
def get_leaves_files_beside_its_target():
    fresh(a=b"new bytes")
    write("t.xnfs-get", b"precious")
    run(XNFS, "d.img", "get", "/a", "t", status=0)
    want(read("t.xnfs-get") == b"precious", "a file of the user's, named as the target with .xnfs-get, was changed")


@scene
def get_follows_no_link_beside_its_target():
    fresh(a=b"new bytes")
    write("victim", b"important")
    os.symlink("victim", "t.xnfs-get")
    run(XNFS, "d.img", "get", "/a", "t")
    want(read("victim") == b"important", "a file that a link beside the target leads to was overwritten")


@scene
def failed_get_removes_nothing():
    fresh(a=b"new bytes")
    os.mkdir("locked")
    write("locked/t", b"old")
    write("locked/t.xnfs-get", b"mine")
    if os.getuid() != 0:
        return "not run: needs root"
    nobody = pwd.getpwnam("nobody").pw_uid
    shutil.copy(XNFS, "xnfs")
    for name in (".", "d.img", "locked"):
        os.chmod(name, 0o777)
    os.chmod("locked/t.xnfs-get", 0o400)
    os.chown("locked/t.xnfs-get", nobody, -1)
    run("setpriv", "--reuid", "nobody", "--clear-groups", "./xnfs", "d.img", "get", "/a", "locked/t")
    want(os.path.exists("locked/t.xnfs-get"), "a file that a get could not write was removed")
    return None


@scene
def get_gives_a_new_file_the_mode_and_the_time_that_it_has_in_the_volume():
    write("source", b"new bytes")
    os.chmod("source", 0o640)
    os.utime("source", ns=(0, 1_234_567_890_123_456_789))
    fresh()
    run(XNFS, "d.img", "put", "source", "/a", status=0)
    run(XNFS, "d.img", "get", "/a", "t", status=0)
    seen = os.stat("t")
    want((seen.st_mode & 0o7777, seen.st_mtime_ns) == (0o640, 1_234_567_890_123_456_789), f"mode {seen.st_mode:o}, time {seen.st_mtime_ns}")


@scene
def a_file_that_get_replaces_keeps_its_mode_and_its_owner():
    """Where the file is named itself, as TARGET, through a link, or in a folder; it has the bytes and the time from the volume."""
    fresh(a=b"new bytes", b=b"other bytes")
    run(XNFS, "d.img", "touch", "-d", "1000000000", "/a", "/b", status=0)
    os.mkdir("into")
    os.symlink("into/a", "link")
    for target, sources in (("t", ["/a"]), ("link", ["/a"]), ("into", ["/a"]), ("into", ["/a", "/b"])):
        path = "t" if target == "t" else "into/a"
        write(path, b"old")
        os.chown(path, 7, 8)
        os.chmod(path, 0o604)
        run(XNFS, "d.img", "get", *sources, target, status=0)
        seen = os.stat(path)
        found = seen.st_mode & 0o7777, seen.st_uid, seen.st_gid, seen.st_mtime
        want(found == (0o604, 7, 8, 10**9), f"get of {sources} to {target}: mode {found[0]:o}, owner {found[1]}:{found[2]}, time {found[3]}")
        want(read(path) == b"new bytes", f"get of {sources} to {target}: the bytes are {read(path)!r}")
    want(os.path.islink("link"), "a link as target was replaced")


@scene
def a_folder_that_get_fills_is_as_in_the_volume():
    """What is there below the target gets the mode and the owner that it has in the volume."""
    fresh()
    write("source", b"new bytes")
    run(XNFS, "d.img", "shell", stdin=b"mkdir /top\nput source /top/f\nchmod 640 /top/f\nchown 7:8 /top/f\n", status=0)
    os.makedirs("out")
    write("out/f", b"old")
    os.chmod("out/f", 0o604)
    run(XNFS, "d.img", "get", "/top", "out", status=0)
    seen = os.stat("out/f")
    want((seen.st_mode & 0o7777, seen.st_uid, seen.st_gid) == (0o640, 7, 8), f"mode {seen.st_mode:o}, owner {seen.st_uid}:{seen.st_gid}")


@scene
def what_get_makes_is_secret_until_it_has_its_mode():
    fresh(a=b"secret")
    run(XNFS, "d.img", "chmod", "600", "/a", status=0)
    told = run("strace", "-f", "-e", "trace=openat,fchmod,write", XNFS, "d.img", "get", "/a", "t", status=0).stderr.decode().splitlines()
    first = next(place for place, it in enumerate(told) if "O_EXCL" in it)
    before = [it for it in told[first:] if "0600" in it or "write(" in it][0]
    want("0600" in before, f"others may read the bytes of a file of mode 600 while it is brought out: {told[first]}, then {before}")


@scene
def what_get_writes_never_has_the_mode_of_the_file_that_it_replaces():
    """Below a folder, where each file has the mode of the volume: a secret one in the place of one that all may read."""
    fresh()
    write("source", b"secret")
    run(XNFS, "d.img", "shell", stdin=b"mkdir /top\nput source /top/f\nchmod 600 /top/f\n", status=0)
    os.makedirs("out")
    write("out/f", b"old")
    os.chmod("out/f", 0o644)
    told = run("strace", "-f", "-e", "trace=openat,chmod,fchmod,fchmodat,rename", XNFS, "d.img", "get", "/top", "out", status=0).stderr.decode().splitlines()
    first = next(place for place, it in enumerate(told) if "O_EXCL" in it)
    modes = [it for it in told[first:] if "chmod" in it or "O_EXCL" in it]
    want(all(", 0600" in it for it in modes), f"a file that is to have mode 600 in the place of one of mode 644: {modes}")
    want(stat.S_IMODE(os.stat("out/f").st_mode) == 0o600, f"mode {os.stat('out/f').st_mode:o}")


@scene
def what_get_writes_in_the_place_of_a_secret_file_is_secret_at_each_moment():
    fresh(a=b"bytes")
    run(XNFS, "d.img", "chmod", "644", "/a", status=0)
    write("t", b"old")
    os.chmod("t", 0o600)
    told = run("strace", "-f", "-e", "trace=openat,chmod,fchmod,fchmodat,rename", XNFS, "d.img", "get", "/a", "t", status=0).stderr.decode().splitlines()
    first = next(place for place, it in enumerate(told) if "O_EXCL" in it)
    modes = [it for it in told[first:] if "chmod" in it or "O_EXCL" in it]
    want(all(", 0600" in it for it in modes), f"a file in the place of one of mode 600: {modes}")
    want(stat.S_IMODE(os.stat("t").st_mode) == 0o600, f"mode {os.stat('t').st_mode:o}")


@scene
def a_folder_that_get_makes_is_secret_until_it_is_full():
    fresh()
    write("source", b"bytes")
    lines = b"mkdir /top\nmkdir /top/below\nput source /top/below/f\nchmod 2755 /top/below\nchmod 1751 /top\ntouch -d 1000000000 /top/below /top\n"
    run(XNFS, "d.img", "shell", stdin=lines, status=0)
    told = run("strace", "-f", "-e", "trace=mkdir,mkdirat,chmod,fchmod,fchmodat,openat", XNFS, "d.img", "get", "/top", "out", status=0).stderr.decode()
    made = [it for it in told.splitlines() if "mkdir" in it]
    want(len(made) == 2 and all(", 0700)" in it for it in made), f"others may enter a folder while it is filled: {made}")
    last = told.rindex("O_EXCL")
    want(last < told.index(", 02755)") < told.index(", 01751)"), "a folder has its mode before it is full")
    seen = [(stat.S_IMODE(it.st_mode), it.st_mtime) for it in map(os.stat, ("out", "out/below"))]
    want(seen == [(0o1751, 10**9), (0o2755, 10**9)], f"folders have other modes or times than in the volume: {seen}")


@scene
def files_with_several_names_are_brought_out_as_they_are():
    """A name that takes the place of one that the same line has brought out leads to its own bytes."""
    fresh()
    for folder in ("one", "two", "three"):
        run(XNFS, "d.img", "mkdir", f"/{folder}", status=0)
        write("source", folder.encode())
        run(XNFS, "d.img", "put", "source", f"/{folder}/f", status=0)
    run(XNFS, "d.img", "ln", "/one/f", "/three/g", status=0)
    os.mkdir("out")
    run(XNFS, "d.img", "get", "/one/f", "/two/f", "/three/g", "out", status=0)
    want((read("out/f"), read("out/g")) == (b"two", b"one"), f"get of /one/f, /two/f and /three/g, the other name of /one/f: {read('out/f')}, {read('out/g')}")


@scene
def two_files_of_one_name_are_both_kept():
    """Of two files that a line moves to the same name none is lost."""
    fresh()
    for folder in ("one", "two", "into"):
        run(XNFS, "d.img", "mkdir", f"/{folder}", status=0)
        write("source", folder.encode())
        if folder != "into":
            run(XNFS, "d.img", "put", "source", f"/{folder}/f", status=0)
    done = run(XNFS, "d.img", "mv", "/one/f", "/two/f", "/into")
    left = {run(XNFS, "d.img", "cat", path).stdout for path in ("/one/f", "/two/f", "/into/f")} - {b""}
    want(left == {b"one", b"two"}, f"mv of two files of one name into a folder: status {done.returncode}, and what is left is {left}")


@scene
def folders_put_over_each_other_keep_the_last_files():
    """As of three states of a folder, of which the first and the last have a file in common."""
    for folder in ("one", "two", "three"):
        os.mkdir(folder)
        write(f"{folder}/f", folder.encode())
    os.remove("three/f")
    os.link("one/f", "three/f")
    fresh()
    run(XNFS, "d.img", "mkdir", "/all", status=0)
    done = run(XNFS, "d.img", "put", "one/.", "two/.", "three/.", "/all")
    got = run(XNFS, "d.img", "cat", "/all/f").stdout
    want(got == b"one" and done.returncode == 0, f"put of three folders over each other: status {done.returncode}, {done.stderr!r}, the file is {got!r}")


def two_that_are_one():
    """Folders of which one/f and four/g are one file, two/f takes its place, and for three/other it has to be given up first."""
    for folder in ("one", "two", "three", "four"):
        os.mkdir(folder)
    write("one/f", os.urandom(60_000))
    os.link("one/f", "four/g")
    write("two/f", b"two")
    write("three/other", os.urandom(70_000))


@scene
def files_with_several_names_are_put_as_they_are():
    for blocks in (200, 1024):
        two_that_are_one()
        fresh(f"{blocks}.img", blocks)
        run(XNFS, f"{blocks}.img", "mkdir", "/d", status=0)
        done = run(XNFS, f"{blocks}.img", "put", "one/f", "two/f", "three/other", "four/g", "/d")
        got = run(XNFS, f"{blocks}.img", "cat", "/d/g").stdout
        is_refused = blocks == 200 and done.returncode == 1 and b"no space" in done.stderr
        told = f"status {done.returncode} {done.stderr[:80]!r}, g is other: {got == read('three/other')}"
        want(is_refused or got == read("four/g"), f"put on {blocks} blocks: {told}")
        for folder in ("one", "two", "three", "four"):
            shutil.rmtree(folder)


@scene
def files_with_several_names_are_copied_as_they_are():
    for blocks in (330, 1024):
        two_that_are_one()
        fresh(f"{blocks}.img", blocks)
        run(XNFS, f"{blocks}.img", "put", "one", "two", "three", "four", "/", status=0)
        run(XNFS, f"{blocks}.img", "mkdir", "/d", status=0)
        done = run(XNFS, f"{blocks}.img", "cp", "-r", "/one/f", "/two/f", "/three/other", "/four/g", "/d")
        got = run(XNFS, f"{blocks}.img", "cat", "/d/g").stdout
        is_refused = blocks == 330 and done.returncode == 1 and b"no space" in done.stderr
        told = f"status {done.returncode} {done.stderr[:80]!r}, g is other: {got == read('three/other')}"
        want(is_refused or got == read("four/g"), f"cp -r on {blocks} blocks: {told}")
        for folder in ("one", "two", "three", "four"):
            shutil.rmtree(folder)


@scene
def get_onto_a_link_keeps_the_link():
    fresh(a=b"new bytes")
    write("real", b"old")
    os.symlink("real", "t")
    run(XNFS, "d.img", "get", "/a", "t", status=0)
    want(os.path.islink("t") and read("real") == b"new bytes", "a link as target was replaced by a file")


@scene
def get_takes_long_names_of_the_system():
    fresh(a=b"new bytes")
    for length in (246, 250, 255):
        run(XNFS, "d.img", "get", "/a", "n" * length, status=0)


@scene
def get_syncs_before_it_renames():
    fresh(a=b"new bytes")
    if not shutil.which("strace"):
        return "not run: needs strace"
    calls = run("strace", "-f", "-e", "trace=fsync,fdatasync,rename,renameat,renameat2", XNFS, "d.img", "get", "/a", "t").stderr.decode()
    lines = [it for it in calls.splitlines() if "sync" in it or "rename" in it]
    moved = [i for i, it in enumerate(lines) if "rename" in it]
    want(moved and any("sync" in it for it in lines[1:moved[0]]), "the new file is not synced before it takes its name")
    return None


@scene
def get_onto_the_disk_itself_is_refused():
    fresh(a=b"new bytes")
    os.link("d.img", "same")
    os.symlink("d.img", "link")
    for target in ("d.img", "./d.img", "same", "link"):
        run(XNFS, "d.img", "get", "/a", target, status=1)
        want(run(XNFS, "d.img", "ls", "/").stdout == b"a\n", f"the disk is gone after a get onto {target}")


@scene
def an_empty_target_is_refused():
    fresh(**{"from-xnfs-edges": b"bytes"})
    run(XNFS, "d.img", "get", "/", "")
    made = os.path.exists("/from-xnfs-edges")
    if made:
        os.remove("/from-xnfs-edges")
    want(not made, "a get into an empty word writes into /")


@scene
def get_of_a_folder_follows_no_link_below_its_target():
    fresh()
    write("source", b"bytes")
    run(XNFS, "d.img", "shell", stdin=b"mkdir /d\nput source /d/a\nput source /b\n", status=0)
    os.makedirs("out")
    os.mkdir("elsewhere")
    os.symlink("../elsewhere", "out/d")
    os.symlink("../elsewhere/b", "out/b")
    run(XNFS, "d.img", "get", "/", "out")
    want(not os.listdir("elsewhere"), f"a get of a folder wrote through a link below it: {os.listdir('elsewhere')}")


@scene
def get_of_a_folder_replaces_no_file_that_a_link_leads_to():
    fresh(a=b"bytes", b=b"bytes")
    os.mkdir("out")
    write("elsewhere", b"mine")
    os.symlink("../elsewhere", "out/b")
    told = run(XNFS, "d.img", "get", "/", "out", status=1).stderr
    want(read("elsewhere") == b"mine", "a file that a link below the target leads to was replaced")
    want(os.readlink("out/b") == "../elsewhere" and b"out/b" in told, f"a link below the target is told and left: {told!r}")
    want(read("out/a") == b"bytes", "what stands beside a link was not got")


@scene
def put_of_a_folder_follows_no_link():
    fresh()
    os.makedirs("p/in")
    os.symlink("..", "p/in/up")
    os.symlink("missing", "p/dangling")
    os.symlink("/etc/passwd", "p/passwd")
    os.mkfifo("p/pipe")
    write("p/file", b"file")
    write("p/in/inner", b"inner")
    done = run(XNFS, "d.img", "put", "p", "/p", status=1)
    listed = run(XNFS, "d.img", "find", "/p").stdout.split()
    want(listed == b"/p /p/dangling /p/file /p/in /p/in/inner /p/in/up /p/passwd".split(), f"put of a folder with links: {listed}")
    want(run(XNFS, "d.img", "readlink", "/p/passwd").stdout == b"/etc/passwd\n", "a link is put as a link")
    want(done.stderr.count(b"\n") == 1 and b"p/pipe" in done.stderr, f"what is left out is told: {done.stderr!r}")


@scene
def the_disk_is_not_put_into_itself():
    os.mkdir("p")
    fresh("p/d.img", a=b"bytes")
    os.link("p/d.img", "p/same")
    write("p/other", b"other")
    done = run(XNFS, "p/d.img", "put", "p", "/p", status=1)
    told = done.stderr.count(b"the disk itself")
    want(told == 2 and run(XNFS, "p/d.img", "ls", "/p").stdout == b"other\n", f"put of the folder in which the disk stands: {done.stderr!r}")
    for name in ("p/d.img", "p/same"):
        want(b"the disk itself" in run(XNFS, "p/d.img", "put", name, "/d", status=1).stderr, f"put of {name}, which is the disk")


@scene
def put_and_get_go_into_folders_that_are_there():
    fresh()
    os.makedirs("p")
    write("p/file", b"file")
    run(XNFS, "d.img", "mkdir", "/there", status=0)
    run(XNFS, "d.img", "put", "p", "/there", status=0)
    run(XNFS, "d.img", "put", "p/.", "/there", status=0)
    want(run(XNFS, "d.img", "tree", "/there").stdout == b"file\np/\n  file\n", f"put of a folder into one: {run(XNFS, 'd.img', 'tree').stdout!r}")
    os.mkdir("into")
    run(XNFS, "d.img", "get", "/there/file", "into", status=0)
    want(read("into/file") == b"file", "get of a file into a folder")
    run(XNFS, "d.img", "get", "/there", "-", status=1)
    want(not os.path.exists("-"), "get of a folder makes a folder `-`")


@scene
def a_format_that_fails_leaves_nothing():
    run("bash", "-c", f"ulimit -f 20; trap '' XFSZ; exec {XNFS} format d.img 256", status=1)
    want(not os.path.exists("d.img"), "a format that failed left a file")


@scene
def a_disk_that_may_only_be_read_can_be_read():
    fresh(a=b"bytes")
    if os.getuid() != 0:
        return "not run: needs root"
    os.chmod("d.img", 0o444)
    os.chmod(".", 0o755)
    shutil.copy(XNFS, "xnfs")
    seen = run("setpriv", "--reuid", "nobody", "--clear-groups", "./xnfs", "d.img", "cat", "/a")
    want(seen.stdout == b"bytes", f"a disk without write rights can't be read: {seen.stderr[:80]!r}")
    return None


@scene
def a_file_past_the_greatest_is_refused_unread():
    fresh(a=b"kept")
    write("long", b"")
    os.truncate("long", 140_000_000_000)
    begun = time.monotonic()
    done = run(XNFS, "d.img", "put", "long", "/a", status=1)
    took = time.monotonic() - begun
    want(b"too large" in done.stderr, f"told {done.stderr!r}")
    want(took < 5, f"it took {took:.1f} s")
    want(run(XNFS, "d.img", "cat", "/a", status=0).stdout == b"kept", "the file that stood there is gone")
