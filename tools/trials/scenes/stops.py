"""What lines and shells leave that are stopped, or that end early."""

import json
import os
import shutil
import subprocess

from trials.scenes.room import XNFS, checked, fresh, read, run, scene, want, write


def stopped(name, lines, most, check, lazy=True):
    """Plays the lines on a copy of a disk, stopped after each count of block writes, and asks each time."""
    for count in range(most + 1):
        shutil.copy(name, "copy.img")
        words = ["shell", "--lazy"] if lazy else ["shell"]
        run(XNFS, "copy.img", "--stop", count, *words, stdin="".join(it + "\n" for it in lines).encode())
        check(count)


def whole(bytes_wanted, paths, count):
    """Of a file that may stand at one of these paths: it does, whole."""
    seen = []
    for path in paths:
        if os.path.exists("got"):
            os.remove("got")
        if run(XNFS, "copy.img", "get", path, "got").returncode == 0:
            seen.append(read("got"))
    want(seen, f"stopped after {count} writes: the file is at none of {paths}")
    want(all(it == bytes_wanted for it in seen), f"stopped after {count} writes: the file is there with other bytes")


def crowded():
    """A volume in which the next inode and the next name need new blocks."""
    fresh(s=b"small bytes")
    write("source", b"x")
    run(XNFS, "d.img", "shell", stdin="".join(f"put source /f{i}\n" for i in range(1, 22)).encode() + b"mkdir /z\n", status=0)


@scene
def a_lazy_shell_that_ends_early_has_written_its_done_lines():
    fresh(a=b"bytes")
    write("source", b"late")
    with open("/dev/full", "wb") as full:
        subprocess.run([XNFS, "d.img", "shell", "--lazy"], input=b"put source /late\nls /\n", stdout=full, stderr=subprocess.DEVNULL, check=False)
    want(b"late" in run(XNFS, "d.img", "ls", "/").stdout, "a line that was done is lost, as standard output was full")


@scene
def a_lazy_shell_writes_at_each_early_end():
    write("source", b"late")
    fresh()
    empty = read("d.img")

    def is_there(what):
        names = run(XNFS, "d.img", "ls", "/").stdout.split()
        want(b"late" in names, f"a lazy shell that ended as {what} lost a line that was done")
        write("d.img", empty)

    run(XNFS, "d.img", "shell", "--lazy", stdin=b"put source /late\n" + b"x" * 70000 + b"\nmkdir /d\n", status=2)
    is_there("a line was too long")
    subprocess.run(["bash", "-c", f"printf 'put source /late\\nls\\n' | {XNFS} d.img shell --lazy >&-"], capture_output=True, timeout=60, check=False)
    is_there("standard output was closed")
    subprocess.run(["bash", "-c", f"printf 'put source /late\\nls\\n' | {XNFS} d.img shell --lazy | true"], capture_output=True, timeout=60, check=False)
    is_there("nobody read standard output")
    run(XNFS, "d.img", "shell", "--lazy", stdin=b"put source /late\nput missing /x\n", status=1)
    is_there("a line failed")
    run(XNFS, "d.img", "shell", "--lazy", stdin=b"put source /late\n--help\n")
    is_there("help was asked for")


@scene
def a_line_of_a_shell_is_on_the_disk_once_it_has_answered():
    fresh()
    write("source", b"bytes")
    lines = ["put source /a", "mkdir /d", "mv /a /d", "chmod 600 /d/a", "ln /d/a /b", "truncate -s 3 /b"]
    shell = subprocess.Popen([XNFS, "d.img", "shell"], stdin=subprocess.PIPE, stdout=subprocess.PIPE)
    for line in lines:
        shell.stdin.write(f"{line}\npwd\n".encode())
        shell.stdin.flush()
        want(shell.stdout.readline() == b"/\n", f"{line} is not answered")
        shutil.copy("d.img", "copy.img")
    shell.kill()
    shell.communicate(timeout=60)
    for name in ("d.img", "copy.img"):
        run(XNFS, name, "sync", status=0)
        told = run(XNFS, name, "cat", "/b", "/d/a").stdout, run(XNFS, name, "stat", "/b").stdout
        want(told[0] == b"bytbyt" and b"mode: 0600" in told[1], f"lines of a shell that have answered are lost by a kill: {told}")


@scene
def a_moved_and_removed_file_is_whole_or_gone():
    big = os.urandom(40000)
    fresh(big=big)

    def check(count):
        listed = run(XNFS, "copy.img", "ls", "/").stdout.split() + run(XNFS, "copy.img", "ls", "/n").stdout.split()
        if b"big" in listed:
            whole(big, ["/big", "/n/big"], count)

    stopped("d.img", ["mkdir /n", "mv /big /n", "rm /n/big"], 12, check)


@scene
def a_file_that_is_moved_and_removed_is_never_emptied():
    fresh()
    big = os.urandom(40000)
    write("source", big)
    run(XNFS, "d.img", "put", "source", "/big", status=0)

    def check(count):
        for path in ("/big", "/n/big"):
            got = run(XNFS, "copy.img", "cat", path)
            want(got.stdout == big or b"no such file" in got.stderr, f"stopped after {count} writes: {path} has other bytes: {got.stderr[:80]!r}")

    stopped("d.img", ["mkdir /n", "mv /big /n", "rm /n/big"], 14, check)


@scene
def a_file_moved_into_a_new_folder_is_not_lost():
    crowded()
    stopped("d.img", ["mkdir /n", "mv /s /n"], 14, lambda count: whole(b"small bytes", ["/s", "/n/s"], count))


@scene
def a_file_moved_into_an_old_folder_is_not_lost():
    crowded()
    stopped("d.img", ["mkdir /z/q", "mv /s /z"], 14, lambda count: whole(b"small bytes", ["/s", "/z/s"], count))


def leaks_nothing(count):
    """Of a copy that was stopped: once it is opened again, all that is in use has a name."""
    told = checked("copy.img")
    want(told["damage"] == [], f"stopped after {count} writes: {told}")
    run(XNFS, "copy.img", "check", "--repair", status=0)
    told = checked("copy.img")
    named = {it["number"] for it in json.loads(run(XNFS, "copy.img", "ls", "-aR", "--json", "/", status=0).stdout)}
    is_whole = told["left_by_a_crash"] == [] and told["files"] + told["folders"] + told["symbolic_links"] == len(named)
    want(is_whole, f"stopped after {count} writes: {told}, and names lead to {len(named)}")


@scene
def folders_made_at_once_leak_nothing():
    fresh(s=b"small bytes")
    stopped("d.img", ["mkdir -p /a/b/c"], 16, leaks_nothing, lazy=False)


@scene
def folders_that_a_lazy_shell_makes_leak_nothing():
    crowded()
    stopped("d.img", ["mkdir /n", "mkdir /n/m", "mkdir /n/m/o", "mv /n/m/o /"], 24, leaks_nothing)


@scene
def a_folder_that_was_emptied_and_removed_leaks_nothing():
    fresh()
    write("source", b"x")
    run(XNFS, "d.img", "shell", stdin=b"mkdir /d\nput source /d/x\n", status=0)
    stopped("d.img", ["rm /d/x", "rmdir /d"], 12, leaks_nothing)


@scene
def a_name_stands_once_after_each_stop():
    fresh()
    write("source", b"x")
    run(XNFS, "d.img", "shell", stdin="".join(f"put source /f{i}\n" for i in range(22)).encode() + b"mkdir /fill\n", status=0)

    def check(count):
        names = [it.rstrip(b"/") for it in run(XNFS, "copy.img", "ls", "/").stdout.splitlines()]
        want(len(names) == len(set(names)), f"stopped after {count} writes: a name stands twice: {names}")
        leaks_nothing(count)

    stopped("d.img", ["mkdir /q", "rm /f17", "rm /f3", "mkdir /f17", "mv /q /f3"], 24, check)


@scene
def what_a_stop_leaves_is_good():
    fresh(blocks=700)
    write("small", b"x" * 600)
    write("source", b"x" * 40000)
    run(XNFS, "d.img", "shell", stdin="".join(f"put small /f{i}\n" for i in range(15)).encode() + b"mkdir /t\nmkdir /d\nput source /d/x\n", status=0)
    for words in (["mv", "/d/x", "/t"], ["mv", "/d", "/t"], ["put", "source", "/t/y"], ["rm", "/d/x"], ["rmdir", "/t"], ["mkdir", "/d/e"], ["rm", "-r", "/d"]):
        for count in range(24):
            shutil.copy("d.img", "copy.img")
            run(XNFS, "copy.img", "--stop", count, *words)
            told = checked("copy.img")
            want(told["is_sound"], f"{words[0]} stopped after {count} writes leaves a volume that is told damaged: {told}")
            for looked in (["ls", "/"], ["tree"], ["df"], ["get", "/", "out"]):
                done = run(XNFS, "copy.img", *looked)
                is_told = done.returncode == 1 and b"two names" in done.stderr and words[0] == "mv"
                want(done.returncode == 0 or is_told, f"{looked[0]} of what {words} stopped after {count} writes leaves: {done.stderr!r}")
            run(XNFS, "copy.img", "put", "source", "/new", status=0)
            leaks_nothing(count)
            shutil.rmtree("out")


@scene
def a_stop_of_mv_leaves_one_name_or_both():
    fresh()
    write("source", b"moved")
    run(XNFS, "d.img", "shell", stdin=b"mkdir /a\nmkdir /b\nput source /a/f\n", status=0)
    seen = 0
    for count in range(16):
        shutil.copy("d.img", "copy.img")
        run(XNFS, "copy.img", "--stop", count, "mv", "/a/f", "/b/f")
        run(XNFS, "copy.img", "sync", status=0)
        got = {path: run(XNFS, "copy.img", "cat", path) for path in ("/a/f", "/b/f")}
        names = [path for path, done in got.items() if done.returncode == 0]
        want(names and all(got[path].stdout == b"moved" for path in names), f"stopped after {count} writes: {names}")
        want(b"links: %d\n" % len(names) in run(XNFS, "copy.img", "stat", names[0]).stdout, f"stopped after {count} writes: other links than names")
        if len(names) == 2:
            seen += 1
            run(XNFS, "copy.img", "rm", "/a/f", status=0)
            want(run(XNFS, "copy.img", "cat", "/b/f", status=0).stdout == b"moved", "rm of one name of a file loses it")
        leaks_nothing(count)
    want(seen > 0, "no stop left both names")


@scene
def a_stop_of_mv_of_a_folder_leaves_one_name():
    fresh()
    write("source", b"x")
    run(XNFS, "d.img", "shell", stdin=b"mkdir /top\nmkdir /to\nmkdir /top/d\nput source /top/d/f\nmkdir /top/d/in\n", status=0)
    seen = 0
    for count in range(16):
        shutil.copy("d.img", "copy.img")
        run(XNFS, "copy.img", "--stop", count, "mv", "/top/d", "/to/e")
        seen += b"two names" in run(XNFS, "copy.img", "tree").stderr
        for first in range(8):
            shutil.copy("copy.img", "again.img")
            run(XNFS, "again.img", "--stop", first, "sync")
            run(XNFS, "again.img", "sync", status=0)
            found = [run(XNFS, "again.img", "tree", path).stdout for path in ("/top/d", "/to/e")]
            want(sorted(found) == [b"", b"f\nin/\n"], f"stopped after {count} writes, and mending after {first}: {found}")
        run(XNFS, "copy.img", "rm", "-r", "/top", status=0)
        moved = run(XNFS, "copy.img", "tree", "/to").stdout
        want(moved in (b"", b"e/\n  f\n  in/\n"), f"stopped after {count} writes: rm -r of the old folder leaves of the moved one {moved}")
        leaks_nothing(count)
    want(seen > 0, "no stop left both names")


@scene
def a_file_with_two_names_is_whole_or_gone():
    fresh()
    big = os.urandom(40000)
    write("source", big)
    run(XNFS, "d.img", "shell", stdin=b"mkdir /a\nmkdir /b\nput source /b/f\nln /b/f /a/f\n", status=0)

    def check(count):
        for path in ("/a/f", "/b/f"):
            got = run(XNFS, "copy.img", "cat", path)
            want(got.stdout == big or b"no such file" in got.stderr, f"stopped after {count} writes: {path} has other bytes: {got.stderr[:80]!r}")
        leaks_nothing(count)

    stopped("d.img", ["mkdir /a/q", "rm /a/f", "rm /b/f"], 24, check)


@scene
def a_name_is_never_lost_between_ln_and_rm():
    fresh(a=b"small bytes")
    stopped("d.img", ["ln /a /b", "rm /a", "mkdir /d", "ln /b /d/c", "rm /b"], 30, lambda count: whole(b"small bytes", ["/a", "/b", "/d/c"], count))


@scene
def what_takes_the_place_of_a_file_is_whole():
    old, new = os.urandom(30000), os.urandom(50000)
    fresh(blocks=1024, a=old)
    write("source", new)
    for lines in (["put source /a"], ["put source /b", "mv /b /a"], ["put source /b", "cp /b /a"]):

        def check(count):
            got = run(XNFS, "copy.img", "cat", "/a").stdout
            want(got in (old, new), f"{lines} stopped after {count} writes: {len(got)} bytes that are neither the old nor the new ones")

        stopped("d.img", lines, 130, check)


@scene
def a_copy_with_holes_has_its_name_once_it_is_whole():
    with open("holes", "wb") as file:
        file.write(b"begin")
        file.truncate(100_000)
        file.seek(100_000)
        file.write(b"end")
    fresh(a=b"old")

    def check(count):
        got = run(XNFS, "copy.img", "cat", "/a").stdout
        want(got in (b"old", read("holes")), f"stopped after {count} writes: {len(got)} bytes")

    stopped("d.img", ["put holes /a"], 30, check, lazy=False)
    run(XNFS, "d.img", "put", "holes", "/holes", status=0)
    stopped("d.img", ["cp /holes /a"], 30, check, lazy=False)


@scene
def a_file_that_is_cut_and_grows_has_zeros():
    old = os.urandom(30000)
    fresh(a=old)
    seen = [old, old[:700], old[:700] + bytes(25000 - 700)]

    def check(count):
        run(XNFS, "copy.img", "sync", status=0)
        got = run(XNFS, "copy.img", "cat", "/a").stdout
        want(got in seen, f"stopped after {count} writes: {len(got)} bytes that the file never had")
        run(XNFS, "copy.img", "truncate", "-s", 30000, "/a", status=0)
        want(run(XNFS, "copy.img", "cat", "/a").stdout == got.ljust(30000, b"\0"), f"stopped after {count} writes: bytes that were cut off are seen again")

    stopped("d.img", ["truncate -s 700 /a", "truncate -s 25000 /a"], 24, check)


@scene
def a_full_disk_is_stopped_and_mended():
    """On a disk without a free block a put over a file and a cut are stopped: what is there stays, and the next opening mends without room."""
    fresh(blocks=128, a=os.urandom(9000), b=os.urandom(15000))
    write("source", os.urandom(28000))
    run(XNFS, "d.img", "put", "source", "/c", status=0)
    for number in range(40):
        if run(XNFS, "d.img", "mkdir", f"/d{number}").returncode:
            break
    write("source", os.urandom(12000))
    kept = {path: run(XNFS, "d.img", "cat", path).stdout for path in ("/a", "/b", "/c")}
    for words in (["put", "source", "/a"], ["mkdir", "/more"], ["truncate", "-s", 600, "/b"], ["rm", "/c"], ["mv", "/a", "/d0"], ["cp", "-r", "/d0", "/d1"]):
        for count in range(12):
            shutil.copy("d.img", "copy.img")
            run(XNFS, "copy.img", "--stop", count, *words)
            leaks_nothing(count)
            got = {path: run(XNFS, "copy.img", "cat", path).stdout for path in kept}
            for path in set(kept) - {words[-1], words[1]}:
                want(got[path] == kept[path], f"{words} stopped after {count} writes: {path} has other bytes")


@scene
def a_file_with_trees_of_all_heights_is_cut():
    places = [0, 5_000, 60_000, 5_000_000, 900_000_000, 1_100_000_000]
    with open("source", "wb") as file:
        for place in places:
            file.seek(place)
            file.write(b"mark")
    run(XNFS, "format", "d.img", 512, status=0)
    run(XNFS, "d.img", "put", "source", "/a", status=0)
    whole_size = places[-1] + 4

    def seen():
        run(XNFS, "copy.img", "get", "/a", "got", status=0)
        with open("got", "rb") as file:
            size, found = os.fstat(file.fileno()).st_size, []
            for place in places:
                file.seek(place)
                found += [place] * (file.read(4) == b"mark")
        return size, found

    for size in (0, 384, 5_002, 60_004, 5_000_000, 900_000_004, 2_000_000_000):
        for count in range(40):
            shutil.copy("d.img", "copy.img")
            ended = run(XNFS, "copy.img", "--stop", count, "truncate", "-s", size, "/a")
            leaks_nothing(count)
            got, wanted = seen(), [(it, [place for place in places if place + 4 <= it]) for it in (whole_size, size)]
            want(got in wanted, f"cut to {size}, stopped after {count} writes: {got}")
            if ended.returncode == 0:
                break
        run(XNFS, "copy.img", "truncate", "-s", whole_size, "/a", status=0)
        want(seen() == (whole_size, [place for place in places if place + 4 <= size]), f"cut to {size} and grown again: {seen()}")
        run(XNFS, "copy.img", "rm", "/a", status=0)
        left = run(XNFS, "copy.img", "df").stdout
        want(b"blocks free: 507 of 512" in left, f"what is left of a file that was cut to {size} and removed: {left!r}")
