"""Names, inodes and records of volumes that no program of ours wrote."""

import os
import random
import shutil
import struct

from trials.scenes.room import XNFS, XNSIM, fresh, read, run, scene, want, write
from trials.tree_volumes import BLOCK, CONTENT, FILE, FOLDER, LINKS, SIZE, TreeVolume

# The numbers of the file and of the folder that `volume` puts.
GOOD, INSIDE = 2, 3
# No file is longer.
GREATEST = 134_251_159_552


def volume():
    """A disk with a file and a folder, of which what stands where is known."""
    if os.path.exists("d.img"):
        os.remove("d.img")
    fresh(good=b"hello\n")
    run(XNFS, "d.img", "mkdir", "/inside", status=0)
    return TreeVolume(read("d.img"), random.Random(1))


def crafted(names):
    """A disk whose top folder has these names, all of one file; the store's own check finds nothing wrong with it."""
    made = volume()
    records = b"".join(struct.pack("<IB", GOOD, len(name)) + name for name in names)
    at = BLOCK * made.inodes[1] + CONTENT
    made.image[at : BLOCK * made.inodes[1] + BLOCK] = records.ljust(BLOCK - CONTENT, b"\0")
    made.field(GOOD, "<I", LINKS, len(names))
    write("d.img", made.image)
    run(XNSIM, "check", "d.img", status=0)


@scene
def get_stays_within_its_target():
    for name in (b"../escaped", b"a/../../up", os.getcwd().encode() + b"/absolute", b".", b"..", b"with\0nul"):
        crafted([name, b"plain"])
        os.makedirs("below/target")
        run(XNFS, "d.img", "get", "/", "below/target/out")
        found = {os.path.join(at, it) for at, _, names in os.walk(".") for it in names}
        outside = {it for it in found if not it.startswith("./below/target/out/")} - {"./d.img", "./source"}
        want(not outside, f"a name {name!r} was written outside of the target: {sorted(outside)}")
        want(run(XNFS, "d.img", "check").returncode == 1, f"check says that a disk with a name {name!r} is sound")
        shutil.rmtree("below")


@scene
def names_are_printed_without_control_bytes():
    crafted([b"\x1b]0;owned\x07\x1b[2J", b"c\nd  fake"])
    for words in (("ls",), ("ls", "-l"), ("ls", "--json"), ("tree",), ("find",), ("du",), ("stat", "/nothing"), ("get", "/", "out"), ("check",)):
        out = run(XNFS, "d.img", *words)
        want(b"\x1b" not in out.stdout + out.stderr and b"\nd  fake" not in out.stdout, f"{words[0]} prints control bytes of a name raw")


@scene
def names_that_are_no_text_are_shown_and_brought_out_escaped():
    crafted([b"\xff\xfe", b"plain", b"back\\slash", b"\xc2\x9b1m"])
    want(run(XNFS, "d.img", "check").returncode == 0, "names that are no text are told damaged")
    listed = run(XNFS, "d.img", "ls", "/", status=0).stdout
    want(listed.splitlines() == [b"back\\\\slash", b"plain", b"\\xc2\\x9b1m", b"\\xff\\xfe"], f"names are shown as {listed!r}")
    done = run(XNFS, "d.img", "get", "/", "out", status=1)
    want(sorted(os.listdir("out")) == sorted(["plain", "back\\slash", "\\xff\\xfe", "\\xc2\\x9b1m"]), f"get of the folder makes {os.listdir('out')}")
    want(b"\\xff\\xfe" in done.stderr and b"\xff" not in done.stderr, f"what is escaped is told as {done.stderr!r}")


@scene
def two_names_that_are_brought_out_as_one_are_both_kept():
    fresh()
    for name, data in (("\x1b", b"escaped"), ("\\x1b", b"alike"), ("\\x1b\\1", b"numbered")):
        write(name, data)
        run(XNFS, "d.img", "put", name, "/", status=0)
    told = run(XNFS, "d.img", "get", "/", "out", status=1).stderr
    got = {name: read(os.path.join("out", name)) for name in os.listdir("out")}
    wanted = {"\\x1b\\2": b"escaped", "\\x1b": b"alike", "\\x1b\\1": b"numbered"}
    want(got == wanted and told.count(b"\n") == 1, f"get of a folder with a name that is escaped and two that read like that makes {got}, and tells {told!r}")


def leads_to_nothing(made):
    made.add_record(1, b"gone", 77)


def leads_to_the_top(made):
    made.add_record(INSIDE, b"top", 1)


def leads_above(made):
    made.add_record(INSIDE, b"loop", INSIDE)


def twice(made):
    made.add_record(1, b"good", GOOD)
    made.field(GOOD, "<I", LINKS, 2)


def folder_with_two_names(made):
    made.add_record(1, b"other", INSIDE)
    made.field(INSIDE, "<I", LINKS, 2)


def fewer_links_than_names(made):
    made.add_record(1, b"other", GOOD)


def of_mode_zero(made):
    made.field(INSIDE, "<H", 2, 0)


def longer_than_any(made):
    made.field(GOOD, "<Q", SIZE, 2**63)


@scene
def a_volume_that_is_damaged_is_told():
    for make in (leads_to_nothing, twice, fewer_links_than_names, of_mode_zero, leads_to_the_top, leads_above, folder_with_two_names, longer_than_any):
        made = volume()
        make(made)
        write("d.img", made.image)
        run(XNSIM, "check", "d.img", status=0)
        told = run(XNFS, "d.img", "check")
        is_told = told.returncode == 1 and told.stdout.startswith(b"damage: ") or b"left by a crash" in told.stdout
        want(is_told, f"check of a volume with {make.__name__} tells {told.stdout[:100]!r}, status {told.returncode}")
        for words in (["ls", "-lR"], ["tree"], ["find"], ["du"], ["get", "/inside", "out"]):
            want(run(XNFS, "d.img", *words).returncode in (0, 1), f"{words[0]} of a volume with {make.__name__}")
        want(read("d.img") == made.image, f"a word that looks changes a volume with {make.__name__}")


@scene
def sizes_up_to_the_greatest_are_good():
    for size, is_good in ((GREATEST, True), (GREATEST + 1, False), (2**63, False), (2**64 - 1, False)):
        made = volume()
        made.field(GOOD, "<Q", SIZE, size)
        write("d.img", made.image)
        told = run(XNFS, "d.img", "check")
        want((told.returncode == 0) == is_good, f"check of a file of {size} bytes: status {told.returncode}, {told.stdout[:100]!r}")
        repaired = run(XNFS, "d.img", "check", "--repair")
        want((repaired.returncode == 0) == is_good, f"check --repair of a file of {size} bytes: status {repaired.returncode}, {repaired.stdout[:100]!r}")
        want(is_good or read("d.img") == made.image, f"a volume with a file of {size} bytes was changed, though that can't be mended")


@scene
def a_volume_that_is_damaged_is_not_changed_silently():
    for make in (leads_to_nothing, twice, fewer_links_than_names, of_mode_zero):
        for clean in (0, 1):
            made = volume()
            make(made)
            made.image[BLOCK * made.root + CONTENT + 24] = clean
            write("d.img", made.image)
            done = run(XNFS, "d.img", "mkdir", "/new")
            want(done.stderr, f"mkdir on a volume with {make.__name__}, closed {clean}: status {done.returncode}, and nothing is told")


@scene
def check_repairs_what_it_tells_to_be_mended():
    for make in (folder_with_two_names, leads_above, fewer_links_than_names, leads_to_nothing):
        made = volume()
        make(made)
        write("d.img", made.image)
        run(XNFS, "d.img", "check", "--repair")
        told = run(XNFS, "d.img", "check")
        is_whole = told.returncode == 0 and b"left" not in told.stdout
        want(is_whole, f"check --repair of a volume with {make.__name__}, which was closed, leaves: {told.stdout[:150]!r}")


def without_a_name(made, is_closed):
    """Takes the name of the file away, so that its inode has none."""
    at = next(it for it in made.records(1) if made.word(it) == GOOD)
    behind = at + 5 + made.image[at + 4]
    end = BLOCK * made.inodes[1] + BLOCK
    made.image[at:end] = made.image[behind:end].ljust(end - at, b"\0")
    made.image[BLOCK * made.root + CONTENT + 24] = is_closed


@scene
def repair_frees_nothing_that_no_crash_left():
    """An inode without a name of a volume that was closed, or that is damaged besides, may be what a lost name led to."""
    for is_closed, make in ((1, None), (1, leads_to_nothing), (0, leads_to_nothing)):
        made = volume()
        without_a_name(made, is_closed)
        if make:
            make(made)
        write("d.img", made.image)
        run(XNSIM, "check", "d.img", status=0)
        done = run(XNFS, "d.img", "check", "--repair", status=1)
        what = f"check --repair of a volume that was {'closed' if is_closed else 'left by a crash'}, with an inode without a name{' and damage' * bool(make)}"
        want(read("d.img") == made.image, f"{what} changes it: {done.stdout!r}")
        want(done.stderr.count(b"\n") == 1, f"{what} tells {done.stderr!r}")


@scene
def damage_that_stays_is_not_mended_in_part():
    """Where one thing can't be mended a repair leaves also what could be."""
    for is_closed in (0, 1):
        made = volume()
        longer_than_any(made)
        leads_to_nothing(made)
        made.image[BLOCK * made.root + CONTENT + 24] = is_closed
        write("d.img", made.image)
        run(XNSIM, "check", "d.img", status=0)
        done = run(XNFS, "d.img", "check", "--repair", status=1)
        want(read("d.img") == made.image, f"check --repair of a volume with a size past the greatest mends other damage: {done.stdout!r}")


@scene
def repair_frees_what_a_crash_left_without_a_name():
    made = volume()
    without_a_name(made, 0)
    write("d.img", made.image)
    run(XNFS, "d.img", "check", "--repair", status=0)
    told = run(XNFS, "d.img", "check", status=0).stdout
    want(told.startswith(b"sound: 0 files, 1 folders"), f"check after the repair tells {told!r}")


@scene
def a_top_folder_that_is_none_is_told():
    for mode, links in ((0, 1), (FILE | 0o644, 1), (FOLDER | 0o755, 0)):
        made = volume()
        made.field(1, "<H", 2, mode)
        made.field(1, "<I", LINKS, links)
        write("d.img", made.image)
        told = run(XNFS, "d.img", "check", status=1)
        want(b"number 1 is no folder" in told.stdout, f"a top folder of mode {mode:o} and {links} links: {told.stdout!r}")
        for words in (["ls", "/"], ["put", "source", "/x"], ["mkdir", "/x"], ["get", "/", "out"]):
            done = run(XNFS, "d.img", *words, status=1)
            want(done.stderr.count(b"\n") == 1, f"{words[0]} tells {done.stderr[:200]!r}")


@scene
def a_volume_without_its_mark_is_refused():
    made = volume()
    made.image[BLOCK * made.root + CONTENT] ^= 1
    write("d.img", made.image)
    before = read("d.img")
    for words in (["ls"], ["put", "source", "/x"], ["check", "--repair"]):
        done = run(XNFS, "d.img", *words, status=1)
        want(done.stderr.count(b"\n") == 1 and read("d.img") == before, f"{words[0]} of a volume without its mark: {done.stderr!r}")


@scene
def a_volume_of_the_first_file_system_is_read_and_not_changed():
    run(XNSIM, "format", "d.img", 64, "--ffs", status=0)
    image = bytearray(read("d.img"))
    struct.pack_into("<II", image, 72, 5, 3)
    struct.pack_into("<I", image, BLOCK * 5, 4)
    struct.pack_into("<HHII", image, BLOCK * 4, 2, 1, BLOCK, 6)
    struct.pack_into("<HHII", image, BLOCK * 4 + 64, 1, 1, 6, 7)
    struct.pack_into("<HBB8s", image, BLOCK * 6, 2, 5, 0, b"hello")
    image[BLOCK * 7 : BLOCK * 7 + 6] = b"bytes\n"
    write("d.img", image)
    run(XNSIM, "check", "d.img", status=0)
    read_out = run(XNFS, "d.img", "ls").stdout, run(XNFS, "d.img", "cat", "/hello").stdout
    want(read_out == (b"hello\n", b"bytes\n"), f"a volume of the first file system is not read: {read_out}")
    run(XNFS, "d.img", "get", "/", "out")
    want(read("out/hello") == b"bytes\n", "a volume of the first file system is not brought out")
    write("source", b"x")
    for words in (["put", "source", "/x"], ["mkdir", "/x"], ["rm", "/hello"], ["check", "--repair"], ["shell"]):
        done = run(XNFS, "d.img", *words, status=1)
        want(read("d.img") == image and done.stderr.count(b"\n") == 1, f"{words[0]} of a volume of the first file system: {done.stderr!r}")
