"""What no contract says of a disk in a file: that its file is locked, what of it is settled, and which of its bytes are a block's.

Some scenes play the tests of `file_disk` as they stand in the tree that the environment names as TREE, in place of this one. Their syncs are slowed, so that
threads write while one runs.
"""

import functools
import os
import re
import subprocess

from made_from import TOP
from trials.scenes.room import XNFS, fresh, read, run, scene, want

CRATE = os.path.join(os.environ.get("TREE", TOP), "crates", "file_disk")
MANY_SYNCS = "".join(f"mkdir /{name}\n" for name in "abcdefgh").encode()
PART = re.compile(r"(\d+) +(?:<\.\.\. \w+ resumed>|(\w+)\(\d+<([^>]*)>)(.*)")


def traced(calls, *words, inject=(), **more):
    """Runs a program; answers how it ended, and a line for each of these calls that begins or ends."""
    out = os.path.abspath("trace")
    injected = [word for it in inject for word in ("-e", f"inject={it}")]
    done = run("strace", "-f", "--seccomp-bpf", "-qq", "-y", "-s", "0", "-o", out, "-e", f"trace={calls}", *injected, *words, **more)
    return done, (read(out) or b"").decode(errors="replace").splitlines()


def failing(call, path, when, *words, error="EIO", **more):
    """Runs `xnfs` with calls of this kind failing at a path; answers how it ended, and whether it met one."""
    inject = ["-e", f"trace={call}", "-e", f"inject={call}:error={error}:when={when}"]
    done = run("strace", "-f", "-qq", "-o", "failed", "-P", os.path.abspath(path), *inject, XNFS, *words, **more)
    return done, b"(INJECTED)" in read("failed")


@functools.lru_cache(maxsize=None)
def tests():
    """What each test of the crate did, and the trace of its writes and syncs."""
    slowed = ["fdatasync:delay_exit=2000"]
    done, trace = traced("pwrite64,fsync,fdatasync", "bash", "-c", f"cd '{CRATE}' && rt try --test", inject=slowed)
    told = done.stderr.decode(errors="replace") + done.stdout.decode(errors="replace")
    did = dict(re.findall(r"^test tests::(\w+) \.\.\. (\w+)", told, re.MULTILINE))
    want(did, f"no test of file_disk was run: {told[-200:]!r}")
    return did, trace


def passes(name):
    did = tests()[0].get(name)
    want(did == "ok", f"the test {name} of file_disk: {did}")


@scene
def a_file_has_what_is_written_to_its_lanes():
    passes("keeps_what_is_written")


@scene
def a_long_file_is_read_to_its_end():
    passes("many_blocks_are_read_in_their_places")


@scene
def what_others_write_into_a_disk_is_a_fault():
    passes("what_others_write_is_a_fault")


@scene
def what_is_no_disk_is_refused_and_kept():
    passes("refuses_what_is_no_disk")


@scene
def a_disk_that_is_open_is_opened_by_nobody_else():
    passes("a_second_opener_is_refused")


@scene
def a_sync_of_a_disk_that_failed_is_for_good():
    passes("a_failed_sync_is_for_good")


@scene
def a_write_is_settled_by_a_sync_that_begins_after_it():
    """In the test in which threads write and sync in turn, a sync has begun and was good between two writes of a thread."""
    passes("many_threads_sync")
    given, written, settled, syncs, writes = {}, {}, 0, {}, 0
    for now, line in enumerate(tests()[1], 1):
        part = PART.match(line)
        if not part:
            continue
        thread, call, path, rest = part.groups()
        if call:
            given[thread] = call, path
        call, path = given.get(thread, ("", ""))
        if not path.endswith("/threads.disk"):
            continue
        begins, ends = part[2] is not None, "unfinished" not in rest
        if call == "pwrite64":
            if begins:
                writes += 1
                want(settled >= written.get(thread, 0), "a write was told to be settled by a sync that had begun before it")
            if ends:
                written[thread] = now
        else:
            if begins:
                syncs[thread] = now
            if ends and re.search(r"= 0\b", rest):
                settled = max(settled, syncs[thread])
    want(writes > 800 and settled >= max(written.values()), f"{writes} writes, and the last of them is not settled")


@scene
def a_new_disk_is_locked_before_it_is_written():
    done, _ = traced("flock", XNFS, "format", "d.img", 64, inject=["flock:error=EAGAIN:when=1"])
    want(done.returncode == 1 and b"in use" in done.stderr, f"status {done.returncode} where somebody else has the lock: {done.stderr[:80]!r}")
    want(not os.path.exists("d.img"), "what was made of it stays")


@scene
def the_name_of_a_new_disk_is_settled():
    done, met = failing("fsync", ".", "1", "format", "d.img", 64)
    want(met and done.returncode == 1, f"status {done.returncode} where the folder can't be synced: {done.stderr[:80]!r}")
    want(not os.path.exists("d.img"), "what was made of it stays")


@scene
def block_0_of_a_new_disk_is_written_last():
    calls = traced("pwrite64,fsync,fdatasync", XNFS, "format", "d.img", 64)[1]
    calls = [re.sub(r".*pwrite64.*, (\d+)\) += \d+$|.*sync\(.*", r"\1", it) for it in calls if "/d.img>" in it]
    want(calls[:4] == ["512", "", "0", ""], f"writes to these places, and syncs between them: {calls}")


@scene
def what_the_system_holds_of_a_disk_is_settled_first():
    fresh(a=b"bytes")
    for words in (("ls", "/"), ("mkdir", "/d"), ("cat", "/a")):
        done, met = failing("fsync", "d.img", "1", "d.img", *words)
        want(met and done.returncode == 1, f"{words[0]} of a disk that can't be synced: status {done.returncode}")


@scene
def no_sync_of_a_disk_is_made_up():
    for number in range(1, 100):
        fresh(f"{number}.img")
        done, met = failing("fdatasync", f"{number}.img", f"{number}+", f"{number}.img", "shell", stdin=MANY_SYNCS)
        want((done.returncode != 0) == met, f"status {done.returncode} where each sync fails from sync {number} on")
        if not met:
            want(number > len(MANY_SYNCS.splitlines()), f"{number - 1} syncs")
            return
    want(False, "a shell syncs without end")


@scene
def the_systems_reason_is_told():
    for call, error, told in (("fdatasync", "EIO", b"Input/output error"), ("pwrite64", "ENOSPC", b"No space left on device")):
        fresh(f"{call}.img")
        done, met = failing(call, f"{call}.img", "1+", f"{call}.img", "mkdir", "/d", error=error)
        want(met and done.returncode == 1 and told in done.stderr, f"{call} fails with {error}: status {done.returncode} {done.stderr[:80]!r}")
