"""Stops runs of `xnsim` before each of their block writes, and compares what they leave with the second implementation.

Takes the scripts of the transcripts, and SCRIPTS random ones (2,000). Each is run with `--stop K`, with and without `--lose`, for K from 0 until
no write is left to stop at. What is printed and the image are compared with `bench/reference_store.py`; then
the image is checked, mounted, and each block that it reaches is read. Scripts are run side by side, one on each processor.
"""

import itertools
import tempfile
from concurrent.futures import ProcessPoolExecutor

from trials.programs import read, write
from trials.scripts import answers_of, program_runs, random_runs, reference, transcripts
from trials.tally import Tally


def is_stopped(replies):
    return replies[-1:] == ["stopped"]


def left_by(image, script, stop, lose):
    """The replies that are right for a run, and the image that it leaves."""
    store = reference.Store(image, stop)
    replies = reference.run(store, script)
    blocks = store.settled if lose and is_stopped(replies) else store.image
    return replies, b"".join(blocks)


def reading(image):
    """A script that reads each block that file systems reach."""
    living = reference.Store(image).living()
    reads = [f"read {life.fs} {b}" for b, life in living if life.fs is not None]
    return "\n".join([*reads, "floor 0"]).encode()


def differences(folder, image, script, stop, lose):
    """What a stopped run does otherwise than the second implementation; whether it was stopped."""
    replies, left = left_by(image, script, stop, lose)
    write(folder, "disk", image)
    write(folder, "script", script)
    words = ["run", "disk", "script", "--stop", str(stop), *["--lose"] * lose]
    wrong = []
    if program_runs(words, folder) != answers_of(replies):
        wrong.append("replies")
    if read(folder, "disk") != left:
        wrong.append("image")
    reached, free = reference.check(left)
    if program_runs(["check", "disk"], folder) != answers_of([f"reached {len(reached)} free {len(free)}"]):
        wrong.append("check")
    write(folder, "reads", reading(left))
    if program_runs(["run", "disk", "reads"], folder) != answers_of(reference.run(reference.Store(left), reading(left))):
        wrong.append("reads")
    return wrong, is_stopped(replies)


def stopped_runs(run):
    """Stops a run at each write: how many times that was, and what went wrong in them."""
    (image, script), done, wrong = run, 0, []
    with tempfile.TemporaryDirectory() as folder:
        for lose in (False, True):
            for stop in itertools.count():
                found, goes_on = differences(folder, image, script, stop, lose)
                done += 1
                if found:
                    wrong.append(f"--stop {stop}{' --lose' * lose}: {', '.join(found)}\n{script.decode()}")
                if not goes_on:
                    break
    return done, wrong


def play(count=2000):
    tally = Tally()
    with ProcessPoolExecutor() as pool:
        for kind, runs in (("random", random_runs(count)), ("transcripts", transcripts())):
            for number, (done, wrong) in enumerate(pool.map(stopped_runs, runs, chunksize=4)):
                tally.count("scripts")
                tally.count("stopped runs", done)
                for what in wrong:
                    tally.fault(kind, number, what)
    return tally
