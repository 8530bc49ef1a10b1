"""Plays scenes."""

import os
import subprocess
import tempfile

from trials.programs import give_up
from trials.scenes import disk_files, images, locks, outputs, stops, streams, targets
from trials.scenes.room import Fault
from trials.tally import Tally

MODULES = (targets, outputs, streams, locks, disk_files, images, stops)
SCENES = {name: it for module in MODULES for name, it in vars(module).items() if hasattr(it, "is_scene")}


def play_scene(scene, tally):
    """Plays a scene in a folder of its own."""
    home = os.getcwd()
    with tempfile.TemporaryDirectory() as room:
        os.chdir(room)
        try:
            print(f"{scene.__name__}: {scene() or 'ok'}", flush=True)
        except (Fault, subprocess.TimeoutExpired) as fault:
            tally.fault(f"{scene.__name__}: {fault}")
        finally:
            os.chdir(home)
    tally.count("scenes")


def play_scenes(names):
    """Plays the scenes of these names, or all of them."""
    tally = Tally("scenes")
    if unknown := set(names) - set(SCENES):
        give_up(f"there is no scene {' '.join(sorted(unknown))}")
    for name in names or SCENES:
        play_scene(SCENES[name], tally)
    return tally
