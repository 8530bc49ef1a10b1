"""Tries what a user may meet at the edges of `xnfs` and `xnsim`: files of the system beside the disk, disks that others use, calls of a disk's file that
fail, crafted images, shells that are stopped.

A line a scene, `ok` or `wrong` with what was seen. Each scene works in a folder of its own, which is removed. It is run as root: some scenes try another
user, and a full disk.

With --bodies the wrong bodies of the table in `trials/bodies.py` are tried, or those of these names: each is planted in a copy of the tree, the programs in
which it counts are built of the code alone, and its scenes have to fail, which are ok with the programs as they are. That takes a processor minute a body.
Some scenes play the tests of `file_disk` in that copy.
"""

from trials.programs import demand

TOOLS = ("bash", "mount", "prlimit", "setpriv", "strace", "timeout")


def play(*words):
    demand(TOOLS, as_root=True)
    # Scenes find the programs that they try where they are loaded, and bodies build their own, so each is loaded where it is asked for.
    if words[:1] == ("--bodies",):
        from trials.bodies import BODIES, try_bodies

        return try_bodies(words[1:] or BODIES)
    from trials.scenes.playing import play_scenes

    return play_scenes(words)
