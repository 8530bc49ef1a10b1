"""Runs both programs where the system or another process refuses them something, and looks at their answers and at what they leave.

Output that is closed, full or read by nobody, files that may not grow, full disks, folders and files without rights, little address space, and disks that
another process has open. Each run has to end well with the right answer, or with status 1 and a line that names the fault. What `xnsim` writes is as it was
or as it is to be; of `xnfs` the disk is sound by `xnsim check`, with the files from before the line or those after it; and no other file is left. It is run
as root: rights are tried as the user nobody, and a full disk is a small one in memory.
"""

import tempfile

from trials import hostile_xnfs, hostile_xnsim
from trials.programs import demand
from trials.tally import DONE, NAMED_FAULT, Tally


def play():
    demand(["mount", "cc"], as_root=True)
    tally = Tally(DONE, NAMED_FAULT)
    for name, kinds in (("xnsim", hostile_xnsim.KINDS), ("xnfs", hostile_xnfs.KINDS)):
        for kind in kinds:
            with tempfile.TemporaryDirectory() as folder:
                tried = kind(folder).tally
            print(f"{name}, {kind.__name__}: {tried}", flush=True)
            tally.add(tried)
    return tally
