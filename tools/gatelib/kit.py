"""The installed kit, and copies of it for trial builds."""

import shutil
from pathlib import Path


def kit():
    """The folder of the kit."""
    path = shutil.which("rt")
    if not path:
        raise RuntimeError("there is no rt here")
    return Path(path).resolve().parent.parent


def linked(folder, to, but=()):
    """Makes a folder of links to everything in another folder, except these names."""
    to.mkdir()
    for path in folder.iterdir():
        if path.name not in but:
            (to / path.name).symlink_to(path)


def kit_for_trials(room, without=()):
    """Makes a kit of links in the folder `room`, without these files of its folder c/, and returns its folder. Its `rt try` does not
    start the prover, which only looks for reserved names and takes a third of the processor seconds of a trial build."""
    own, made = kit(), Path(room) / "kit"
    linked(own, made, ("bin", "c"))
    linked(own / "c", made / "c", without)
    # rt and its modules look for the kit in the folder above their own
    scripts = [path.name for path in (own / "bin").iterdir() if path.name == "rtlib.py" or path.read_bytes()[:2] == b"#!"]
    linked(own / "bin", made / "bin", (*scripts, "rattle"))
    for name in scripts:
        shutil.copy(own / "bin" / name, made / "bin" / name)
    (made / "bin/rattle").symlink_to(shutil.which("true"))
    return made
