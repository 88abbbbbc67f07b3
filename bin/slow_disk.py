"""A disk that is slow, or fails, for one program: bin/slow.c, which is loaded before the C library."""
import os
import shutil
import subprocess

SOURCE = os.path.join(os.path.dirname(os.path.realpath(__file__)), "slow.c")
FAILS = -1  # in the place of milliseconds: each sync fails


def slow_disk(room):
    """What a program has to be started with so that each sync of a file takes as many milliseconds more as set_sync says, in that room; None
    where there is no C compiler."""
    compiler = shutil.which("cc")
    words = [compiler, "-O2", "-fPIC", "-shared", "-o", f"{room}/slow.so", SOURCE]
    if not compiler or subprocess.run(words, capture_output=True).returncode:
        return None
    return {"LD_PRELOAD": f"{room}/slow.so", "SLOW_SYNC": f"{room}/slow", "MALLOC_ARENA_MAX": "1"}


def set_sync(room, milliseconds):
    """So slow each sync is that begins from now on. The file is replaced, so that nobody reads half a number."""
    with open(f"{room}/slow.next", "w", encoding="utf-8") as file:
        file.write(str(milliseconds))
    os.replace(f"{room}/slow.next", f"{room}/slow")
