"""Takes away the drafts that stopped runs of the program left in a folder: `.clsact-N.part`.

The program writes an output beside its name and moves it there once it is whole, so one that is stopped leaves
its draft. One is taken away where it is a plain file of this user, nothing was written to it for ten seconds, no
process that is seen here has it open, and the folder is none that other machines may write to. The seconds are for
a run that has closed its draft and is about to move it. What isn't promised: that none is left.
"""
import os
import re
import stat
import sys
import time
from collections.abc import Iterator

OLD = 10
SHARED = ("nfs", "cifs", "smb", "9p", "fuse", "ceph", "afs", "gfs", "ocfs", "lustre")


def drafts_in(folder: str) -> Iterator[str]:
    """This user's drafts in a folder."""
    for name in os.listdir(folder):
        path = os.path.join(folder, name)
        if re.fullmatch(r"\.clsact-[0-9]+\.part", name):
            found = os.lstat(path)
            if stat.S_ISREG(found.st_mode) and found.st_uid == os.geteuid():
                yield path


def is_shared(folder: str) -> bool:
    """Whether other machines may write there, by the file system that is mounted there, or it isn't known."""
    place, kinds = os.path.realpath(folder) + "/", dict[str, str]()
    with open("/proc/self/mountinfo", encoding="utf-8", errors="replace") as file:
        for line in file:
            front, _, behind = line.partition(" - ")
            kinds[front.split()[4].rstrip("/") + "/"] = behind.split()[0]
    found = max((it for it in kinds if place.startswith(it)), key=len, default="")
    return not found or kinds[found].startswith(SHARED)


def open_files() -> set[tuple[int, int]]:
    """Device and number of each file that a process has open which this user may look at."""
    found = set[tuple[int, int]]()
    for process in (it for it in os.listdir("/proc") if it.isdecimal()):
        try:
            descriptors = os.listdir(f"/proc/{process}/fd")
        except OSError:
            continue
        for it in descriptors:
            try:
                about = os.stat(f"/proc/{process}/fd/{it}")
            except OSError:
                continue
            found.add((about.st_dev, about.st_ino))
    return found


def sweep(folder: str) -> None:
    """Takes away the drafts of a folder that nobody writes any more."""
    drafts = list(drafts_in(folder))
    if not drafts or is_shared(folder):
        return
    held = open_files()
    for path in drafts:
        about = os.lstat(path)
        if (about.st_dev, about.st_ino) not in held and time.time() - about.st_mtime > OLD:
            os.remove(path)


def main(words: list[str]) -> int:
    """`drafts.py FOLDER ..`. Where a folder can't be looked at, the program tells of it."""
    for folder in words:
        try:
            sweep(folder)
        except OSError:
            continue
    return 0


if __name__ == "__main__":
    sys.exit(main(sys.argv[1:]))
