"""Why a file can't be read or written, or a standard output takes nothing: the system's reason, and what is
behind it.

A file is looked at by its name, and nothing is written to find out. What isn't promised: that one of which
nothing is told can be read or written, as where a quota or a limit of the shell is in the way.
"""
import errno
import fcntl
import os
import pwd
import select
import stat

from tool_ends import shown

MOST_BYTES = 4_294_967_295
STANDARD_INPUT = "/dev/stdin"
FULL_DEVICE = os.makedev(1, 7)
GONE = os.strerror(errno.ENOENT)


def user() -> str:
    """Who runs this."""
    try:
        return pwd.getpwuid(os.geteuid()).pw_name
    except KeyError:
        return f"user {os.geteuid()}"


def why_denied(name: str, what: str) -> str:
    """Whose file it is that may not be read or written."""
    try:
        owner = pwd.getpwuid(os.stat(name).st_uid).pw_name
    except (OSError, KeyError):
        owner = "another user"
    return f"{os.strerror(errno.EACCES)}: {shown(name)} belongs to {owner}, and may not be {what} by {user()}"


def why_locked(name: str) -> str:
    """Why a file or a folder may not be written: by how its disk is mounted, or by its rights."""
    is_mounted_so = os.statvfs(name).f_flag & os.ST_RDONLY
    return os.strerror(errno.EROFS) if is_mounted_so else why_denied(name, "written")


def full_fault(name: str) -> str:
    """Whether the disk is full on which a file or a folder lies."""
    return os.strerror(errno.ENOSPC) if os.statvfs(name).f_blocks and not free_in(name) else ""


def free_in(name: str) -> int:
    """How many bytes are free on the disk on which a file or a folder lies."""
    room = os.statvfs(name)
    return room.f_bavail * room.f_frsize


def last_seen(name: str) -> str:
    """The last folder on the way to a file that may be looked into."""
    folder = os.path.dirname(name) or "."
    while not os.path.exists(folder) and folder != os.path.dirname(folder):
        folder = os.path.dirname(folder) or "."
    return folder


def no_folder(name: str) -> str:
    """That the folder isn't there in which a file would be; nothing where it is."""
    folder = os.path.dirname(name) or "."
    return "" if os.path.isdir(folder) else f"{GONE}: there is no folder {shown(folder)}"


def why_missing(name: str) -> str:
    """Why there is no such file, and which name was meant, as far as letters in capitals tell."""
    if os.path.islink(name):
        return f"{GONE}: it is a link to {shown(os.readlink(name))}"
    folder, base = os.path.split(name)
    if why := no_folder(name):
        return why
    names = os.listdir(folder or ".") if os.access(folder or ".", os.R_OK) else []
    other = next((it for it in sorted(names) if it.lower() == base.lower()), "")
    place = shown(os.path.abspath(folder))
    return f"{GONE}: there is {shown(other)}" if other else f"{GONE}: no file in {place} has that name"


def read_fault(name: str) -> str:
    """Why a file can't be read; nothing where it seems that it can."""
    if not name:
        return f"{GONE}: the name is empty"
    try:
        about = os.stat(name)
    except FileNotFoundError:
        return why_missing(name) if name != STANDARD_INPUT else "it is closed, or a folder"
    except PermissionError:
        return why_denied(last_seen(name), "looked into")
    except (OSError, ValueError) as error:
        return getattr(error, "strerror", "no such name")
    if stat.S_ISDIR(about.st_mode):
        return f"{os.strerror(errno.EISDIR)}: give a file in it"
    if not os.access(name, os.R_OK):
        return why_denied(name, "read")
    if about.st_size > MOST_BYTES:
        return f"it has {about.st_size} bytes, and {MOST_BYTES} is the most: docs/SCALE.md has how to cut it"
    return ""


def write_fault(name: str) -> str:
    """Why a file can't be written; nothing where it seems that it can."""
    try:
        about = os.stat(name)
    except FileNotFoundError:
        return folder_fault(os.path.realpath(name) if os.path.islink(name) else name)
    except PermissionError:
        return why_denied(last_seen(name), "looked into")
    except (OSError, ValueError) as error:
        return getattr(error, "strerror", "no such name")
    if stat.S_ISDIR(about.st_mode):
        return f"{os.strerror(errno.EISDIR)}: give a file's name"
    if about.st_rdev == FULL_DEVICE:
        return os.strerror(errno.ENOSPC)
    if not os.access(name, os.W_OK):
        return why_locked(name)
    return full_fault(name) if stat.S_ISREG(about.st_mode) else ""


def folder_fault(name: str) -> str:
    """Why no file can be made under a name that isn't there."""
    if not name:
        return f"{GONE}: the name is empty"
    if why := no_folder(name):
        return why
    folder = os.path.dirname(name) or "."
    return full_fault(folder) if os.access(folder, os.W_OK | os.X_OK) else why_locked(folder)


def stream_fault(descriptor: int) -> str:
    """Why a standard output takes nothing; nothing where it seems that it does."""
    try:
        mode, about = fcntl.fcntl(descriptor, fcntl.F_GETFL), os.fstat(descriptor)
    except OSError as error:
        return f"{os.strerror(error.errno or 0)}: it is closed"
    if mode & os.O_ACCMODE == os.O_RDONLY:
        return f"{os.strerror(errno.EBADF)}: it is open for reading alone"
    if about.st_rdev == FULL_DEVICE:
        return os.strerror(errno.ENOSPC)
    if stat.S_ISFIFO(about.st_mode) or stat.S_ISSOCK(about.st_mode):
        return pipe_fault(descriptor, bool(mode & os.O_NONBLOCK))
    return full_fault(f"/proc/self/fd/{descriptor}") if stat.S_ISREG(about.st_mode) else ""


def pipe_fault(descriptor: int, is_quick: bool) -> str:
    """Why a pipe takes nothing."""
    poll = select.poll()
    poll.register(descriptor, select.POLLOUT)
    if any(event & (select.POLLERR | select.POLLHUP) for _, event in poll.poll(0)):
        return f"{os.strerror(errno.EPIPE)}: what read it has ended"
    return f"{os.strerror(errno.EAGAIN)}: it is a pipe that doesn't wait for its reader" if is_quick else ""
