"""Puts a file that a tool makes: whole in the place of what stood there, or not at all."""
import errno
import os

from tool_ends import Fault, shown


def put(name: str, content: str) -> None:
    """Writes a file beside OUT and gives it that name, so that OUT is never half-written."""
    beside = f"{os.path.realpath(name)}.{os.getpid()}.part"
    try:
        if os.path.exists(name) and not os.path.isfile(name):
            beside = name
        with open(beside, "w", encoding="utf-8") as file:
            file.write(content)
        if beside != name:
            os.replace(beside, os.path.realpath(name))
    except OSError as error:
        if beside != name and os.path.exists(beside):
            os.remove(beside)
        raise Fault(f"{shown(name)}: cannot write: {error.strerror}") from None


def hold_output(name: str) -> None:
    """That OUT is no folder and its folder is there, which is told before a long report is read."""
    folder = os.path.dirname(name) or "."
    number = errno.EISDIR if os.path.isdir(name) else 0 if os.path.isdir(folder) else errno.ENOENT
    if number:
        raise Fault(f"{shown(name)}: cannot write: {os.strerror(number)}")
