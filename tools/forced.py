"""Which lines of a batch are refused where the batch goes on behind a refused one, as that of a forced job does.

The program is asked to `run` a job of one round with this batch alone. Both are given as open descriptors, so
no file is made and the batch isn't read again. What isn't promised: that an answer comes. Where the run ends
otherwise than with 0 or 1, as for want of memory, none is given.
"""
import io
import os
import subprocess

from clsact_texts import Object, objects_of

JOB = "clsact job 1\nworkers 1\ncontrols 1\nround\nbatch 1 /dev/fd/{} force\nend\n"


def open_bytes(data: bytes) -> int:
    """A descriptor from which these bytes can be read."""
    descriptor = os.memfd_create("forced")
    with os.fdopen(os.dup(descriptor), "wb") as file:
        file.write(data)
    os.lseek(descriptor, 0, os.SEEK_SET)
    return descriptor


def refused_lines(program: str, data: bytes) -> list[Object]:
    """What the program says of each line that a forced job is refused, in their order."""
    batch = open_bytes(data)
    job = open_bytes(JOB.format(batch).encode())
    try:
        ran = subprocess.run([program, "run", "/dev/stdin"], stdin=job, capture_output=True, check=False, pass_fds=[batch])
    finally:
        os.close(batch)
        os.close(job)
    if ran.returncode > 1:
        return []
    return [said for _, said in objects_of(io.BytesIO(ran.stdout), "the program's report") if said["type"] == "refused"]
