"""Makes packages of the program: a Debian package, and a tar file of the same for other systems.

Both have one tree, below /usr or below the folder in which the tar file is unpacked: the script, the program, the
tools with the documents that they read, manual pages and the completion for bash. The file PROVED in it says by
which kit the program is proved, and of which commit it is; the script takes the tree for an installed one by it.
The same checkout makes the same bytes, whatever the system: no other program than git and strip is asked, and
these only where they are. What isn't promised: that a program given with --program is proved, so PROVED says then
that nothing is known of it.
"""
import glob
import gzip
import io
import os
import re
import shutil
import subprocess
import sys
import tarfile
import tempfile
from dataclasses import dataclass

from program import CLSACT, run
from tool_ends import Fault, OneLineParser, end_with, shown
from version import TOP, commit, content, git, kit, number

BUILT = os.path.join(TOP, "crates", "clsact_cli", "out", "clsact_cli")
DOCUMENTS = ("CAPTURES", "FORMATS", "GLOSSARY", "LINUX", "SCALE", "SECURITY")
MACHINES = {62: "amd64", 183: "arm64"}
CONTROL = """Package: clsact
Version: {version}
Architecture: {machine}
Maintainer: the owner of Riddlesepia
Installed-Size: {size}
Depends: bash (>= 5), libc6 (>= {libc}), libgcc-s1, python3 (>= 3.10)
Section: net
Priority: optional
Description: rehearse a change of tc filter lines on a capture
 Applies batches of tc-flower lines while the packets of a capture pass, or
 before the first one, and tells what becomes of each packet. It opens no
 device and changes no kernel.
"""
COPYRIGHT = "Riddlesepia. No licence was chosen yet by its owner.\n"


@dataclass(frozen=True)
class Entry:
    """A file of the tree with its bytes, or a link to a name."""

    path: str
    data: bytes = b""
    is_run: bool = False
    link: str = ""


def read(path: str) -> bytes:
    """The bytes of a file that goes into the tree."""
    try:
        with open(path, "rb") as file:
            return file.read()
    except OSError as error:
        raise Fault(f"{shown(path)}: cannot read: {error.strerror}") from None


def packed(data: bytes) -> bytes:
    """The bytes under gzip, without a time or a name."""
    return gzip.compress(data, 9, mtime=0)


def stripped(path: str) -> bytes:
    """The program without what a debugger wants, where strip is there and knows it."""
    with tempfile.TemporaryDirectory() as room:
        out = os.path.join(room, "program")
        words = ["strip", "--strip-unneeded", "-o", out, path]
        if shutil.which("strip") and subprocess.run(words, capture_output=True, check=False).returncode == 0:
            return read(out)
    return read(path)


def machine_of(program: bytes) -> str:
    """Debian's name of the processors for which a program is."""
    number_there = int.from_bytes(program[18:20], "little")
    if program[:4] != b"\x7fELF" or number_there not in MACHINES:
        raise Fault(f"the program is none for {' or '.join(MACHINES.values())}")
    return MACHINES[number_there]


def libc_of(program: bytes) -> str:
    """The least version of the C library that has all that the program asks of it."""
    asked = [int(it) for it in re.findall(rb"GLIBC_2\.(\d+)", program)]
    return f"2.{max(asked, default=0)}"


def proof_of(given: str) -> str:
    """What is known of the program's proof: of the one that the script built, which kit proved it."""
    if given:
        return f"the program was given by hand, so nothing is known of its proof; the rest is of {commit()}, for {kit()}"
    try:
        said = subprocess.run(["rt", "version"], capture_output=True, text=True, check=False).stdout
    except OSError:
        raise Fault("the command rt of the Rattle kit isn't on the PATH, and it tells by which kit the program is proved") from None
    if kit() not in said:
        raise Fault(f"the kit on the PATH is {shown(said.strip())}, and docs/THEOREM.md has {kit()}")
    return f"proved by {kit()}, {commit()}"


def tools() -> list[Entry]:
    """The script and the tools, with the documents and pages that they read."""
    found = [Entry("lib/clsact/clsact", read(CLSACT), True), Entry("lib/clsact/VERSION", read(os.path.join(TOP, "VERSION")))]
    patterns = ["tools/*.py", "man/*.[15]", *(f"docs/{it}.md" for it in DOCUMENTS)]
    for path in sorted(it for pattern in patterns for it in glob.glob(os.path.join(glob.escape(TOP), pattern))):
        found.append(Entry(f"lib/clsact/{os.path.relpath(path, TOP)}", read(path)))
    return found


def shared() -> list[Entry]:
    """What a system looks for in folders of its own: the command's name, pages, completion and documents."""
    found = [Entry("bin/clsact", link="../lib/clsact/clsact")]
    for path in sorted(glob.glob(os.path.join(glob.escape(TOP), "man", "*.[15]"))):
        found.append(Entry(f"share/man/man{path[-1]}/{os.path.basename(path)}.gz", packed(read(path))))
    completion = read(os.path.join(TOP, "completions", "clsact.bash"))
    found.append(Entry("share/bash-completion/completions/clsact", completion))
    found.append(Entry("share/doc/clsact/copyright", COPYRIGHT.encode()))
    found.append(Entry("share/doc/clsact/changelog.gz", packed(content("CHANGELOG.md").encode())))
    found.append(Entry("share/doc/clsact/docs", link="../../../lib/clsact/docs"))
    return found


def member(name: str, time: int) -> tarfile.TarInfo:
    """The head of an entry that belongs to the system."""
    head = tarfile.TarInfo(name)
    head.mtime, head.mode, head.uname, head.gname = time, 0o755, "root", "root"
    return head


def tar_of(entries: list[Entry], front: str, time: int) -> bytes:
    """The entries below this name as a packed tar file, each folder before what is in it."""
    out, folders = io.BytesIO(), set[str]()
    with tarfile.open(fileobj=out, mode="w", format=tarfile.GNU_FORMAT) as tar:
        for entry in sorted(entries, key=lambda it: it.path):
            name = f"{front}/{entry.path}"
            parts = name.split("/")
            for folder in ["/".join(parts[:count]) for count in range(1, len(parts))]:
                if folder not in folders:
                    head = member(folder, time)
                    head.type = tarfile.DIRTYPE
                    tar.addfile(head)
                    folders.add(folder)
            add_entry(tar, entry, member(name, time))
    return packed(out.getvalue())


def add_entry(tar: tarfile.TarFile, entry: Entry, head: tarfile.TarInfo) -> None:
    """Adds a file or a link."""
    if entry.link:
        head.type, head.linkname, head.mode = tarfile.SYMTYPE, entry.link, 0o777
        tar.addfile(head)
        return
    head.size = len(entry.data)
    head.mode = 0o755 if entry.is_run else 0o644
    tar.addfile(head, io.BytesIO(entry.data))


def archive_of(members: list[tuple[str, bytes]], time: int) -> bytes:
    """An ar file, which is what a Debian package is."""
    out = b"!<arch>\n"
    for name, data in members:
        head = f"{name:<16}{time:<12}{0:<6}{0:<6}{'100644':<8}{len(data):<10}`\n"
        out += head.encode() + data + b"\n" * (len(data) % 2)
    return out


def debian_of(entries: list[Entry], program: bytes, time: int) -> bytes:
    """The Debian package of the tree."""
    size = sum(len(it.data) for it in entries) // 1024 + len(entries)
    control = CONTROL.format(version=number(), machine=machine_of(program), size=size, libc=libc_of(program))
    parts = [Entry("control", control.encode())]
    return archive_of([
        ("debian-binary", b"2.0\n"),
        ("control.tar.gz", tar_of(parts, ".", time)),
        ("data.tar.gz", tar_of(entries, "./usr", time)),
    ], time)


def put(path: str, data: bytes) -> None:
    """Writes a file, which takes the place of what stood there once it is whole."""
    part = f"{path}.part"
    try:
        with open(part, "wb") as file:
            file.write(data)
        os.replace(part, path)
    except OSError as error:
        raise Fault(f"{shown(path)}: cannot write: {error.strerror}") from None
    print(path)


def program_of(given: str) -> bytes:
    """The bytes of the given program, or of the one that the script has built, or builds now."""
    if os.path.exists(os.path.join(TOP, "PROVED")):
        raise Fault("a package is made in a checkout, and this is an installed tree")
    if not given and run(CLSACT, ["show", "/dev/null"], None).number:
        sys.exit(70)
    return stripped(given or BUILT)


def main(words: list[str]) -> int:
    about = "Makes clsact_VERSION_MACHINE.deb and clsact-VERSION-MACHINE.tar.gz in the folder OUT."
    parser = OneLineParser(prog="./clsact package", description=about)
    parser.add_argument("OUT", help="a folder that is there")
    parser.add_argument("--program", default="", metavar="FILE", help="a program that was built otherwise, and isn't known to be proved")
    given = parser.parse_args(words)
    if not os.path.isdir(given.OUT):
        raise Fault(f"{shown(given.OUT)}: no folder is there")
    program = program_of(given.program)
    proof = Entry("lib/clsact/PROVED", f"{proof_of(given.program)}\n".encode())
    entries = [Entry("lib/clsact/clsact_cli", program, True), proof, *tools(), *shared()]
    time, machine = int(git("log", "-1", "--format=%ct") or os.path.getmtime(CLSACT)), machine_of(program)
    name = f"clsact-{number()}"
    put(os.path.join(given.OUT, f"clsact_{number()}_{machine}.deb"), debian_of(entries, program, time))
    put(os.path.join(given.OUT, f"{name}-{machine}.tar.gz"), tar_of(entries, name, time))
    return 0


if __name__ == "__main__":
    end_with(main)
