"""Says of a job what is wrong with it, all in one go: bad lines, files that can't be read or break their
form, outputs that can't be written, and batches with bad words.

The program judges: it is asked to recheck an empty report, by which it reads the job and all its files, and
runs nothing. What isn't promised: that a job of which nothing is told has no line refused by the state.
"""
import re
import subprocess
import sys
from collections.abc import Iterator
from typing import BinaryIO

from carets import picture, span
from check_files import walked_alone
from cures import cure_of_job
from file_faults import read_fault, write_fault
from forced import refused_lines
from hints import Asked, hint_of, quoted
from job_files import JobFault, JobFile, Named
from program import Answer, CannotRead, Given, kept, read_batch, run_over
from tool_ends import Fault, shown

MOST = 20
NOT_LAWFUL, CANNOT_WRITE = 7, 5


def rechecked(given: Given, file: BinaryIO) -> Answer:
    """What the program says of a job and its files."""
    words = ["recheck", f"/proc/self/fd/{file.fileno()}", "/dev/null"]
    answer = run_over(given.program, words, subprocess.PIPE, subprocess.DEVNULL, (file.fileno(),))
    return Answer(answer.number, answer.text, answer.told.replace(words[1], shown(given.name)))


def hold(name: str, told: str, faults: list[JobFault]) -> None:
    """The first fault has to be the one that the program tells, where it tells one."""
    found = re.fullmatch(re.escape(f"bad input {name} at ") + r"(\d+): (JobSyntax|TooManyRounds)\n", told)
    due = (int(found[1]), found[2]) if found else None
    if due != ((faults[0].number, faults[0].kind) if faults else None):
        raise Fault(f"{name}: the program finds another first fault than this tool, which is the tool's fault")


def told_fault(name: str, fault: JobFault) -> str:
    """A bad line, with carets and the cure."""
    cure = cure_of_job(fault)
    more = f"\ncure: {cure.cure} ({cure.why})" if cure else ""
    if not fault.line:
        return f"{name}:{fault.number}:1: {fault.kind}{more}"
    first, behind = span(fault.line, fault.at, fault.at + 1)
    return f"{name}:{fault.number}:{first}: {fault.kind}\n{picture(fault.line, first, behind)}{more}"


def told_name(name: str, named: Named, what: str) -> str:
    """What is told of a file, with carets under its name in the job."""
    first, behind = span(named.line, named.at, named.at + 1)
    return f"{name}:{named.line.number}:{first}: {what}\n{picture(named.line, first, behind)}"


def once(names: list[Named]) -> list[Named]:
    """Each file where it is named first."""
    return list({it.name: it for it in reversed(names)}.values())[::-1]


def input_fault(given: Given, named: Named, is_batch: bool) -> str:
    """What is wrong with a file that the job reads."""
    if why := read_fault(named.name):
        return f"{named.name} can't be read: {why}"
    try:
        return (batch_fault if is_batch else capture_fault)(given.program, named.name)
    except CannotRead:
        return f"{named.name} can't be read"


def batch_fault(program: str, name: str) -> str:
    """How many lines of a batch have bad words, whatever the state."""
    bad = sum(it["reason"] == "Syntax" for it in refused_lines(program, read_batch(name)))
    return f"{bad} lines of {name} have bad words: ./clsact check {quoted(name)}" if bad else ""


def capture_fault(program: str, name: str) -> str:
    """Why a capture can't be walked."""
    with kept(name) as file:
        told = walked_alone(program, name, file).told.rstrip("\n")
    return f"{told}: {hint_of(told, Asked('./clsact', ['run', name, name]))}" if told else ""


def wrong_files(given: Given, job: JobFile) -> Iterator[tuple[int, Named, str]]:
    """The files with which something is wrong: with which number `run` would end, the file, and what is
    wrong."""
    batches = {it.name for round in job.rounds for it in round.batches.values()}
    for named in once(job.inputs):
        if what := input_fault(given, named, named.name in batches):
            yield 1, named, what
    for named in once(job.outputs):
        if why := write_fault(named.name):
            yield CANNOT_WRITE, named, f"{named.name} can't be written: {why}"


def check_job(given: Given, file: BinaryIO) -> int:
    """Tells all of a job. The number is the one with which `run` would end, as far as that is seen before."""
    name, job, answer = shown(given.name), JobFile(file.read()), rechecked(given, file)
    hold(name, answer.told, job.faults)
    wrong = list(wrong_files(given, job))
    parts = [(it.number, told_fault(name, it)) for it in job.faults]
    parts += [(it.line.number, told_name(name, it, what)) for _, it, what in wrong]
    if answer.number != NOT_LAWFUL:
        print(answer.told, end="", file=sys.stderr)
    for _, text in sorted(parts, key=lambda it: it[0])[:MOST]:
        print(text)
    if len(parts) > MOST:
        print(f"{name}: {len(parts)} faults, {MOST} of them told")
    if not parts:
        print(f"{name}: {len(job.rounds)} rounds, {job.workers} workers, {job.controls} controls")
    number = max((it for it, _, _ in wrong), default=0)
    return number if answer.number == NOT_LAWFUL else answer.number
