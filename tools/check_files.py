"""Says of a capture, of a report or of a list of tc, each alone, what it is, what is wrong with it, and which
command goes on with it.

A capture is walked by the program through an empty batch, so what is told of its form is what `walk` would
tell. What isn't promised: that a report whose lines have their forms is one that some job has.
"""
import subprocess
import sys
from collections import Counter
from typing import BinaryIO

from clsact_texts import parts_of_text
from hints import Asked, hint_of, quoted
from program import Answer, Given, run_over, show_bytes
from progress import Progress
from tool_ends import BLOCK, Fault, shown


def walked_alone(program: str, name: str, file: BinaryIO) -> Answer:
    """The program's walk of an open capture through nothing, told under this name."""
    words = ["walk", "ingress", "/dev/null", f"/proc/self/fd/{file.fileno()}", "/dev/null"]
    answer = run_over(program, words, subprocess.PIPE, subprocess.DEVNULL, (file.fileno(),))
    return Answer(answer.number, answer.text, answer.told.replace(words[3], shown(name)))


def again(name: str) -> str:
    """A file that was given to `check`, as it is given to another command."""
    return "-" if name == "-" else quoted(name)


def check_capture_alone(given: Given, file: BinaryIO) -> int:
    """Tells how many packets a capture has, or why it can't be walked and what makes one of it that can."""
    answer = walked_alone(given.program, given.name, file)
    if answer.number:
        asked = Asked("./clsact", ["walk", "ingress", "/dev/null", given.name, "/dev/null"])
        print(answer.told, end="", file=sys.stderr)
        print(hint_of(answer.told.rstrip("\n"), asked))
    else:
        count = answer.text.split(b" packets ")[1].split(b" ")[0].decode()
        print(f"{shown(given.name)}: {count} packets; ./clsact check HOOK BATCH {again(given.name)}")
    return answer.number


def check_report(given: Given, file: BinaryIO) -> int:
    """Tells what a report has, or the trace of one, or the first line that neither has."""
    name, counts = shown(given.name), Counter[str]()
    with Progress("clsact check", "lines") as progress:
        for said in progress.upto(parts_of_text(iter(lambda: file.read(BLOCK), b""), name)):
            sort = said["type"] if isinstance(said, dict) else "packet" if isinstance(said, bytes) else "at"
            is_foreseen = isinstance(said, dict) and "kind" in said and sort == "packet"
            if (sort == "report") != (progress.count == 1) or sort not in OF_REPORT or is_foreseen:
                raise Fault(f"{name}:{progress.count}: no report has such a line here")
            counts[sort] += said.count(b"\n") if isinstance(said, bytes) else 1
    parts = ", ".join(f"{counts[sort]} {what}" for sort, what in OF_REPORT.items() if what)
    is_trace = counts["at"] + counts["decided"] > 0
    of = "a trace of the report" if is_trace else "the report"
    print(f"{name}: {of} of a run, {parts}; {judged_by(given.name, is_trace)}")
    return 0


def judged_by(name: str, is_trace: bool) -> str:
    """The command that judges a report, which is what is left of a trace without its own lines."""
    if is_trace:
        return f"grep -v -e '^at ' -e '^decided ' {again(name)} | ./clsact recheck JOB -"
    return f"./clsact recheck JOB {again(name)}"


OF_REPORT = {"report": "", "round": "rounds", "end round": "", "edit": "edits", "refused": "refused lines",
             "packet": "packets", "at": "", "decided": "", "counter": "", "summary": "", "end": ""}


def check_list(given: Given, file: BinaryIO) -> int:
    """Tells that this is what tc prints, and how a batch is made of it. The number is that of a batch like
    it."""
    name = shown(given.name)
    print(f"{name}: a list as tc -j prints it, and no batch; ./clsact import {again(given.name)} makes one")
    return show_bytes(given.program, given.name, file.read()).number
