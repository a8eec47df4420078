"""Says of a batch what is wrong with it, what it has no use for, and where Linux would do otherwise, with carets.

The program judges: it is asked to `show` the batch, and a refusal is told as `FILE:LINE:COLUMN: REFUSAL`,
with the line, carets under the bad word (under all words where the state refused it), and the cure from
docs/FORMATS.md. A batch stops at its first refused line; the lines behind it are told as a forced job would be
refused them. Columns count characters from 1. Warnings have the names of the sections of docs/LINUX.md, or of
the table in docs/FORMATS.md; they change no exit number, which is that of `show`. What isn't promised: that a
batch without warnings does the same on Linux, or that each of its rules can match.
"""
import os
from collections import Counter
from collections.abc import Callable, Iterable, Iterator
from dataclasses import dataclass, field
from typing import BinaryIO

from batch_lines import Line, lines_in, request_of, seen_text
from batch_lints import Lint, rules_linted, words_linted
from batch_state import State
from carets import picture, span
from check_capture import HOOKS, main as check_capture
from check_files import check_capture_alone, check_list, check_report
from check_job import check_job
from capture_files import PACKERS
from clsact_texts import Object, reason_of
from cures import cure_of_end, cure_of_lint, cure_of_reason, cure_of_word
from forced import refused_lines
from linux_warnings import Look, Seen, Warned, warned_before, warned_behind, warned_refused
from mends import goes_on, mended
from hints import tell as tell_fault
from input_kinds import FRONT, kind_of
from program import CANNOT_READ, Answer, CannotRead, Given, build, kept, show_bytes, take_program
from progress import Progress
from tool_ends import OneLineParser, end_with, shown

MOST = 20


def refusal(name: str, line: Line, said: Object, is_rest: bool) -> str:
    """What is told of the line that was refused, as the program's text says it; where the line before it was meant to
    go on in it, the cure is that one's."""
    is_word = said["reason"] == "Syntax"
    place = (said["word"] - 1, said["word"]) if is_word else (0, len(line.words))
    first, behind = span(line, *place)
    reason = reason_of(said)
    cure = cure_of_word(line, said["word"]) if is_word else cure_of_reason(said["reason"])
    cure = cure_of_end() if is_rest else cure
    told = f"{shown(name)}:{line.number}:{first}: {reason}\n{picture(line, first, behind)}"
    return told + (f"\ncure: {cure.cure} ({cure.why})" if cure else "")


def warning(name: str, line: Line, warned: Warned) -> str:
    """What is told of a warning."""
    first, behind = span(line, warned.first, warned.behind)
    head = f"{shown(name)}:{line.number}:{first}: warning: {warned.section} (docs/LINUX.md)"
    return f"{head}\n{picture(line, first, behind)}"


def linted(name: str, line: Line, lint: Lint) -> str:
    """What is told of a lint."""
    first, behind = span(line, lint.first, lint.behind or len(line.words))
    head = f"{shown(name)}:{line.number}:{first}: warning: {lint.name}: {lint.what} (docs/FORMATS.md)"
    cure = cure_of_lint(lint.name)
    return f"{head}\n{picture(line, first, behind)}" + (f"\ncure: {cure.cure}" if cure else "")


@dataclass
class Told:
    """What is told of a batch, with the number of the line that each part is about."""

    name: str
    parts: list[tuple[int, str]] = field(default_factory=list)
    lints: Counter[str] = field(default_factory=Counter)

    def warn(self, line: Line, warned: Iterator[Warned]) -> None:
        self.parts += [(line.number, warning(self.name, line, it)) for it in warned]

    def lint(self, line: Line, lints: Iterator[Lint]) -> None:
        """Tells lints of a line, of each name so many as may be read."""
        for it in lints:
            self.lints[it.name] += 1
            if self.lints[it.name] <= MOST:
                self.parts.append((line.number, linted(self.name, line, it)))

    def print(self) -> None:
        for _, text in sorted(self.parts, key=lambda it: it[0]):
            print(text)
        for name, count in self.lints.items():
            if count > MOST:
                print(f"{shown(self.name)}: {count - MOST} more warnings: {name} (docs/FORMATS.md)")


def warn(told: Told, lines: Iterable[Line], refused: dict[int, Object]) -> None:
    """The warnings of the lines whose words are good, and where all were accepted, those of what stands then."""
    state, seen, by_number = State(), Seen(), dict[int, Line]()
    for line in lines:
        by_number[line.number] = line
        said = refused.get(line.number)
        if said and said["reason"] == "Syntax":
            continue
        look = Look(line, request_of(line), state, seen)
        told.lint(line, words_linted(line, look.request))
        told.warn(line, warned_before(look))
        if said:
            told.warn(line, warned_refused(look, said["reason"]))
            continue
        change = state.apply(look.request)
        told.warn(line, warned_behind(look, change))
        seen.take(look.request, change)
    for lint in [] if refused else sorted(rules_linted(state), key=lambda it: it.line):
        told.lint(by_number[lint.line], iter([lint]))


def all_refused(program: str, first: Object, data: bytes) -> dict[int, Object]:
    """The refused lines by their numbers: the first, and those behind it of a forced job."""
    return {it["line"]: it for it in refused_lines(program, data)} | {first["line"]: first}


def tell_refused(told: Told, program: str, lines: list[Line], refused: dict[int, Object], most: int) -> None:
    """The first refused lines, each with its cure, and where that leaves no choice, as it would be taken."""
    chosen, by_number = sorted(refused)[:most], {it.number: it for it in lines}
    others = mended(program, [by_number[it] for it in chosen if refused[it]["reason"] == "Syntax"], refused, by_number)
    for it in chosen:
        more = f"\n{seen_lines(others[it])}" if it in others else ""
        is_rest = goes_on(by_number.get(it - 1))
        told.parts.append((it, refusal(told.name, by_number[it], refused[it], is_rest) + more))


def seen_lines(text: str) -> str:
    return "\n".join(map(seen_text, text.split("\n")))


def count_refused(refused: dict[int, Object], most: int) -> str:
    """How many lines were refused, where there is more than one."""
    if len(refused) < 2:
        return ""
    more = f", {most} of them told" if len(refused) > most else ""
    return f"{len(refused)} lines are refused{more}: the batch stops at line {min(refused)}, and a forced job goes on so\n"


def tell(given: Given, answer: Answer, data: bytes, progress: Progress) -> None:
    """Tells all of a batch that the program took as one."""
    objects, told, lines = list(answer.objects), Told(given.name), list(lines_in(data))
    first = next((it for it in objects if it["type"] == "refused"), None)
    refused = all_refused(given.program, first, data) if first else {}
    most = 1 if b"\0" in data else MOST
    if given.is_warned:
        warn(told, progress.counted(lines), refused)
    tell_refused(told, given.program, lines, refused, most)
    progress.end()
    told.print()
    if not first:
        filters, actions = (sum(it["type"] == sort for it in objects) for sort in ("filter", "action"))
        print(f"{len(lines)} lines, {filters} filters, {actions} actions")
    print(count_refused(refused, most), end="")


def check_batch(given: Given, file: BinaryIO) -> int:
    """Tells all of a batch, or of bytes that may be one."""
    data = file.read()
    answer = show_bytes(given.program, given.name, data)
    if answer.number > 1:
        tell_fault(answer.told, ["show", given.name])
    else:
        with Progress("clsact check", "lines") as progress:
            tell(given, answer, data, progress)
    return answer.number


CHECKS: dict[str, Callable[[Given, BinaryIO], int]] = {
    "libpcap": check_capture_alone, "pcapng": check_capture_alone, "job": check_job, "report": check_report,
    "list": check_list, **{packer: check_capture_alone for _, packer, _ in PACKERS},
}


def is_of_capture(words: list[str]) -> bool:
    """Whether a capture is to be checked: a hook stands first. A batch of a hook's name stands alone."""
    return len(words) > 1 and words[0] in HOOKS and not words[1].startswith("--")


def main(words: list[str]) -> int:
    if is_of_capture(words):
        return check_capture(words)
    about = """Applies a batch to an empty device, and shows which lines are refused, with their cures; or says what
        is wrong with a job, a capture or a report."""
    more = """An accepted batch is one line: how many lines have words, how many filters and actions stand
        behind them. A batch stops at its first refused line; those behind it are told as a forced job would be
        refused them. Warnings tell where Linux does otherwise, by the names of sections of docs/LINUX.md, and
        which lines are of no use, by docs/FORMATS.md. Exit numbers are those of `./clsact show`; warnings
        change none. A job, a capture or a report in the place of BATCH is known by its first bytes: all bad
        lines of a job are told, and which of its files can't be read or written; of a capture what it is, and
        what makes one of it that can be walked. With HOOK BATCH CAPTURE it says which packets of a capture lack
        what a filter looks at."""
    parser = OneLineParser(prog="./clsact check", description=about, epilog=more)
    parser.add_argument("BATCH", help="a file of tc lines, or a job, a capture, a report")
    parser.add_argument("--no-warnings", action="store_true", help="tell only what is refused")
    take_program(parser)
    given = parser.parse_args(words)
    try:
        with kept(given.BATCH) as file:
            build(given.program)
            check = CHECKS.get(kind_of(os.pread(file.fileno(), FRONT, 0)), check_batch)
            return check(Given(given.BATCH, given.program, not given.no_warnings), file)
    except CannotRead:
        tell_fault(f"cannot read {shown(given.BATCH)}\n", ["show", given.BATCH])
        return CANNOT_READ


if __name__ == "__main__":
    end_with(main)
