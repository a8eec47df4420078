"""What the program foresees of packets while some lines are applied behind others, and what stands behind them.

The program is asked by its command line alone. Fates are told apart as its text tells them apart: what goes on of a
packet that passes, and nothing of one that is dropped. What isn't promised: anything of packets that aren't in the
capture.
"""
import subprocess
from dataclasses import dataclass, field
from itertools import groupby
from typing import BinaryIO

from batch_lines import Line, lines_in, request_of
from clsact_texts import Object
from program import STDIN, Answer, copy_of, run_over

Name = tuple[str, int]


@dataclass(frozen=True)
class ChangeLine:
    """A line of a change, by its number there: whether it adds, deletes or edits in place, and in which chain."""

    number: int
    text: str
    sort: str
    chain: int


Lines = tuple[ChangeLine, ...]


def step_bytes(lines: Lines) -> bytes:
    return "".join(f"{it.text}\n" for it in lines).encode("utf-8", "surrogateescape")


def written_out(line: Line, done: Object) -> ChangeLine:
    """The line with the pref that it got in the change's own order, so that it gets it in each."""
    request, texts = request_of(line), [it.text for it in line.words]
    if done["done"] == "filter" and not request.pref:
        at = texts.index("flower")
        texts[at:at] = ["pref", str(done["pref"])]
    sort = request.verb if request.verb in ("add", "del") else "edit"
    return ChangeLine(line.number, " ".join(texts), sort, request.chain)


def fate_key(words: str) -> str:
    """What tells the fates of a packet apart, of what stands behind WHEN in its line."""
    return "drop" if words.startswith("drop ") else words.partition(" points ")[0]


@dataclass
class Foreseen:
    """What is foreseen: the program's answer over these names of files, the refused lines of the batch and of the step,
    the edits of the step, the fates of each packet, those with more ways than are looked at, and the sum."""

    answer: Answer
    files: list[str]
    refused_before: list[str] = field(default_factory=list)
    refused: list[str] = field(default_factory=list)
    edits: list[str] = field(default_factory=list)
    fates: list[set[str]] = field(default_factory=list)
    open: set[int] = field(default_factory=set)
    sums: str = ""

    def take(self, line: str) -> None:
        word, _, rest = line.partition(" ")
        if word == "packet":
            self.fates.append(set())
            if rest.endswith(" more"):
                self.open.add(len(self.fates))
        elif word == "fate":
            self.fates[-1].add(fate_key(rest.split(" ", 2)[2]))
        elif word == "foreseen":
            self.sums = rest
        elif word == "change":
            self.refused_before, self.refused = self.refused, []
        elif word in ("refused", "edit"):
            (self.refused if word == "refused" else self.edits).append(line)


@dataclass(frozen=True)
class Asked:
    """The files of a change, with the program to ask. The batch is whole."""

    program: str
    hook: str
    batch: bytes
    capture: BinaryIO

    def behind(self, lines: Lines) -> bytes:
        """The batch with these lines behind it."""
        return self.batch + b"\n" + step_bytes(lines)

    def foresee(self, before: Lines, step: bytes) -> Foreseen:
        """What is foreseen while a step is applied behind the batch and these lines."""
        with copy_of([self.behind(before)]) as batch, copy_of([step]) as change:
            files = (batch.fileno(), change.fileno(), self.capture.fileno())
            names = [f"/proc/self/fd/{it}" for it in files]
            words = ["foresee", self.hook, *names]
            its = Foreseen(run_over(self.program, words, subprocess.PIPE, subprocess.DEVNULL, files), names)
        for line in its.answer.text.decode("ascii").splitlines():
            its.take(line)
        return its

    def state(self, lines: Lines) -> list[Object]:
        """What stands behind the batch and these lines."""
        with copy_of([self.behind(lines)]) as batch:
            answer = run_over(self.program, ["show", STDIN], subprocess.PIPE, batch.fileno(), ())
        return list(answer.objects)


def named_in(data: bytes) -> set[Name]:
    """The actions that lines of a batch name by kind and index, and the filters to which they give a handle."""
    requests = [request_of(it) for it in lines_in(data)]
    actions = {(it.kind, it.index) for request in requests for it in request.actions if it.index}
    return actions | {("handle", it.handle) for it in requests if it.handle and it.verb != "del"}


def mask_words(fields: Object) -> list[str]:
    """What the fields of a filter look at, without their values."""
    return [f"{name}/{str(value).partition('/')[2]}" for name, value in fields.items()]


def same_state(objects: list[Object], named: set[Name]) -> list[object]:
    """What stands, but for serials, and for handles and indices that no line names: they go by the order of lines. Filters of
    one mask, of which a frame meets one, have no order."""
    does = {(it["kind"], it["index"]): it for it in objects if it["type"] == "action"}

    def action(name: Name) -> str:
        its = {word: value for word, value in does[name].items() if word not in ("serial", "index")}
        return f"{its} {name if name in named else ''}"

    def whole(said: Object) -> str:
        actions = [action((it["kind"], it["index"])) for it in said["actions"]]
        handle = said["handle"] if ("handle", int(said["handle"], 16)) in named else ""
        return f"{said['hook']} {said['fields']} {handle} {actions}"

    def mask(said: Object) -> list[object]:
        return [said["hook"], said["chain"], said["pref"], said["protocol"], mask_words(said["fields"])]

    filters = groupby((it for it in objects if it["type"] == "filter"), mask)
    others = [it["type"] for it in objects if it["type"] in ("qdisc", "refused")]
    return [others, sorted(map(action, does)), *((place, sorted(map(whole, its))) for place, its in filters)]
