#!/usr/bin/env python3
"""Prints what `foresee HOOK BATCH CHANGE CAPTURE [ force ]` is to write: a twin of the rules in docs/FORMATS.md
and docs/DEFINITIONS.md, which shares nothing with the program or with tools/.

    python3 cases/foreseeing.py HOOK BATCH CHANGE CAPTURE [ force ]

It doesn't search: it goes through all lists of points that a packet's walk may have, one by one, walks the
packet at each, and looks at what came of all of them. There may be very many, so it is for small changes, and
ends with 1 where a packet has more than it may try. Inputs are taken to be well formed. The walk is that of
tracing.py.
"""
import sys
from collections import Counter
from collections.abc import Iterator
from dataclasses import dataclass, field

from batch_edits import commands
from device_states import Filter, State
from frame_values import TAGS, number
from tracing import Run, Thing, Walk, content, frames_of

# How many lists of points of one packet are tried before it is given up.
MOST = 200_000
# A packet that is dropped has no bytes and no metadata. Of one that passes these are its fate.
Fate = tuple[str, bytes, tuple[int, ...]]
WHENS = ("before", "after", "both", "between", "mixed")


class TooMany(Exception):
    """A packet has more lists of points than may be tried."""


def may_answer(state: State, thing: Thing) -> bool:
    """Whether a state has what is visited: a mask that no filter has any more, or an action that went, is gone."""
    kind, serial = thing
    if kind == "mask":
        return bool(state.of_mask(serial))
    return kind == "head" or serial in state.actions


class PointWalk(Walk):
    """A walk whose points are chosen, and what each of its visits was answered."""

    def __init__(self, change: "Change", number: int, frame: bytes, points: "Points") -> None:
        self.answers: list[object] = []
        super().__init__(change.run, change.hook, number, frame, points.choose, " point {}")

    def visit(self, thing: Thing) -> State:
        state = super().visit(thing)
        if thing[0] == "head":
            self.answers.append(tuple(state.tables(self.hook)))
        elif thing[0] == "action":
            self.answers.append(repr(state.actions[thing[1]].params))
        return state

    def look_up(self, mask: int) -> Filter | None:
        found = super().look_up(mask)
        self.answers.append(found.actions if found else None)
        return found

    def fate(self) -> Fate:
        passes = self.verdict == "pass"
        return (self.verdict, self.frame, tuple(self.meta.values())) if passes else ("drop", b"", ())

    def tags(self) -> list[str]:
        """The tags of a frame that passes, outermost first."""
        frame, at, told = self.frame, 12, []
        while self.verdict == "pass" and len(frame) >= at + 6 and number(frame, at, 2) in TAGS:
            told.append(frame[at : at + 4].hex())
            at += 4
        return [f"{it[:4]}:{it[4:]}" for it in told]

    def text(self) -> str:
        """Verdict, length, tags and metadata, and the points of its visits."""
        words = self.end().split(" ")
        tags = ["tags", ",".join(self.tags())] if self.tags() else []
        return " ".join([*words[:3], *tags, *words[3:], "points", *map(str, self.points)])


class Points:
    """All lists of points of a walk, one after the other, in their order. Each visit has those that are left: no
    lower than the head's, nor than an earlier one of the same mask or action, and none at which it is gone."""

    def __init__(self, states: list[State], before: int) -> None:
        self.states, self.before = states, before
        self.chosen: list[int] = []
        self.left: list[list[int]] = []

    def begin(self) -> None:
        self.place, self.last = 0, Counter[Thing]()

    def choose(self, thing: Thing, points: list[int]) -> int:
        if self.place == len(self.chosen):
            low = max(points[0] if points else self.before, self.last[thing])
            those = [it for it in range(low, len(self.states)) if may_answer(self.states[it], thing)]
            self.chosen.append(those[0])
            self.left.append(those[1:])
        point = self.chosen[self.place]
        self.last[thing] = point
        self.place += 1
        return point

    def go_on(self) -> bool:
        """Goes to the next list, if there is one."""
        while self.left and not self.left[-1]:
            self.left.pop()
            self.chosen.pop()
        if self.left:
            self.chosen[-1] = self.left[-1].pop(0)
        return bool(self.left)


class OnePoint:
    """All visits at one point."""

    def __init__(self, point: int) -> None:
        self.point = point

    def choose(self, _: Thing, __: list[int]) -> int:
        return self.point


@dataclass
class Change:
    """What was applied: the state of each point, and the lines of both batches."""

    run: Run
    hook: str
    before: int = 0
    opening: list[str] = field(default_factory=list)
    events: list[str] = field(default_factory=list)

    @property
    def after(self) -> int:
        return len(self.run.states) - 1

    def plain(self, number: int, frame: bytes, point: int) -> PointWalk:
        return PointWalk(self, number, frame, OnePoint(point))  # type: ignore[arg-type]

    def walks(self, number: int, frame: bytes, most: int) -> Iterator[PointWalk]:
        """The walks of a packet at all lists of points."""
        points, tried = Points(self.run.states, self.before), 0
        goes = True
        while goes:
            points.begin()
            yield PointWalk(self, number, frame, points)
            tried += 1
            if tried > most:
                raise TooMany
            goes = points.go_on()


def changed(hook: str, batch: bytes, change: bytes, force: bool) -> Change:
    """Applies the batch up to its first refused line, and then the change, which may go on behind one."""
    its = Change(Run(), hook)
    apply_lines(its.run, batch, False, its.opening)
    its.before = len(its.run.states) - 1
    apply_lines(its.run, change, force, its.events)
    return its


def apply_lines(run: Run, batch: bytes, force: bool, told: list[str]) -> None:
    for line, words in commands(batch).items():
        accepted, event = run.apply(words, 1, line)
        told.append(event)
        if not accepted and not force:
            break


@dataclass
class Foreseen:
    """A packet: its kind, the number of its ways, and the first walk with each fate and when that is had."""

    kind: str
    ways: int
    fates: list[tuple[str, PointWalk]]

    def lines(self, number: int) -> Iterator[str]:
        yield f"packet {number} {self.kind} ways {self.ways}"
        for when, walk in self.fates:
            yield f"fate {number} {when} {walk.text()}"
            if when in ("between", "mixed"):
                yield from walk.lines


def when_of(fate: Fate, plain: list[Fate]) -> str:
    """When the plain walk has a fate, by those of all states of the change."""
    old, new = fate == plain[0], fate == plain[-1]
    if old or new:
        return "both" if old and new else "before" if old else "after"
    return "between" if fate in plain else "mixed"


def kind_of(whens: list[str]) -> str:
    """What the fates of a packet say of the change."""
    for kind in ("between", "mixed"):
        if kind in whens:
            return kind
    return "steady" if len(whens) == 1 else "moved"


def foreseen(change: Change, number: int, frame: bytes, most: int) -> Foreseen:
    """What can become of a packet, by its walks at all lists of points."""
    ways: set[tuple[object, ...]] = set()
    fates: dict[Fate, PointWalk] = {}
    for walk in change.walks(number, frame, most):
        ways.add(tuple(walk.answers))
        found = fates.setdefault(walk.fate(), walk)
        assert found.points <= walk.points
    plain = [change.plain(number, frame, it).fate() for it in range(change.before, change.after + 1)]
    told = [(when_of(fate, plain), walk) for fate, walk in fates.items()]
    return Foreseen(kind_of([when for when, _ in told]), len(ways), told)


def foreseen_text(hook: str, batch: bytes, change: bytes, capture: bytes, force: bool, most: int = MOST) -> Iterator[str]:
    """The lines of `foresee`."""
    its = changed(hook, batch, change, force)
    yield from (it for it in its.opening if it.startswith("refused "))
    yield f"change from {its.before} to {its.after}"
    yield from its.events
    kinds = Counter[str]()
    for number, frame in enumerate(frames_of(capture), 1):
        packet = foreseen(its, number, frame, most)
        kinds[packet.kind] += 1
        yield from packet.lines(number)
    counts = " ".join(f"{kind} {kinds[kind]}" for kind in ("steady", "moved", "between", "mixed", "open"))
    yield f"foreseen packets {kinds.total()} {counts}"
    yield "end"


def whens_told(lines: list[str]) -> list[str]:
    """When the fates of a text are had."""
    return [it.split(" ")[2] for it in lines if it.startswith("fate ")]


def main(words: list[str]) -> None:
    batch, change, capture = map(content, words[1:4])
    try:
        for line in foreseen_text(words[0], batch, change, capture, words[4:] == ["force"]):
            print(line)
    except TooMany:
        sys.exit("foreseeing: a packet has too many lists of points")


if __name__ == "__main__":
    main(sys.argv[1:])
