#!/usr/bin/env python3
"""Prints what `trace HOOK BATCH CAPTURE` and `trace JOB REPORT` are to write: a twin of the rules in
docs/FORMATS.md and docs/DEFINITIONS.md, which shares nothing with the program or with tools/.

    python3 cases/tracing.py HOOK BATCH CAPTURE
    python3 cases/tracing.py JOB REPORT

The second shape tells the same of a lawful report, and its lines have more words, the point of a visit and the
edit that took a filter. Of a report it reads in which order lines were applied, and which worker and points
each packet has; all else of its text follows, and it ends with 1 where the report says otherwise. Inputs are
taken to be well formed. The walk stands in Walk; states, lines and frames are in device_states.py,
batch_edits.py and frame_values.py.
"""
import struct
import sys
from collections import Counter
from collections.abc import Callable, Iterable, Iterator
from dataclasses import dataclass, field
from itertools import pairwise

from batch_edits import ALL, BadWord, Params, class_text, commands, edit_of
from device_states import Filter, Refused, State, Table, protocol_text, step
from frame_values import ether_type, frame_text, masked_text, tags, values_of

VISITS, RESTARTS, JUMPS, GROWTH, LONGEST = 65_536, 16, 31, 64, 262_144
Read = Callable[[str], bytes]
# What is visited: the head, or a mask or an action with its serial. By that, and by the points before it, the
# point of a visit is chosen.
Thing = tuple[str, int]
Choose = Callable[[Thing, list[int]], int]


class Spent(Exception):
    """A visit is needed and all were made, or a restart and none is left."""


@dataclass
class Run:
    """What was applied and walked so far. State k stands behind k edits; each has its control and line."""

    states: list[State] = field(default_factory=lambda: [State()])
    origins: list[tuple[int, int]] = field(default_factory=lambda: [(0, 0)])
    matches: Counter[int] = field(default_factory=Counter)
    packets: Counter[int] = field(default_factory=Counter)
    bytes: Counter[int] = field(default_factory=Counter)
    ends: Counter[str] = field(default_factory=Counter)

    def apply(self, words: list[str], control: int, line: int) -> tuple[bool, str]:
        """Whether the line is accepted, and the event's line."""
        edits = len(self.states)
        try:
            state, done = step(self.states[-1], edit_of(words), edits)
        except (Refused, BadWord) as why:
            self.ends["refused"] += 1
            reason = f"Syntax {why}" if isinstance(why, BadWord) else str(why)
            return False, f"refused {edits - 1} control {control} line {line} {reason}"
        self.states.append(state)
        self.origins.append((control, line))
        return True, f"edit {edits} control {control} line {line} {done}"

    def origin(self, edit: int) -> str:
        return "edit {} control {} line {}".format(edit, *self.origins[edit])

    def decided(self, brought: Filter, gone: str = "") -> str:
        times, protocol = self.matches[brought.edit], protocol_text(brought.protocol)
        place = f"{brought.hook} chain {brought.chain} pref {brought.pref} protocol {protocol}"
        return f"decided {times} {self.origin(brought.edit)} {place} handle {brought.handle:#x}{gone}"

    def last_lines(self) -> Iterator[str]:
        """Counters of all actions that were ever made, and the sum of all."""
        made = {it.serial: it for state in self.states for it in state.actions.values()}
        for serial, its in sorted(made.items()):
            counts = f"packets {self.packets[serial]} bytes {self.bytes[serial]}"
            yield f"counter serial {serial} {its.kind} index {its.index} {counts}"
        edits, ends = len(self.states) - 1, self.ends
        packets = f"packets {ends['pass'] + ends['drop']} passed {ends['pass']} dropped {ends['drop']}"
        yield f"summary edits {edits} refused {ends['refused']} {packets}"
        yield "end"


class Walk:
    """A packet's walk at a hook: each visit is answered by the state of the next point."""

    def __init__(self, run: Run, hook: str, number: int, frame: bytes, choose: Choose, behind: str) -> None:
        self.run, self.hook, self.number, self.choose, self.behind = run, hook, number, choose, behind
        self.frame, self.came = frame, len(frame)
        self.meta = {"priority": 0, "mark": 0, "queue_mapping": 0}
        self.points: list[int] = []
        self.lines: list[str] = []
        self.fields_told = ""
        self.verdict = self.verdict_of()

    def say(self, what: str) -> None:
        self.lines.append(f"at {self.number} {what}")

    def need_visit(self) -> None:
        if len(self.points) == VISITS:
            raise Spent

    def visit(self, thing: Thing) -> State:
        """The state that answers the next visit."""
        self.need_visit()
        self.points.append(self.choose(thing, self.points))
        return self.run.states[self.points[-1]]

    def say_visit(self, what: str) -> None:
        self.say(f"visit {len(self.points)} {what}{self.behind.format(self.points[-1])}")

    # ---- the walk

    def verdict_of(self) -> str:
        try:
            state = self.visit(("head", 0))
            tables = state.tables(self.hook)
            self.say_visit(f"head {self.hook} tables {len(tables)}")
            chain = 0
            for left in range(RESTARTS, -1, -1):
                control, number = self.through((table, masks) for table, masks in tables if table[0] == chain)
                if control not in ("reclassify", "goto"):
                    return "drop" if control == "drop" else "pass"
                if not left:
                    raise Spent
                chain = number or 0
                self.say(f"restart chain {chain} left {left - 1}")
            raise AssertionError
        except Spent:
            self.say("spent")
            return "drop"

    def through(self, tables: Iterable[Table]) -> tuple[str, int | None]:
        """How the tables of a chain end: with the first control that isn't `continue`, if one comes."""
        for (chain, pref, protocol), masks in tables:
            if protocol in (ALL, ether_type(self.frame)):
                self.need_visit()
                self.say(f"table chain {chain} pref {pref} protocol {protocol_text(protocol)}")
                met = next(filter(None, map(self.look_up, masks)), None)
                control = self.list_end(met.actions) if met else ("continue", None)
                if control[0] != "continue":
                    return control
        return "continue", None

    def look_up(self, mask: int) -> Filter | None:
        """The filter of a mask that the frame meets."""
        values = values_of(self.frame)
        if frame_text(self.frame) != self.fields_told:
            self.say(f"fields {frame_text(self.frame)}")
        self.fields_told = frame_text(self.frame)
        here = self.visit(("mask", mask)).of_mask(mask)
        masks = next(iter(here.values())).masks
        key = tuple(values[name] & mask for name, mask in masks)
        under = masked_text(self.frame, masks)
        if found := here.get(key):
            self.run.matches[found.edit] += 1
            self.say_visit(f"match{under} handle {found.handle:#x} {self.run.origin(found.edit)}")
            return found
        self.say_visit(f"miss{under}")
        return None

    def list_end(self, serials: tuple[int, ...]) -> tuple[str, int | None]:
        """How a list of actions ends: with `ok` if it is empty, and by a jump out of it or the 32nd jump."""
        place, jumps = 0, JUMPS
        while place < len(serials):
            control, number = self.execute(place, serials)
            if control == "pipe":
                place += 1
            elif control != "jump":
                return control, number
            elif jumps and number in range(1, len(serials)):
                place, jumps = number, jumps - 1
            else:
                return "ok", None
        return ("pipe" if serials else "ok"), None

    def execute(self, place: int, serials: tuple[int, ...]) -> tuple[str, int | None]:
        """The control of an action, which is counted with the frame's length before it."""
        action = self.visit(("action", serials[place])).actions[serials[place]]
        before = len(self.frame)
        self.run.packets[action.serial] += 1
        self.run.bytes[action.serial] += before
        has_room = self.act(action.params)
        told = "" if has_room else " no room"
        told += f" length {len(self.frame)}" if len(self.frame) != before else ""
        what = f"{action.params.text()} index {action.index}{told} {self.run.origin(action.edit)}"
        self.say_visit(f"run {place} of {len(serials)} serial {action.serial} {what}")
        return (action.params.control, action.params.number) if has_room else ("drop", None)

    def act(self, params: Params) -> bool:
        """What an action does to the frame and its metadata; whether a push found room."""
        frame, values = self.frame, params.values
        if params.kind == "skbedit":
            self.meta |= values
        elif params.verb == "push" and len(frame) >= 14:
            if len(frame) + 4 > min(self.came + GROWTH, LONGEST):
                return False
            control = values["priority"] << 13 | values["id"]
            self.frame = frame[:12] + struct.pack(">HH", values["protocol"], control) + frame[12:]
        elif params.verb == "pop" and tags(frame):
            self.frame = frame[:12] + frame[16:]
        elif params.verb == "modify" and tags(frame):
            old = struct.unpack_from(">H", frame, 14)[0]
            kept = old & 0xF000 if "priority" not in values else old & 0x1000 | values["priority"] << 13
            self.frame = frame[:12] + struct.pack(">HH", values["protocol"], kept | values["id"]) + frame[16:]
        return True

    # ---- its text

    def end(self) -> str:
        """Verdict, length and, where one isn't 0, metadata."""
        text = f"{self.verdict} length {len(self.frame)}"
        priority, mark, queue = self.meta.values()
        told = f" priority {class_text(priority)} mark {mark} queue {queue}"
        return text + (told if priority or mark or queue else "")


def frames_of(capture: bytes) -> Iterator[bytes]:
    order = "<" if capture[:4] in (bytes.fromhex("d4c3b2a1"), bytes.fromhex("4d3cb2a1")) else ">"
    at = 24
    while at < len(capture):
        length = struct.unpack_from(order + "I", capture, at + 8)[0]
        yield capture[at + 16 : at + 16 + length]
        at += 16 + length


def walk_lines(run: Run, hook: str, capture: bytes) -> Iterator[str]:
    """Each packet of a capture over the last state."""
    for number, frame in enumerate(frames_of(capture), 1):
        walk = Walk(run, hook, number, frame, lambda *_: len(run.states) - 1, "")
        run.ends[walk.verdict] += 1
        yield from walk.lines
        yield f"packet {number} {walk.end()}"


def hook_trace(hook: str, batch: bytes, capture: bytes) -> Iterator[str]:
    """The lines of `trace HOOK BATCH CAPTURE`."""
    run = Run()
    for line, words in commands(batch).items():
        accepted, event = run.apply(words, 1, line)
        if not accepted:
            yield event
            break
    yield from walk_lines(run, hook, capture)
    for its in sorted(run.states[-1].filters, key=lambda it: it.edit):
        if its.hook == hook:
            yield run.decided(its)
    yield from run.last_lines()


@dataclass
class Round:
    """The commands of each control's batch by their lines, and the hook and frames of the capture."""

    batches: dict[int, dict[int, list[str]]] = field(default_factory=dict)
    hook: str = ""
    frames: list[bytes] = field(default_factory=list)


def rounds_of(job: bytes, read: Read) -> list[Round]:
    rounds: list[Round] = []
    for words in commands(job).values():
        if words[0] == "round":
            rounds.append(Round())
        elif words[0] == "batch":
            rounds[-1].batches[int(words[1])] = commands(read(words[2]))
        elif words[0] == "capture":
            rounds[-1].hook, rounds[-1].frames = words[1], [*frames_of(read(words[2]))]
    return rounds


def packet_lines(run: Run, its: Round, words: list[str]) -> Iterator[str]:
    """A packet with the worker and at the points that its line in a report tells."""
    number, worker = int(words[1]), words[3]
    points = [int(it) for it in words[words.index("points") + 1 :]]
    walk = Walk(run, its.hook, number, its.frames[number - 1], lambda _, made: points[len(made)], " point {}")
    run.ends[walk.verdict] += 1
    yield from walk.lines
    yield f"packet {number} worker {worker} {walk.end()} points {' '.join(map(str, walk.points))}"


def brought_lines(run: Run) -> Iterator[str]:
    """Each filter that an edit brought, and which edit took or replaced it."""
    brought: list[Filter] = []
    gone: dict[int, str] = {}
    for edit, (before, after) in enumerate(pairwise(run.states), 1):
        brought += [it for it in after.filters if it.edit == edit]
        left = {it.edit for it in before.filters} - {it.edit for it in after.filters}
        gone |= {it: f" gone {edit}" for it in left}
    for its in brought:
        yield run.decided(its, gone.get(its.edit, ""))


def report_trace(job: bytes, report: list[str], read: Read) -> Iterator[str]:
    """The lines of a lawful report, with what its packets met between them."""
    run, rounds, now = Run(), iter(rounds_of(job, read)), Round()
    for line in report:
        words = line.split(" ")
        if words[0] in ("edit", "refused"):
            control, number = int(words[3]), int(words[5])
            yield run.apply(now.batches[control][number], control, number)[1]
        elif words[0] == "packet":
            yield from packet_lines(run, now, words)
        elif words[0] in ("counter", "summary"):
            break
        else:
            now = next(rounds) if words[0] == "round" else now
            yield line
    yield from brought_lines(run)
    yield from run.last_lines()


def plain_lines(lines: list[str]) -> list[str]:
    """The lines without those that only a trace has."""
    return [it for it in lines if not it.startswith(("at ", "decided "))]


def content(name: str) -> bytes:
    with open(name, "rb") as file:
        return file.read()


def main(words: list[str]) -> None:
    if len(words) == 3:
        lines = [*hook_trace(words[0], content(words[1]), content(words[2]))]
    else:
        report = content(words[1]).decode().splitlines()
        lines = [*report_trace(content(words[0]), report, content)]
        if plain_lines(lines) != report:
            sys.exit("tracing: the report isn't lawful")
    sys.stdout.write("".join(f"{it}\n" for it in lines))


if __name__ == "__main__":
    main(sys.argv[1:])
