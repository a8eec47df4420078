"""The lines of the program's texts: what each says, as an object, and the line that an object spells.

Each form of a line stands once, as a template of text_forms.py, by which it is read and spelt. An action of
`show` is two lines, its own and that of its counts.

Forms are those of docs/FORMATS.md: `walk`, `show`, `gen`, the report of a run, `trace` of a walk or of a report,
`foresee`, and what a check of a report answers. What isn't promised: that a text which has these lines is one that the program
would write.
"""
import json
import re
from collections.abc import Iterable, Iterator
from functools import lru_cache
from typing import NamedTuple

from packet_lines import N, TEXT_RUN, packets_in, pieces_of
from text_forms import CODECS, Codec, Form, Object as Object
from tool_ends import Fault

LONGEST = 1 << 20
REMEMBERED = 1 << 12
LAST = ("end", "lawful", "unlawful")
CONTROLS = ("{control}", "{control=jump} {jump}", "{control=goto} chain {chain}")
SHAPES = (
    "{kind=gact}",
    "{kind=vlan} {vlan=push} protocol {protocol} id {id} priority {priority}",
    "{kind=vlan} {vlan=pop}",
    "{kind=vlan} {vlan=modify} protocol {protocol} id {id}[ priority {priority}]",
    "{kind=skbedit}[ queue_mapping {queue_mapping}][ priority {priority:class}][ mark {mark}]",
)
COUNTS = "\ncounts {kind} index {index} serial {serial} references {references} binds {binds}"
SAID = (
    "{reason=Syntax} {word:number}",
    "{reason=ProtocolClash} {protocol}",
    "{reason=Exists} {handle}",
    "{reason=NoSuchAction} {kind} {index}",
    "{reason=ActionBound} {binds}",
    "{reason}",
)
DONE = (
    "{done=hooked}",
    "{done=unhooked}",
    "{done=filter} pref {pref} handle {handle} actions {actions:serials}",
    "{done=filter gone}",
    "{done=table gone}",
    "{done=action} index {index} serial {serial}",
    "{done=action changed}",
    "{done=action gone}",
)
ACTIONS = [f"{it} {control} index {{index}}" for it in SHAPES for control in CONTROLS]
ACTION_FORMS = [Form("", it) for it in ACTIONS]


def action_of(words: str) -> Object:
    """What the words of an action say, without a type."""
    said = next(said for form in ACTION_FORMS if (said := form.read(words)))
    return {name: value for name, value in said.items() if name != "type"}


def action_text(said: Object) -> str:
    """The words of the action that says this; none where there is no such action."""
    for form in ACTION_FORMS:
        if set(said) <= set(form.slots):
            try:
                words = form.spell(said)
            except (LookupError, TypeError, ValueError, AttributeError):
                continue
            if form.pattern.fullmatch(words) and action_of(words) == said:
                return words
    raise LookupError


CODECS["action"] = Codec("|".join(it.unnamed() for it in ACTION_FORMS), action_of, action_text)
FILTER = "filter add dev eth0 {hook} protocol {protocol} pref {pref} chain {chain} handle {handle} flower"
LEFT = "[ priority {priority:class} mark {mark} queue {queue}]"
SUMS = " packets {packets} passed {passed} dropped {dropped}"
KINDS = " steady {steady} moved {moved} between {between} mixed {mixed} open {open}"
BROUGHT = " edit {edit} control {control:number} line {line}"
POINT = "[ point {point}]"
MET = (
    "visit {number} {visit=head} {hook} tables {tables}" + POINT,
    "{what=table} chain {chain} pref {pref} protocol {protocol}",
    "{what=fields} protocol {protocol}{fields}",
    "visit {number} {visit=miss}{fields:under}" + POINT,
    "visit {number} {visit=match}{fields:under} handle {handle}" + BROUGHT + POINT,
    "visit {number} {visit=run} {position} of {length} serial {serial} {action:action}[ {room}]"
    "[ length {frame}]" + BROUGHT + POINT,
    "{what=restart} chain {chain} left {left}",
    "{what=spent}",
)
PLACE = " {hook} chain {chain} pref {pref} protocol {protocol} handle {handle}"
TEMPLATES = (
    ("qdisc", "qdisc add dev {device=eth0} {kind=clsact}"),
    *(("action", f"actions add action {it}{COUNTS}") for it in ACTIONS),
    ("filter", FILTER + "{fields}{actions:bound}"),
    *(("refused", f"refused {{refused}} control {{control:number}} line {{line}} {it}") for it in SAID),
    ("packet", "packet {packet}[ worker {worker}] {verdict} length {length}" + LEFT + "[ points {points}]"),
    ("packet", "packet {packet} {kind:foreseen} ways {ways}[ {more}]"),
    *(("at", "at {packet} " + it) for it in MET),
    ("decided", "decided {times}" + BROUGHT + PLACE + "[ gone {gone}]"),
    ("counter", "counter serial {serial} {kind} index {index} packets {packets} bytes {bytes}"),
    ("summary", "summary edits {edits} refused {refused}" + SUMS),
    ("report", "clsact report {version=1}"),
    ("round", "round {round}"),
    *(("edit", f"{BROUGHT[1:]} {it}") for it in DONE),
    ("end round", "end round {round}"),
    ("change", "change from {from} to {to}"),
    ("fate", "fate {packet} {when} {verdict} length {length}[ tags {tags}]" + LEFT + " points {points}"),
    ("foreseen", "foreseen packets {packets}" + KINDS),
    ("end", "end"),
    ("lawful", "lawful"),
    ("unlawful", "unlawful {line}"),
)
FORMS = [Form(sort, template) for sort, template in TEMPLATES]
FORMS_OF = {first: [it for it in FORMS if it.first == first] for first in {it.first for it in FORMS}}


def read_line(line: str) -> Object | None:
    """What a line says, or for an action what its two lines say; nothing where no form has it."""
    forms = FORMS_OF.get(line.split(" ", 1)[0], [])
    return next((said for form in forms if (said := form.read(line))), None)


def spell_object(said: Object) -> str | None:
    """The line that says this, or an action's two; nothing where none says it."""
    for form in FORMS:
        if form.sort == said.get("type"):
            try:
                line = form.spell(said)
            except (LookupError, TypeError, ValueError, AttributeError):
                continue
            if read_line(line) == said:
                return line
    return None


def reason_of(said: Object) -> str:
    """Why a line was refused, as the text says it behind `refused K control C line L`."""
    return (spell_object(said) or "").split(" ", 6)[-1]


AT_LINE = re.compile(f"at ({N}) ([!-~ ]+)\n".encode())
JSON_AT = re.compile(f'{{"type": "at", "packet": ({N}), (.+)}}\n'.encode())


class At(NamedTuple):
    """An `at` line of a trace: the packet's number, and what stands behind it, which many have alike."""

    packet: bytes
    rest: bytes


@lru_cache(REMEMBERED)
def at_said(rest: bytes) -> Object | None:
    """What stands behind the packet's number says; nothing where no line has it."""
    said = read_line(f"at 0 {rest.decode()}")
    return said and {name: value for name, value in said.items() if name not in ("type", "packet")}


def at_object(at: At) -> Object:
    """What the line says."""
    return {"type": "at", "packet": int(at.packet)} | (at_said(at.rest) or {})


@lru_cache(REMEMBERED)
def json_behind(rest: bytes) -> bytes:
    """The JSON behind the packet's number."""
    return json.dumps(at_said(rest)).encode()[1:]


def at_json(at: At) -> bytes:
    """The line as JSON."""
    return b'{"type": "at", "packet": %b, %b\n' % (at.packet, json_behind(at.rest))


@lru_cache(REMEMBERED)
def rest_of(behind: bytes) -> bytes:
    """What stands behind the packet's number in the line of this JSON; nothing where no line has it."""
    try:
        line = spell_object(json.loads(b'{"type": "at", "packet": 0, %b}' % behind)) or ""
    except (ValueError, RecursionError):
        return b""
    return line.removeprefix("at 0 ").encode() if line.startswith("at 0 ") else b""


def text_line(number: int, line: bytes, name: str) -> str:
    """A line of a text, whole and of ASCII, without its end."""
    if not line.endswith(b"\n"):
        raise Fault(f"{name}:{number}: the text is cut within this line")
    if not line.isascii():
        raise foreign(name, number)
    return line[:-1].decode("ascii")


def foreign(name: str, number: int) -> Fault:
    return Fault(f"{name}:{number}: no text of the program has such a line")


Run = re.Pattern[bytes]
Part = bytes | At | Object


def parts_of_text(blocks: Iterable[bytes], name: str, run: Run = TEXT_RUN) -> Iterator[tuple[int, Part]]:
    """What a text says that comes in blocks of bytes: a run of packets as it stands, a visit cut in two, each
    other line as an object, with the number of its first line. The text is held to have its last line."""
    number, ended = 0, False
    pieces = pieces_of(blocks, run, LONGEST)
    for is_run, piece in pieces:
        first = number + 1
        if is_run and not ended:
            number += piece.count(b"\n")
            yield first, piece
            continue
        if not ended and (at := AT_LINE.fullmatch(piece)) and at_said(at[2]):
            number = first
            yield first, At(at[1], at[2])
            continue
        text = text_line(first, piece, name)
        if ended:
            raise Fault(f"{name}:{first}: a line stands behind the text's end")
        if text.startswith("actions "):
            text += "\n" + text_line(first + 1, next(pieces, (False, b"\n"))[1], name)
        said = read_line(text)
        if not said:
            raise foreign(name, first)
        number = first + text.count("\n")
        yield first, said
        ended = said["type"] in LAST
    if not ended:
        raise Fault(f"{name}:{number + 1}: the text ends without `end`")


def objects_of(raw: Iterable[bytes], name: str) -> Iterator[tuple[int, Object]]:
    """What the lines of a text say, each as an object, with their numbers."""
    for number, it in parts_of_text(raw, name):
        if isinstance(it, bytes):
            yield from enumerate(packets_in(it), number)
        else:
            yield number, at_object(it) if isinstance(it, At) else it
