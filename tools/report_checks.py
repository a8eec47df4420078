"""Whether the lines of a report are ones that its job may have, line by line; what isn't is told in words.

Looked at is what shows that a report is another job's, or was changed: controls, workers, the capture of a
round, the words of an edit's line beside what the report says was done, the numbers of packets, and points
that go back. Not looked at: whether the state or the walks are so; a report that passes here may be unlawful.
"""
from collections.abc import Iterator

from batch_lines import Line, Request, request_of
from clsact_texts import Object

OF_FILTERS = ("NoPref", "ProtocolClash", "HandleTaken", "Exists", "NoSuchAction", "TablesFull", "MasksFull",
              "FiltersFull", "ActionsFull", "CountersFull")
REASONS = {
    "qdisc add": ("HookExists",),
    "qdisc del": ("NoHook", "HookInUse"),
    "filter add": ("NoHook", *OF_FILTERS),
    "filter replace": ("NoHook", *OF_FILTERS),
    "filter del": ("NoHook", "ProtocolClash", "NoSuchTable", "NoSuchFilter"),
    "actions add": ("ActionExists", "ActionsFull", "CountersFull"),
    "actions change": ("ActionsFull", "CountersFull"),
    "actions del": ("NoSuchAction", "ActionBound"),
}
DONE = {
    "qdisc add": ("hooked",),
    "qdisc del": ("unhooked",),
    "filter add": ("filter",),
    "filter replace": ("filter",),
    "actions add": ("action",),
    "actions change": ("action", "action changed"),
    "actions del": ("action gone",),
}


def request_in(line: Line) -> Request | None:
    """What a line asks for, where it is read as one of the grammar's."""
    try:
        return request_of(line)
    except (LookupError, ValueError):
        return None


def done_by(request: Request) -> tuple[str, ...]:
    """What a line of such words may have done."""
    if (request.sort, request.verb) == ("filter", "del"):
        return ("filter gone",) if request.handle else ("table gone",)
    return DONE.get(f"{request.sort} {request.verb}", ())


def given_by(request: Request, done: str) -> Iterator[tuple[str, str | int]]:
    """The names in the event that the line's words tell."""
    if done == "filter" and request.pref:
        yield "pref", request.pref
    if done == "filter" and request.handle:
        yield "handle", f"0x{request.handle:x}"
    if done == "action" and request.actions and request.actions[0].index:
        yield "index", request.actions[0].index


def edit_fault(said: Object, line: Line) -> str:
    """What of an edit can't be so by the words of its line; nothing where all may."""
    request, done = request_in(line), said["done"]
    if request is None or done not in done_by(request):
        return f"`{done}` isn't what such a line does: {line.text.strip()}"
    if done == "filter" and len(said["actions"]) != len(request.actions):
        return f"the line has {len(request.actions)} actions, and not {len(said['actions'])}"
    others = [f"{name} {due}" for name, due in given_by(request, done) if said[name] != due]
    return f"the line has {others[0]}" if others else ""


def refused_fault(said: Object, line: Line) -> str:
    """What of a refusal can't be so by the words of its line."""
    if said["reason"] == "Syntax":
        return "" if 1 <= said["word"] <= len(line.words) + 1 else f"the line has no word {said['word']}"
    request = request_in(line)
    due = REASONS.get(f"{request.sort} {request.verb}", ()) if request else ()
    told = f"no such line is refused for {said['reason']}: {line.text.strip()}"
    return "" if said["reason"] in due else told


def event_fault(said: Object, line: Line, before: int) -> str:
    """What of an event can't be so, where this was its control's last line in the round before it."""
    if line.number <= before:
        return f"line {line.number} of control {said['control']} stands behind its line {before}"
    return edit_fault(said, line) if said["type"] == "edit" else refused_fault(said, line)


def packet_fault(said: Object, due: int, workers: int, floor: int) -> str:
    """What of a packet can't be so, where so many edits were met before it by its round or its worker."""
    points = said["points"]
    if said["packet"] != due:
        return f"packet {said['packet']} stands where packet {due} is due"
    if not 1 <= said["worker"] <= workers:
        return f"the job has no worker {said['worker']}"
    if points[0] < floor:
        return f"the first point, {points[0]}, is before point {floor}, which its round or worker had met"
    if min(points) < points[0]:
        return f"point {min(points)} is before the first one, {points[0]}"
    return ""
