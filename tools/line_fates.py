"""What a line of a batch brought, and what became of it by the batch's end: a filter that stands, or in words
what else.

Which line was refused, the program has to say; those before it are followed as batch_state.py does it.
"""
from collections.abc import Iterator

from batch_lines import Line, Request, lines_in, request_of
from batch_state import Filter, Name, State
from clsact_texts import Object, reason_of

VERBS = {"add": "makes", "change": "changes", "del": "takes away"}


def fate_of(data: bytes, number: int, refused: Object | None) -> Filter | list[str]:
    """The filter that the line brought and that stands, or what is so in its stead."""
    line = next((it for it in lines_in(data) if it.number == number), None)
    if not line:
        return [wordless(data, number)]
    if refused and number >= refused["line"]:
        return [refusal(number, refused)]
    requests = accepted(data, refused)
    is_filter = line.words[0].text == "filter" and line.words[1].text != "del"
    return brought(requests, number) if is_filter else done(requests, number)


def wordless(data: bytes, number: int) -> str:
    count = data.count(b"\n") + (not data.endswith(b"\n") and data != b"")
    what = "has no words" if number <= count else f"isn't there: the batch has {count}"
    return f"line {number} {what}"


def refusal(number: int, refused: Object) -> str:
    first, reason = refused["line"], reason_of(refused)
    if number == first:
        return f"line {number} was refused: {reason}"
    stands = f"line {number} stands behind line {first}"
    return f"{stands}, which was refused, so that the batch ended there: {reason}"


def accepted(data: bytes, refused: Object | None) -> Iterator[Request]:
    """What the accepted lines ask for, one after the other."""
    for line in lines_in(data):
        if refused and line.number == refused["line"]:
            return
        yield request_of(line)


def brought(requests: Iterator[Request], number: int) -> Filter | list[str]:
    """The filter of a line, or which later line took it away."""
    state, mine = State(), None
    for request in requests:
        state.apply(request)
        if request.line == number:
            mine = state.filter(request)
        elif mine and state.filter(mine.request) is not mine:
            how = "deleted it" if request.verb == "del" else "put another in its place"
            return [f"the filter of line {number} is gone: line {request.line} {how}"]
    assert mine
    return mine


def done(requests: Iterator[Request], number: int) -> list[str]:
    """What a line did that brings no filter."""
    state, told, named = State(), "", None
    for request in requests:
        is_asked = request.line == number
        let_go = filters_named(state, request) if is_asked and request.sort == "filter" else []
        change = state.apply(request)
        if is_asked:
            named = change.taken[0] if request.sort == "actions" else None
            told = f"line {number} is no filter's: it {deed(request, named, let_go)}"
    return [told, *([namers(state, named)] if named in state.actions else [])]


def filters_named(state: State, request: Request) -> list[int]:
    """The lines of the filters that a deletion names."""
    table = state.table(request)
    found = table.filters if table else {}
    return [it.request.line for handle, it in found.items() if request.handle in (0, handle)]


def deed(request: Request, named: Name | None, let_go: list[int]) -> str:
    if named:
        return f"{VERBS[request.verb]} {named[0]} index {named[1]}"
    if request.sort == "qdisc":
        return f"{VERBS[request.verb]} the qdisc"
    return f"deleted the filter{'s' * (len(let_go) > 1)} of {listed(let_go)}"


def namers(state: State, named: Name | None) -> str:
    """Which filters name an action that stands at the end."""
    tables = [table for chain in state.chains.values() for table in chain.values()]
    lines = [it.request.line for table in tables for it in table.filters.values() if named in it.actions]
    return f"filters of {listed(lines)} name it" if lines else "no filter names it"


def listed(numbers: list[int]) -> str:
    """Lines by their numbers, in order."""
    return ("line " if len(numbers) == 1 else "lines ") + " ".join(map(str, sorted(numbers)))
