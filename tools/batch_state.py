"""What stands after each accepted line of a batch, as far as a tool has to know it: tables, filters, actions.

The program alone judges lines. This follows those that it accepted, by the rules of docs/FORMATS.md: which
pref, handle and index a line gets, which actions it makes, binds and lets go. Its test holds the filters and
actions that it comes to against the text of `show`. Not kept: serials, the order of filters.
"""
from collections import Counter
from collections.abc import Iterator
from dataclasses import dataclass, field

from batch_lines import Action, Request

Name = tuple[str, int]
Mask = frozenset[tuple[str, int]]
FIRST_PREF = 49152


@dataclass
class Filter:
    """A filter: which bits it looks at, the actions that it names, and the line that put it."""

    mask: Mask
    actions: list[Name]
    request: Request


@dataclass
class Table:
    """The filters of a chain and pref, by handle, and how many of them have each mask, the oldest mask first."""

    protocol: int | None
    filters: dict[int, Filter] = field(default_factory=dict)
    masks: Counter[Mask] = field(default_factory=Counter)

    def put(self, handle: int, filter: Filter) -> None:
        """Puts a filter, also in another's place. A mask that both have keeps its age."""
        old = self.filters.get(handle)
        self.filters[handle] = filter
        self.masks[filter.mask] += 1
        if old:
            self.masks -= Counter([old.mask])

    def take(self, handle: int) -> Filter:
        """Takes a filter out."""
        filter = self.filters.pop(handle)
        self.masks -= Counter([filter.mask])
        return filter


@dataclass
class Standing:
    """An action that stands: as a line wrote it, the hook and line where that was, and who holds it."""

    action: Action
    hook: str
    own: bool
    binds: int = 0
    line: int = 0


@dataclass
class Change:
    """What a line did: which actions its own ones name, which of them it made, and what filters let go."""

    taken: list[Name] = field(default_factory=list)
    made: set[int] = field(default_factory=set)
    let_go: list[Name] = field(default_factory=list)
    gone: list[Name] = field(default_factory=list)


def mask_of(request: Request) -> Mask:
    """The bits that the fields of a line look at. A field whose mask is 0 leaves no trace."""
    family = {it.name: "6" * (":" in it.value) for it in request.fields if it.name.endswith("_ip")}
    return frozenset((it.name + family.get(it.name, ""), it.mask) for it in request.fields if it.mask)


class State:
    """The state that accepted lines leave, one after the other."""

    def __init__(self) -> None:
        self.hooked = False
        self.chains: dict[tuple[str, int], dict[int, Table]] = {}
        self.actions: dict[Name, Standing] = {}

    def tables(self, request: Request) -> dict[int, Table]:
        return self.chains.setdefault((request.hook, request.chain), {})

    def table(self, request: Request) -> Table | None:
        return self.tables(request).get(request.pref)

    def filter(self, request: Request) -> Filter | None:
        table = self.table(request)
        return table.filters.get(request.handle) if table else None

    def filters(self) -> Iterator[tuple[str, int, int, int]]:
        """Hook, chain, pref and handle of each filter."""
        for (hook, chain), tables in self.chains.items():
            for pref, table in tables.items():
                yield from ((hook, chain, pref, handle) for handle in table.filters)

    def apply(self, request: Request) -> Change:
        """Does what an accepted line asks for."""
        change = Change()
        if request.sort == "qdisc":
            self.hooked = request.verb == "add"
        elif request.sort == "actions":
            self.apply_action(request, change)
        elif request.verb == "del":
            self.delete(request, change)
        else:
            self.put(request, change)
        return change

    def apply_action(self, request: Request, change: Change) -> None:
        action = request.actions[0]
        name = (action.kind, action.index or self.free_index(action.kind))
        change.taken.append(name)
        if request.verb == "del":
            del self.actions[name]
            change.gone.append(name)
        elif name in self.actions:
            self.actions[name].action, self.actions[name].line = action, request.line
        else:
            self.actions[name] = Standing(action, "", True, line=request.line)
            change.made.add(0)

    def free_index(self, kind: str) -> int:
        """The lowest index that no action of the kind has."""
        index = 1
        while (kind, index) in self.actions:
            index += 1
        return index

    def put(self, request: Request, change: Change) -> None:
        """Adds a filter, or puts it in the place of the one with its handle."""
        tables = self.tables(request)
        request.pref = request.pref or min(tables, default=FIRST_PREF + 1) - 1
        table = tables.setdefault(request.pref, Table(request.protocol))
        request.handle = request.handle or free_handle(table)
        for place, action in enumerate(request.actions):
            self.bind(request, action, place, change)
        old = [table.filters[it] for it in (request.handle,) if it in table.filters]
        table.put(request.handle, Filter(mask_of(request), change.taken, request))
        self.unbind(old, change)

    def bind(self, request: Request, action: Action, place: int, change: Change) -> None:
        name = (action.kind, action.index or self.free_index(action.kind))
        if name not in self.actions:
            self.actions[name] = Standing(action, request.hook, False, line=request.line)
            change.made.add(place)
        self.actions[name].binds += 1
        change.taken.append(name)

    def delete(self, request: Request, change: Change) -> None:
        """Deletes a filter, or all of a table, and the table with its last one."""
        tables = self.tables(request)
        table = tables[request.pref]
        handles = [request.handle] if request.handle else list(table.filters)
        self.unbind([table.take(it) for it in handles], change)
        if not table.filters:
            del tables[request.pref]

    def unbind(self, filters: list[Filter], change: Change) -> None:
        for name in (it for filter in filters for it in filter.actions):
            standing = self.actions[name]
            standing.binds -= 1
            change.let_go.append(name)
            if not standing.binds and not standing.own:
                del self.actions[name]
                change.gone.append(name)


def free_handle(table: Table) -> int:
    handle = 1
    while handle in table.filters:
        handle += 1
    return handle
