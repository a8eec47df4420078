"""What stands on a device, and what an edit makes of it or why it is refused.

A part of the twin in tracing.py; the rules are those of the tables of reasons in docs/FORMATS.md and of
"state, step" in docs/DEFINITIONS.md. States are never changed: each edit gives another one. Filters and
actions know the edit that brought them, by its number in the journal.
"""
from collections.abc import Iterable
from dataclasses import dataclass, field, replace
from functools import cached_property
from itertools import count, groupby

from batch_edits import ALL, ActionLine, Edit, Params
from frame_values import ether_name

HOOKS = ("ingress", "egress")
# A table by its chain, pref and protocol, and its masks.
Table = tuple[tuple[int, int, int], tuple[int, ...]]


class Refused(Exception):
    """The reason that is told of a line that isn't accepted."""


@dataclass(frozen=True)
class Action:
    serial: int
    kind: str
    index: int
    params: Params
    stands_alone: bool
    edit: int


@dataclass(frozen=True)
class Filter:
    hook: str
    chain: int
    pref: int
    protocol: int
    mask: int
    masks: tuple[tuple[str, int], ...]
    key: tuple[int, ...]
    handle: int
    actions: tuple[int, ...]
    edit: int


@dataclass(frozen=True)
class State:
    """Filters in any order, since those of a mask have different keys; live actions; how many were made."""

    hooked: bool = False
    filters: tuple[Filter, ...] = ()
    actions: dict[int, Action] = field(default_factory=dict)
    masks_made: int = 0
    actions_made: int = 0

    @cached_property
    def by_mask(self) -> dict[int, dict[tuple[int, ...], Filter]]:
        """The filters of each mask by their keys."""
        found: dict[int, dict[tuple[int, ...], Filter]] = {}
        for its in self.filters:
            found.setdefault(its.mask, {})[its.key] = its
        return found

    def of_mask(self, mask: int) -> dict[tuple[int, ...], Filter]:
        return self.by_mask.get(mask, {})

    @cached_property
    def by_hook(self) -> dict[str, list[Table]]:
        here = {hook: sorted((it for it in self.filters if it.hook == hook), key=place_of) for hook in HOOKS}
        return {hook: [(place, tuple(sorted({it.mask for it in its}))) for place, its in groupby(these, place_of)]
                for hook, these in here.items()}

    def tables(self, hook: str) -> list[Table]:
        """The tables of a hook in their order, each with its masks, of which the oldest comes first."""
        return self.by_hook[hook]

    def named(self, kind: str, index: int | None) -> Action | None:
        return next((it for it in self.actions.values() if (it.kind, it.index) == (kind, index)), None)

    def with_action(self, action: Action) -> "State":
        made = max(self.actions_made, action.serial)
        return replace(self, actions={**self.actions, action.serial: action}, actions_made=made)

    def with_filters(self, filters: Iterable[Filter]) -> "State":
        """With these filters. An action goes where it doesn't stand alone and no filter names it."""
        these = tuple(filters)
        serials = {serial for it in these for serial in it.actions}
        live = {serial: it for serial, it in self.actions.items() if it.stands_alone or serial in serials}
        return replace(self, filters=these, actions=live)


def place_of(its: Filter) -> tuple[int, int, int]:
    return its.chain, its.pref, its.protocol


def refuse(condition: object, reason: str) -> None:
    if condition:
        raise Refused(reason)


def protocol_text(protocol: int) -> str:
    return "all" if protocol == ALL else ether_name(protocol)


def lowest_unused(used: Iterable[int]) -> int:
    taken = set(used)
    return next(it for it in count(1) if it not in taken)


def with_made(state: State, line: ActionLine, stands_alone: bool, edit: int) -> tuple[State, Action]:
    """With a new action of the next serial; without an index, of the lowest that its kind doesn't use."""
    assert line.params
    index = line.index or lowest_unused(it.index for it in state.actions.values() if it.kind == line.kind)
    made = Action(state.actions_made + 1, line.kind, index, line.params, stands_alone, edit)
    return state.with_action(made), made


def with_bound(state: State, lines: Iterable[ActionLine], edit: int) -> tuple[State, tuple[int, ...]]:
    """With the actions that a filter's line makes, and its list: what stands under a name is bound."""
    serials = []
    for line in lines:
        found = state.named(line.kind, line.index)
        refuse(not found and not line.params, f"NoSuchAction {line.kind} {line.index}")
        if not found:
            state, found = with_made(state, line, False, edit)
        serials.append(found.serial)
    return state, tuple(serials)


def refuse_many_actions(after: State) -> None:
    """Both limits count what the edit makes, before anything goes."""
    refuse(len(after.actions) > 1024, "ActionsFull")
    refuse(after.actions_made > 16_384, "CountersFull")


def tables_of(state: State, hook: str) -> set[tuple[int, int]]:
    """Chain and pref of each table of a hook."""
    return {(it.chain, it.pref) for it in state.filters if it.hook == hook}


def table_of(state: State, edit: Edit, pref: int | None) -> list[Filter]:
    return [it for it in state.filters if (it.hook, it.chain, it.pref) == (edit.hook, edit.chain, pref)]


def next_pref(state: State, edit: Edit) -> int:
    """The pref of a line that has none: one below the chain's lowest."""
    lowest = min((pref for chain, pref in tables_of(state, edit.hook) if chain == edit.chain), default=49_153)
    refuse(lowest == 1, "NoPref")
    return lowest - 1


def refuse_protocol(table: list[Filter], edit: Edit) -> None:
    """A table has one protocol; a del may leave it out."""
    if table and edit.protocol not in (None, table[0].protocol):
        raise Refused(f"ProtocolClash {protocol_text(table[0].protocol)}")


def mask_of(state: State, table: list[Filter], masks: tuple[tuple[str, int], ...]) -> int:
    """The serial of the table's mask of these words, or the next one."""
    return next((it.mask for it in table if it.masks == masks), state.masks_made + 1)


def filter_put(state: State, edit: Edit, number: int) -> tuple[State, str]:
    """A filter is added, or takes the place of the one with its handle."""
    refuse(not state.hooked, "NoHook")
    pref = edit.pref or next_pref(state, edit)
    table = table_of(state, edit, pref)
    old = [it for it in table if it.handle == edit.handle]
    refuse_protocol(table, edit)
    refuse(old and edit.verb == "filter add", "HandleTaken")
    for same in (it for it in table if (it.masks, it.key) == (edit.masks, edit.key) and it not in old):
        raise Refused(f"Exists {same.handle:#x}")
    bound, serials = with_bound(state, edit.actions, number)
    mask = mask_of(state, table, edit.masks)
    refuse(not table and len(tables_of(state, edit.hook)) == 256, "TablesFull")
    refuse(mask > state.masks_made and len({it.mask for it in table}) == 16, "MasksFull")
    refuse(not old and len(state.filters) == 4096, "FiltersFull")
    refuse_many_actions(bound)
    handle = edit.handle or lowest_unused(it.handle for it in table)
    place = edit.hook, edit.chain, pref, edit.protocol
    new = Filter(*place, mask, edit.masks, edit.key, handle, serials, number)
    others = [it for it in state.filters if it not in old]
    after = replace(bound, masks_made=max(mask, state.masks_made)).with_filters([*others, new])
    return after, f"filter pref {pref} handle {handle:#x} actions {','.join(map(str, serials)) or 'none'}"


def filter_gone(state: State, edit: Edit, _: int) -> tuple[State, str]:
    """One filter goes, or all of a table."""
    refuse(not state.hooked, "NoHook")
    table = table_of(state, edit, edit.pref)
    refuse_protocol(table, edit)
    refuse(not table, "NoSuchTable")
    gone = [it for it in table if edit.handle in (None, it.handle)]
    refuse(not gone, "NoSuchFilter")
    after = state.with_filters(it for it in state.filters if it not in gone)
    return after, "filter gone" if edit.handle else "table gone"


def action_made(state: State, line: ActionLine, number: int) -> tuple[State, str]:
    after, made = with_made(state, line, True, number)
    refuse_many_actions(after)
    return after, f"action index {made.index} serial {made.serial}"


def action_added(state: State, edit: Edit, number: int) -> tuple[State, str]:
    line = edit.actions[0]
    refuse(state.named(line.kind, line.index), "ActionExists")
    return action_made(state, line, number)


def action_changed(state: State, edit: Edit, number: int) -> tuple[State, str]:
    """What stands under the name has other parameters; where nothing does, it is made."""
    line = edit.actions[0]
    found = state.named(line.kind, line.index)
    if not found:
        return action_made(state, line, number)
    return state.with_action(replace(found, params=line.params, edit=number)), "action changed"


def action_gone(state: State, edit: Edit, _: int) -> tuple[State, str]:
    line = edit.actions[0]
    found = state.named(line.kind, line.index)
    if not found:
        raise Refused(f"NoSuchAction {line.kind} {line.index}")
    binds = sum(it.actions.count(found.serial) for it in state.filters)
    refuse(binds, f"ActionBound {binds}")
    others = {serial: it for serial, it in state.actions.items() if it is not found}
    return replace(state, actions=others), "action gone"


def qdisc_added(state: State, _: Edit, __: int) -> tuple[State, str]:
    refuse(state.hooked, "HookExists")
    return replace(state, hooked=True), "hooked"


def qdisc_gone(state: State, _: Edit, __: int) -> tuple[State, str]:
    refuse(not state.hooked, "NoHook")
    refuse(state.filters, "HookInUse")
    return replace(state, hooked=False), "unhooked"


STEPS = {
    "qdisc add": qdisc_added, "qdisc del": qdisc_gone,
    "filter add": filter_put, "filter replace": filter_put, "filter del": filter_gone,
    "actions add": action_added, "actions change": action_changed, "actions del": action_gone,
}


def step(state: State, edit: Edit, number: int) -> tuple[State, str]:
    """The state behind the edit, the journal's of this number, and what is told of it; or Refused."""
    return STEPS[edit.verb](state, edit, number)
