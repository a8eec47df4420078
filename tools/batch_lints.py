"""What a batch surely has no use for, line by line: the table of warnings in docs/FORMATS.md.

Each lint is told only where it holds for every frame, by the rules of a walk: a chain is always entered at its
lowest pref, a table's masks are tried from the oldest on, and only `continue` goes on to the next table. Lints
of rules are about what stands behind the batch's last line, so they are for batches of which no line was
refused. What isn't promised: that a rule without a lint can match.
"""
from collections.abc import Iterator
from dataclasses import dataclass, field
from ipaddress import IPv4Address, IPv6Address

from batch_lines import Field, Line, Request
from batch_state import Filter, Name, State, Table

DECIMAL = "A protocol's number in decimal"
UNDER_MASK = "Bits under a mask"
NEVER = "A rule that can't match"
NO_WAY = "A chain that nothing goes to"
NO_TABLE = "A goto to a chain without a table"
UNBOUND = "An action bound by nothing"
SLOTS = {name: 128 * place for place, name in enumerate(
    ["dst_mac", "src_mac", "vlan_id", "cvlan_id", "vlan_prio", "cvlan_prio", "vlan_ethtype", "cvlan_ethtype", "ip_proto",
     "src_ip", "dst_ip", "src_ip6", "dst_ip6", "src_port", "dst_port", "tcp_flags", "ip_tos", "ip_ttl"])}


@dataclass(frozen=True)
class Lint:
    """A warning of a line: its name, what is so, and the words from one on and up to another (0: all)."""

    line: int
    name: str
    what: str
    first: int = 0
    behind: int = 0


@dataclass(frozen=True)
class Rule:
    """A filter as a walk meets it: the bits that it looks at, those that are set, and how it ends."""

    request: Request
    mask: int
    value: int
    goes_on: bool
    changes: bool


@dataclass
class Place:
    """A mask of a table, with its rules by their values, and the rules of older masks that go on to the next table."""

    table: int
    protocol: int | None
    mask: int
    rules: dict[int, Rule] = field(default_factory=dict)
    leaks: list[Rule] = field(default_factory=list)


def slot_of(it: Field) -> int:
    return SLOTS[it.name + "6" if it.name.endswith("_ip") and ":" in it.value else it.name]


def words_linted(line: Line, request: Request) -> Iterator[Lint]:
    """The lints that the words of a good line tell by themselves."""
    for it in request.fields:
        if it.name == "ip_proto" and it.value.isdigit() and int(it.value) > 9:
            number = int(it.value, 16)
            what = f"`{it.value}` is 0x{it.value}, that is {number}; {it.value} in decimal is `0x{int(it.value):x}`"
            yield Lint(line.number, DECIMAL, what, it.at, it.at + 1)
        if it.bits and it.number & ~it.bits:
            yield Lint(line.number, UNDER_MASK, f"only {masked_text(it)} counts", it.at, it.at + 1)


def masked_text(it: Field) -> str:
    """A field's value without the bits that its mask leaves out, as a line may have it."""
    number, mask = it.number & it.bits, it.value.partition("/")[2]
    if it.name.endswith("_mac"):
        value = number.to_bytes(6, "big").hex(":")
    elif it.name.endswith("_ip"):
        value = address_text(number, ":" in it.value)
    else:
        value = str(number) if it.name == "ip_ttl" else f"0x{number:x}"
    return f"`{value}/{mask}`"


def address_text(number: int, is_long: bool) -> str:
    return str(IPv6Address(number) if is_long else IPv4Address(number))


def rule_of(filter: Filter, state: State) -> Rule:
    mask = value = 0
    for it in filter.request.fields:
        mask |= it.bits << slot_of(it)
        value |= (it.number & it.bits) << slot_of(it)
    actions = [state.actions[name].action for name in filter.actions]
    goes_on = any(it.control == "continue" for it in actions)
    return Rule(filter.request, mask, value, goes_on, goes_on and any(it.kind == "vlan" for it in actions))


def places_of(tables: dict[int, Table], state: State) -> list[Place]:
    """The masks of a chain in the order in which a walk tries them."""
    places = list[Place]()
    for pref, table in sorted(tables.items()):
        own = {mask: Place(pref, table.protocol, 0) for mask in table.masks}
        for filter in table.filters.values():
            rule, place = rule_of(filter, state), own[filter.mask]
            place.mask = rule.mask
            place.rules[rule.value] = rule
        leaks = list[Rule]()
        for place in own.values():
            place.leaks = list(leaks)
            leaks += [it for it in place.rules.values() if it.goes_on]
        places += own.values()
    return places


def wider(places: list[Place], at: int) -> list[Place]:
    """The places before one that may take all that it would: those of its table, and of tables whose frames come
    to its own unchanged."""
    own, changed, found = places[at], False, list[Place]()
    for place in reversed(places[:at]):
        if place.table != own.table:
            changed = changed or any(it.changes for it in (*place.rules.values(), *place.leaks))
        if not place.mask & ~own.mask and (place.table == own.table or not changed and place.protocol in (None, own.protocol)):
            found.append(place)
    return found[::-1]


def leaks_by(place: Place, rule: Rule) -> bool:
    """Whether a rule of an older mask may take a frame of this rule, and go on to the next table with it."""
    return any(not (it.value ^ rule.value) & it.mask & rule.mask for it in place.leaks)


def taken_by(rule: Rule, own: Place, places: list[Place]) -> Rule | None:
    """The first rule that takes each frame which this one would take, where there is one."""
    for place in places:
        found = place.rules.get(rule.value & place.mask)
        if found and (place.table == own.table or not found.goes_on and not leaks_by(place, rule)):
            return found
    return None


def taken_text(rule: Rule) -> str:
    """What a rule takes of another's frames, as it is told."""
    if rule.mask:
        return "each of its frames"
    return "all frames" if rule.request.protocol is None else "all frames of its protocol"


def never_matching(places: list[Place]) -> Iterator[Lint]:
    """The rules of a chain that can't match, each with the line that is before it."""
    for at, place in enumerate(places):
        before = wider(places, at)
        for rule in place.rules.values() if before else []:
            found = taken_by(rule, place, before)
            if found:
                yield Lint(rule.request.line, NEVER, f"line {found.request.line} takes {taken_text(found)} before it")


def goes_to(filter: Filter, state: State) -> Iterator[tuple[int, int]]:
    """Which chains a rule's actions go to, each with the action's place."""
    for place, name in enumerate(filter.actions):
        action = state.actions[name].action
        if action.control == "goto":
            yield place, action.jump


def filters_of(state: State, hook: str, chain: int) -> list[Filter]:
    return [it for table in state.chains.get((hook, chain), {}).values() for it in table.filters.values()]


def met_chains(state: State, hook: str) -> set[int]:
    """The chains of a hook to which its rules lead, from chain 0 on."""
    met, waiting = set[int](), {0}
    while waiting:
        chain = waiting.pop()
        met.add(chain)
        waiting |= {to for it in filters_of(state, hook, chain) for _, to in goes_to(it, state)} - met
    return met


def of_chains(state: State) -> Iterator[Lint]:
    """Chains that nothing goes to, and rules that go to a chain without a table."""
    met = {hook: met_chains(state, hook) for hook in ("ingress", "egress")}
    for (hook, chain), tables in state.chains.items():
        filters = filters_of(state, hook, chain)
        if filters and chain not in met[hook]:
            first = min((it.request for it in filters), key=lambda it: it.line)
            at = first.words["chain"]
            yield Lint(first.line, NO_WAY, f"chain {chain} of {hook} is entered by no rule that a walk reaches", at, at + 1)
        for it in filters:
            for place, to in goes_to(it, state):
                if not state.chains.get((hook, to)):
                    action, what = it.request.actions[place], f"its frames pass, since chain {to} of {hook} has no rule"
                    yield Lint(it.request.line, NO_TABLE, what, action.first, action.behind)


def of_actions(state: State) -> Iterator[Lint]:
    names: list[Name] = [name for name, it in state.actions.items() if not it.binds]
    for kind, index in names:
        yield Lint(state.actions[kind, index].line, UNBOUND, f"no rule names {kind} index {index}")


def rules_linted(state: State) -> Iterator[Lint]:
    """The lints of what stands behind a batch of which each line was accepted."""
    for tables in state.chains.values():
        yield from never_matching(places_of(tables, state))
    yield from of_chains(state)
    yield from of_actions(state)
