"""Writes the state that tc printed as a batch that makes it.

Read are the lists of `tc -j filter show dev DEV ingress` (and `egress`), of `tc -j actions ls action KIND` and of `tc
-j qdisc show`, any number of them in a file, in any order, also with `-s` and `-p`. tc doesn't print which hook a
list of filters is of: a line before it tells that, or the file's name, or else its place among the lists.

Written are the qdisc, then actions that stand by themselves, then each filter, which makes those of its actions
that nothing made before it. What has no words in a batch stands there as a comment, and is told by its place. What
isn't promised: that the kernel has this very state, since tc doesn't print all of it ("What tc doesn't print" of
docs/LINUX.md). Masks of a table are tried by age and printed by handle, so each table that has several is told.
"""
import json
import os
import re
import sys
from collections import Counter
from collections.abc import Iterator
from dataclasses import dataclass, field

from batch_lines import Field, Request, seen_text
from batch_state import Mask, mask_of
from capture_files import opened
from tc_printed import KINDS, LEFT_AWAY, Beyond, Printed, action_words, field_words, number, protocol_word
from tool_ends import Fault, OneLineParser, end_with, shown

HOOKS = ("ingress", "egress")
PARENTS = {"ffff:fff2": "ingress", "ffff:fff3": "egress"}
OLD_QDISC = "ffff:"
QUIET = ("handle", "keys", "actions", "not_in_hw")
MOST = 16
# What reading a list comes to that has another form than tc's.
OTHER_FORM = (LookupError, TypeError, ValueError, AttributeError)
Name = tuple[str, int]


@dataclass
class Listed:
    """A list that tc printed, where it stands, and what is told before it: its hook, or that it is one of actions."""

    items: list[Printed]
    where: str
    hook: str
    is_actions: bool

    def has(self, sort: str) -> bool:
        return any(sort_of(it) == sort for it in self.items)


def sort_of(item: Printed) -> str:
    """Which command prints such an item."""
    if "actions" in item or "total acts" in item:
        return "actions"
    if "pref" in item:
        return "filter"
    return "qdisc" if "kind" in item else "other"


def hook_in(text: str) -> str:
    """The hook that a text names; nothing where it names none, or both."""
    found: set[str] = set(re.findall(r"(?<![a-z])(ingress|egress)(?![a-z])", text.lower()))
    found |= {hook for parent, hook in PARENTS.items() if parent in text}
    return found.pop() if len(found) == 1 else ""


def lists_in(name: str, text: str) -> Iterator[Listed]:
    """The lists of a file. What stands between them are lines that may tell of which hook the next ones are."""
    at, before, decoder = 0, os.path.basename(name), json.JSONDecoder()
    while found := re.compile(r"\S").search(text, at):
        at = found.start()
        where = f"{shown(name)}:{text.count(chr(10), 0, at) + 1}"
        if text[at] in "[{":
            items, at = decoded(decoder, text, at, where)
            yield Listed(items, where, hook_in(before), "action" in before)
        else:
            line = text[at:].split("\n", 1)[0]
            before, at = line if hook_in(line) or "action" in line else before, at + len(line)


def decoded(decoder: json.JSONDecoder, text: str, at: int, where: str) -> tuple[list[Printed], int]:
    """The list that begins at a place, and the place behind it."""
    try:
        items, behind = decoder.raw_decode(text, at)
    except (ValueError, RecursionError):
        raise Fault(f"{where}: no whole JSON; older tc prints none where a filter is of another kind, as fw") from None
    if not isinstance(items, list) or not all(isinstance(it, dict) for it in items):
        raise Fault(f"{where}: no list that tc prints")
    return items, behind


def lists_of(names: list[str]) -> list[Listed]:
    """All lists of the files."""
    found = list[Listed]()
    for name in names:
        source = opened(name)
        found += lists_in(source.name, b"".join(source.pieces()).decode("utf-8", "replace"))
    if not found:
        raise Fault(f"{shown(names[-1])}: no list that `tc -j` prints")
    return found


def settle_hooks(lists: list[Listed]) -> Iterator[str]:
    """Gives each list of filters its hook, and tells where that is a guess."""
    for it in lists:
        parents = {str(item.get("parent")) for item in it.items if sort_of(item) == "filter"}
        if parents == {OLD_QDISC}:
            it.items, it.hook = ([] if it.hook == "egress" else it.items), "ingress"
        it.hook = PARENTS.get("".join(parents), it.hook)
    unnamed = [it for it in lists if not it.hook and it.has("filter")]
    if unnamed and any(not it.items and not it.hook and not it.is_actions for it in lists):
        raise Fault(f"{unnamed[0].where}: of which hook? A line `ingress` or `egress` before each list tells it")
    for it in unnamed:
        taken = {of.hook for of in lists if of.has("filter")}
        it.hook = next((hook for hook in HOOKS if hook not in taken), "")
        yield f"{it.where}: nothing tells the hook of these filters; they are taken for {it.hook}'s"
    hooks = Counter(it.hook for it in lists if it.has("filter"))
    if hooks[""] or max(hooks.values(), default=0) > 1:
        raise Fault(f"{lists[-1].where}: two lists of filters of one hook; a line `ingress` or `egress` before each list tells its hook")


def name_of(action: Printed) -> Name:
    return str(action["kind"]), number(action["index"])


def place_of(name: Name) -> tuple[int, Name]:
    """Where an action stands in the batch: by kind, as `show` has them, and by index."""
    kinds = [*KINDS]
    return kinds.index(name[0]) if name[0] in kinds else len(kinds), name


def actions_of(item: Printed) -> list[Printed]:
    """The actions of a filter; none where they have another form than tc's, which is told of the filter."""
    try:
        actions: list[Printed] = item["options"].get("actions", [])
        return actions if all(name_of(it) for it in actions) else []
    except (*OTHER_FORM, Beyond):
        return []


@dataclass
class Table:
    """What was written of a chain and pref: its masks, its filters by their fields, and the numbers of its lines."""

    masks: set[Mask] = field(default_factory=set)
    filters: dict[frozenset[tuple[str, str]], int] = field(default_factory=dict)
    lines: list[int] = field(default_factory=list)


class Import:
    """The lines of the batch, and what is told of them."""

    def __init__(self, lists: list[Listed]) -> None:
        self.lists = lists
        self.lines, self.told, self.beyond = list[str](), list[str](), list[str]()
        self.printed, self.held, self.made = dict[Name, Printed](), Counter[Name](), set[Name]()
        self.tables = dict[str, Table]()
        for it in self.listed_actions():
            self.printed.setdefault(name_of(it), it)

    def items(self, sort: str, hook: str = "") -> Iterator[Printed]:
        for it in self.lists:
            if not hook or it.hook == hook:
                yield from (item for item in it.items if sort_of(item) == sort)

    def listed_actions(self) -> Iterator[Printed]:
        """All actions that are printed: those of `actions ls`, and those of filters, which are counted."""
        for item in self.items("actions"):
            yield from item.get("actions") or []
        for item in self.items("filter"):
            for action in actions_of(item):
                self.held[name_of(action)] += 1
                yield action

    def leave_out(self, where: str, why: str) -> None:
        """Tells what isn't written, in the batch too."""
        what = seen_text(f"{where}: {why}".replace("\t", " "))
        if what not in self.beyond:
            self.beyond.append(what)
            self.lines.append(f"# not here: {what}")

    def write(self) -> None:
        self.write_qdisc()
        for name in sorted(self.printed, key=place_of):
            self.write_action(name, self.printed[name])
        for hook in HOOKS:
            for item in self.items("filter", hook):
                if "options" in item:
                    self.write_filter(hook, item)
        self.tell_tables()
        self.tell_binds()

    def write_qdisc(self) -> None:
        kinds = {str(it["kind"]) for it in self.items("qdisc")}
        has_filters = any(self.items("filter"))
        if has_filters or "clsact" in kinds or not kinds:
            self.lines.append("qdisc add dev eth0 clsact")
        if "ingress" in kinds or any(it.get("parent") == OLD_QDISC for it in self.items("filter")):
            self.told.append("the qdisc is `ingress`; clsact is written in its place")
        if not kinds and not has_filters:
            self.told.append("no filter and no list of `tc -j qdisc show` tells whether clsact is there; it is written")
        if any("block" in it for it in self.items("filter")):
            self.told.append("the filters are those of a block that other devices may share")

    def write_action(self, name: Name, action: Printed) -> None:
        """Writes an action that stands by itself: it has one reference more than filters name it."""
        where = f"{name[0]} index {name[1]}"
        try:
            if number(action.get("ref", 1)) <= number(action.get("bind", 1)):
                return
            words = action_words(action)
            if " goto chain " in words:
                raise Beyond("an action by itself that goes to a chain")
            self.lines.append(f"actions add action {words} index {name[1]}")
            self.made.add(name)
            self.tell_left_away(where, action)
        except (*OTHER_FORM, Beyond) as error:
            self.leave_out(where, why_of(error))

    def write_filter(self, hook: str, item: Printed) -> None:
        table = f"{hook} chain {item.get('chain', 0)} pref {item.get('pref')}"
        handle = item["options"].get("handle") if isinstance(item["options"], dict) else None
        where = f"{table} handle 0x{handle:x}" if item.get("kind") == "flower" and type(handle) is int else table
        try:
            line = self.filter_line(hook, item, self.tables.setdefault(table, Table()))
        except (*OTHER_FORM, Beyond) as error:
            self.leave_out(where, why_of(error))
            return
        self.lines.append(line)
        self.tables[table].lines.append(len(self.lines))
        for it in (item["options"], *item["options"].get("actions", [])):
            self.tell_left_away(where, it)

    def filter_line(self, hook: str, item: Printed, table: Table) -> str:
        """A filter's line. Nothing is kept of a filter that has no words."""
        options = item["options"]
        if item["kind"] != "flower":
            raise Beyond(f"a filter of the kind {item['kind']}")
        more = [it for it in options if it not in QUIET + LEFT_AWAY]
        if more:
            raise Beyond(", ".join(more))
        fields, handle = field_words(options["keys"]), number(options["handle"])
        actions = [(name_of(it), action_words(it)) for it in options.get("actions", [])]
        front = f"filter add dev eth0 {hook} protocol {protocol_word(item['protocol'])} pref {number(item['pref'])}"
        front += f" chain {number(item.get('chain', 0))} handle 0x{handle:x} flower"
        if len(actions) > MOST:
            raise Beyond(f"{len(actions)} actions; a filter has {MOST} at most")
        keep_fields(table, fields, handle)
        return " ".join([front, *(f"{name} {value}" for name, value in fields), *self.action_words(actions)])

    def action_words(self, actions: list[tuple[Name, str]]) -> Iterator[str]:
        """The actions of a filter: in full where nothing made them before."""
        for name, words in actions:
            yield f"action {name[0]} index {name[1]}" if name in self.made else f"action {words} index {name[1]}"
            self.made.add(name)

    def tell_left_away(self, where: str, printed: Printed) -> None:
        """Tells the words that are left away, since they say nothing of packets."""
        names = [it for it in printed if it in LEFT_AWAY]
        if names:
            self.told.append(f"{where}: written without {', '.join(names)}")

    def tell_tables(self) -> None:
        for name, table in self.tables.items():
            if len(table.masks) > 1:
                what = f"{len(table.masks)} masks in lines {table.lines[0]} to {table.lines[-1]}"
                self.told.append(f"warning: {name}: {what}; the oldest is tried first, and tc doesn't print which that is")

    def tell_binds(self) -> None:
        """Tells of actions that filters elsewhere hold as well."""
        for name, it in self.printed.items():
            if it.get("bind", self.held[name]) != self.held[name]:
                self.told.append(f"{name[0]} index {name[1]}: {it['bind']} places name it, {self.held[name]} of them in these lists")
        if not any(it.is_actions or it.has("actions") for it in self.lists):
            self.told.append("no list of `tc -j actions ls`: actions that no filter names aren't here")


def keep_fields(table: Table, fields: list[tuple[str, str]], handle: int) -> None:
    """Keeps a filter's mask and fields, of which a table has one each."""
    mask = mask_of(Request("filter", "add", fields=[Field(name, value, 0) for name, value in fields]))
    same = table.filters.get(frozenset(fields))
    if same is not None:
        raise Beyond(f"prints as handle 0x{same:x} does: of a replace, or with a field of mask 0, which tc doesn't print")
    if len(table.masks | {mask}) > MOST:
        raise Beyond(f"its mask would be the {MOST + 1}th of its table")
    table.masks.add(mask)
    table.filters[frozenset(fields)] = handle


def why_of(error: Exception) -> str:
    return str(error) if isinstance(error, Beyond) else "printed in a form that isn't known"


def main(words: list[str]) -> int:
    about = "Writes the state that `tc -j filter show` and `tc -j actions ls` printed as a batch."
    more = """A FILE may hold several lists of tc; `-` is standard input. A line with `ingress` or `egress` before
        a list of filters tells its hook, or else the file's name does. Exit 0: all has its line. 1: some hasn't,
        which stands as a comment in its place and is told. 2: any fault; nothing is written."""
    parser = OneLineParser(prog="./clsact import", description=about, epilog=more)
    parser.add_argument("FILE", nargs="+", help="what `tc -j` printed")
    lists = lists_of(parser.parse_args(words).FILE)
    guesses = list(settle_hooks(lists))
    try:
        made = Import(lists)
    except (*OTHER_FORM, Beyond):
        raise Fault(f"{lists[0].where}: no list that tc prints") from None
    made.write()
    print("\n".join(made.lines))
    for what in [*guesses, *(f"not here: {it}" for it in made.beyond), *made.told]:
        print(what, file=sys.stderr)
    return 1 if made.beyond else 0


if __name__ == "__main__":
    end_with(main)
