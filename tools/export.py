"""Writes the state that a batch leaves as a batch that tc itself takes.

The program is asked to `show` the batch, and what it shows is written again: actions that stand by themselves
as `actions add`, each other one in full in the first filter that names it, so that it is held by as many as
before; fields in the order in which tc reads them; the mask of a time to live in hexadecimal. `show` of what
is written is `show` of the batch, but for the serials. A filter that tc refuses all the same (a port 0, an
address under `protocol all`) is written as it is, and told on standard error. What isn't promised: that a
kernel has room for it, and that Linux then does the same with packets (docs/LINUX.md).
"""
import sys
from collections.abc import Iterator

from batch_lines import Field, type_of
from clsact_texts import Object, spell_object
from hints import tell
from program import show, take_program
from tc_rules import faults
from tool_ends import OneLineParser, end_with, shown

TAGGED = ("vlan_id", "vlan_prio", "vlan_ethtype", "cvlan_id", "cvlan_prio", "cvlan_ethtype")
BEHIND = ("ip_proto", "src_ip", "dst_ip", "src_port", "dst_port", "tcp_flags", "ip_tos", "ip_ttl")
ORDER = ("dst_mac", "src_mac", *TAGGED, *BEHIND)
Name = tuple[str, int]


def name_of(said: Object) -> Name:
    return said["kind"], said["index"]


def action_text(said: Object) -> str:
    """`action ..` in full, as in the line that makes the action."""
    return (spell_object(said) or "").split("\n")[0].removeprefix("actions add ")


def fields_of(said: Object) -> list[Field]:
    """A filter's fields as tc reads them, and in the order in which it wants them."""
    fields = {name: str(value) for name, value in said["fields"].items()}
    if "ip_ttl" in fields:
        value, mask = fields["ip_ttl"].split("/")
        fields["ip_ttl"] = f"{value}/0x{int(mask):x}"
    return [Field(it, fields[it], 0) for it in ORDER if it in fields]


class Export:
    """The lines of a state, and what tc will say against them."""

    def __init__(self, objects: list[Object]) -> None:
        self.filters = [it for it in objects if it["type"] == "filter"]
        self.actions = {name_of(it): it for it in objects if it["type"] == "action"}
        self.hooked = any(it["type"] == "qdisc" for it in objects)
        self.made = {name for name, it in self.actions.items() if it["references"] > it["binds"]}
        self.refused: list[tuple[int, str]] = []
        self.count = 0

    def lines(self) -> Iterator[str]:
        """The lines, counted as they are written."""
        for line in self.uncounted():
            self.count += 1
            yield line

    def uncounted(self) -> Iterator[str]:
        if self.hooked:
            yield "qdisc add dev eth0 clsact"
        for name, said in self.actions.items():
            if name in self.made:
                yield f"actions add {action_text(said)}"
        for said in self.filters:
            yield self.filter_line(said)

    def filter_line(self, said: Object) -> str:
        """A filter's line, which makes those of its actions that nothing made before it."""
        fields, protocol = fields_of(said), type_of(str(said["protocol"]))
        for it, why in faults(protocol, fields):
            self.refuse(f"{why}: {it.name} {it.value}")
        if protocol == 0:
            self.refuse("protocol 0x0")
        place = "protocol {protocol} pref {pref} chain {chain} handle {handle}".format(**said)
        front = f"filter add dev eth0 {said['hook']} {place} flower"
        return " ".join([front, *(f"{it.name} {it.value}" for it in fields), *self.action_words(said)])

    def refuse(self, why: str) -> None:
        """Keeps why tc refuses the next line."""
        self.refused.append((self.count + 1, why))

    def action_words(self, said: Object) -> Iterator[str]:
        own: set[Name] = set()
        for name in map(name_of, said["actions"]):
            if name in own:
                self.refuse(f"a list that binds what it makes itself: {name[0]} {name[1]}")
            if name in self.made:
                yield f"action {name[0]} index {name[1]}"
            else:
                own.add(name)
                yield action_text(self.actions[name])
            self.made.add(name)


def write(name: str, objects: list[Object]) -> int:
    """Writes the state, and tells what stands against it."""
    if objects[0]["type"] == "refused":
        told = f"{shown(name)}:{objects[0]['line']}: refused, so nothing is exported; see `./clsact check`"
        print(told, file=sys.stderr)
        return 1
    export = Export(objects)
    for line in export.lines():
        print(line)
    for number, why in export.refused:
        print(f"{shown(name)}: line {number} of the export is none for tc: {why}", file=sys.stderr)
    return 1 if export.refused else 0


def main(words: list[str]) -> int:
    about = "Writes the state that a batch leaves as a batch that tc itself takes."
    more = """`show` of what is written is `show` of the batch, but for the serials. Exit 0: all of it is
        for tc. 1: a line of the batch was refused, and nothing is written; or tc will refuse lines that
        are written, and they are told on standard error. Else as `./clsact show`."""
    parser = OneLineParser(prog="./clsact export", description=about, epilog=more)
    parser.add_argument("BATCH", help="a file of tc lines")
    take_program(parser)
    given = parser.parse_args(words)
    answer, _ = show(given.program, given.BATCH)
    if answer.number > 1:
        tell(answer.told, ["show", given.BATCH])
        return answer.number
    return write(given.BATCH, list(answer.objects))


if __name__ == "__main__":
    end_with(main)
