"""Changes by chance for the twin in foreseeing.py: a batch, a change of what it leaves, and packets that meet it.

Most of them are of few fields and actions, so that packets meet what is changed; the others have the whole
language, as those of random_traces.py. They are short, since the twin tries all lists of points.
"""
import random
from dataclasses import dataclass

from batch_edits import commands
from device_states import Filter, protocol_text
from frame_values import fields_text
from frames import capture
from random_traces import Maker
from tracing import walk_lines

FRAMES = ["udp 192.0.2.1 10.0.0.1 53", "tcp 192.0.2.1 10.0.0.1 443 0x2", "tcp 192.0.2.7 10.0.0.2 23 0x10",
          "udp 10.0.0.9 10.0.1.1 53", "tag 7 udp 192.0.2.1 10.0.0.1 53", "tag 100 tag 7 tcp 192.0.2.1 10.0.0.1 443 0x2"]
# Fields in pairs of one mask each. A mask stands as long as one filter of its table has it.
PAIRS = [("ip_proto tcp", "ip_proto udp"), ("ip_proto tcp dst_port 443", "ip_proto tcp dst_port 23"),
         ("src_ip 192.0.2.1", "src_ip 192.0.2.7"), ("src_ip 192.0.2.0/24", "src_ip 198.51.100.0/24"),
         ("src_ip 192.0.0.0/16", "src_ip 10.0.0.0/16"), ("dst_ip 10.0.0.1", "dst_ip 10.0.0.2"),
         ("dst_ip 10.0.0.0/24", "dst_ip 10.0.1.0/24"), ("vlan_id 7", "vlan_id 100"), ("", "ip_proto udp dst_port 53")]
ACTIONS = ["action ok", "action drop", "action drop", "action continue",
           "action gact index 1", "action gact index 1", "action gact index 2", "action goto chain 1",
           "action goto chain 1", "action skbedit mark {}", "action skbedit mark {} action continue",
           "action skbedit index 1 action ok", "action vlan push id {}", "action vlan push id {} action gact index 1",
           "action vlan pop action reclassify", "action vlan modify id {} action ok", ""]
CONTROLS = ["ok", "drop", "drop", "continue", "pipe"]


@dataclass
class RandomChange:
    """A hook, the lines of a batch and of its change, whether the change goes on behind a refused line, and frames."""

    hook: str
    batch: list[str]
    change: list[str]
    force: bool
    frames: list[str]


class ChangeMaker(Maker):
    """Makes a batch and a change of it, of few fields and actions."""

    def hook(self) -> str:
        return "ingress"

    def __init__(self, chance: random.Random) -> None:
        super().__init__(chance)
        self.frames_made = chance.sample(FRAMES, 3)

    def match(self, protocol: str) -> str:
        those = [it for it in PAIRS if (protocol == "802.1Q") == ("vlan" in it[0])]
        return f" {self.one(*self.one(*those))}".rstrip()

    def its_actions(self, chain: int) -> str:
        """Actions of a filter. No walk goes round in a ring."""
        those = [it for it in ACTIONS if not (chain and "chain" in it)]
        return f" {self.one(*those).format(self.chance.randint(1, 2))}".rstrip()

    def added(self) -> str:
        """A filter by chance. A pref has one protocol."""
        chain, pref = self.one(0, 0, 0, 1), self.one(10, 10, 20, 20, 30, 40)
        protocol = {30: "802.1Q", 40: "all"}.get(pref, "ip")
        chain_words = f" chain {chain}" if chain else ""
        front = f"filter add dev eth0 ingress protocol {protocol} pref {pref}{chain_words} flower"
        return front + self.match(protocol) + self.its_actions(chain)

    def named_place(self, its: Filter) -> str:
        return f"dev eth0 {its.hook} pref {its.pref} chain {its.chain}"

    def filter_text(self, its: Filter) -> str:
        """The fields and actions of a filter that stands."""
        actions = self.run.states[-1].actions
        these = "".join(f" action {actions[it].kind} index {actions[it].index}" for it in its.actions)
        return f"flower{fields_text(dict(zip(dict(its.masks), its.key)), dict(its.masks))}{these}"

    def moves(self, its: Filter) -> list[str]:
        """Changes of a filter that stands, in the orders in which one may write them down."""
        whole = f"filter del {self.named_place(its)}"
        one = f"filter del {self.named_place(its)} handle {its.handle} flower"
        kind, text = protocol_text(its.protocol), self.filter_text(its)
        again = f"filter add {self.named_place(its)} protocol {kind} {text}"
        other = f"filter add dev eth0 {its.hook} pref {self.one(5, 6, 45)} chain {its.chain} protocol {kind} {text}"
        front = f"filter replace {self.named_place(its)} protocol {kind} handle {its.handle} "
        same = "".join(f" action {it}" for it in text.split(" action ")[1:])
        replaces = [front + text.split(" action ")[0] + self.its_actions(its.chain),
                    front + f"flower{self.match(kind)}" + self.one(same, same, self.its_actions(its.chain))]
        return self.one([whole, again], [one, again], [whole, other], [other, whole], [other, one], [other, one],
                        replaces[:1], replaces[1:], replaces[1:], replaces, [whole])

    def changed_action(self) -> list[str]:
        names = [f"{self.one(*CONTROLS)} index 1", f"{self.one(*CONTROLS)} index 2", f"skbedit mark {self.one(1, 2)} index 1"]
        return [f"actions change action {self.one(*names)}" for _ in range(self.one(1, 1, 2))]

    def some_moves(self) -> list[str]:
        standing = [it for it in self.run.states[-1].filters if it.hook == "ingress"]
        met = [it for it in standing if self.run.matches[it.edit]]
        kind = self.chance.randrange(10)
        if kind < 7 and standing:
            return self.moves(self.one(*(met or standing)))
        return self.changed_action() if kind < 9 else [self.added() for _ in range(self.one(1, 1, 2, 3))]

    def keep(self, line: str, kept: list[str]) -> None:
        """Applies the line, and keeps it. A refused one is seldom kept."""
        words = commands(line.encode()).get(1)
        if words and (self.run.apply(words, 1, 1)[0] or self.odds(0.05)):
            kept.append(line)

    def narrow_batch(self) -> list[str]:
        lines: list[str] = []
        for line in ["qdisc add dev eth0 clsact", f"actions add action {self.one(*CONTROLS)} index 1",
                     "actions add action drop index 2", "actions add action skbedit mark 3 index 1"]:
            self.keep(line, lines)
        for _ in range(self.chance.randint(2, 4)):
            line = self.added()
            self.keep(line, lines)
            if self.odds(0.6):
                self.keep(self.neighbour(line), lines)
        return lines

    def neighbour(self, line: str) -> str:
        """The line with the fields that stand beside its own, so of one mask."""
        front, fields = line.split(" flower")
        fields, _, actions = fields.strip().partition("action ")
        other = dict(PAIRS).get(fields.strip(), fields.strip())
        return f"{front} flower {other} action {actions}" if actions else f"{front} flower {other}"

    def narrow_change(self) -> list[str]:
        lines: list[str] = []
        for _ in range(self.one(1, 2, 2)):
            for line in self.some_moves():
                self.keep(line, lines)
        if self.odds(0.2):
            self.chance.shuffle(lines)
        return lines

    def narrow(self) -> RandomChange:
        batch = self.narrow_batch()
        for _ in walk_lines(self.run, "ingress", capture(list(enumerate(self.frames_made)), False)):
            pass
        return RandomChange("ingress", batch, self.narrow_change(), self.odds(0.3), self.frames_made)


class WideMaker(Maker):
    """Makes them of the whole language."""

    def wide(self) -> RandomChange:
        batch, change = self.batch(self.one(6, 10, 20)), list[str]()
        while len(change) < 3:
            line = self.spelled(self.line())
            words = commands(line.encode()).get(1)
            if words and self.run.apply(words, 1, 1)[0] or self.odds(0.02):
                change.append(line)
        return RandomChange(self.hook(), batch, change[: self.one(0, 1, 2, 3, 3)], self.odds(0.5), self.frames(4))


def random_change(chance: random.Random) -> RandomChange:
    return ChangeMaker(chance).narrow() if chance.random() < 0.8 else WideMaker(chance).wide()
