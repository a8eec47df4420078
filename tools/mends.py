"""A bad line as it would be taken, where the cure of each of its bad words leaves no choice.

The words of a line are mended one after the other, each time by the row of docs/FORMATS.md that the bad word has,
and the program says which word is bad then. A line has an answer where it comes to one that has good words, or
to a word for which somebody has to choose; then that word is told with its own cure. What isn't promised: that
the state takes the line, or that it was meant so.
"""
from collections.abc import Callable
from dataclasses import dataclass, field

from batch_lines import Line, line_from
from clsact_texts import Object
from cures import cure_of_word, row_of_word
from forced import refused_lines

ROUNDS = 12
GOES_ON = "\\"
HOOKS = {"ffff:": "ingress", "ffff:fff2": "ingress", "ffff:fff3": "egress"}
TYPES = {"vlan": "802.1Q", "8021q": "802.1Q", "8021ad": "802.1ad", "lldp": "0x88cc", "mpls_uc": "0x8847", "mpls_mc": "0x8848",
         "ppp_disc": "0x8863", "ppp_ses": "0x8864", "rarp": "0x8035"}
FIELDS = {"vlan_eth_type": "vlan_ethtype", "cvlan_eth_type": "cvlan_ethtype"}
TAGS = {"0x8100": "802.1Q", "0x88a8": "802.1ad"}
VERBS = {("filter", "delete"): "del", ("filter", "a"): "add", ("filter", "d"): "del", ("qdisc", "delete"): "del"}
Words = list[str]


def gone(words: Words, at: int) -> Words | None:
    return words[:at] + words[at + 1:]


def gone_with_value(words: Words, at: int) -> Words | None:
    return words[:at] + words[at + 2:]


def without_flag(words: Words, at: int) -> Words | None:
    return gone_with_value(words, at) if words[at] == "hw_stats" else gone(words, at)


def spelt(names: dict[str, str]) -> Callable[[Words, int], Words | None]:
    """Mends a word by its other spelling, where there is one."""
    def mend(words: Words, at: int) -> Words | None:
        name = names.get(words[at].lower())
        return words[:at] + [name] + words[at + 1:] if name else None
    return mend


def with_hook(words: Words, at: int) -> Words | None:
    """The hook comes behind the device, from where it stands, or from the parent that stands for it."""
    for place in range(at, len(words)):
        if words[place] in ("ingress", "egress"):
            return words[:at] + [words[place]] + words[at:place] + words[place + 1:]
        if words[place] == "parent" and place + 1 < len(words) and words[place + 1] in HOOKS:
            return words[:at] + [HOOKS[words[place + 1]]] + words[at:place] + words[place + 2:]
    return None


def as_address(words: Words, at: int) -> Words | None:
    """A short address with a length, or one with a mask of four numbers."""
    value, _, mask = words[at].partition("/")
    parts = value.split(".")
    if not mask or not all(it.isdecimal() for it in parts) or len(parts) > 4:
        return None
    if "." in mask:
        bits = "".join(f"{int(it):08b}" for it in mask.split(".") if it.isdecimal())
        mask = str(bits.count("1")) if len(bits) == 32 and "01" not in bits else ""
    found = ".".join(parts + ["0"] * (4 - len(parts))) + f"/{mask}"
    return words[:at] + [found] + words[at + 1:] if mask and found != words[at] else None


def as_mac(words: Words, at: int) -> Words | None:
    """An address of hardware whose groups lack a 0, or have dashes."""
    parts = words[at].replace("-", ":").split(":")
    found = ":".join(it.zfill(2) for it in parts)
    return words[:at] + [found] + words[at + 1:] if len(parts) == 6 and found != words[at] else None


def as_verb(words: Words, at: int) -> Words | None:
    verb = VERBS.get((words[0], words[1]))
    return [words[0], verb, *words[2:]] if verb else None


def with_protocol(words: Words, at: int) -> Words | None:
    """The IP protocol comes before the ports, where it stands behind them; flags are of one protocol alone."""
    place = next((it for it in range(at, len(words) - 1) if words[it] == "ip_proto"), 0)
    if not place and words[at] == "tcp_flags" and "ip_proto" not in words:
        return words[:at] + ["ip_proto", "tcp"] + words[at:]
    return words[:at] + words[place: place + 2] + words[at:place] + words[place + 2:] if place else None


MENDS: dict[str, Callable[[Words, int], Words | None]] = {
    "`tc`, the first word": gone,
    "`eth1`": lambda words, at: words[:at] + ["eth0"] + words[at + 1:],
    "`protocol`, `pref` behind `eth0`": with_hook,
    "`parent`": with_hook,
    "another word behind `eth0`": with_hook,
    "`ingress`, `handle` of a `qdisc` line": lambda words, at: words[:at] + ["clsact"],
    "`ingress`, `handle` of a `qdisc del`": lambda words, at: words[:at] + ["clsact"],
    "another second word, as `show` or `delete`": as_verb,
    "`skip_hw`, `skip_sw`, and other flags of tc's flower": gone,
    "`no_percpu`, `hw_stats` and other flags of an action": without_flag,
    "`cookie` of an action": gone_with_value,
    "a control without `action`": lambda words, at: words[:at] + ["action"] + words[at:],
    "a word with a quote": lambda words, at: [it.strip("\"'") for it in words],
    "the `protocol` of a tag": spelt(TAGS),
    "the protocol `vlan`": spelt(TYPES),
    "`lldp`, `mpls_uc`, and other protocols by name": spelt(TYPES),
    "a protocol in other letters, as `IP`": lambda words, at: words[:at] + [words[at].lower()] + words[at + 1:],
    "`src_port`, `dst_port`, `tcp_flags`": with_protocol,
    "another word among the fields": spelt(FIELDS),
    "an IP address": as_address,
    "a MAC address": as_mac,
    "the value of `ip_proto`": spelt({"ipv6-icmp": "icmpv6", "ospf": "0x59", "gre": "0x2f", "esp": "0x32", "ah": "0x33"}),
}


@dataclass
class Mended:
    """A line on its way: its words, which of them is bad, from 1, or 0 once none is, and the lines in which it goes on."""

    words: Words
    bad: int
    more: list[Words] = field(default_factory=list)

    def line(self) -> Line:
        return line_from(0, " ".join(self.words).encode("utf-8", "surrogateescape"))

    def step(self) -> bool:
        """Mends the bad word, where there is one way."""
        if self.words[self.bad - 1:] == [GOES_ON] and self.more:
            self.words = self.words[:-1] + self.more.pop(0)
            return True
        mend = MENDS.get(row_of_word(self.line(), self.bad))
        words = mend(self.words, self.bad - 1) if mend and 0 < self.bad <= len(self.words) else None
        self.words = words or self.words
        return words is not None

    def text(self) -> str:
        """What is told of the line: how it is taken, or up to which word."""
        line = self.line()
        if not self.bad:
            return f"written so, its words are good: {line.text}"
        cure = cure_of_word(line, self.bad)
        word = f"word {self.bad}, {line.words[self.bad - 1].text}" if self.bad <= len(self.words) else "its end, where words are missing"
        return f"written so, it is good up to {word}: {line.text}\ncure of that: {cure.cure} ({cure.why})" if cure else ""


def goes_on(line: Line | None) -> bool:
    """Whether a line is meant to go on in the next one."""
    return line is not None and line.words[-1].text == GOES_ON


def behind(line: Line, by_number: dict[int, Line]) -> list[Words]:
    """The words of the lines in which a line is meant to go on."""
    found, last = list[Words](), line
    while goes_on(last) and last.number + 1 in by_number:
        last = by_number[last.number + 1]
        found.append([it.text for it in last.words])
    return found


def mended(program: str, lines: list[Line], refused: dict[int, Object], by_number: dict[int, Line]) -> dict[int, str]:
    """What is told of those of the lines, refused for a bad word, that come to other words."""
    going = {it.number: Mended([word.text for word in it.words], refused[it.number]["word"], behind(it, by_number))
             for it in lines if not goes_on(by_number.get(it.number - 1))}
    told = dict(going)
    for _ in range(ROUNDS):
        going = {number: it for number, it in going.items() if it.bad and it.step()}
        if not going:
            break
        data = "\n".join(" ".join(it.words) for it in going.values()).encode("utf-8", "surrogateescape")
        said = {it["line"]: it for it in refused_lines(program, data)}
        for place, it in enumerate(going.values(), 1):
            it.bad = said.get(place, {}).get("word", 0)
    first = {it.number: [word.text for word in it.words] for it in lines}
    return {number: it.text() for number, it in told.items() if it.words != first[number]}
