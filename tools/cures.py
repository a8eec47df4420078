"""Why a line was refused or is of no use, and its cure: the tables of docs/FORMATS.md, which have both once.

A refusal by the state has its row by its name. A bad word has the first row of the list below whose test
holds; the list has each row of the table of bad words under the words of its first cell. A row that only one
of both has gives no cure, and fails the gate.
"""
import re
from collections.abc import Callable
from dataclasses import dataclass
from functools import cache

from batch_lines import PREFS, Line
from job_files import JobFault
from program import CLSACT
from tool_ends import Fault, shown

FORMATS = CLSACT.removesuffix("clsact") + "docs/FORMATS.md"
OPTIONS = ("protocol", "chain", "handle", *PREFS)
NUMBERS = ("chain", "handle", "index", "jump", "id", "mark", "queue_mapping", "priority", *PREFS)
KINDS = ("u32", "matchall", "basic", "bpf", "fw", "route", "flow", "cgroup", "rsvp", "tcindex")
CONTROLS = ("ok", "pass", "drop", "shot", "continue", "pipe", "reclassify", "jump", "goto")
FLAGS = ("skip_hw", "skip_sw", "verbose")
CLASSES = ("classid", "flowid", "hw_tc")
ACTION_FLAGS = ("no_percpu", "hw_stats", "skip_hw", "skip_sw")
TAG_NAMES = ("vlan", "8021q", "8021ad", "dot1q", "qinq")
OTHER_TYPES = ("lldp", "mpls_uc", "mpls_mc", "ppp_disc", "ppp_ses", "rarp", "aarp", "teb", "profinet", "ethercat", "loop")
NUMBER_FIELDS = ("vlan_id", "cvlan_id", "vlan_prio", "cvlan_prio", "src_port", "dst_port")
OTHER_FIELDS = ("dst_mac", "src_mac", "ip_proto", "src_ip", "dst_ip", "tcp_flags", "ip_tos", "ip_ttl")
FIELDS = NUMBER_FIELDS + OTHER_FIELDS
TYPES = ("protocol", "vlan_ethtype", "cvlan_ethtype")
OF_ACTIONS = ("index", "id", "priority", "protocol", "mark", "queue_mapping")
PORTS = ("src_port", "dst_port", "tcp_flags")


@dataclass(frozen=True)
class Cure:
    """A row of a table: why, and what to do."""

    why: str
    cure: str


class Bad:
    """A bad word (empty where words are missing), the words before it, and those of its action."""

    def __init__(self, line: Line, number: int) -> None:
        texts = [it.text for it in line.words]
        self.line, self.texts, self.at = line.number, texts, number - 1
        self.word = texts[self.at] if self.at < len(texts) else ""
        self.before = texts[: self.at]
        self.last = self.before[-1] if self.before else ""
        begun = [place for place, text in enumerate(self.before) if text == "action"]
        self.action = self.before[begun[-1] + 1:] if begun else []

    def starts(self, *words: str) -> bool:
        return tuple(self.before[: len(words)]) == words

    def has_stood(self) -> bool:
        """Whether the word is a name that stands before it, in its action or among options and fields."""
        names = OF_ACTIONS if self.action else OPTIONS + FIELDS + TYPES
        spellings = PREFS if self.word in PREFS and not self.action else (self.word,)
        return self.word in names and any(it in (self.action or self.before[5:]) for it in spellings)

    def is_value(self) -> bool:
        """Whether the word before it is a name, so that it stands where a value is due."""
        return self.last in (*OPTIONS, *NUMBERS, *FIELDS, *TYPES) and self.before[0] != "qdisc"

    def is_of(self, *names: str) -> bool:
        """Whether the word stands where the value of one of these names is due."""
        return self.is_value() and self.last in names

    def is_of_action(self, kind: str, *names: str) -> bool:
        """The same, where the names are those of an action of this kind."""
        return self.action[:1] == [kind] and self.is_of(*names)

    def lacks_id(self) -> bool:
        """Whether a tag without its id stands before the word."""
        is_tag = self.action[:1] == ["vlan"] and self.action[1:2] in (["push"], ["modify"])
        return is_tag and "id" not in self.action and not self.is_value()

    def is_of_two_bytes(self) -> bool:
        """Whether the word shows that each letter has two bytes."""
        is_first = self.line == 1 and self.at == 0
        return "\0" in self.word or is_first and self.word[:2] in ("\udcff\udcfe", "\udcfe\udcff")

    def is_option(self) -> bool:
        """Whether the word stands among the options of a filter."""
        return self.starts("filter") and self.at > 4 and "flower" not in self.before

    def is_field(self) -> bool:
        """Whether the word stands where a field or an action may."""
        return self.starts("filter") and "flower" in self.before and "action" not in self.before


ROWS: list[tuple[str, Callable[[Bad], bool]]] = [
    ("none, or any, behind `skbedit` alone", lambda it: it.action == ["skbedit"]),
    ("none, or any, in `vlan push` or `vlan modify` without `id`", lambda it: it.lacks_id()),
    ("none, behind a name", lambda it: not it.word and (it.is_value() or it.last == "dev")),
    ("none, behind `action` or `vlan`",
     lambda it: not it.word and it.last in ("action", "vlan") and it.before[1] in ("add", "replace")),
    ("none, in a del", lambda it: not it.word and it.starts("filter", "del") and it.at > 4),
    ("none, in `actions change` or `actions del`",
     lambda it: not it.word and it.starts("actions") and it.before[1:2] in (["change"], ["del"])),
    ("none, where `flower` may stand", lambda it: not it.word and it.is_option()),
    ("none, in another line", lambda it: not it.word),
    ("`tc`, the first word", lambda it: it.at == 0 and it.word == "tc"),
    ("the first word of the first line, with three odd bytes before it",
     lambda it: it.line == 1 and it.at == 0 and it.word.startswith("\ufeff")),
    ("`\\` at a line's end", lambda it: it.word == "\\" and it.at == len(it.texts) - 1),
    ("a word with bytes of 0, or with `ff fe` before it", lambda it: it.is_of_two_bytes()),
    ("a word with a quote", lambda it: any(quote in it.word for quote in "\"'\u201c\u201d\u2018\u2019")),
    ("a word with `;`, `&&` or `$`", lambda it: any(mark in it.word for mark in (";", "&&", "$"))),
    ("`-force`, `-batch` and other options of tc", lambda it: it.at == 0 and it.word.startswith("-")),
    ("another first word", lambda it: it.at == 0),
    ("another second word, as `show` or `delete`", lambda it: it.at == 1),
    ("`block`", lambda it: it.at == 2 and it.word == "block"),
    ("`parent`", lambda it: it.word == "parent"),
    ("`ingress`, `handle` of a `qdisc del`",
     lambda it: it.starts("qdisc", "del") and it.word in ("ingress", "egress", "handle", "root")),
    ("`ingress`, `handle` of a `qdisc` line",
     lambda it: it.starts("qdisc") and it.word in ("ingress", "egress", "handle", "root")),
    ("`eth1`", lambda it: it.last == "dev" and it.at == 3),
    ("`protocol`, `pref` behind `eth0`",
     lambda it: it.starts("filter") and it.at == 4 and it.word in OPTIONS),
    ("another word behind `eth0`", lambda it: it.starts("filter") and it.at == 4),
    ("`ingress` behind `protocol` or `pref`",
     lambda it: it.starts("filter") and it.word in ("ingress", "egress") and it.last != "dev"),
    ("`action`", lambda it: it.word == "action" and it.before.count("action") == 16),
    ("`action` behind an action of an `actions` line",
     lambda it: it.starts("actions") and it.word == "action" and bool(it.action)),
    ("`goto` behind `actions`", lambda it: it.starts("actions") and it.word == "goto"),
    ("`index` behind `actions add action gact`",
     lambda it: it.starts("actions", "add", "action") and it.action in ([], ["gact"]) and it.word == "index"),
    ("a control behind `actions del action`",
     lambda it: it.starts("actions", "del") and it.last == "action" and it.word in CONTROLS),
    ("`mirred`, `police`, and other words behind `action`", lambda it: it.last == "action"),
    ("`random` of an action", lambda it: bool(it.action) and it.word == "random"),
    ("`cookie` of an action", lambda it: bool(it.action) and it.word == "cookie"),
    ("`pop_eth`, `push_eth`", lambda it: it.last == "vlan" and it.word in ("pop_eth", "push_eth")),
    ("`no_percpu`, `hw_stats` and other flags of an action", lambda it: bool(it.action) and it.word in ACTION_FLAGS),
    ("`flower` of a replace or a del",
     lambda it: it.starts("filter") and it.word == "flower" and it.before[1:2] != ["add"]),
    ("a name that stood before", lambda it: not it.is_value() and it.has_stood()),
    ("a field behind an action",
     lambda it: bool(it.action) and it.word in (*FIELDS, *TYPES[1:]) and not it.is_value()),
    ("`src_port`, `dst_port`, `tcp_flags`", lambda it: it.word in PORTS and not it.is_value()),
    ("the `protocol` of a tag", lambda it: it.is_of_action("vlan", "protocol")),
    ("a protocol in other letters, as `IP`",
     lambda it: it.is_of(*TYPES) and it.word.lower() in ("ip", "ipv4", "ipv6", "arp", "all")),
    ("the protocol `vlan`", lambda it: it.is_of(*TYPES) and it.word.lower() in TAG_NAMES),
    ("`lldp`, `mpls_uc`, and other protocols by name", lambda it: it.is_of(*TYPES) and it.word.lower() in OTHER_TYPES),
    ("a protocol or EtherType", lambda it: it.is_of(*TYPES)),
    ("the `priority` of a tag", lambda it: it.is_of_action("vlan", "priority")),
    ("the `priority` of skbedit", lambda it: it.is_of_action("skbedit", "priority")),
    ("the number of pref", lambda it: it.is_of(*PREFS)),
    ("the number of `handle` or `index`", lambda it: it.is_of("handle", "index")),
    ("the number of `chain` or `jump`", lambda it: it.is_of("chain", "jump")),
    ("the number of `id`", lambda it: it.is_of("id")),
    ("the number of `mark`", lambda it: it.is_of("mark")),
    ("`skbhash` of `queue_mapping`", lambda it: it.is_of_action("skbedit", "queue_mapping") and it.word == "skbhash"),
    ("the number of `queue_mapping`, `src_port`, `dst_port`",
     lambda it: it.is_of("queue_mapping", "src_port", "dst_port")),
    ("the number of `vlan_id`, `cvlan_id`", lambda it: it.is_of("vlan_id", "cvlan_id")),
    ("the number of `vlan_prio`, `cvlan_prio`", lambda it: it.is_of("vlan_prio", "cvlan_prio")),
    ("a MAC address", lambda it: it.is_of("dst_mac", "src_mac")),
    ("an IP address", lambda it: it.is_of("src_ip", "dst_ip")),
    ("the value of `ip_proto`", lambda it: it.is_of("ip_proto")),
    ("the value of `tcp_flags`", lambda it: it.is_of("tcp_flags")),
    ("the value of `ip_tos`", lambda it: it.is_of("ip_tos")),
    ("the value of `ip_ttl`", lambda it: it.is_of("ip_ttl")),
    ("`u32`, `matchall`, and other kinds of filter", lambda it: it.is_option() and it.word in KINDS),
    ("another word before `flower`", lambda it: it.is_option()),
    ("`skip_hw`, `skip_sw`, and other flags of tc's flower", lambda it: it.is_field() and it.word in FLAGS),
    ("`indev`", lambda it: it.is_field() and it.word == "indev"),
    ("`classid`, `flowid`, `hw_tc`", lambda it: it.is_field() and it.word in CLASSES),
    ("a control without `action`", lambda it: it.is_field() and it.word in CONTROLS),
    ("another word among the fields", lambda it: it.is_field()),
    ("any other word", lambda it: True),
]


@cache
def table(first: str, path: str = FORMATS) -> dict[str, Cure]:
    """The rows of the table in docs/FORMATS.md whose header's first cell is this, by their own first cell."""
    try:
        with open(path, encoding="utf-8") as file:
            lines = file.read().split("\n")
    except (OSError, UnicodeDecodeError):
        raise Fault(f"{path}: cannot read the tables of cures") from None
    starts = [place for place, line in enumerate(lines) if line.startswith(f"| {first} |")]
    rows: dict[str, Cure] = {}
    for line in lines[starts[0] + 2:] if starts else []:
        cells = re.split(r" ?\| ?", line)
        if len(cells) != 5:
            break
        rows[cells[1]] = Cure(cells[2], cells[3])
    return rows


def row_of_word(line: Line, number: int) -> str:
    """The name of the row for the bad word of a line, by the word's number from 1."""
    bad = Bad(line, number)
    return next(name for name, holds in ROWS if holds(bad))


def cure_of_word(line: Line, number: int) -> Cure | None:
    """The row for the bad word of a line."""
    return table("The bad word").get(row_of_word(line, number))


def cure_of_end() -> Cure | None:
    """The row for a line that is meant to go on in the next."""
    return table("The bad word").get("`\\` at a line's end")


def cure_of_reason(reason: str) -> Cure | None:
    """The row for a refusal by the state."""
    rows = table("Reason").items()
    return next((row for names, row in rows if reason in re.findall(r"`(\w+)", names)), None)


def cure_of_lint(name: str) -> Cure | None:
    """The row for a warning that isn't about Linux."""
    return table("Warning").get(name)


def cure_of_job(fault: JobFault) -> Cure | None:
    """The row for a fault of a job."""
    return table("A job's fault").get(fault.row)


def why_bad(fault: JobFault) -> str:
    """A job's fault in a line: the bad words, why they are, and what to write."""
    cure = cure_of_job(fault)
    words = fault.line.words[max(fault.at - 1, 0): fault.at + 1] if fault.line else []
    bad = f"{shown(' '.join(it.text for it in words))}: " if words else ""
    return f"{bad}{cure.why}; {cure.cure}" if cure else fault.row
