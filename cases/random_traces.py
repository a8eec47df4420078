"""Batches, captures and reports by chance, for the twin in tracing.py: the whole language of batches, with
rules that meet what comes.

Lines that the twin refuses are mostly left out, so that batches grow long; what is right is not said here.
"""
import random
from collections import Counter
from dataclasses import dataclass

from batch_edits import BEHIND, commands
from device_states import State
from frame_values import FIELDS, fields_text, values_of
from frames import capture
from tracing import Run, Thing, Walk, frames_of

# The protocol of each pref: one, so that a line seldom clashes.
PROTOCOLS = {5: "802.1ad", 10: "ip", 20: None, 30: "802.1Q", 40: "ip", 50: "ipv6", 60: "all", 70: "0x86dd",
             80: "0x0"}
IPV4 = ["10.0.0.1", "10.0.0.2", "10.0.1.1", "192.0.2.9", "224.0.0.251"]
IPV6 = ["2001:db8::1", "2001:db8:0:1::7", "fe80::1", "::"]
MACS = ["02:00:00:00:00:01", "02:00:00:00:00:02", "01:00:5e:00:00:fb", "00:00:00:00:00:00"]
GACT = "ok ok pass drop drop shot continue continue continue pipe pipe reclassify".split()
FLAGS = ["0x2/0x12", "2", "10/ff", "0x12", "0/0x3f", "fff/0"]
TOS = ["0", "0/3", "0x10/0xfc", "2e"]
TTL = ["64", "0x40/0xf0", "0/1", "1/255", "7/0"]
MASKED = ["tcp_flags", "ip_tos", "ip_ttl"]
EDITED = ["mark 7", "priority 1:10 mark 0x35", "queue_mapping 3"]


class Maker:
    """Makes words by chance: lines for what stands in a run, and frames, some of which come again."""

    def __init__(self, chance: random.Random) -> None:
        self.chance, self.run = chance, Run()
        self.known = [self.frame() for _ in range(6)]
        self.came = [*frames_of(capture(list(enumerate(self.known)), False))]

    def one(self, *those):
        return self.chance.choice(those)

    def odds(self, share: float) -> bool:
        return self.chance.random() < share

    def number(self, value: int) -> str:
        return self.one(str(value), str(value), f"{value:#x}")

    # ---- fields

    def mac(self) -> str:
        mask = self.one("", "", "/ff:ff:ff:00:00:00", "/00:00:00:00:00:0f", "/25", "/48", "/1", "/0")
        return self.one(*MACS) + mask

    def ipv4(self) -> str:
        return self.one(*IPV4) + self.one("", "/32", "/24", "/24", "/16", "/8", "/1", "/0")

    def ipv6(self) -> str:
        return self.one(*IPV6) + self.one("", "/128", "/64", "/63", "/65", "/32", "/10", "/0")

    def transport(self) -> list[str]:
        """A protocol, and ports and flags behind it."""
        protocol = self.one("tcp", "tcp", "udp", "udp", "11", "0x6", "icmp", "icmpv6", "sctp", "0", "3a")
        words = [f"ip_proto {protocol}"]
        if protocol in ("tcp", "udp", "11", "0x6"):
            port = self.number(self.one(53, 53, 443, 80, 22, 0))
            words += self.some([f"src_port {self.one(5000, 0)}", f"dst_port {port}"])
        if protocol in ("tcp", "0x6"):
            words += self.some([f"tcp_flags {self.one(*FLAGS)}"])
        return words

    def some(self, those: list[str]) -> list[str]:
        return [it for it in those if self.odds(0.4)]

    def tags(self) -> list[str]:
        kind = self.one("ip", "ipv6", "802.1Q", "0x0100")
        first = [f"vlan_prio {self.one(0, 3, 7)}", f"vlan_ethtype {kind}"]
        second = [f"cvlan_id {self.one(7, 8, 0)}", f"cvlan_prio {self.one(0, 3)}", "cvlan_ethtype ip"]
        number = [f"vlan_id {self.number(self.one(7, 7, 8, 100, 0))}"]
        more = [its for its, share in ((first, 0.4), (second, 0.3)) if self.odds(share)]
        return number + [it for its in more for it in self.some(its)]

    def mask(self, name: str) -> int:
        """A mask that a line may have."""
        bits = FIELDS[name][0]
        if name.endswith("_mac"):
            return self.one(2**48 - 1, 2**48 - 2**23, 0xFF)
        if "ip" in name.split("_")[-1]:
            return 2**bits - 2 ** self.one(0, 0, 8, 17, bits - 1)
        return self.one(2**bits - 1, self.chance.randrange(1, 2**bits)) if name in MASKED else 2**bits - 1

    def met_fields(self) -> str:
        """Some fields of a frame that comes."""
        values = values_of(self.one(*self.came))
        names = [name for name, value in values.items() if value or "ip" not in name and self.odds(0.1)]
        chosen = self.chance.sample(names, min(len(names), self.one(1, 1, 2, 3)))
        behind = [it for it in chosen if it in BEHIND]
        if behind and all(values["ip_proto"] in BEHIND[it] for it in behind):
            chosen.append("ip_proto")
        masks = {it: self.mask(it) for it in chosen if it not in behind or "ip_proto" in chosen}
        return fields_text(values, masks)

    def same_fields(self, hook: str, pref: int) -> str:
        """The fields of a filter that stands at the pref, if one does; its values, or those of a frame."""
        those = [it for it in self.run.states[-1].filters if (it.hook, it.pref) == (hook, pref)]
        if not those:
            return self.fields()
        found = self.one(*those)
        masks = dict(found.masks)
        values = dict(zip(masks, found.key)) if self.odds(0.5) else values_of(self.one(*self.came))
        return fields_text(values, masks)

    def fields(self) -> str:
        if self.odds(0.6):
            return self.met_fields()
        address = self.one(self.ipv4, self.ipv4, self.ipv4, self.ipv6)
        words = [
            self.one([], [f"dst_ip {address()}"], [f"dst_ip {self.ipv4()}"], [f"src_ip {address()}"]),
            self.transport() if self.odds(0.3) else [],
            self.tags() if self.odds(0.25) else [],
            [f"{self.one('dst_mac', 'src_mac')} {self.mac()}"] if self.odds(0.15) else [],
            self.some([f"ip_tos {self.one(*TOS)}", f"ip_ttl {self.one(*TTL)}"]) if self.odds(0.15) else [],
        ]
        self.chance.shuffle(words)
        return "".join(f" {it}" for its in words for it in its)

    # ---- actions

    def control(self, length: int, goto: bool) -> str:
        if self.odds(0.12):
            return f"jump {self.chance.randint(0, length + 1)}"
        return f"goto chain {self.chance.randint(0, 3)}" if goto and self.odds(0.1) else self.one(*GACT)

    def tag_words(self) -> str:
        more = [f"priority {self.one(0, 3, 7)}", f"protocol {self.one('802.1Q', '802.1ad')}"]
        words = [f"id {self.one(7, 7, 8, 100, 4094)}", *self.some(more)]
        self.chance.shuffle(words)
        return " ".join(words)

    def full(self, length: int, goto: bool, index: bool) -> str:
        """An action in full. With few indices, so that many are shared."""
        control = self.one("", f" {self.control(length, goto)}")
        tag = self.tag_words()
        others = [f"vlan push {tag}", f"vlan modify {tag}", "vlan pop", f"skbedit {self.one(*EDITED)}"]
        gact = self.one("", "gact ") + self.control(length, goto)
        kind = gact if self.odds(0.55) else self.one(*others) + control
        return kind + (f" index {self.number(self.chance.randint(1, 6))}" if index or self.odds(0.35) else "")

    def actions(self) -> str:
        length = self.one(0, 1, 1, 1, 2, 2, 3, 4, 6)
        made = (self.named() if self.odds(0.3) else self.full(length, True, False) for _ in range(length))
        return "".join(f" action {it}" for it in made)

    def named(self) -> str:
        return f"{self.one('gact', 'gact', 'vlan', 'skbedit')} index {self.chance.randint(1, 6)}"

    # ---- lines

    def hook(self) -> str:
        return self.one("ingress", "ingress", "ingress", "egress")

    def filter_line(self, verb: str) -> str:
        hook, pref = self.hook(), self.one(*PROTOCOLS, 10, 20, 20, 40)
        chain = f"chain {self.chance.randint(0, 3)}" if self.odds(0.3) else ""
        handle = f"handle {self.number(self.chance.randint(1, 5))}" if verb != "add" or self.odds(0.2) else ""
        standing = self.run.states[-1].filters
        if standing and verb != "add" and self.odds(0.7):
            its = self.one(*standing)
            hook, pref, chain, handle = its.hook, its.pref, f"chain {its.chain}", f"handle {its.handle:#x}"
        fields = self.same_fields(hook, pref) if self.odds(0.3 if verb == "add" else 0.6) else self.fields()
        if verb == "del" and self.odds(0.3):
            handle = ""
        protocol = PROTOCOLS.get(pref) if verb != "del" or self.odds(0.5) else None
        place = f"{self.one('pref', 'prio')} {self.number(pref)}" if verb != "add" or self.odds(0.95) else ""
        words = [place, chain, handle, f"protocol {protocol}" if protocol else ""]
        self.chance.shuffle(words)
        behind = " flower" * bool(handle) if verb == "del" else f" flower{fields}{self.actions()}"
        return " ".join(["filter", verb, "dev eth0", hook, *filter(None, words)]) + behind

    def line(self) -> str:
        kind = self.chance.randrange(100)
        if kind < 55:
            return self.filter_line("add")
        if kind < 72:
            return self.filter_line("replace")
        if kind < 80:
            return self.filter_line("del")
        if kind < 96:
            return f"actions {self.one('add', 'change', 'change')} action {self.full(3, False, True)}"
        qdisc = f"qdisc {self.one('add', 'del')} dev eth0 clsact"
        return self.one(f"actions del action {self.named()}", qdisc)

    def spelled(self, line: str) -> str:
        """The line, now and then with a word that is another, missing or twice."""
        words = line.split(" ")
        if self.odds(0.03):
            at = self.chance.randrange(len(words))
            words[at : at + 1] = self.one([], [words[at]] * 2, ["0x0"], ["flower"], ["index"], ["4096"])
        return " ".join(words)

    def batch(self, length: int) -> list[str]:
        """The lines of a batch. Some of those that are refused stay."""
        lines = ["qdisc add dev eth0 clsact"]
        self.run.apply(lines[0].split(), 1, 1)
        while len(lines) < length:
            line = self.one("", "# no command", "\t") if self.odds(0.03) else self.spelled(self.line())
            words = commands(line.encode()).get(1)
            if not words or self.run.apply(words, 1, 1)[0] or self.odds(0.015):
                lines.append(line)
        return lines

    # ---- frames

    def frame(self) -> str:
        """A frame as frames.py has it."""
        addresses = f"{self.one(*IPV4)} {self.one(*IPV4)}"
        tcp = f"tcp {addresses} {self.one(22, 80, 443)} {self.one('0x2', '0x12', '0x10', '0')}"
        zeros = f"zeros {self.one(0, 13, 14, 17, 18, 60)}"
        others = [f"udp {self.one(*IPV4)}", f"udp6 {self.one(*IPV6)}", zeros]
        inner = self.one(f"udp {addresses} {self.one(53, 53, 0)}", tcp, *others)
        count = self.one(0, 0, 0, 1, 1, 2, 3)
        tags = "".join(f"tag {self.one(7, 8, 100, '0x6007', '0xf008', 0)} " for _ in range(count))
        # Fragments, lengths of headers, addresses, types, protocols and numbers; and frames that are cut.
        changes = [f"with {self.one(20, 24)} {self.one('2000', '0001', '1fff')}",
                   f"with {self.one(14, 18)} {self.one('46', '4f', '44', '6f')}",
                   f"with 0 {self.one('01005e0000fb', '020000000002')}",
                   f"with {self.one(12, 16)} {self.one('88a8', '8100', '0800', '86dd', '0806')}",
                   f"with {self.one(15, 22, 23)} {self.one('00', '06', '11', '2e', '40')}",
                   f"cut {self.chance.randint(10, 64)}"]
        changed = [f" {it}" for it in changes if self.odds(0.08)]
        is_short = inner.startswith("zeros") and inner != "zeros 60"
        return inner if is_short else tags + inner + "".join(changed)

    def frames(self, most: int) -> list[str]:
        count = self.chance.randint(0, most)
        return [self.one(*self.known) if self.odds(0.7) else self.frame() for _ in range(count)]


def random_case(chance: random.Random) -> tuple[str, list[str], list[str]]:
    """A hook, the lines of a batch and the frames of a capture."""
    maker = Maker(chance)
    lines = maker.batch(maker.one(4, 12, 25, 40, 60))
    return maker.hook(), lines, maker.frames(16)


@dataclass
class RandomJob:
    """A job's files by name, and the lines of a lawful report of it."""

    files: dict[str, list[str]]
    captures: dict[str, list[str]]
    report: list[str]


def stands(state: State, thing: Thing) -> bool:
    kind, serial = thing
    if kind == "mask":
        return any(it.mask == serial for it in state.filters)
    return kind == "head" or serial in state.actions


class JobMaker(Maker):
    """Makes a job, and one of its runs: how controls meet, and at which points packets are walked."""

    def __init__(self, chance: random.Random) -> None:
        super().__init__(chance)
        self.seen = Counter[int]()
        self.workers, self.controls = self.one(1, 2, 3, 8), self.one(1, 2, 4)
        self.made = RandomJob({}, {}, ["clsact report 1"])
        self.job = ["clsact job 1", f"workers {self.workers}", f"controls {self.controls}"]

    def event(self, control: int, batch: list[str]) -> bool:
        """A further line of a control's batch, and whether it is accepted; mostly one that is."""
        lines = [] if self.run.states[-1].hooked or self.odds(0.1) else ["qdisc add dev eth0 clsact"]
        while True:
            line = lines.pop() if lines else self.spelled(self.line())
            words = commands(line.encode()).get(1)
            before = self.run.ends["refused"]
            good, text = self.run.apply(words, control, len(batch) + 1) if words else (False, "")
            if good or words and self.odds(0.05):
                batch.append(line)
                self.made.report.append(text)
                return good
            self.run.ends["refused"] = before

    def events(self, number: int) -> None:
        """A round's batches, whose lines lie between each other's; none behind a refused line is applied."""
        count = self.chance.randint(not number, self.controls)
        controls = sorted(self.chance.sample(range(1, self.controls + 1), count))
        force = {it: self.odds(0.7) for it in controls}
        batches: dict[int, list[str]] = {it: [] for it in controls}
        going = [*controls]
        for _ in range(self.one(0, 6, 15, 30) if number else 20):
            if going:
                control = self.one(*going)
                if self.odds(0.05):
                    batches[control].append("# no command")
                if not self.event(control, batches[control]) and not force[control]:
                    going.remove(control)
                    batches[control] += [self.line() for _ in range(self.one(0, 0, 2))]
        for control in controls:
            self.made.files[f"{number}-{control}.tc"] = batches[control]
            self.job.append(f"batch {control} {number}-{control}.tc" + " force" * force[control])

    def packet(self, number: int, hook: str, frame: bytes, floor: int) -> str:
        worker = self.chance.randint(1, self.workers)
        last = Counter[Thing]()
        lowest = max(floor, self.seen[worker])

        def choose(thing: Thing, points: list[int]) -> int:
            low = max(points[0] if points else lowest, last[thing])
            those = [it for it in range(low, len(self.run.states)) if stands(self.run.states[it], thing)]
            last[thing] = self.one(*those[-7:] if self.odds(0.7) else those)
            return last[thing]

        walk = Walk(self.run, hook, number, frame, choose, "")
        self.seen[worker] = max(lowest, *walk.points)
        self.run.ends[walk.verdict] += 1
        return f"packet {number} worker {worker} {walk.end()} points {' '.join(map(str, walk.points))}"

    def round(self, number: int) -> None:
        self.job.append("round")
        self.made.report.append(f"round {number + 1}")
        floor = len(self.run.states) - 1
        self.events(number)
        if self.odds(0.9):
            hook, frames = self.one("ingress", "ingress", "egress"), self.frames(10)
            self.made.captures[f"{number}.pcap"] = frames
            self.job.append(f"capture {hook} {number}.pcap {number}.out")
            for place, frame in enumerate(frames_of(capture(list(enumerate(frames)), False)), 1):
                self.made.report.append(self.packet(place, hook, frame, floor))
        self.made.report.append(f"end round {number + 1}")

    def whole(self) -> RandomJob:
        for number in range(self.one(1, 2, 2, 3)):
            self.round(number)
        self.made.report += self.run.last_lines()
        self.made.files["job"] = [*self.job, "end"]
        return self.made


def random_traced_job(chance: random.Random) -> RandomJob:
    return JobMaker(chance).whole()
