"""Whether a packet met a filter, and if not, why: by the packet's way and the filter's line.

A filter is asked where its chain is gone through, its table is tried (by pref, and by the packet's
EtherType), and no older mask of the table found another filter. It is met where the packet's fields are its
own under its mask.
"""
from dataclasses import dataclass

from batch_lines import Field, Request
from batch_state import Filter, Mask, mask_of
from field_words import printed, type_word
from packet_ways import Look, Passage, Tried, Way
from tool_ends import Fault

MET, MISSED, NOT_ASKED = range(3)
LISTED = 20


@dataclass(frozen=True)
class Outcome:
    """What came of the filter on one passage through its chain."""

    sort: int
    why: str
    visit: int = 0


def mask_in(fields: list[Field]) -> Mask:
    return mask_of(Request("filter", "add", fields=fields))


class Question:
    """Why a packet met a filter or didn't."""

    def __init__(self, packet: int, way: Way, filter: Filter) -> None:
        self.packet, self.way, self.filter, self.request = packet, way, filter, filter.request

    def answer(self) -> list[str]:
        """One line or two on the filter, and one on what became of the packet."""
        return [*self.of_filter(), self.of_packet()]

    def of_filter(self) -> list[str]:
        passages = [it for it in self.way.passages if it.chain == self.request.chain]
        if not passages:
            stands = f"it stands in chain {self.request.chain}"
            return [f"not asked: {stands}, and packet {self.packet} went through {self.chains()}"]
        outcomes = [self.outcome(it) for it in passages]
        best = min(it.sort for it in outcomes)
        found = [it for it in outcomes if it.sort == best]
        if best == MET:
            return [self.met([it.visit for it in found])]
        return self.told("asked and missed" if best == MISSED else "not asked", [it.why for it in found])

    def chains(self) -> str:
        numbers = sorted({it.chain for it in self.way.passages})
        return ("chain " if len(numbers) == 1 else "chains ") + " ".join(map(str, numbers))

    def met(self, visits: list[int]) -> str:
        place = "{0.hook} chain {0.chain} pref {0.pref} handle 0x{0.handle:x}".format(self.request)
        if len(visits) == 1:
            return f"met: packet {self.packet} met it at visit {visits[0]} ({place})"
        listed = " ".join(map(str, visits[:LISTED])) + " .." * (len(visits) > LISTED)
        return f"met: packet {self.packet} met it {len(visits)} times, at visits {listed} ({place})"

    def told(self, what: str, whys: list[str]) -> list[str]:
        """Once for all times, or the first and the last."""
        if len(whys) == 1:
            return [f"{what}: {whys[0]}"]
        if len(set(whys)) == 1:
            return [f"{what}, each of {len(whys)} times: {whys[0]}"]
        return [f"{what}, the first of {len(whys)} times: {whys[0]}", f"{what}, the last time: {whys[-1]}"]

    def outcome(self, passage: Passage) -> Outcome:
        table = next((it for it in passage.tables if it.pref == self.request.pref), None)
        if not table:
            return Outcome(NOT_ASKED, self.untried(passage))
        look = next((it for it in table.looks if mask_in(it.fields) == self.filter.mask), None)
        if not look:
            return Outcome(NOT_ASKED, self.behind_mask(table, passage))
        if look.line == self.request.line:
            return Outcome(MET, "", look.visit)
        return Outcome(MISSED, self.differs(look), look.visit)

    def untried(self, passage: Passage) -> str:
        """Why the filter's table wasn't tried."""
        later = next((it for it in passage.tables if it.pref > self.request.pref), None)
        if not later and passage.taker:
            taker = f"line {passage.taker.line} (pref {passage.tables[-1].pref})"
            when = f"at visit {passage.taker.visit}, before pref {self.request.pref}"
            return f"{taker} took packet {self.packet} {when}"
        if not later and passage.is_spent:
            return f"the walk of packet {self.packet} was spent before pref {self.request.pref}"
        if self.request.protocol is None:
            raise self.fault()
        was = (later.protocol if later else passage.protocol) or "of another EtherType"
        due = type_word(self.request.protocol)
        return f"it is for protocol {due}, and packet {self.packet} was {was} there"

    def behind_mask(self, table: Tried, passage: Passage) -> str:
        """Why the filter's mask wasn't looked up though its table was tried."""
        look = table.looks[-1] if table.looks else None
        if look and look.line:
            taker = f"line {look.line} (pref {table.pref} too)"
            return f"{taker} took packet {self.packet} at visit {look.visit}, by an older mask"
        if not passage.is_spent:
            raise self.fault()
        return f"the walk of packet {self.packet} was spent at pref {table.pref}, before its mask"

    def differs(self, look: Look) -> str:
        """The first field in which the packet isn't the filter's, with both values under the mask."""
        own = {it.name: it for it in self.request.fields}
        for theirs in look.fields:
            mine = own[theirs.name]
            if mine.number & mine.bits != theirs.number & theirs.bits:
                values = f"{printed(mine)} in line {self.request.line}, {printed(theirs)}"
                return f"at visit {look.visit} by {theirs.name}: {values} in packet {self.packet}"
        raise self.fault()

    def of_packet(self) -> str:
        """What became of the packet, and which line decided it."""
        last = self.way.passages[-1]
        ended = f"packet {self.packet} {'passed' if self.way.end['verdict'] == 'pass' else 'was dropped'}"
        if last.is_spent:
            return f"{ended}: its walk was spent"
        if not last.taker:
            return f"{ended}: no filter decided"
        place = f"chain {last.chain} pref {last.tables[-1].pref}"
        return f"{ended}: line {last.taker.line} decided at visit {last.taker.visit} ({place})"

    def fault(self) -> Fault:
        what = "the trace isn't what this tool makes of the batch, which is the tool's fault"
        return Fault(f"packet {self.packet}: {what}")
