"""Which packets of a run are drawn, and how often each point answered: in one pass, in memory that doesn't grow.

Up to 500 packets are all drawn. Of more, up to 250 of those whose visits met several points, and for the rest an
even sample of all; what is evenly taken of those that met several is thinned out as more of them come. Visits
are counted by point and verdict.
"""
from collections import Counter
from dataclasses import dataclass, field

from clsact_texts import Object
from packet_lines import REST, packets_in

MOST, MIXED = 500, 250
REMEMBERED = 1 << 24


@dataclass(slots=True, eq=False)
class Met:
    """What the points of a packet come to: the first, or -1 where another lies before it, the highest, and whether there
    are several; and how many packets met just them, with one verdict."""

    first: int
    highest: int
    is_mixed: bool
    count: int = 0


@dataclass(frozen=True)
class Kept:
    """A packet that may be drawn: its place among all, and its round."""

    place: int
    round: int
    line: bytes

    def packet(self) -> Object:
        return next(packets_in(self.line + b"\n"))


def evenly(items: list[Kept], most: int) -> list[Kept]:
    return [items[place * len(items) // most] for place in range(most)] if len(items) > most else items


@dataclass
class Sample:
    """The packets of a run of so many, as they come."""

    count: int
    seen: int = 0
    even: list[Kept] = field(default_factory=list)
    mixed: list[Kept] = field(default_factory=list)
    mixed_count: int = 0
    step: int = 1
    known: dict[bytes, Met] = field(default_factory=dict)
    room: int = REMEMBERED
    visits: dict[str, Counter[int]] = field(default_factory=lambda: {"pass": Counter(), "drop": Counter()})

    def met(self, rests: list[bytes]) -> list[Met] | None:
        """What lines tell behind their workers; nothing where a line of a packet has no such rest. Many lines tell the same,
        so the last are remembered."""
        if self.room < 0:
            self.count_visits()
        counts = Counter(rests)
        for rest, count in counts.items():
            met = self.known.get(rest) or self.learn(rest)
            if not met:
                return None
            met.count += count
        return list(map(self.known.__getitem__, rests))

    def learn(self, rest: bytes) -> Met | None:
        """What a line tells that isn't remembered."""
        found = REST.fullmatch(rest)
        if not found:
            return None
        points = [int(it) for it in found[2].split(b" ")]
        first = points[0] if min(points) == points[0] else -1
        self.room -= len(rest) + 256
        self.known[rest] = Met(first, max(points), len(set(points)) > 1)
        return self.known[rest]

    def next_even(self) -> int:
        """The packet that the even sample has next."""
        return len(self.even) if self.count <= MOST else len(self.even) * self.count // MOST

    def take(self, round: int, lines: list[bytes], mixed: list[int]) -> None:
        """Takes the next packets: their lines, and which of them met several points."""
        while (place := self.next_even()) < self.seen + len(lines):
            self.even.append(Kept(place, round, lines[place - self.seen]))
        for place in mixed:
            self.take_mixed(Kept(self.seen + place, round, lines[place]))
        self.seen += len(lines)

    def take_mixed(self, kept: Kept) -> None:
        if self.mixed_count % self.step == 0:
            self.mixed.append(kept)
        self.mixed_count += 1
        if len(self.mixed) > 2 * MIXED:
            self.mixed, self.step = self.mixed[::2], 2 * self.step

    def count_visits(self) -> None:
        """Counts the visits of the packets whose lines are remembered, and forgets these."""
        for rest, met in self.known.items():
            if found := REST.fullmatch(rest):
                for point in found[2].split(b" "):
                    self.visits[found[1].decode()][int(point)] += met.count
        self.known.clear()
        self.room = REMEMBERED

    def chosen(self) -> tuple[list[Kept], int]:
        """The packets that are drawn, in order, and how many of them are there for having met several points."""
        if self.count <= MOST:
            return self.even, 0
        mixed = evenly(self.mixed, MIXED)
        places = {it.place for it in mixed}
        rest = evenly([it for it in self.even if it.place not in places], MOST - len(mixed))
        return sorted(mixed + rest, key=lambda it: it.place), len(mixed)
