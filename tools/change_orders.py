"""Orders of the lines of a change in which each packet of a capture is dealt with as before the change or as after it.

An order is cut into steps, with a pause between: a step begins when the packets that came before it are through. What
can become of a packet in steps can become of it without pauses too, so where a line isn't safe behind some others,
with a pause before it, no order that goes on from there is. A pause stands between lines that add and lines that
delete in any case. What isn't promised: that the order with the fewest steps is found, or that there is none where the
tries were used up.
"""
from collections.abc import Iterator
from dataclasses import dataclass, field

from clsact_texts import Object
from foreseen_steps import Asked, Foreseen, Lines, Name, same_state, step_bytes
from progress import Progress

# How often the program is asked at most.
MOST = 2000
BOTH = {"add", "del"}
FIRST = {"add": 0, "edit": 1, "del": 2}


def unmixed(lines: Lines) -> int:
    """How many of the first of these lines don't add and delete."""
    return next((at for at in range(len(lines)) if {it.sort for it in lines[:at + 1]} >= BOTH), len(lines))


@dataclass
class Orders:
    """The lines of a change, what becomes of each packet before it and after it, what stands behind it, and what was
    asked already."""

    asked: Asked
    lines: Lines
    safe: list[set[str]]
    due: list[Object]
    named: set[Name]
    progress: Progress
    known: dict[tuple[Lines, Lines], str] = field(default_factory=dict)

    @property
    def is_spent(self) -> bool:
        return len(self.known) >= MOST

    def fault(self, before: Lines, step: Lines) -> str:
        """Why a step isn't safe behind these lines; nothing where it is."""
        key = (before, step)
        if key not in self.known:
            self.progress.count += 1
            self.known[key] = self.fault_in(self.asked.foresee(before, step_bytes(step)))
        return self.known[key]

    def fault_in(self, its: Foreseen) -> str:
        if its.refused:
            return "it is refused: " + its.refused[0].split(" ", 6)[-1]
        for number, (fates, safe) in enumerate(zip(its.fates, self.safe), 1):
            if more := sorted(fates - safe):
                return f"packet {number} may have another end: {more[0]}"
            if number in its.open:
                return f"packet {number} has more ways than are looked at"
        return ""

    def steps_of(self, order: Lines) -> list[Lines]:
        """The order in as few steps as it can be; none where a line of it isn't safe."""
        steps: list[Lines] = []
        at = 0
        while at < len(order):
            length = self.longest(order[:at], order[at:at + unmixed(order[at:])])
            if not length:
                return []
            steps.append(order[at:at + length])
            at += length
        return steps

    def longest(self, before: Lines, lines: Lines) -> int:
        """How many of the first of these lines are safe as one step: with a line that isn't none longer is."""
        good, bad = 0, len(lines) + 1
        length = len(lines)
        while good + 1 < bad:
            if self.fault(before, lines[:length]):
                bad = length
            else:
                good = length
            length = (good + bad) // 2
        return good

    def is_same(self, order: Lines) -> bool:
        """Whether an order leaves what the change's own leaves."""
        return same_state(self.asked.state(order), self.named) == same_state(self.due, self.named)

    def likely(self) -> Iterator[Lines]:
        """Its own order; then those in which a change is mostly safe: first what is added, of that first what stands in other
        chains, since nothing goes there yet; then what is edited in place; and last what is deleted."""
        yield self.lines
        for lines in (self.lines, self.lines[::-1]):
            yield tuple(sorted(lines, key=lambda it: (FIRST[it.sort], it.sort == "add" and not it.chain)))

    def all_safe(self, before: Lines = ()) -> Iterator[Lines]:
        """All orders that are safe with a pause behind each line, as long as tries are left."""
        left = [it for it in self.lines if it not in before]
        if not left:
            yield before
        for line in left:
            if not self.is_spent and not self.fault(before, (line,)):
                yield from self.all_safe(before + (line,))

    def best(self) -> list[Lines]:
        """The steps of the best order that is found; none where none is."""
        fewest = len({it.sort for it in self.lines} & BOTH) or 1
        best: list[Lines] = []
        for orders in (self.likely(), self.all_safe()):
            for order in orders:
                steps = self.steps_of(order)
                if steps and (not best or len(steps) < len(best)) and self.is_same(order):
                    best = steps
                if best and len(best) <= fewest or self.is_spent:
                    return best
        return best

    def never_safe(self) -> Iterator[tuple[int, str]]:
        """The lines that weren't safe wherever they were tried alone, each with what was in the way first."""
        for line in self.lines:
            found = [why for (_, step), why in self.known.items() if step == (line,)]
            if found and all(found):
                yield line.number, found[0]
