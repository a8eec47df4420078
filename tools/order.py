"""Brings the lines of a change into an order in which no packet of a capture is lost or let through meanwhile.

The new change leaves the same state, but for handles and indices that no line names, and is written as a batch: its
lines in steps, with comments that say where a pause has to be. Of each step the program foresees, last of all, that each packet is dealt with as before the whole
change or as after it, and no more than that is claimed. Where no such order is found that is said, with the lines that
are in the way, and nothing is written. What isn't promised: anything of packets that aren't in the capture.
"""
import sys

from batch_lines import lines_in
from change_orders import MOST, Orders
from clsact_texts import read_line
from foreseen_steps import Asked, Foreseen, Lines, named_in, step_bytes, written_out
from hints import tell
from program import CANNOT_READ, CannotRead, build, kept, read_batch, take_program
from progress import Progress
from put_files import hold_output, put
from tool_ends import OneLineParser, end_with, shown

HOOKS = ("ingress", "egress")
NONE = 1
CURES = {
    "add": "what it adds can't be met before the rest is there: add it last, or in a chain that nothing goes to yet",
    "edit": "where it leaves its mask, add the new filter at another pref first, and delete the old one behind a pause",
    "del": "change what it deletes in place by `filter replace`, or add what is to stand for it at another pref first",
}


class Change:
    """A change with the files beside it, under the names that were given."""

    def __init__(self, asked: Asked, change: bytes, names: tuple[str, str, str]) -> None:
        self.asked, self.change, self.names = asked, change, names
        self.own = asked.foresee((), change)

    def orders(self, progress: Progress) -> Orders:
        """The orders of its lines, none of which is refused in its own."""
        done = {int(it.split(" ")[5]): read_line(it) or {} for it in self.own.edits}
        lines = tuple(written_out(it, done[it.number]) for it in lines_in(self.change))
        before, after = self.asked.foresee((), b""), self.asked.foresee(lines, b"")
        safe = [old | new for old, new in zip(before.fates, after.fates)]
        named = named_in(self.asked.batch) | named_in(self.change)
        return Orders(self.asked, lines, safe, self.asked.state(lines), named, progress)

    def text(self, steps: list[Lines], lasts: list[Foreseen]) -> str:
        """The new change as a batch."""
        batch, change, capture = map(shown, self.names)
        told = [f"# {change} behind {batch}, in an order in which each packet of {capture} at {self.asked.hook} is dealt with",
                "# as before the change or as after it. It leaves the same state."]
        for number, (step, last) in enumerate(zip(steps, lasts), 1):
            if number > 1:
                told.append("# PAUSE: go on when all packets that came before are through.")
            told.append(f"# Step {number} of {len(steps)}, foreseen: {last.sums}")
            told += [it.text for it in step]
        return "".join(f"{it}\n" for it in told)

    def refused(self) -> int:
        """Tells of the first refused line, of the batch or of the change."""
        lines, name = (self.own.refused_before, self.names[0]) if self.own.refused_before else (self.own.refused, self.names[1])
        words = lines[0].split(" ", 6)
        print(f"{shown(name)}:{words[5]}: refused, so nothing is ordered: {words[6]}", file=sys.stderr)
        return NONE


def none_found(change: Change, orders: Orders) -> int:
    """Says that no order was found, and what was in the way."""
    count = len(orders.lines)
    name = shown(change.names[1])
    if orders.is_spent:
        print(f"{name}: no order of its {count} lines was found in {MOST} tries")
    else:
        print(f"{name}: no order of its {count} lines is safe for these packets, also with a pause behind each line")
    sorts = {it.number: it.sort for it in orders.lines}
    for number, why in orders.never_safe():
        print(f"{name}:{number}: wherever it stands: {why}")
        if not why.startswith("it is refused"):
            print(f"    {CURES[sorts[number]]}")
    return NONE


def ordered(change: Change, out: str) -> int:
    """Finds an order, foresees each step a last time, and writes it."""
    if change.own.refused_before or change.own.refused:
        return change.refused()
    with Progress("clsact order", "tries") as progress:
        orders = change.orders(progress)
        steps = orders.best()
        fronts = [sum(steps[:at], ()) for at in range(len(steps))]
        lasts = [change.asked.foresee(front, step_bytes(step)) for front, step in zip(fronts, steps)]
    if orders.lines and not steps or any(map(orders.fault_in, lasts)):
        return none_found(change, orders)
    put(out, change.text(steps, lasts))
    count = f"{len(steps)} step{'s' * (len(steps) != 1)}"
    print(f"{shown(out)}: {len(orders.lines)} lines in {count}, safe for {len(orders.safe)} packets")
    return 0


def main(words: list[str]) -> int:
    about = "Brings the lines of CHANGE into an order in which no packet of CAPTURE is lost or let through meanwhile."
    more = """The new change is a batch in steps; between two of them all packets that came before have to be
        through. It ends with 1 where no such order is found, or a line is refused. Other exit numbers are those of
        `./clsact foresee`."""
    parser = OneLineParser(prog="./clsact order", description=about, epilog=more)
    parser.add_argument("HOOK", choices=HOOKS)
    parser.add_argument("BATCH", help="what stands before: a file of tc lines")
    parser.add_argument("CHANGE", help="the change: a file of tc lines")
    parser.add_argument("CAPTURE", help="a capture that `walk` takes")
    parser.add_argument("OUT", help="the new change; what stood there is replaced")
    take_program(parser)
    given = parser.parse_args(words)
    hold_output(given.OUT)
    build(given.program)
    name = given.BATCH
    try:
        batch, name = read_batch(name), given.CHANGE
        data, name = read_batch(name), given.CAPTURE
        with kept(name) as capture:
            names = (given.BATCH, given.CHANGE, given.CAPTURE)
            change = Change(Asked(given.program, given.HOOK, batch, capture), data, names)
            if change.own.answer.number not in (0, 1, 8):
                return failed(change, [given.HOOK, *names])
            return ordered(change, given.OUT)
    except CannotRead:
        tell(f"cannot read {shown(name)}\n", ["foresee", *words])
        return CANNOT_READ


def failed(change: Change, words: list[str]) -> int:
    """Tells what the program told, under the names that were given."""
    told = change.own.answer.told
    for file, name in zip(change.own.files, change.names):
        told = told.replace(file, shown(name))
    tell(told, ["foresee", *words])
    return change.own.answer.number


if __name__ == "__main__":
    end_with(main)
