"""Draws a run: what its packets met while lines were applied, as SVG.

From left to right are the points, the numbers of edits accepted so far; each accepted edit is a line between
two points, and a refused line a cross. Each packet is a row with a dot a visit at the point that answered it,
the first of them (the hook's tables) with a ring. Blue passed, orange was dropped; the verdict also stands at
the row's end. Dots and lines have tooltips. Above 500 packets bars show how many visits each point answered, and
rows are drawn of packets that met several points and of an even sample; dots and edits that would lie on one
another are drawn as one, and the picture says so. It is light or dark as its reader likes.
"""
import os
from collections import Counter
from collections.abc import Iterator
from math import log

from clsact_texts import Object, reason_of, spell_object
from foreseen_picture import foreseen_picture
from job_runs import Event, Job, Report
from progress import Progress
from put_files import hold_output, put
from run_samples import MOST
from svg_parts import EVERY, WIDTH, dot_places, folded, line, row_height, text, titled, visit_text, whole_picture
from tool_ends import OneLineParser, end_with, shown

LEFT, RIGHT, TOP = 130, 60, 112
LISTED, BARS = 12, 130


def event_text(event: Event) -> str:
    place = f"control {event.said['control']}, {event.batch} line {event.said['line']}"
    told = f"edit {event.point}" if event.is_edit else reason_of(event.said)
    return f"{told} ({place}): {event.text}"


class Picture:
    """The picture of a report: where its points and rows lie, and what is drawn."""

    def __init__(self, job: str, report: Report) -> None:
        self.name, self.report = shown(os.path.basename(job)), report
        self.count = report.sample.count
        kept, self.mixed = report.sample.chosen()
        self.packets = [(it.round, it.packet()) for it in kept]
        self.has_rounds = sum(bool(it.packets) for it in report.rounds) > 1
        self.left = max(LEFT, 16 + int(6.2 * max((len(self.label(*it)) for it in self.packets), default=0)))
        visited = [point for counts in report.sample.visits.values() for point in counts]
        lowest = min(visited, default=0)
        self.low = lowest - 1 if lowest > 20 else 0
        self.step = min(150.0, (WIDTH - self.left - RIGHT) / (report.point - self.low + 1))
        self.row = row_height(self.count)
        self.every = next(it for it in EVERY if it * self.step >= 34)
        self.top = TOP + BARS * (self.count > MOST)
        self.bottom = self.top + self.row * max(1, len(self.packets))
        self.notes: list[str] = []
        self.is_shared, self.ring = False, "ring" if self.row > 7 else "ring fine"

    def label(self, number: int, packet: Object) -> str:
        """What stands before a row: the packet, its round where there are more with packets, or its worker."""
        if self.has_rounds:
            return f"round {number}, packet {packet['packet']}"
        return f"packet {packet['packet']}, worker {packet['worker']}"

    def edge(self, point: int) -> float:
        """Where the column of a point begins, which is where its edit's line is."""
        return self.left + (point - self.low) * self.step

    def middle(self, point: int) -> float:
        return self.edge(point) + self.step / 2

    def rounds(self) -> Iterator[str]:
        """A strip for each round, from the point that it begins with to the one that it ends with."""
        for number, round in enumerate(self.report.rounds, 1):
            if round.point < self.low:
                continue
            first = self.middle(max(round.before, self.low))
            width = max(1.5, self.middle(round.point) - first - 3)
            place = f'x="{first + 1.5:.1f}" y="{TOP - 48}" width="{width:.1f}" height="18"'
            label = f"round {number}" if width > 50 else str(number) if width > 18 else ""
            drawn = text(first + 1.5 + width / 2, TOP - 35, label, "mid small")
            yield titled(f'<rect {place} class="round"/>{drawn}', f"round {number}")

    def events(self) -> Iterator[str]:
        """A line for each edit, a cross for each refused line; those closer than two pixels share one."""
        near: dict[tuple[int, bool], list[Event]] = {}
        events = [it for round in self.report.rounds for it in round.events]
        for event in (it for it in events if not self.low or it.point > self.low):
            near.setdefault((int(self.edge(event.point) / 2), event.is_edit), []).append(event)
        for (_, is_edit), events in near.items():
            told = "\n".join(map(event_text, events[:LISTED])) + "\n.." * (len(events) > LISTED)
            yield titled(self.edit(events) if is_edit else self.cross(events[0]), told)
        if any(is_edit and len(events) > 1 for (_, is_edit), events in near.items()):
            self.notes.append("edits that lie on one another share a line")

    def edit(self, events: list[Event]) -> str:
        """The line of edits, with the number of one of them where there is room."""
        x, is_wide = self.edge(events[0].point), self.step > 46
        drawn = line(x, TOP - 14, x, self.bottom, "edit" if is_wide else "edit thin")
        for point in [it.point for it in events if it.point % self.every == 0]:
            drawn += text(x, TOP - 18, f"edit {point}" if is_wide else str(point), "mid small")
        return drawn

    def cross(self, event: Event) -> str:
        x, y = self.middle(event.point), TOP - 7
        return line(x - 4, y - 4, x + 4, y + 4, "cross") + line(x - 4, y + 4, x + 4, y - 4, "cross")

    def rows(self) -> Iterator[str]:
        for place, (number, packet) in enumerate(self.packets):
            y = self.top + self.row * (place + 0.5)
            yield from self.labels(place, number, packet, y + 4)
            yield from self.visits(packet, y)

    def labels(self, place: int, number: int, packet: Object, y: float) -> Iterator[str]:
        """The packet's number and worker, its round where there are more with packets, and its verdict."""
        if self.row < 11 and place % 10:
            return
        yield text(self.left - 10, y, self.label(number, packet), "end small")
        yield text(self.edge(self.report.point + 1) + 10, y, packet["verdict"], "small")

    def visits(self, packet: Object, y: float) -> Iterator[str]:
        """The packet's dots, side by side in the column of their point, as far as there is room."""
        radius = min(4.5, self.row / 2 - 1.5)
        places = self.places(packet["points"])
        yield line(min(places), y, max(places), y, "row")
        for x, visits in places.items():
            dot = f'<circle cx="{x:.1f}" cy="{y:.1f}" r="{radius}" class="{packet["verdict"]}"/>'
            ring = f'<circle cx="{x:.1f}" cy="{y:.1f}" r="{radius + 2}" class="{self.ring}"/>'
            told = (spell_object(packet) or "").split(" points ")[0]
            yield titled(dot + ring * (visits[0] == 0), visit_text(told, packet["points"], visits))

    def places(self, points: list[int]) -> dict[float, list[int]]:
        """Where each dot lies, and for which visits it stands."""
        near = dot_places(points, self.edge, self.step)
        self.is_shared = self.is_shared or len(near) < len(points)
        return near

    def bars(self) -> Iterator[str]:
        """Above the rows of a sample: a bar for the visits that points answered, of all packets, by the logarithm of
        their number; its lower part are those of packets that passed."""
        if self.count <= MOST:
            return
        wide = max(1, -int(-3 // self.step))
        counts = {verdict: Counter[int]() for verdict in ("pass", "drop")}
        for verdict, visits in self.report.sample.visits.items():
            for point, times in visits.items():
                counts[verdict][(point - self.low) // wide] += times
        totals = counts["pass"] + counts["drop"]
        most = max(totals.values())
        for place in sorted(totals):
            yield self.bar(place, wide, [(it, counts[it][place]) for it in counts], (BARS - 34) / log(1 + most))
        yield text(self.left - 10, self.top - 16, "visits of all packets", "end small")
        yield text(self.left - 10, self.top - 2, f"(tallest: {most:,})", "end small")

    def bar(self, place: int, wide: int, parts: list[tuple[str, int]], unit: float) -> str:
        """The bar of some points that lie side by side."""
        first, last = self.low + place * wide, min(self.low + place * wide + wide - 1, self.report.point)
        total, y, drawn = sum(times for _, times in parts), self.top - 8.0, ""
        width = max(1.0, self.step * (last - first + 1) - 0.6)
        for verdict, times in parts:
            height = unit * log(1 + total) * times / total
            y -= height
            place_of = f'x="{self.edge(first):.1f}" y="{y:.1f}" width="{width:.1f}" height="{height:.1f}"'
            drawn += f'<rect {place_of} class="{verdict}"/>' * (times > 0)
        points = f"point {first}" if first == last else f"points {first} to {last}"
        told = " and ".join(f"{times:,} of packets that {'passed' if verdict == 'pass' else 'were dropped'}" for verdict, times in parts)
        return titled(drawn, f"visits at {points}: {told}")

    def axis(self) -> Iterator[str]:
        """The points below the rows, and what they are."""
        y, behind = self.bottom, self.report.point + 1
        yield line(self.left, y, self.edge(behind), y, "axis")
        for point in range(-(-self.low // self.every) * self.every, behind, self.every):
            yield line(self.middle(point), y, self.middle(point), y + 4, "axis")
            yield text(self.middle(point), y + 17, str(point), "mid small")
        yield text(self.left, y + 36, "point: how many edits were accepted before", "note small")

    def legend(self) -> Iterator[str]:
        packets = f"{self.count} packet{'s' * (self.count != 1)}"
        yield text(16, 26, f"{self.name}: {packets} and {self.report.point} edits", "head")
        entries = [("pass", "passed"), ("drop", "dropped"), ("ring", "first visit: the hook's tables")]
        x = 22.0
        for sort, label in entries:
            yield f'<circle cx="{x:.1f}" cy="44" r="{6.5 if sort == "ring" else 4.5}" class="{sort}"/>'
            yield text(x + 11, 48, label, "small")
            x += 34 + 5.6 * len(label)
        yield line(x, 38, x, 50, "edit") + text(x + 8, 48, "an edit", "small")
        yield line(x + 64, 40, x + 72, 48, "cross") + line(x + 64, 48, x + 72, 40, "cross")
        yield text(x + 80, 48, "a refused line", "small")

    def told(self) -> list[str]:
        """What stands below the picture: the lines of its events where they are few, and what isn't drawn."""
        events = [it for round in self.report.rounds for it in round.events]
        listed = [event_text(it) for it in events] if len(events) <= LISTED else []
        if self.count > MOST:
            of_mixed = f"{self.mixed} of {self.report.sample.mixed_count} that met several points, and others evenly taken from all"
            listed.append(f"{len(self.packets)} of {self.count} packets are drawn: {of_mixed}")
        if self.low:
            listed.append(f"points below {self.low} have no visit and aren't drawn")
        if self.is_shared:
            listed.append("visits of a packet that would lie on one another share a dot")
        return listed + self.notes

    def drawn(self) -> str:
        """The whole picture."""
        body = [*self.rounds(), *self.events(), *self.bars(), *self.rows(), *self.axis(), *self.legend()]
        below = [line for it in self.told() for line in folded(it)]
        body += [text(16, self.bottom + 60 + 17 * place, it, "note small") for place, it in enumerate(below)]
        title = f"Visits of {self.count} packets at the points of {self.report.point} edits"
        return whole_picture(self.bottom + 62 + 17 * len(below), title, body)


def main(words: list[str]) -> int:
    about = "Draws what the packets of a run met while lines were applied, or what `foresee` tells of them, as SVG."
    more = """The job's batches are read under the names that it gives them, so start it where the job runs.
        Nothing is written where a file breaks its form, or where the report isn't one of the job."""
    parser = OneLineParser(prog="./clsact picture", description=about, epilog=more)
    parser.usage = "./clsact picture [-h] JOB REPORT OUT | FORESEEN OUT"
    parser.add_argument("JOB", help="the job file, or the text of `foresee`")
    parser.add_argument("REPORT", nargs="?", help="the report of the job's run")
    parser.add_argument("OUT", help="the picture; what stood there is replaced")
    given = parser.parse_args(words)
    hold_output(given.OUT)
    if given.REPORT is None:
        with Progress("clsact picture", "lines") as progress:
            drawn = foreseen_picture(given.JOB, progress)
    else:
        with Progress("clsact picture", "lines") as progress:
            drawn = Picture(given.JOB, Report(given.REPORT, Job(given.JOB), progress)).drawn()
    put(given.OUT, drawn)
    return 0


if __name__ == "__main__":
    end_with(main)
