"""Draws a text of `foresee`: what can become of packets while a change is applied, packets by edits, as SVG.

From left to right are the points, the numbers of edits accepted so far, from the one before the change to the one
behind it; each edit is a line between two points. Each fate of a packet is a row, with a dot a visit at the points
that the text tells of it; behind the row stand its verdict and when it is had. Fates that neither the state before
nor the state after has lie on a strip. Where there are more than 500 rows, those of packets that are between, mixed
or open are drawn before those of packets that moved, and these before the others; the picture says so.
"""
import os
from collections.abc import Iterator
from dataclasses import dataclass, field

from clsact_texts import At, Object, parts_of_text, spell_object
from job_runs import opened
from progress import Progress
from svg_parts import EVERY, WIDTH, dot_places, folded, line, row_height, text, titled, visit_text, whole_picture
from tool_ends import BLOCK, Fault, shown

LEFT, RIGHT, TOP, LISTED, MOST = 190, 110, 92, 12, 500
# Which packets are drawn before others.
FIRST = ("between", "mixed", "open", "moved", "steady")
NEITHER = ("between", "mixed")


@dataclass
class Packet:
    """A packet's line, and those of its fates."""

    said: Object
    fates: list[Object] = field(default_factory=list)


class Foreseen:
    """A text of `foresee`: its points, its edits, and of its packets by kind as many as may be drawn."""

    def __init__(self, name: str, progress: Progress) -> None:
        self.name, self.number, self.count, self.fates = shown(name), 0, 0, 0
        self.change: Object = {}
        self.edits: list[Object] = []
        self.kept: dict[str, list[Packet]] = {kind: [] for kind in FIRST}
        self.packet, self.sums = Packet({}), 0
        with opened(name) as file:
            parts = parts_of_text(iter(lambda: file.read(BLOCK), b""), self.name)
            for self.number, said in progress.upto((number, (number, it)) for number, it in parts):
                if isinstance(said, bytes):
                    raise self.fault("no text of `foresee` has such a line")
                if not isinstance(said, At):
                    getattr(self, "take_" + said["type"], self.take_other)(said)
        if not self.change or self.sums != 1:
            raise self.fault("this isn't the text of `foresee`")

    def fault(self, what: str) -> Fault:
        return Fault(f"{self.name}:{self.number}: {what}")

    def take_other(self, said: Object) -> None:
        raise self.fault("no text of `foresee` has such a line")

    def take_end(self, said: Object) -> None:
        """Its last line, which says nothing."""

    def take_refused(self, said: Object) -> None:
        """A refused line changes nothing, and isn't drawn."""

    def take_change(self, said: Object) -> None:
        if self.change or said["from"] > said["to"]:
            raise self.fault("no change is told here")
        self.change = said

    def take_edit(self, said: Object) -> None:
        if not self.change or said["edit"] != self.change["from"] + len(self.edits) + 1 or said["edit"] > self.change["to"]:
            raise self.fault(f"edit {said['edit']} isn't the change's next one")
        self.edits.append(said)

    def take_packet(self, said: Object) -> None:
        if not self.change or said.get("kind") not in FIRST or said["packet"] != self.count + 1:
            raise self.fault("this packet isn't the next one of a change")
        self.count, self.packet = self.count + 1, Packet(said)
        if sum(len(it.fates) for it in self.kept[said["kind"]]) < MOST:
            self.kept[said["kind"]].append(self.packet)

    def take_fate(self, said: Object) -> None:
        points = said["points"]
        if said["packet"] != self.packet.said.get("packet"):
            raise self.fault(f"this fate isn't one of packet {self.count}")
        if min(points) < self.change["from"] or max(points) > self.change["to"]:
            raise self.fault("a point is before the change, or behind it")
        self.fates += 1
        self.packet.fates.append(said)

    def take_foreseen(self, said: Object) -> None:
        if said["packets"] != self.count:
            raise self.fault("the sum counts other packets than the text has")
        self.sums += 1

    def chosen(self) -> list[Packet]:
        """The packets that are drawn, in their order: those of the first kinds, as long as there are rows."""
        chosen: list[Packet] = []
        rows = 0
        for packet in (it for kind in FIRST for it in self.kept[kind]):
            rows += len(packet.fates)
            if rows <= MOST:
                chosen.append(packet)
        return sorted(chosen, key=lambda it: int(it.said["packet"]))


class ForeseenPicture:
    """The picture of a text: where its points and rows lie, and what is drawn."""

    def __init__(self, its: Foreseen) -> None:
        self.its, self.packets = its, its.chosen()
        self.first, self.last = int(its.change["from"]), int(its.change["to"])
        self.rows = [(packet, fate) for packet in self.packets for fate in packet.fates]
        self.step = min(150.0, (WIDTH - LEFT - RIGHT) / (self.last - self.first + 1))
        self.row = row_height(len(self.rows))
        self.every = next(it for it in EVERY if it * self.step >= 34)
        self.bottom = TOP + self.row * max(1, len(self.rows))
        self.is_shared, self.ring = False, "ring" if self.row > 7 else "ring fine"

    def edge(self, point: int) -> float:
        """Where the column of a point begins, which is where its edit's line is."""
        return LEFT + (point - self.first) * self.step

    def edits(self) -> Iterator[str]:
        """A line for each edit, with its number where there is room."""
        is_wide = self.step > 46
        for edit in self.its.edits:
            x, number = self.edge(edit["edit"]), edit["edit"]
            drawn = line(x, TOP - 14, x, self.bottom, "edit" if is_wide else "edit thin")
            if number % self.every == 0 or is_wide:
                drawn += text(x, TOP - 18, f"edit {number}" if is_wide else str(number), "mid small")
            yield titled(drawn, edit_text(edit))

    def drawn_rows(self) -> Iterator[str]:
        for place, (packet, fate) in enumerate(self.rows):
            y = TOP + self.row * (place + 0.5)
            if fate["when"] in NEITHER:
                where = f'x="{LEFT:.1f}" y="{y - self.row / 2 + 1:.1f}" width="{self.edge(self.last + 1) - LEFT:.1f}"'
                yield f'<rect {where} height="{self.row - 2}" class="round"/>'
            yield from self.labels(place, packet, fate, y + 4)
            yield from self.visits(fate, y)

    def labels(self, place: int, packet: Packet, fate: Object, y: float) -> Iterator[str]:
        """Before the first row of a packet its number and kind, and behind each row the fate and when it is had."""
        if self.row < 11 and place % 10:
            return
        if fate is packet.fates[0] or self.row < 11:
            yield text(LEFT - 10, y, f"packet {packet.said['packet']}: {packet.said['kind']}", "end small")
        yield text(self.edge(self.last + 1) + 10, y, f"{fate['verdict']}, {fate['when']}", "small")

    def visits(self, fate: Object, y: float) -> Iterator[str]:
        """The dots of a row."""
        radius = min(4.5, self.row / 2 - 1.5)
        places = dot_places(fate["points"], self.edge, self.step)
        self.is_shared = self.is_shared or len(places) < len(fate["points"])
        told = (spell_object(fate) or "").split(" points ")[0]
        yield line(min(places), y, max(places), y, "row")
        for x, visits in places.items():
            dot = f'<circle cx="{x:.1f}" cy="{y:.1f}" r="{radius}" class="{fate["verdict"]}"/>'
            ring = f'<circle cx="{x:.1f}" cy="{y:.1f}" r="{radius + 2}" class="{self.ring}"/>'
            yield titled(dot + ring * (visits[0] == 0), visit_text(told, fate["points"], visits))

    def axis(self) -> Iterator[str]:
        """The points below the rows, and what they are."""
        y, behind = self.bottom, self.last + 1
        yield line(LEFT, y, self.edge(behind), y, "axis")
        for point in range(self.first, behind):
            if point % self.every == 0 or self.step > 46:
                yield line(self.edge(point) + self.step / 2, y, self.edge(point) + self.step / 2, y + 4, "axis")
                yield text(self.edge(point) + self.step / 2, y + 17, str(point), "mid small")
        yield text(LEFT, y + 36, "point: how many edits were accepted before", "note small")

    def legend(self) -> Iterator[str]:
        packets = f"{self.its.count} packet{'s' * (self.its.count != 1)}"
        name = os.path.basename(self.its.name)
        yield text(16, 26, f"{name}: {packets} while edits {self.first + 1} to {self.last} come", "head")
        x = 22.0
        for sort, label in (("pass", "passes"), ("drop", "is dropped"), ("ring", "first visit: the hook's tables")):
            yield f'<circle cx="{x:.1f}" cy="44" r="{6.5 if sort == "ring" else 4.5}" class="{sort}"/>'
            yield text(x + 11, 48, label, "small")
            x += 34 + 5.6 * len(label)
        yield f'<rect x="{x:.1f}" y="38" width="22" height="12" class="round"/>'
        yield text(x + 30, 48, "neither as before the change nor as after it", "small")

    def told(self) -> list[str]:
        """What stands below the picture: the edits where they are few, and what isn't drawn."""
        listed = [edit_text(it) for it in self.its.edits] if len(self.its.edits) <= LISTED else []
        if len(self.packets) < self.its.count:
            listed.append(f"{len(self.packets)} of {self.its.count} packets are drawn, first those that are between, mixed or open")
        if self.is_shared:
            listed.append("visits that would lie on one another share a dot")
        return listed

    def drawn(self) -> str:
        """The whole picture."""
        body = [*self.edits(), *self.drawn_rows(), *self.axis(), *self.legend()]
        below = [part for it in self.told() for part in folded(it)]
        body += [text(16, self.bottom + 60 + 17 * place, it, "note small") for place, it in enumerate(below)]
        title = f"What can become of {self.its.count} packets at the points of {self.last - self.first} edits"
        return whole_picture(self.bottom + 62 + 17 * len(below), title, body)


def edit_text(edit: Object) -> str:
    words = (spell_object(edit) or "").split(" ", 6)
    return f"edit {edit['edit']} (line {edit['line']} of the change): {words[-1]}"


def foreseen_picture(name: str, progress: Progress) -> str:
    """The picture of the text in a file."""
    return ForeseenPicture(Foreseen(name, progress)).drawn()
