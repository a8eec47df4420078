"""Parts of a picture, as SVG: texts, lines, what has a tooltip, and where the dots of a row lie.

It is light or dark as its reader likes.
"""
import textwrap
from collections.abc import Callable
from html import escape

from batch_lines import seen_text

WIDTH, LETTERS = 880, 125
HEIGHTS = ((20, 24), (60, 16), (150, 11))
EVERY: list[int] = [digit * 10 ** zeros for zeros in range(9) for digit in (1, 2, 5)]
STYLE = """
text { font: 12px sans-serif; fill: #333 } .head { font-size: 16px; font-weight: bold }
.small { font-size: 11px }
.mid { text-anchor: middle } .end { text-anchor: end } .note { fill: #666 } .back { fill: #fff }
.pass { fill: #0072b2 } .drop { fill: #d55e00 } .ring { fill: none; stroke: #333; stroke-width: 1.5 }
.fine { stroke-width: .8 } .row { stroke: #bbb } .axis { stroke: #555 } .round { fill: #ececec }
.edit { stroke: #555; stroke-dasharray: 3 3 } .thin { opacity: .35 }
.cross { stroke: #a0005a; stroke-width: 2 }
@media (prefers-color-scheme: dark) {
text { fill: #ddd } .note { fill: #aaa } .back { fill: #14181d }
.pass { fill: #56b4e9 } .drop { fill: #f08c3a }
.ring { stroke: #ddd } .row { stroke: #4a4f57 } .edit, .axis { stroke: #999 } .round { fill: #272d35 }
.cross { stroke: #ff8ad0 }
}
"""


def clean(text: str) -> str:
    return escape(seen_text(text.replace("\t", " ")))


def text(x: float, y: float, what: str, sort: str = "") -> str:
    return f'<text x="{x:.1f}" y="{y:.1f}" class="{sort}">{clean(what)}</text>'


def line(x: float, y: float, to_x: float, to_y: float, sort: str) -> str:
    return f'<line x1="{x:.1f}" y1="{y:.1f}" x2="{to_x:.1f}" y2="{to_y:.1f}" class="{sort}"/>'


def titled(what: str, title: str) -> str:
    return f"<g>{what}<title>{clean(title)}</title></g>"


def folded(what: str) -> list[str]:
    """A text in lines that the picture has room for, cut nowhere but at spaces, where there are any."""
    return textwrap.wrap(what, LETTERS, subsequent_indent="    ", break_on_hyphens=False) or [""]



def row_height(rows: int) -> int:
    """How high a row of so many is."""
    return next((height for most, height in HEIGHTS if rows <= most), 7)


def dot_places(points: list[int], edge: Callable[[int], float], step: float) -> dict[float, list[int]]:
    """Where each dot of a row lies, side by side in the column of its point as far as there is room, and for which
    visits it stands."""
    columns: dict[int, list[int]] = {}
    for visit, point in enumerate(points):
        columns.setdefault(point, []).append(visit)
    near: dict[int, tuple[float, list[int]]] = {}
    for point, visits in columns.items():
        dots = min(max(1, int(step / 14)), len(visits))
        for dot in range(dots):
            x = edge(point) + step * (dot + 1) / (dots + 1)
            own = visits[dot:] if dot == dots - 1 else visits[dot:dot + 1]
            near.setdefault(int(x / 3), (x, []))[1].extend(own)
    return {x: sorted(visits) for x, visits in near.values()}


def visit_text(said: str, points: list[int], visits: list[int]) -> str:
    """A dot's tooltip: whose it is, which of its visits these are, and their points."""
    met = sorted({points[it] for it in visits})
    sort = " (the hook's tables)" if visits == [0] else ""
    name = f"visit {visits[0] + 1}" if len(visits) == 1 else f"visits {visits[0] + 1} to {visits[-1] + 1}"
    point = f"point {met[0]}" if len(met) == 1 else f"points {met[0]} to {met[-1]}"
    return f"{said}: {name} of {len(points)}{sort} at {point}"


def whole_picture(height: float, title: str, body: list[str]) -> str:
    """The picture of this height, with all that is drawn."""
    size = f'viewBox="0 0 {WIDTH} {height}" width="{WIDTH}" height="{height}"'
    head = [f'<svg xmlns="http://www.w3.org/2000/svg" {size} role="img">', f"<title>{clean(title)}</title>"]
    head += [f"<style>{STYLE}</style>", f'<rect width="{WIDTH}" height="{height}" rx="6" class="back"/>']
    return "\n".join([*head, *body, "</svg>\n"])
