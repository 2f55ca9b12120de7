"""The picture: SVG."""
import html
import itertools
import math
import re
from collections.abc import Iterable, Iterator, Sequence
from typing import Any, NamedTuple

import numpy

from ..network.geo import Point
from ..network.net_file import MappedNetwork
from .geometry import View, arrows, path_of, scale_bar_metres, to_mercator
from .roads import RoadLines, make_scene
from .routes import NARROWEST, DrawnRoute, routes_of

PAPER, INK, FAINT = "#fbfaf8", "#33302b", "#7a756c"
LETTER, BOLD_LETTER = 7.8, 8.8
ROW, SWATCH, MARGIN, FOOT = 24, 58, 14, 36
LONGEST_LABEL, SHORTEST_LABEL, MAX_ROWS = 48, 12, 40
SECOND_LINE, ROUND_ENDS, CLOSE = 18, 8, 10
MAX_OF_WIDTH, AREA_OPACITY = 0.4, 0.33
BETWEEN_ARROWS, FROM_ENDS, MAX_WITH_ARROWS = 130, 16, 20
# The corners of an arrow, ahead and aside of its place.
ARROW = ((7, 0), (-5, 6), (-5, -6))
# How many pixels apart the points of routes are, where there are more than have arrows.
CLOSE_POINTS = 1.5
# How much wider than a route its white edge is, which parts it from the roads.
CASING = 2.5
HALO = f' paint-order="stroke" stroke="{PAPER}" stroke-width="3" stroke-linejoin="round"'


def svg_of(arrays: MappedNetwork, name: str, features: Iterable[Any], width: int) -> str:
    """The picture of features of GeoJSON, whose name messages have, over the roads of their network around them."""
    routes = routes_of(features, name, None)
    box, roads = make_scene(arrays, routes, False, name)
    return picture_of(routes, roads, View(box, width), arrays.texts[0])


def picture_of(routes: list[DrawnRoute], roads: list[RoadLines], view: View, attribution: str) -> str:
    legend = legend_for(routes, roads, view)
    height = view.height + (legend.height + MARGIN if legend and legend.top >= view.height else 0)
    lines = [route for route in routes if not route.rings]
    least = 0.0 if len(lines) <= MAX_WITH_ARROWS else CLOSE_POINTS
    parts = [
        f'<svg xmlns="http://www.w3.org/2000/svg" width="{view.width}" height="{height}" '
        f'viewBox="0 0 {view.width} {height}" font-family="Helvetica, Arial, sans-serif" font-size="14">',
        f'<clipPath id="frame"><rect width="{view.width}" height="{view.height}"/></clipPath>',
        f'<rect width="{view.width}" height="{height}" fill="{PAPER}"/>',
        '<g clip-path="url(#frame)" fill="none" stroke-linecap="round" stroke-linejoin="round">',
        *(draw_area(route, view) for route in routes if route.rings),
        *draw_roads(roads, view),
        *(draw_pieces(route, view, "#fff", CASING, least) for route in lines),
        *(draw_route(route, view, least) for route in lines),
        *(draw_arrows(route.line, route.colour, view) for route in lines if route.line and len(routes) <= MAX_WITH_ARROWS),
        *(draw_ends(in_picture([route.line[0], route.line[-1]], view), route.colour) for route in lines if route.line),
        "</g>",
        *(draw_legend(legend) if legend else ()),
        *draw_foot(attribution, view),
        "</svg>\n",
    ]
    return "\n".join(parts)


def escaped(text: str) -> str:
    """A text for SVG or HTML, between tags or in quotes. What XML can't hold is shown as unknown."""
    return html.escape(re.sub(r"[^\t\n\r\x20-\ud7ff\ue000-\ufffd\U00010000-\U0010ffff]", "\ufffd", text))


def in_picture(places: Sequence[Point], view: View) -> list[Point]:
    return view.pixels(to_mercator(places))


def draw_roads(roads: list[RoadLines], view: View) -> Iterator[str]:
    """A path for each kind of roads; tunnels, which are dashed, lie below the others."""
    thinner = max(0.5, min(1, view.width / 600))
    for style, dashes, lines in sorted(roads, key=lambda of_kind: of_kind.dashes is None):
        if lines:
            data = "".join(path_of(in_picture(line, view)) for line in lines)
            look = f' stroke-dasharray="{dashes}" stroke-linecap="butt"' if dashes else ""
            yield f'<path stroke="{style.colour}" stroke-width="{style.width * thinner:g}"{look} d="{data}"/>'


def draw_area(area: DrawnRoute, view: View) -> str:
    """An area below the roads, in its colour, over those before it."""
    data = "".join(path_of(in_picture(ring, view)) + "Z" for ring in area.rings)
    look = f'fill="{tint(area.colour)}" fill-rule="evenodd" stroke="{area.colour}"'
    return f'<g><title>{escaped(area.label)}</title><path {look} d="{data}"/></g>'


def tint(colour: str) -> str:
    """A colour as it is on paper with AREA_OPACITY."""
    pairs = zip(bytes.fromhex(colour[1:]), bytes.fromhex(PAPER[1:]))
    return "#" + bytes(round(own * AREA_OPACITY + under * (1 - AREA_OPACITY)) for own, under in pairs).hex()


def draw_route(route: DrawnRoute, view: View, least: float) -> str:
    """A route, and its streets as what is shown under the pointer."""
    shown = escaped("\n".join([f"{route.label}: {route.figures}", *(f"{name}, {way}" for name, way in route.steps)]))
    return f"<g><title>{shown}</title>{draw_pieces(route, view, route.colour, 0, least)}</g>"


def draw_pieces(route: DrawnRoute, view: View, colour: str, more: float, least: float) -> str:
    """The pieces of a route, so much wider than they are, by points that are `least` pixels apart or more."""
    paths = [(width + more, path_of(spaced(in_picture(line, view), least))) for width, line in route.pieces]
    return "".join(f'<path stroke="{colour}" stroke-width="{width:g}" d="{data}"/>' for width, data in paths)


def spaced(pixels: list[Point], least: float) -> list[Point]:
    """A line without the points between its ends that are nearer than `least` to the one before them that stays."""
    found = pixels[:1]
    for point in pixels[1:-1]:
        if max(abs(point[0] - found[-1][0]), abs(point[1] - found[-1][1])) >= least:
            found.append(point)
    return [*found, *pixels[1:][-1:]]


def draw_arrows(line: list[Point], colour: str, view: View) -> str:
    """Arrows along a route, in its colour with a white edge."""
    pixels, data = in_picture(line, view), ""
    for (x, y), (east, south) in arrows(pixels, BETWEEN_ARROWS):
        if min(math.dist((x, y), end) for end in (pixels[0], pixels[-1])) >= FROM_ENDS:
            points = [(x + ahead * east - aside * south, y + ahead * south + aside * east) for ahead, aside in ARROW]
            data += "M" + "L".join(f"{right:.1f} {down:.1f}" for right, down in points) + "Z"
    return f'<path fill="{colour}" stroke="#fff" d="{data}"/>' if data else ""


def draw_ends(ends: Sequence[Point], colour: str) -> str:
    """A ring where a route begins, and a dot where it ends."""
    begin, end = ends
    ring = f'cx="{begin[0]:.1f}" cy="{begin[1]:.1f}" r="6" fill="#fff" stroke="{colour}" stroke-width="3"'
    dot = f'cx="{end[0]:.1f}" cy="{end[1]:.1f}" r="7" fill="{colour}" stroke="#fff" stroke-width="2"'
    return f"<circle {ring}/><circle {dot}/>"


class Row(NamedTuple):
    """A row of a legend; one without a colour is text alone."""

    colour: str | None
    label: str
    figures: str
    is_area: bool


class Legend(NamedTuple):
    """The legend of a picture: its rows, how high they are, above ROW with figures below labels, and where it is."""

    rows: list[Row]
    row_height: int
    left: float
    top: float
    width: float

    @property
    def height(self) -> int:
        return self.row_height * len(self.rows) + MARGIN


def legend_for(routes: list[DrawnRoute], roads: list[RoadLines], view: View) -> Legend | None:
    """The legend: in the corner where it hides the least of the roads, or below the map where it would hide a part of a
    route in each, or would be wider than two fifths of the picture. None without routes."""
    if not routes:
        return None
    rows = legend_rows(routes, max(1, int(view.height * 0.6 / ROW)), LONGEST_LABEL)
    width = width_of(rows)
    hidden, left, top = corner_for(width, ROW * len(rows) + MARGIN, routes, roads, view)
    if not hidden and width <= view.width * MAX_OF_WIDTH:
        return Legend(rows, ROW, left, top, width)
    # below the map labels are shortened to the room, and have a line of their own where that would be short
    room = view.width - 2 * MARGIN
    figures = max(len(route.figures) for route in routes) * LETTER
    beside = int((room - SWATCH - figures - 3 * MARGIN) / BOLD_LETTER)
    is_tall = beside < SHORTEST_LABEL
    letters = int((room - SWATCH - 2 * MARGIN) / BOLD_LETTER) if is_tall else beside
    rows = legend_rows(routes, MAX_ROWS, min(letters, LONGEST_LABEL))
    row_height, width = (ROW + SECOND_LINE, room) if is_tall else (ROW, min(room, width_of(rows)))
    return Legend(rows, row_height, MARGIN, view.height, width)


def width_of(rows: list[Row]) -> float:
    """How wide a legend is with labels and figures side by side."""
    letters = max(len(row.label) for row in rows) * BOLD_LETTER + max(len(row.figures) for row in rows) * LETTER
    return SWATCH + letters + 3 * MARGIN


def draw_legend(legend: Legend) -> Iterator[str]:
    yield f'<g transform="translate({legend.left:.0f} {legend.top:.0f})" fill="{INK}">'
    box = f'width="{legend.width:.0f}" height="{legend.height}" rx="6"'
    yield f'<rect {box} fill="#fff" fill-opacity="0.93" stroke="#dcd8d0"/>'
    for number, row in enumerate(legend.rows):
        yield from draw_row(row, MARGIN / 2 + legend.row_height * number + ROW / 2, legend)
    yield "</g>"


def draw_row(row: Row, middle: float, legend: Legend) -> Iterator[str]:
    """A row of the legend: a short route, or a small area, in its colour, if it has one, the label and the figures."""
    colour, label, figures, is_area = row
    if colour and is_area:
        box = f'x="{MARGIN + 4}" y="{middle - 8:g}" width="{SWATCH - 22}" height="16"'
        yield f'<rect {box} fill="{tint(colour)}" stroke="{colour}"/>'
    elif colour:
        left, right = MARGIN + 4, MARGIN + SWATCH - 18
        yield f'<path stroke="{colour}" stroke-width="{NARROWEST}" d="M{left} {middle:g}H{right}"/>'
        yield draw_ends([(left, middle), (right, middle)], colour)
    yield f'<text x="{MARGIN + SWATCH}" y="{middle + 5:g}" font-weight="bold">{escaped(label)}</text>'
    if legend.row_height > ROW:
        has_room = SWATCH + 2 * MARGIN + len(figures) * LETTER <= legend.width
        indent = MARGIN + SWATCH if has_room else MARGIN
        yield f'<text x="{indent}" y="{middle + 5 + SECOND_LINE:g}">{escaped(figures)}</text>'
    else:
        yield f'<text x="{legend.width - MARGIN:.0f}" y="{middle + 5:g}" text-anchor="end">{escaped(figures)}</text>'


def legend_rows(routes: list[DrawnRoute], most: int, letters: int) -> list[Row]:
    """The rows, with labels of so many letters; the last counts the routes that there is no room for."""
    rows = []
    for route in routes if len(routes) <= most else routes[: most - 1]:
        label = route.label if len(route.label) <= letters else route.label[: max(1, letters - 1)] + "…"
        rows.append(Row(route.colour if route.places else None, label, route.figures, bool(route.rings)))
    if len(rows) < len(routes):
        rows.append(Row(None, f"and {len(routes) - len(rows)} more", "", False))
    return rows


def corner_for(
    width: float, height: float, routes: list[DrawnRoute], roads: list[RoadLines], view: View
) -> tuple[int, float, float]:
    """Where the upper left corner of a box of that size lies best, the fewest points of routes, and then of roads, being
    hidden there: how many of routes, and the corner."""
    right, bottom = view.width - width - MARGIN, view.height - height - MARGIN - FOOT
    corners = [(MARGIN, MARGIN), (right, MARGIN), (right, bottom), (MARGIN, bottom)]
    of_routes = (densify(in_picture(route.line, view)) for route in routes if route.line)
    of_roads = (in_picture(line, view) for of_kind in roads for line in of_kind.lines)
    points = [numpy.array([*itertools.chain.from_iterable(some)]).reshape(-1, 2) for some in (of_routes, of_roads)]

    def hidden(corner: Point) -> list[int]:
        low = corner[0] - ROUND_ENDS, corner[1] - ROUND_ENDS
        high = corner[0] + width + ROUND_ENDS, corner[1] + height + ROUND_ENDS
        return [int(((some >= low) & (some <= high)).all(axis=1).sum()) for some in points]

    best = min(corners, key=hidden)
    return hidden(best)[0], *best


def densify(line: Sequence[Point]) -> list[Point]:
    """The points of a line and some between, so that no two neighbours are further apart than CLOSE pixels."""
    points = [line[0]]
    for (x, y), (next_x, next_y) in itertools.pairwise(line):
        steps = max(1, math.ceil(math.hypot(next_x - x, next_y - y) / CLOSE))
        points += [(x + (next_x - x) * step / steps, y + (next_y - y) * step / steps) for step in range(1, steps + 1)]
    return points


def draw_foot(attribution: str, view: View) -> Iterator[str]:
    """A bar of a round length, at most a fifth of the picture, and the attribution, if there is one."""
    pixel = view.metres_of_a_pixel
    bar = scale_bar_metres(pixel * view.width / 5)
    length, bottom = bar / pixel, view.height - MARGIN
    said = f"{bar / 1000:g} km" if bar >= 1000 else f"{bar:g} m"
    yield f'<path d="M{MARGIN} {bottom - 6}v6h{length:.1f}v-6" fill="none" stroke="{INK}" stroke-width="1.5"/>'
    yield f'<text x="{MARGIN + 6}" y="{bottom - 7}" font-size="12" fill="{INK}"{HALO}>{said}</text>'
    if attribution:
        place = f'x="{view.width - MARGIN}" y="{view.height - MARGIN}" text-anchor="end"'
        yield f'<text {place} font-size="11" fill="{FAINT}"{HALO}>{escaped(attribution)}</text>'
