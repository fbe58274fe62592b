"""Draws the dependencies of a cycle as arrows between lanes, each with its words where there is room."""
from pictures.history import columns_of
from pictures.lanes_layout import MARGIN, lane_name
from pictures.svg import CODE, RED

# an arrow's dashes tell its kind
DASHES = {"saw": None, "missed": "8 5", "both": "2 4", "": "12 4 2 4"}
# more arrows than these have no words
MOST = 60
VERBS = {"saw": "saw", "missed": "missed", "both": "changed later", "": ""}
PLACES = [0.5, 0.45, 0.55, 0.4, 0.6, 0.35, 0.65, 0.3, 0.7, 0.25, 0.75, 0.2, 0.8]


def at(curve, part):
    """The point at a part of a curve's way."""
    rest = 1 - part
    weights = (rest**3, 3 * rest**2 * part, 3 * rest * part**2, part**3)
    return tuple(sum(weight * point[axis] for weight, point in zip(weights, curve)) for axis in (0, 1))


def edge_of(layout, lane, column, other_y):
    """Where an arrow touches a lane at a column: its upper edge or its lower one, whichever is nearer."""
    band = layout.bands[layout.band_of[column]]
    top = band.tops[lane.number]
    return layout.xs[column], top if other_y < top else top + layout.bar(lane)


def curve_of(layout, link):
    """The four points of the arrow of a dependency."""
    one, other = layout.history.lane_of(link.before), layout.history.lane_of(link.after)
    begin, end = columns_of(layout.history, link)
    middles = [layout.bands[layout.band_of[column]].tops[lane.number] for column, lane in ((begin, one), (end, other))]
    x1, y1 = edge_of(layout, one, begin, middles[1])
    x2, y2 = edge_of(layout, other, end, middles[0])
    bend = max(20, abs(y2 - y1) * 0.35) * (1 if y2 > y1 else -1)
    return (x1, y1), (x1, y1 + bend), (x2, y2 - bend), (x2, y2)


def overlap(one, other):
    """The area that two boxes share, each (left, top, right, bottom)."""
    width = min(one[2], other[2]) - max(one[0], other[0])
    height = min(one[3], other[3]) - max(one[1], other[1])
    return max(0, width) * max(0, height)


def bars(layout):
    """The boxes of all lanes, with their names left of them."""
    for band in layout.bands:
        for lane in layout.lanes:
            if lane.number in band.tops:
                begin, end = layout.span(lane, band)
                top = band.tops[lane.number]
                yield begin - 8, top, end + 8, top + layout.bar(lane)
                if layout.is_named(lane):
                    x = MARGIN if layout.scale.is_large else begin - 6 - len(lane_name(lane)) * CODE
                    yield x, top, x + len(lane_name(lane)) * CODE, top + layout.bar(lane)


def label_box(point, words):
    """The box of words around a point."""
    x, y = point
    half = len(words) * CODE * 0.5 + 3
    return x - half, y - 8, x + half, y + 8


def boxes_along(curve):
    """Small boxes along a curve, with a larger one for its head."""
    for part in range(1, 20):
        x, y = at(curve, part / 20)
        yield x - 3, y - 3, x + 3, y + 3
    x, y = curve[3]
    yield x - 9, y - 12, x + 9, y + 12


def best_place(curve, words, taken):
    """The point on a curve or beside it at which words cover least of what is there."""
    half = len(words) * CODE * 0.5 + 10
    beside = ((half, 0), (-half, 0), (0, -13), (0, 13), (half, 10), (-half, -10), (half, -10), (-half, 10), (0, 0))
    points = [(x + dx, y + dy) for part in PLACES for x, y in [at(curve, part)] for dx, dy in beside]
    return min(points, key=lambda point: sum(overlap(label_box(point, words), it) for it in taken))


def draw_arrow(drawing, link, curve):
    """The arrow of a dependency, without words."""
    points = [f"{x:.1f} {y:.1f}" for x, y in curve]
    drawing.line(
        f"M {points[0]} C {', '.join(points[1:])}",
        stroke=RED,
        stroke_width=2.2,
        stroke_dasharray=DASHES[link.kind],
        marker_end="url(#red)",
        tip=link.sentence,
    )


def draw_dependencies(drawing, layout):
    """All arrows, and then their words over them."""
    links = layout.history.dependencies
    curves = [curve_of(layout, link) for link in links]
    taken = [*bars(layout), *(box for curve in curves for box in boxes_along(curve))]
    for link, curve in zip(links, curves):
        draw_arrow(drawing, link, curve)
    for link, curve in list(zip(links, curves))[:MOST]:
        words = f"{VERBS[link.kind]} {link.cell}".strip()
        x, y = best_place(curve, words, taken)
        taken.append(label_box((x, y), words))
        drawing.text(x, y + 4, words, "name red halo", text_anchor="middle")
