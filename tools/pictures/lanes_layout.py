"""Where the lanes of a run or an audit stand, and where each column of time."""
from dataclasses import dataclass, field
from math import ceil

from pictures.history import only
from pictures.svg import CODE, SMALL_CODE

# with more lanes than these a picture has small ones, and with more than these it leaves some out
MOST_LARGE, MOST = 40, 400
# how far time may reach to the right, in several bands or in one, and how much room marks and words take
WIDTH, ONE_WIDTH, MARK, APART, MARGIN = 1200, 1340, 16, 10, 24
# on the small scale: the distances of columns that are tried, and how many rows the bands may have for each lane
STEPS, MOST_ROWS = (4, 3, 2, 1.5), 1.5


@dataclass(frozen=True)
class Scale:
    """How high lanes are, those on the cycle and others, and how far apart."""

    bar: float
    gap: float
    cycle_bar: float
    cycle_gap: float
    is_large: bool


LARGE = Scale(24, 14, 24, 60, True)
SMALL = Scale(6, 3, 18, 44, False)


@dataclass
class Band:
    """A stretch of time, from one column to another, with the lanes that are active in it."""

    first: int
    last: int = 0
    top: float = 0
    bottom: float = 0
    right: float = 0
    # the upper edge of each lane, by its number
    tops: dict = field(default_factory=dict)


@dataclass
class Layout:
    """The places of everything."""

    history: object
    lanes: list
    scale: Scale
    cycle: set
    # where time begins
    left: float
    bands: list = field(default_factory=list)
    # where each column stands, and in which band
    xs: list = field(default_factory=list)
    band_of: list = field(default_factory=list)

    def is_named(self, lane):
        """Whether a lane's name is shown: each on a large scale, else every tenth and those on the cycle."""
        return self.scale.is_large or lane.number % 10 == 0 or lane.number in self.cycle

    def bar(self, lane):
        return self.scale.cycle_bar if lane.number in self.cycle else self.scale.bar

    def gap(self, lane):
        return self.scale.cycle_gap if lane.number in self.cycle else self.scale.gap

    def span(self, lane, band):
        """Where the bar of a lane begins and ends in a band."""
        begin = self.xs[lane.first] if lane.first >= band.first else self.left
        end = self.xs[lane.last] if lane.last <= band.last else band.right
        return begin, end


def words_of(lane):
    """The words in a lane, each with its column."""
    yield lane.first, f"at {lane.start}"
    for mark in lane.marks:
        yield mark.column, mark.words
    if lane.ending != "active":
        yield lane.last, lane.note or "0" * len(str(lane.commit))


def room(words):
    return MARK + len(words) * CODE + APART


def items_of(layout):
    """The lanes that have words at each column, with the room that these take."""
    items = [[] for _ in range(layout.history.columns)]
    for lane in layout.lanes:
        for column, words in words_of(lane):
            items[column].append((lane.number, room(words)))
    return items


def place_up_to(layout, items, width):
    """Places columns so that no words of a lane meet; where the width is used up, a band ends."""
    layout.bands, layout.xs, layout.band_of = [], [], []
    free, x = {}, layout.left
    for column, here in enumerate(items):
        x = max([x + MARK, *(free.get(number, 0) for number, _ in here)])
        if not layout.bands or x + max([it for _, it in here], default=0) > width:
            layout.bands.append(Band(column))
            free, x = {}, layout.left + MARK
        free.update((number, x + wide) for number, wide in here)
        layout.bands[-1].last = column
        layout.bands[-1].right = max(layout.bands[-1].right, x, *free.values())
        layout.xs.append(x)
        layout.band_of.append(len(layout.bands) - 1)


def place_large(layout):
    """Places columns by their words: in one band where it is not too wide, else in bands of about the same width."""
    items = items_of(layout)
    place_up_to(layout, items, float("inf"))
    length = layout.bands[0].right - layout.left
    if layout.left + length > ONE_WIDTH:
        count = ceil(length / (WIDTH - layout.left))
        place_up_to(layout, items, min(WIDTH, layout.left + 1.08 * length / count))


def place_small(layout):
    """Places columns at one distance: the widest at which few lanes go on from one band to the next."""
    columns = layout.history.columns
    for step in STEPS:
        most = max(1, int((WIDTH - layout.left) / step))
        each = ceil(columns / ceil(columns / most))
        firsts = range(0, columns, each)
        rows = sum(lane.last // each - lane.first // each + 1 for lane in layout.lanes)
        if rows <= MOST_ROWS * len(layout.lanes):
            break
    else:
        each, firsts = columns, range(1)
    step = min(14, (WIDTH - layout.left) / each)
    layout.xs = [layout.left + MARK + step * (column % each) for column in range(columns)]
    layout.band_of = [column // each for column in range(columns)]
    layout.bands = [Band(it, min(it + each, columns) - 1) for it in firsts]
    for band in layout.bands:
        band.right = layout.xs[band.last] + MARK


def stack(layout, top):
    """Stacks the lanes of each band, and the bands."""
    for band in layout.bands:
        band.top = top
        y = top + 26
        for lane in layout.lanes:
            if lane.first <= band.last and lane.last >= band.first:
                y += layout.gap(lane) / 2
                band.tops[lane.number] = y
                y += layout.bar(lane) + layout.gap(lane) / 2
        band.bottom = y
        top = y + 18


def numbers_shown(history, cycle):
    """The instances that are drawn of very many: those on the cycle and the nearest to its first, or else the first."""
    begin = min(cycle, default=0)
    others = sorted((lane.number for lane in history.lanes if lane.number not in cycle), key=lambda it: abs(it - begin))
    return cycle | set(others[: max(0, MOST - len(cycle))])


def lay_out(history, top):
    """The places of a history's lanes, from a height on."""
    cycle = history.on_cycle()
    if len(history.lanes) > MOST:
        history = only(history, numbers_shown(history, cycle))
    scale = LARGE if len(history.lanes) <= MOST_LARGE else SMALL
    layout = Layout(history, history.lanes, scale, cycle, 0)
    named = [len(lane_name(lane)) for lane in layout.lanes if layout.is_named(lane)]
    layout.left = MARGIN + max(named, default=0) * (CODE if scale.is_large or cycle else SMALL_CODE) + 20
    if scale.is_large:
        place_large(layout)
    else:
        place_small(layout)
    stack(layout, top)
    return layout


def lane_name(lane):
    return f"{lane.number} {lane.call}"
