"""Draws a run or an audit: a lane for each instance along time, the circle of a cycle, and a serial order."""
from pictures.arrows import draw_dependencies
from pictures.lanes_layout import MARGIN, lane_name, lay_out
from pictures.marks import ENDINGS, commit_width, draw_ending, draw_key, draw_mark
from pictures.order_drawing import draw_cycle, draw_order
from pictures.svg import CODE, RED, Drawing


def counted(count, noun, many=None):
    return f"{count} {noun if count == 1 else many or noun + 's'}"


def title_of(history):
    """What is seen, in a line."""
    ended = [lane.ending for lane in history.lanes]
    told = [counted(len(ended), history.noun), counted(ended.count("committed"), "commit")]
    told += [counted(ended.count(it), noun, many) for it, noun, many in
             (("clashed", "clash", "clashes"), ("aborted", "abort", None)) if it in ended]
    what = "An audit" if history.noun == "record" else "A run"
    last = "; no serial order" if history.cycle else "; a serial order" if history.order else ""
    return f"{what}: {', '.join(told)}{last}"


def draw_commit_times(drawing, layout, band):
    """A dotted line at each commit: whoever begins right of it sees the commit."""
    for lane in layout.lanes:
        if lane.commit and band.first <= lane.last <= band.last:
            x = layout.xs[lane.last]
            drawing.line(f"M {x} {band.top + 18} V {band.bottom}", stroke="#999", stroke_dasharray="1 4")


def tip_of(lane):
    """All of a lane in a line."""
    ending = f"committed {lane.commit}" if lane.commit else lane.ending
    return f"{lane_name(lane)}, at {lane.start}, {lane.note or ending}"


def draw_bar(drawing, layout, lane, band):
    """The bar of a lane in a band: pale where it commits, dashed where not, open where it goes on in another band."""
    begin, end = layout.span(lane, band)
    top, height = band.tops[lane.number], layout.bar(lane)
    is_red, is_large = lane.number in layout.cycle, layout.scale.is_large
    begin, end = (begin - 8 if is_large else begin), max(end, begin + 3)
    fill = "#ececec" if lane.commit else "#fff"
    drawing.box(begin, top, end - begin, height, tip=tip_of(lane), fill=fill, stroke="none")
    left = "L" if lane.first >= band.first else "M"
    right = "L" if lane.last <= band.last else "M"
    drawing.line(
        f"M {end:.1f} {top:.1f} L {begin:.1f} {top:.1f} {left} {begin:.1f} {top + height:.1f} "
        f"L {end:.1f} {top + height:.1f} {right} {end:.1f} {top:.1f}",
        stroke=RED if is_red else "#555",
        stroke_width=2 if is_red else 1 if is_large else 0.6,
        stroke_dasharray=None if lane.commit else "4 3" if is_large else "2 1",
    )


def draw_words(drawing, layout, lane, band):
    """What is done in a lane of the large scale, each thing with its words."""
    y = band.tops[lane.number] + layout.bar(lane) / 2
    if band.first <= lane.first <= band.last:
        drawing.text(layout.xs[lane.first], y + 4, f"at {lane.start}", "note")
    for mark in lane.marks:
        if band.first <= mark.column <= band.last:
            x = layout.xs[mark.column]
            draw_mark(drawing, mark.kind, x, y)
            drawing.text(x + 10, y + 4, mark.words, "code")
    if lane.ending != "active" and band.first <= lane.last <= band.last:
        x = layout.xs[lane.last]
        draw_ending(drawing, lane.ending, lane.commit, x, y)
        drawing.text(x + (commit_width(lane.commit) - 4 if lane.commit else 14), y + 4, lane.note, "code halo")


def draw_ticks(drawing, layout, lane, band):
    """What is done in a lane of the small scale: a hair for each look, a bold tick for each change."""
    top, height = band.tops[lane.number], layout.bar(lane)
    here = [it for it in lane.marks if band.first <= it.column <= band.last]
    for kinds, width in ((("read", "range"), 0.8), (("put", "removed", "kept"), 3)):
        ticks = [f"M {layout.xs[it.column]:.1f} {top:.1f} v {height}" for it in here if it.kind in kinds]
        if ticks:
            drawing.line(" ".join(ticks), stroke_width=width)
    if lane.ending != "active" and band.first <= lane.last <= band.last:
        draw_small_ending(drawing, layout, lane, layout.xs[lane.last], top + height / 2)


def draw_small_ending(drawing, layout, lane, x, y):
    """The end of a lane of the small scale: a dot for a commit, with its number where the lane is named, or a cross."""
    if not lane.commit:
        drawing.line(f"M {x - 3} {y - 3} l 6 6 M {x - 3} {y + 3} l 6 -6", stroke_width=1.8, tip=lane.note)
        return
    drawing.add("circle", cx=x, cy=y, r=3.2, fill="#111")
    if layout.is_named(lane):
        kind = "name red halo" if lane.number in layout.cycle else "small halo"
        drawing.text(x + 7, y + 3, f"commit {lane.commit}", kind)


def draw_name(drawing, layout, lane, band):
    """The name of a lane: left of time, or on the small scale where the lane begins."""
    y = band.tops[lane.number] + layout.bar(lane) / 2
    kind = "name red" if lane.number in layout.cycle else "code" if layout.scale.is_large else "small"
    if layout.scale.is_large:
        drawing.text(MARGIN, y + 4, lane_name(lane), kind)
    else:
        begin = layout.span(lane, band)[0]
        drawing.text(begin - 6, y + 3, lane_name(lane), f"{kind} halo", text_anchor="end")


def draw_band(drawing, layout, band):
    """A stretch of time with its lanes."""
    x = layout.left + 8
    if layout.scale.is_large:
        drawing.text(MARGIN, band.top + 12, layout.history.noun, "note")
    drawing.text(x, band.top + 12, "time →" if band.first == 0 else "time goes on →", "note")
    if layout.scale.is_large:
        draw_commit_times(drawing, layout, band)
    for lane in (it for it in layout.lanes if it.number in band.tops):
        draw_bar(drawing, layout, lane, band)
        (draw_words if layout.scale.is_large else draw_ticks)(drawing, layout, lane, band)
        if layout.is_named(lane):
            draw_name(drawing, layout, lane, band)


def draw_keys(drawing, layout, left_out, y, right):
    """What the shapes mean."""
    if layout.scale.is_large:
        kinds = {mark.kind for lane in layout.lanes for mark in lane.marks}
        kinds |= {lane.ending for lane in layout.lanes if lane.ending in ENDINGS}
        y = draw_key(drawing, kinds, MARGIN, y, right)
        words = "at N: it sees the first N commits. Dotted: when a commit was made."
    else:
        words = "Hair: a look. Bold tick: a change. Dot: a commit. Cross: an end without one. Each tenth lane is named."
        words += f" {counted(left_out, 'more lane')} left out, with their time." if left_out else ""
    drawing.text(MARGIN, y + 4, words, "note")
    return y + 30


def draw_history(history):
    """The whole picture of a run or an audit."""
    title = title_of(history)
    drawing = Drawing(title, describe(history))
    drawing.arrow_head("red", RED)
    drawing.text(MARGIN, 34, title, "head")
    layout = lay_out(history, 52)
    right = max([760, *(band.right for band in layout.bands)])
    for band in layout.bands:
        draw_band(drawing, layout, band)
    draw_dependencies(drawing, layout)
    y = layout.bands[-1].bottom + 34
    if history.cycle:
        y = draw_cycle(drawing, history, MARGIN, y)
    else:
        y = draw_order(drawing, history, MARGIN, y, right, layout.scale.is_large)
    y = draw_keys(drawing, layout, len(history.lanes) - len(layout.lanes), y + 8, right)
    widest = max([0, *(len(it.sentence) for it in history.dependencies)]) * CODE + 80
    return drawing.document(max(right, widest) + MARGIN + (0 if layout.scale.is_large else 90), y)


def describe(history):
    """The picture in words."""
    if history.cycle:
        return "; ".join(it.sentence for it in history.dependencies)
    return f"The commits in a serial order: {', '.join(str(it) for it in history.order)}."
