"""The marks of lanes: a shape for each thing that an instance does, and for each end."""
from pictures.svg import NOTE

MEANINGS = {
    "read": "reads a cell",
    "range": "counts, sums or lists a range",
    "put": "sets a cell",
    "removed": "removes a row",
    "kept": "keeps a cell",
    "ready": "is ready, with replies",
    "committed": "commits, as the commit of this number",
    "clashed": "clashes",
    "aborted": "aborts",
    "withdrawn": "is withdrawn",
}
ENDINGS = ("committed", "clashed", "aborted", "withdrawn")


def draw_mark(drawing, kind, x, y, tip=None):
    """The shape of something done, with its middle at a place."""
    if kind == "read":
        drawing.add("circle", tip=tip, cx=x, cy=y, r=4.5, fill="#fff", stroke="#111", stroke_width=1.8)
    elif kind == "range":
        drawing.box(x - 4.5, y - 7, 9, 14, tip=tip, rx=4.5, stroke_width=1.8)
    elif kind == "put":
        drawing.box(x - 5, y - 5, 10, 10, tip=tip, fill="#111")
    elif kind == "removed":
        drawing.box(x - 5, y - 5, 10, 10, tip=tip, stroke_width=1.5)
        drawing.line(f"M {x - 5} {y - 5} L {x + 5} {y + 5} M {x - 5} {y + 5} L {x + 5} {y - 5}", stroke_width=1.5)
    elif kind == "kept":
        drawing.line(f"M {x} {y - 6.5} l 6.5 6.5 l -6.5 6.5 l -6.5 -6.5 z", tip=tip, fill="#fff", stroke_width=1.8)
    else:
        drawing.line(f"M {x} {y - 8} v 16", tip=tip, stroke_width=2)


def draw_ending(drawing, kind, commit, x, y, tip=None):
    """The shape of an end: a commit has its number."""
    if kind == "committed":
        draw_commit(drawing, commit, x, y, tip)
    elif kind == "clashed":
        drawing.line(f"M {x - 7} {y - 7} l 14 14 M {x - 7} {y + 7} l 14 -14", stroke_width=3.5, tip=tip)
    else:
        dash = "3 2" if kind == "withdrawn" else None
        drawing.line(f"M {x} {y - 12} v 24", stroke_width=4, stroke_dasharray=dash, tip=tip)


def commit_width(commit):
    return max(20, len(str(commit)) * 7.5 + 10)


def draw_commit(drawing, commit, x, y, tip=None):
    """A black pill with the number of a commit, that begins a little left of a place."""
    width = commit_width(commit)
    drawing.box(x - 8, y - 10, width, 20, rx=10, fill="#111", tip=tip)
    drawing.text(x - 8 + width / 2, y + 4, str(commit), "inverse", text_anchor="middle")


def draw_key(drawing, kinds, x, y, right):
    """What the marks mean that are used, in rows; returns where the picture goes on."""
    at = x
    for kind in (it for it in MEANINGS if it in kinds):
        width = 44 + len(MEANINGS[kind]) * NOTE
        if at > x and at + width > right:
            at, y = x, y + 26
        if kind in ENDINGS:
            draw_ending(drawing, kind, 1, at + 8, y)
        else:
            draw_mark(drawing, kind, at + 8, y)
        drawing.text(at + 26, y + 4, MEANINGS[kind], "note")
        at += width
    return y + 26
