"""Draws a serial order of commits as a row, or why a cycle has none."""
from pictures.arrows import DASHES
from pictures.marks import commit_width, draw_commit
from pictures.svg import CODE, RED

# more commits of an order than these are not shown one by one, and not more of a cycle
MOST, MOST_OF_CYCLE = 400, 60


def moved(order):
    """The commits that stand before one that committed earlier."""
    least, found = None, set()
    for commit in reversed(order):
        if least is not None and least < commit:
            found.add(commit)
        least = commit if least is None else min(least, commit)
    return found


def more(drawing, x, y, count):
    """Says how many commits are not shown, where there are some; returns where the picture goes on."""
    if count <= 0:
        return y
    drawing.text(x, y, f".. and {count} more", "note")
    return y + 22


def draw_order(drawing, history, x, y, right, is_large):
    """The commits of a serial order in rows; returns where the picture goes on."""
    if not history.order:
        drawing.text(x, y, "Nothing has committed.", "strong")
        return y + 20
    drawing.text(x, y, "A serial order: run one after another in it, they give the same replies and rows.", "strong")
    ahead, at, y = moved(history.order), x + 8, y + 28
    calls = {lane.commit: lane.call for lane in history.lanes}
    for commit in history.order[:MOST]:
        name = calls[commit] if is_large else ""
        width = commit_width(commit) + len(name) * CODE + 8 if name else commit_width(max(history.order))
        if at > x + 8 and at + width > right:
            at, y = x + 8, y + 32
        if commit in ahead:
            drawing.box(at - 12, y - 14, width + 8, 28, rx=8, stroke_width=1.5)
        draw_commit(drawing, commit, at, y, tip=calls[commit])
        if name:
            drawing.text(at + commit_width(commit) - 2, y + 4, name, "code")
        at += width + 18
    y = more(drawing, x, y + 32, len(history.order) - MOST)
    if ahead:
        drawing.text(x, y, "Framed: it stands before one that committed earlier.", "note")
        y += 22
    return y


def draw_cycle(drawing, history, x, y):
    """Why each commit of a cycle has to stand before the next; returns where the picture goes on."""
    words = "No serial order: each of these commits has to stand before the next, and the last before the first."
    drawing.text(x, y, words, "strong red")
    for link in history.dependencies[:MOST_OF_CYCLE]:
        y += 26
        drawing.line(
            f"M {x} {y - 4} H {x + 44}",
            stroke=RED,
            stroke_width=2.2,
            stroke_dasharray=DASHES[link.kind],
            marker_end="url(#red)",
        )
        drawing.text(x + 56, y, link.sentence, "code")
    return more(drawing, x, y + 26, len(history.dependencies) - MOST_OF_CYCLE)
