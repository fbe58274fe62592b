"""Draws a refusal: two edges in a row that may be missed, and the way back that closes the circle."""
from pictures.svg import BOLD, CODE, PLAIN, RED, Drawing

TITLE = "Refused: a run of this set may have no serial order"
# how high boxes and edges are, where the circle begins, and where an edge leaves its box
BOX, EDGE, STEP, TOP, LEFT, INDENT = 46, 112, 72, 60, 24, 34
# the place of the way back, right of LEFT, and the longest statement that is shown whole
BACK, LONGEST = 40, 72
MISSED = {"stroke": RED, "stroke_width": 2.5, "stroke_dasharray": "8 5", "marker_end": "url(#red)"}
BEFORE = {"stroke_width": 2.5, "marker_end": "url(#black)"}


def box_width(node):
    return max(len(node.call()) * CODE, len(node.branches()) * 6.6) + 28


def draw_node(drawing, node, x, y, width):
    """A box with the program and, where it has branches, the way through it."""
    drawing.box(x, y, width, BOX, rx=6, stroke_width=2, fill="#f4f4f4")
    drawing.text(x + 14, y + (20 if node.branches() else 28), node.call(), "name")
    if node.branches():
        drawing.text(x + 14, y + 37, node.branches(), "note", style="font-size: 11px")


def access_row(drawing, x, y, verb, access):
    """What a statement does, where it stands and with which parameters; returns how far the row reaches."""
    drawing.text(x, y, f"line {access.line} {verb}" if access.line else verb, "note")
    x += 112
    statement = access.statement if len(access.statement) <= LONGEST else access.statement[: LONGEST - 3] + " .."
    drawing.text(x, y, statement, "code", tip=None if statement == access.statement else access.statement)
    x += len(statement) * CODE + 14
    drawing.text(x, y, access.with_arguments(), "note")
    return x + len(access.with_arguments()) * PLAIN


def draw_edge(drawing, edge, x, y, height):
    """A vulnerable edge downwards, and beside it its statements and where they meet; returns how far it reaches."""
    drawing.line(f"M {x} {y} V {y + height - 2}", **MISSED)
    x, y = x + 22, y + (height - EDGE) / 2
    upper = access_row(drawing, x, y + 30, "looks", edge.look)
    meeting = edge.meeting()
    words = f"may miss what is changed at {meeting}" if meeting else "may miss a change"
    drawing.text(x, y + 59, words, "strong red")
    lower = access_row(drawing, x, y + 88, "changes", edge.change)
    return max(upper, lower, x + len(words) * BOLD)


def draw_way_back(drawing, refusal, bottom, top, right):
    """The way from the last box on the left up to the first one, over the nodes between."""
    x = LEFT + BACK
    if refusal.is_short:
        drawing.line(f"M {right} {bottom} H {x} V {top} H {right}", stroke_width=2.5, stroke_dasharray="2 4")
        drawing.text(x + 10, (bottom + top) / 2, "the same", "note")
        return
    drawing.line(f"M {right} {bottom} H {x} V {top} H {right - 2}", **BEFORE)
    if not refusal.between:
        drawing.text(x + 10, (bottom + top) / 2, "way back", "note")
    for at, node in enumerate(refusal.between):
        y = bottom - (bottom - top) * (at + 1) / (len(refusal.between) + 1) - BOX / 2
        drawing.line(f"M {x} {y + BOX + 16} V {y + BOX + 2}", **BEFORE)
        draw_node(drawing, node, LEFT, y, box_width(node))


def draw_circle(drawing, refusal):
    """The three boxes of the circle with what joins them; returns how far it reaches to the right and down."""
    width = max(box_width(it) for it in refusal.nodes)
    widest = max([box_width(it) for it in refusal.between], default=0)
    x = LEFT + max(widest, BACK + 76) + 24
    height = max(EDGE, (len(refusal.between) + 1) * STEP / 2 - BOX)
    ys = [TOP + at * (BOX + height) for at in range(3)]
    draw_way_back(drawing, refusal, ys[2] + BOX / 2, ys[0] + BOX / 2, x)
    for node, y in zip(refusal.nodes, ys):
        draw_node(drawing, node, x, y, width)
    ends = [draw_edge(drawing, edge, x + INDENT, y + BOX, height) for edge, y in zip(refusal.edges, ys)]
    return max(x + width, *ends) + LEFT, ys[2] + BOX


def draw_others(drawing, others, y, right):
    """The programs that are not on the circle, in rows; returns where the picture goes on."""
    if not others:
        return y
    drawing.text(LEFT, y + 14, "The other programs of the set, not on this circle:", "note")
    x, y = LEFT, y + 26
    for node in others:
        width = len(node.call()) * CODE + 20
        if x > LEFT and x + width > right - LEFT:
            x, y = LEFT, y + 34
        drawing.box(x, y, width, 26, rx=6, stroke="#888", stroke_dasharray="3 3")
        drawing.text(x + 10, y + 17, node.call(), "code")
        x += width + 12
    return y + 48


def draw_key(drawing, refusal, y):
    """What the lines mean."""
    drawing.line(f"M {LEFT} {y} H {LEFT + 44}", **MISSED)
    words = "may run beside the next one and miss what it changes, and neither has to clash"
    drawing.text(LEFT + 54, y + 4, words, "note")
    y += 22
    if refusal.is_short:
        drawing.line(f"M {LEFT} {y} H {LEFT + 44}", stroke_width=2.5, stroke_dasharray="2 4")
        drawing.text(LEFT + 54, y + 4, "the same way through the same program: the circle is closed", "note")
    else:
        drawing.line(f"M {LEFT} {y} H {LEFT + 44}", **BEFORE)
        drawing.text(LEFT + 54, y + 4, "may have to stand before the next one", "note")
    return y + 32


def sentence(words):
    """Words of `sirob` as a sentence."""
    return words[:1].upper() + words[1:].replace("`", "") + "."


def draw_refusal(refusal):
    """The whole picture of a refusal."""
    names = [it.call() for it in refusal.nodes]
    front = f"{names[0]} may miss a change of {names[1]}, and that may miss one of {names[2]}"
    drawing = Drawing(TITLE, " ".join(sentence(it) for it in (front, *refusal.sentences)))
    drawing.arrow_head("red", RED)
    drawing.arrow_head("black", "#111")
    drawing.text(LEFT, 34, TITLE, "head")
    right, y = draw_circle(drawing, refusal)
    right = max(right, 720)
    y = draw_key(drawing, refusal, y + 40)
    y = draw_others(drawing, refusal.others, y, right)
    for words in refusal.sentences[1:]:
        y = drawing.paragraph(LEFT, y + 12, sentence(words), right - 2 * LEFT)
    return drawing.document(right, y + 8)
