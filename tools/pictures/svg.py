"""Elements of an SVG picture, and how wide words are in it."""
from xml.sax.saxutils import escape, quoteattr

# how wide a character is, about: of code at 12 px and at 9 px, of a note, of a sentence at 13 px and of its bold form
CODE = 7.3
SMALL_CODE = 5.5
NOTE = 6.8
PLAIN = 7.3
BOLD = 8.4

RED = "#b00000"

STYLE = """
text { font-family: "DejaVu Sans", Verdana, Helvetica, Arial, sans-serif; font-size: 13px; fill: #111 }
.head { font-size: 17px; font-weight: bold }
.strong { font-weight: bold }
.note { font-size: 12px; fill: #444 }
.code, .name, .small { font-family: "DejaVu Sans Mono", Menlo, Consolas, monospace; font-size: 12px }
.name { font-weight: bold }
.small { font-size: 9px }
.red { fill: #b00000 }
.halo { paint-order: stroke; stroke: #fff; stroke-width: 4px; stroke-linejoin: round }
.inverse { fill: #fff; font-weight: bold; font-size: 11px }
"""


def number(value):
    """A length as SVG writes it, with at most one decimal."""
    return f"{value:.1f}".removesuffix(".0")


def element(tag, words=None, tip=None, **attributes):
    """An element; `_` in an attribute's name stands for `-`, and a tip is shown where a pointer rests on it."""
    given = "".join(
        f" {name.strip('_').replace('_', '-')}={quoteattr(number(it) if isinstance(it, (int, float)) else it)}"
        for name, it in attributes.items()
        if it is not None
    )
    inside = (f"<title>{escape(tip)}</title>" if tip else "") + (escape(words) if words is not None else "")
    return f"<{tag}{given}>{inside}</{tag}>" if inside else f"<{tag}{given}/>"


def wrapped(words, most):
    """The words in lines of at most so many characters, where no single word is longer."""
    lines = [""]
    for word in words.split():
        if lines[-1] and len(lines[-1]) + 1 + len(word) > most:
            lines.append("")
        lines[-1] += f" {word}" if lines[-1] else word
    return lines


class Drawing:
    """A picture that elements are added to, from the back to the front."""

    def __init__(self, title, description):
        self.title = title
        self.description = description
        self.elements = []

    def add(self, tag, words=None, tip=None, **attributes):
        self.elements.append(element(tag, words, tip, **attributes))

    def text(self, x, y, words, kind="", **attributes):
        """Words whose base line begins at a place."""
        self.add("text", words, x=x, y=y, class_=kind or None, **attributes)

    def box(self, x, y, width, height, **attributes):
        attributes = {"fill": "#fff", "stroke": "#111", **attributes}
        self.add("rect", x=x, y=y, width=width, height=height, **attributes)

    def line(self, d, **attributes):
        attributes = {"fill": "none", "stroke": "#111", **attributes}
        self.add("path", d=d, **attributes)

    def paragraph(self, x, y, words, width, kind=""):
        """Sentences from a place on, in as many lines as they take; returns where the next line would stand."""
        for row in wrapped(words, int(width / PLAIN)):
            self.text(x, y, row, kind)
            y += 18
        return y

    def arrow_head(self, name, colour):
        """Declares the head of the arrows of a colour."""
        self.elements.append(
            f'<marker id="{name}" viewBox="0 0 10 10" refX="9" refY="5" markerWidth="11" markerHeight="11" '
            f'markerUnits="userSpaceOnUse" orient="auto"><path d="M 0 0 L 10 5 L 0 10 z" fill="{colour}"/></marker>'
        )

    def document(self, width, height):
        """The whole text of the picture."""
        wide, high = number(round(width)), number(round(height))
        front = (
            f'<svg xmlns="http://www.w3.org/2000/svg" viewBox="0 0 {wide} {high}" width="{wide}" height="{high}" '
            'role="img" aria-labelledby="title description">'
        )
        names = [
            element("title", self.title, id="title"),
            element("desc", self.description, id="description"),
            f"<style>{STYLE}</style>",
            element("rect", width=width, height=height, fill="#fff"),
        ]
        return "\n".join([front, *names, *self.elements, "</svg>\n"])
