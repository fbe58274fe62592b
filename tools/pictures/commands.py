"""The picture of each command's answer."""
from pictures.asking import NoPicture, ask, canonical_text, parts
from pictures.lanes_drawing import draw_history
from pictures.reading import read_audit, read_run
from pictures.refusal import read_refusal
from pictures.refusal_drawing import draw_refusal


def refusal_picture(sirob, text, answer):
    """The picture of a refused set. Its canonical text is asked about too: there a statement is one line."""
    canonical = canonical_text(sirob, text)
    return draw_refusal(read_refusal(answer, canonical, ask(sirob, ["certify"], canonical.encode())))


def picture(sirob, words, given):
    """The picture of what a command answers to an input."""
    answer = ask(sirob, words, given)
    text, lines = parts(given)
    if answer.lines[:1] == ["refused"]:
        return refusal_picture(sirob, text, answer)
    if words[0] == "certify":
        raise NoPicture("the set is certified: there is no refusal to draw", 1)
    history = read_audit(lines, answer) if words[0] == "audit" else read_run(lines, answer)
    if not history.lanes:
        raise NoPicture(f"there is no {history.noun} to draw", 1)
    return draw_history(history)
