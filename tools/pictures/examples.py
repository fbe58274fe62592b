"""The pictures of the examples."""
import os

from pictures.commands import picture

# each picture's name, the command and the example
EXAMPLES = (
    ("certify", ("certify",), "certify.txt"),
    ("small-bank-refused", ("run", "--robust"), "small-bank.txt"),
    ("first-run", ("run",), "first-run.txt"),
    ("lost-update", ("run",), "lost-update.txt"),
    ("write-skew", ("run",), "write-skew.txt"),
    ("small-bank", ("run",), "small-bank.txt"),
    ("audit", ("audit",), "audit.txt"),
)


def draw_examples(sirob, root, folder):
    """Writes the picture of each example into a folder."""
    os.makedirs(folder, exist_ok=True)
    for name, words, example in EXAMPLES:
        with open(f"{root}/examples/{example}", "rb") as source:
            drawn = picture(sirob, list(words), source.read())
        with open(f"{folder}/{name}.svg", "w", encoding="utf-8") as to:
            to.write(drawn)
