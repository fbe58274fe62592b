"""Edits: the wrong bodies of a crate, and what they make of its files.

An edit has the form that `rt must-fail` takes: a line `file: src/NAME.rt`, then pairs of lines `old: TEXT` and
`new: TEXT`. Each old text stands in the file exactly once. A line `function: PATH` names the function that the edit
turns, where it changes lines of others or of none as well.
"""
import os
from dataclasses import dataclass, field


class BadEdit(Exception):
    """An edit that can't be applied, with the reason."""


@dataclass
class Edit:
    name: str
    pairs: list = field(default_factory=list)  # of (file, old, new)
    function: str = ""


def name_of(path):
    return os.path.basename(path).removesuffix(".edit")


def read_edit(path):
    edit, file, old = Edit(name_of(path)), None, None
    with open(path, encoding="utf-8") as lines:
        for line in lines.read().split("\n"):
            word, _, text = line.partition(": ") if ": " in line else line.partition(":")
            if word == "file":
                file = text.strip()
            elif word == "function":
                edit.function = text.strip()
            elif word == "old":
                old = text
            elif word == "new":
                if not file or not old:
                    raise BadEdit("a 'new:' line stands before any 'file:' or 'old:' line")
                edit.pairs.append((file, old, text))
                old = None
    if not edit.pairs:
        raise BadEdit("it has no 'old:' and 'new:' pair")
    return edit


def read_edits(folder):
    """Returns the edits of a folder by their paths; one that can't be read stands with its reason."""
    names = sorted(os.listdir(folder)) if os.path.isdir(folder) else []
    found = {}
    for name in names:
        if name.endswith(".edit"):
            try:
                found[f"{folder}/{name}"] = read_edit(f"{folder}/{name}")
            except (OSError, ValueError, BadEdit) as reason:
                found[f"{folder}/{name}"] = reason
    return found


def apply(edit, texts):
    """Returns the texts with the edit made, and for each file the places of its lines in the text before."""
    texts, touched = dict(texts), {}
    for file, old, new in edit.pairs:
        if file not in texts:
            raise BadEdit(f"there is no file {file}")
        count = texts[file].count(old)
        if count != 1:
            raise BadEdit(f"an 'old:' text is in {file} {count} times, and not once")
        at = texts[file].index(old)
        touched.setdefault(file, set()).add(texts[file].count("\n", 0, at) + 1)
        texts[file] = texts[file].replace(old, new)
    return texts, touched
