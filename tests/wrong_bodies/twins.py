"""Twins: functions with the lines of edits, each beside the function that its edit turns, with the same proof files.

Nothing calls a twin, so any number of edits of one function, and of functions that call each other, share one check.
"""
import re

from edits import apply
from functions import calls_itself, functions_of

MARK = "_turned_"


def plain_name(name):
    """Returns the name of the function that a twin is of."""
    return re.sub(rf"{MARK}\d+$", "", name)


def turned_function(body, texts):
    """Returns the text of a file with an edit made, and the edited function in it."""
    file, path = body.functions[0].file, body.functions[0].path
    edited, _ = apply(body.edit, texts)
    return edited[file], next((it for it in functions_of(file, edited[file]) if it.path == path), None)


def has_twin(body, texts):
    """Whether an edit is of one plain function, which does not call itself and stays where it is."""
    if len(body.functions) != 1 or not body.functions[0].is_plain or len({file for file, _, _ in body.edit.pairs}) != 1:
        return False
    _, function = turned_function(body, texts)
    return function is not None and not calls_itself(function)


def add_twins(bodies, texts):
    """Returns the texts with a twin for each edit, and the file and path of each edit's twin."""
    texts, turned, added = dict(texts), {}, {}
    for number, body in enumerate(bodies):
        origin = body.functions[0]
        text, function = turned_function(body, texts)
        name = f"{origin.path[-1]}{MARK}{number}"
        twin = re.sub(rf"\bfn\s+{origin.path[-1]}\b", f"fn {name}", text[slice(*function.span)], count=1)
        added.setdefault(origin.file, []).append((origin.span[1], twin))
        turned[body.edit.name] = [(origin.file, (*origin.path[:-1], name))]
        texts.update(twin_proofs(origin, name, texts))
    for file, twins in added.items():
        for at, twin in sorted(twins, reverse=True):
            texts[file] = f"{texts[file][:at]}\n\n{twin}{texts[file][at:]}"
    return texts, turned


def twin_proofs(origin, name, texts):
    """Returns the proof files of a function under the name of its twin."""
    folder = f"proofs/{'/'.join(origin.path)}/"
    twin_folder = f"proofs/{'/'.join((*origin.path[:-1], name))}/"
    path = ".".join(("proofs", *origin.path)) + "."
    twin_path = ".".join(("proofs", *origin.path[:-1], name)) + "."
    return {
        twin_folder + file.removeprefix(folder): text.replace(path, twin_path)
        for file, text in texts.items()
        if file.startswith(folder)
    }
