"""Which edits share one check.

An edit of one plain function makes a function of its own, which stands beside the right one: all of these share one
check. Any other edit is made in place, and joins a check in which no function that it leaves without a proof is named.
One that changes more than functions has a check of its own.
"""
import os
from dataclasses import dataclass, field

from edits import BadEdit, apply
from functions import calls, calls_itself, function_at, functions_of
from twins import add_twins, has_twin

# how many edits of functions of their own share one check: as many as memory holds
MOST_TWINS = 40


@dataclass
class WrongBody:
    """An edit with the functions that it changes, each of which the prover has to refuse."""

    edit: object
    functions: tuple
    is_alone: bool  # it changes more than functions, so what it does to others is not known


@dataclass
class Batch:
    bodies: list = field(default_factory=list)
    texts: dict = field(default_factory=dict)  # as the edits make them
    turned: dict = field(default_factory=dict)  # the files and paths of the functions that have each edit's lines
    in_place: list = field(default_factory=list)  # those of the bodies that make no functions of their own
    unproved: list = field(default_factory=list)  # the functions that these leave without a proof and don't turn

    def functions(self, bodies):
        """Returns the functions that have the lines of these edits."""
        names = {name for body in bodies for name in self.turned[body.edit.name]}
        files = sorted({file for file, _ in names})
        return [it for file in files for it in functions_of(file, self.texts[file]) if (file, it.path) in names]


def sources_of(folder):
    """Returns the texts of a crate's files by their paths in it."""
    texts = {}
    for part in ("src", "specs", "proofs"):
        for at, _, names in os.walk(f"{folder}/{part}"):
            for name in sorted(names):
                if name.endswith((".rt", ".antt")):
                    path = f"{at}/{name}"
                    with open(path, encoding="utf-8") as it:
                        texts[os.path.relpath(path, folder)] = it.read()
    return texts


def all_functions(texts):
    return [it for file, text in texts.items() if file.endswith(".rt") for it in functions_of(file, text)]


def wrong_body(edit, texts):
    """Returns the edit with the functions that it is of: the one that it names, or else all that it changes."""
    functions = all_functions(texts)
    _, touched = apply(edit, texts)
    places = [(file, line) for file, lines in touched.items() for line in lines]
    changed = [function_at([it for it in functions if it.file == file], line) for file, line in places]
    is_alone = None in changed
    named = [it for it in functions if edit.function == it.name]
    if edit.function and not named:
        raise BadEdit(f"there is no function {edit.function}")
    if is_alone and not named:
        raise BadEdit("it changes a line outside every function, and no line 'function:' names the one that it turns")
    return WrongBody(edit, tuple(named or dict.fromkeys(changed)), is_alone)


def one_for_each_public(bodies, texts):
    """Returns of the edits of each public function one: the first by name that makes a function of its own, or else the
    first."""
    found = {}
    for body in sorted(bodies, key=lambda it: not has_twin(it, texts)):
        for function in body.functions:
            if function.is_public:
                found.setdefault(function, body)
    return list({it.edit.name: it for it in found.values()}.values())


def names_one(body, functions):
    return any(calls(caller, callee) for caller in body.functions for callee in functions if caller != callee)


def are_apart(body, others):
    """Whether an edit in place turns no function of the others, and neither names one that the other turns."""
    for other in others:
        if any(it in other.functions for it in body.functions):
            return False
        if names_one(body, other.functions) or names_one(other, body.functions):
            return False
    return True


def unproved_with(body, functions):
    """Returns the functions that lead to one that an edit turns in place and keep their own bodies, as those of a trait
    and those in a cycle of calls do: a check has no proof of them."""
    kept = [it for it in functions if not it.is_plain or calls_itself(it)]
    found, new = [], list(body.functions)
    while new:
        new = [it for it in kept if it not in found and any(calls(it, other) for other in new)]
        found += new
    return found


def is_joined(body, batch, functions):
    """Makes an edit in place in a batch, if it goes there beside the others, and returns whether it does."""
    unproved = unproved_with(body, functions)
    if any(names_one(it, unproved) for it in batch.bodies) or names_one(body, batch.unproved):
        return False
    if not are_apart(body, batch.in_place):
        return False
    try:
        batch.texts, _ = apply(body.edit, batch.texts)
    except BadEdit:
        return False
    batch.turned[body.edit.name] = [(it.file, it.path) for it in body.functions]
    batch.bodies.append(body)
    batch.in_place.append(body)
    batch.unproved += unproved
    return True


def batches_of(bodies, texts):
    """Returns batches that hold each edit once."""
    beside = [it for it in bodies if not it.is_alone and has_twin(it, texts)]
    count = -(-len(beside) // MOST_TWINS)
    # edits of one function, and so of one cost, go to different checks
    batches = [Batch(part, *add_twins(part, texts)) for part in (beside[at::count] for at in range(count))]
    functions = all_functions(texts)
    for body in bodies:
        if body in beside:
            continue
        open_to_it = [] if body.is_alone else [it for it in batches if not any(other.is_alone for other in it.bodies)]
        if not any(is_joined(body, it, functions) for it in open_to_it):
            batches.append(Batch(texts=texts))
            is_joined(body, batches[-1], functions)
    return batches
