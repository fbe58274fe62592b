"""One check of a crate with many edits, and what it says of each edited function.

Every function that is not edited, where that can be, has no body and a hole for its proof: so the edited ones are
proved over the contracts of what they call, nothing else is proved again, nor is what only the others call, and no
failure reaches from one function to another.
"""
import os
import re
import subprocess
import tempfile
import time
from dataclasses import dataclass, field

from batches import all_functions
from crates import below, kit, uses_of_crates

KIT = kit()

# an error of a proof file that only misses what the edit took away, which says little of the contract
OF_NAMES = re.compile(
    r"has no field|projects from a record, but|is not in scope(?! here, so)|has no `|has no such"
    r"|was not admitted|is not admitted"
)

# what is said of a function of which nothing else is refused
MISSES = "misses what the edit took away"

# what a goal asks, whatever its function calls a value or a test
KIND = re.compile(r"^returns|^invariant_of|requires|preserved|init|smaller|result")


@dataclass
class Crate:
    name: str
    folder: str
    words: list  # those of a check
    below: set  # the names of the repository's crates that it stands on
    is_strict: bool = False  # whether an edit fails of which only names are missed
    of_public_alone: bool = False  # whether one edit of each public function is tried and no other
    in_cycles: set = field(default_factory=set)  # paths of functions that share a proof with others, as far as known


@dataclass
class Said:
    """What a check says, and how many seconds it had each function in hand."""

    text: str  # a line for each message
    seconds: dict
    was_killed: bool = False  # as where memory is short


def crates_of(root):
    """Returns the crates of crates.txt with the words of their checks, in the file's order."""
    uses = uses_of_crates(root)

    def words(name):
        root_file = "src/main.rt" if os.path.isfile(f"{root}/crates/{name}/src/main.rt") else "src/lib.rt"
        built = [f"{KIT}/rlibs/{it}.rlib" for it in ("std", *uses[name]) if it not in uses]
        built += [f"{root}/crates/{it}/out/rlib/{it}.rlib" for it in uses[name] if it in uses]
        found = ["--crate-name", name, root_file, "--links", f"{name}="]
        for it in built:
            found += ["--extern", f"{os.path.basename(it).removesuffix('.rlib')}={it}"]
        for it in (f"{KIT}/rlibs", *(f"{root}/crates/{dep}/out/rlib" for dep in below(uses, name))):
            found += ["-L", f"dependency={it}"]
        logic = ["--antt-project", f"{KIT}/rattle/logic/antt-project.json", "--logic-built", f"{KIT}/logic_built"]
        return [*found, *logic]

    return [Crate(name, f"{root}/crates/{name}", words(name), set(below(uses, name))) for name in uses]


def with_holes(crate, texts, kept):
    """Returns the texts with no body, and a hole for the proof, of each plain function but those kept, or in a cycle of
    calls."""
    functions, texts = all_functions(texts), dict(texts)
    # those behind others first, so that the places of these stay right
    for it in sorted(functions, key=lambda it: -it.body):
        folder = f"proofs/{'/'.join(it.path)}"
        if not it.is_plain or it in kept or folder in crate.in_cycles:
            continue
        text, behind = texts[it.file], it.span[1]
        # as many lines as it had, so that those behind it stay where they are
        lines = "\n" * text.count("\n", it.body, behind)
        texts[it.file] = f"{text[:it.body]}{{ unreachable!(){lines} }}{text[behind:]}"
        for file in ("Answers", "Invariants"):
            texts.pop(f"{folder}/{file}.antt", None)
        texts[f"{folder}/Proof.antt"] = (
            f"use Rattle.{crate.name}.proofs.{'.'.join(it.path)}.Statement.{{statement}}\n\n"
            f"pub {it.path[-1]}_spec : {{M : Type 1}} → statement M\n{it.path[-1]}_spec = ?\n"
        )
    return texts


def check_of(crate, texts, functions, kept):
    """Returns what a check of these texts says, proving these functions alone, over the work that earlier ones kept."""
    with tempfile.TemporaryDirectory(prefix="wrong-bodies-") as room:
        for path, text in texts.items():
            os.makedirs(os.path.dirname(f"{room}/{path}"), exist_ok=True)
            with open(f"{room}/{path}", "w", encoding="utf-8") as it:
                it.write(text)
        only = [word for it in functions for word in ("--only", it.name)]
        words = [f"{KIT}/bin/rattle", "check", *crate.words, "--allow-holes", *only, "--incremental", kept]
        words.append("--progress")
        how = {"cwd": room, "stdin": subprocess.DEVNULL, "stdout": subprocess.PIPE, "stderr": subprocess.STDOUT}
        lines, seconds, since = [], {}, time.monotonic()
        with subprocess.Popen(words, **how, text=True, errors="replace") as check:
            for line in check.stdout:
                lines.append(line)
                if ended := re.match(r"checked (\S+), \d+ of \d+$", line):
                    now = time.monotonic()
                    seconds[ended[1]], since = now - since, now
        # a message goes on in lines that are indented
        return Said(re.sub(r"\n[ \t]+", " ", "".join(lines)), seconds, check.returncode < 0)


def said_of(crate, texts, functions, kept):
    """Returns what a check says of these functions, over the contracts of the others."""
    said = check_of(crate, with_holes(crate, texts, functions), functions, kept)
    # a function that calls itself, as others in a cycle, has no proof file of its own: it keeps its proof
    in_cycles = set(re.findall(r"(proofs/\S+)/Proof\.antt: error\[reserved-name\]", said.text))
    if in_cycles:
        crate.in_cycles |= in_cycles
        said = check_of(crate, with_holes(crate, texts, functions), functions, kept)
    return said


def was_read(said):
    """Whether the crate was read, so that antt was asked of its functions."""
    return re.search(r"^only=\d+ ", said.text, re.M) is not None


def errors_in(said, function):
    """Returns the errors that the front end has on the lines of a function."""
    found = re.findall(rf"^\S*{re.escape(function.file)}:(\d+):\d+: (.*)", said.text, re.M)
    return [text for line, text in found if function.first <= int(line) <= function.last]


def open_goals(said, function):
    """Returns what the check says of each goal of a function that no answer and no search proves."""
    unproved = r"^note: (\S+?):(\d+):\d+: (it is not proved that .*|`search` found no proof .*)"
    found = re.findall(unproved, said.text, re.M)
    return [
        text
        for file, line, text in found
        if file.removeprefix("./") == function.file and function.first <= int(line) <= function.last
    ]


def kinds_in(names, text):
    """Returns the kinds of the goals that a text names."""
    return {it[0] for name in re.findall(names, text) if (it := KIND.search(name))}


def errors_of_proof(said, function):
    """Returns the names of a function's proof files that antt refuses, each with an error."""
    room = "/".join(function.path)
    if not function.is_plain:
        # or that of its type's trait, or of its cycle
        room = rf"(?:{'/'.join(function.path[:-1])}/\+?\w+|{room})"
    return re.findall(rf"^(?:\./)?proofs/{room}/(\w+)\.antt:\d+:\d+: error: (.*)", said.text, re.M)


def refusal(crate, said, function):
    """Returns why the prover refuses the function on its own account, or else None, and what it says of it."""
    told = re.search(rf"^fn {re.escape(crate.name)}::{re.escape(function.name)}: (.*)", said.text, re.M)
    status = told[1] if told else "nothing is said of it"
    if not status.startswith(("not proved", "no proof")):
        return None, status
    errors = errors_of_proof(said, function)
    missed = [(file, text) for file, text in errors if OF_NAMES.search(text)]
    # the answer to a goal whose name the edit took away may be wanted where a goal of its kind is open now
    unanswered = {it for _, text in missed for it in kinds_in(r"has no `([^`]+)`", text)}
    own = [text for text in open_goals(said, function) if not unanswered & kinds_in(r"\(`([^`]+)`\)", text)]
    own += [text for file, text in errors if (file, text) not in missed]
    own += re.findall(r"`search` (did not prove .*)", status)
    # where an invariant is refused each goal of its loop is open
    if any(file == "Invariants" for file, _ in missed):
        own = []
    if missed and not own:
        status = f"its {missed[0][0]}.antt {MISSES}: {missed[0][1]}"
    return (own[0] if own else None), status
