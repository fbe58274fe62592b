"""Asks `sirob`, and takes its answer."""
import re
import subprocess
from dataclasses import dataclass


class NoPicture(Exception):
    """There is nothing to draw: why, and the status that says so."""

    def __init__(self, words, status):
        super().__init__(words)
        self.status = status


@dataclass(frozen=True)
class Answer:
    """What `sirob` prints, and what it says of that on the standard error."""

    lines: list
    words: list


def ask(sirob, words, given):
    """What `sirob` answers to an input; of a fault there is no picture, but its words."""
    try:
        done = subprocess.run([sirob, *words], input=given, capture_output=True, check=False)
    except OSError as error:
        raise NoPicture(f"{sirob}: {error.strerror}", 2) from error
    said = done.stderr.decode("ascii", "replace")
    lines = done.stdout.decode("ascii", "replace").splitlines()
    if done.returncode not in (0, 1) or (lines and lines[0].startswith("fault ")):
        told = "\n".join(lines[-1:]) if lines and lines[-1].startswith("fault ") else ""
        raise NoPicture("\n".join(it for it in (told, said.rstrip("\n")) if it), done.returncode or 2)
    return Answer(lines, said.splitlines())


def parts(given):
    """The set of an input, and the lines behind its line that is just `%%`."""
    lines = given.decode("ascii", "replace").split("\n")
    end = lines.index("%%") if "%%" in lines else len(lines)
    return "\n".join(lines[:end]) + "\n", lines[end + 1 :]


def split_words(line):
    """The words of a line of a script or of records, without its comment."""
    return line.partition("#")[0].split()


def canonical_text(sirob, text):
    """The canonical text of a set: a statement a line."""
    return "\n".join(ask(sirob, ["check"], text.encode()).lines) + "\n"


def parameters(canonical):
    """The parameters of each program, by its name, in the order of the programs."""
    heads = re.findall(r"^program (\w+)\((.*)\) \{", canonical, re.MULTILINE)
    return {name: [it for it in names.split(", ") if it] for name, names in heads}
