"""The acceptance cases of cases/, as tests read them."""
import glob
import os
import subprocess
import sys
from dataclasses import dataclass

CASES = os.path.join(os.path.dirname(os.path.realpath(__file__)), "..", "..", "cases")


@dataclass
class Case:
    """Words and an input, with the output and the status that are wanted."""

    name: str
    words: list
    given: bytes = b""
    output: bytes = b""
    status: int = 0
    said: bytes = b""  # on the standard error, where a test asks for it

    def plain(self):
        return self.status, self.output


def path_of(name, file):
    return os.path.join(CASES, name, file)


def read(name, file):
    """The bytes of a file of a case."""
    with open(path_of(name, file), "rb") as it:
        return it.read()


def has(name, file):
    return os.path.isfile(path_of(name, file))


def given_of(name):
    """The input of a case, which a script of the case may write."""
    if has(name, "make"):
        return subprocess.run([sys.executable, path_of(name, "make")], stdout=subprocess.PIPE, check=True).stdout
    return read(name, "stdin")


def case(name):
    """The case of a group and a name, whose output is a file."""
    words = read(name, "args").decode().splitlines()
    return Case(name, words, given_of(name), read(name, "stdout"), int(read(name, "status")))


def stages(name):
    """The first and the last stage at which a case holds; the last is None where it still does."""
    bounds = dict(line.split() for line in read(name, "stage").decode().splitlines())
    return int(bounds.get("from", 1)), int(bounds["until"]) if "until" in bounds else None


def cases_in_files(group="*"):
    """The cases of a group, or of all, whose input and output are files, and which hold at the stage of the program."""
    now = int(read("", "STAGE"))
    for path in sorted(glob.glob(path_of(f"{group}/*", "stdin"))):
        name = os.path.relpath(os.path.dirname(path), CASES)
        first, last = stages(name)
        if has(name, "stdout") and first <= now and (last is None or now <= last):
            yield case(name)


def refusable():
    """The names of the cases that are run with each request for memory, and each call on a port, refused in turn."""
    with open(os.path.join(CASES, "..", "tests", "want-of-memory.cases"), encoding="ascii") as names:
        return names.read().split()
