"""Runs of the program that is tested, and what they take."""
import argparse
import os
import resource
import subprocess
import sys
import tempfile
import time
from dataclasses import dataclass

# a run that hangs is ended after so many seconds, and told with a status that the program never has
PATIENCE = 120
HANGS = 124


@dataclass
class Answer:
    status: int
    output: bytes
    said: bytes  # on the standard error
    seconds: float = 0.0  # of the processor
    elapsed: float = 0.0  # by the clock
    memory: int = 0  # bytes, the most that were held; 0 where they were not measured

    def plain(self):
        return self.status, self.output


def used():
    spent = resource.getrusage(resource.RUSAGE_CHILDREN)
    return spent.ru_utime + spent.ru_stime


def answer(binary, words, given=b"", **how):
    """What the program answers to some words and an input. A port that is named takes the place of a pipe."""
    how = {"stdout": subprocess.PIPE, "stderr": subprocess.PIPE, "timeout": PATIENCE, **how}
    if "stdin" not in how:
        how["input"] = given.encode() if isinstance(given, str) else given
    before, begun = used(), time.monotonic()
    try:
        done = subprocess.run([binary, *words], **how)
    except subprocess.TimeoutExpired as it:
        done = subprocess.CompletedProcess(it.cmd, HANGS, it.stdout or b"", it.stderr or b"")
    return Answer(done.returncode, done.stdout, done.stderr, used() - before, time.monotonic() - begun)


# Runs a program in a small process of its own: the most memory that is told of a child is never less than its parent's.
MEASURE = """
import resource, subprocess, sys, time
begun = time.monotonic()
try:
    status = subprocess.run(sys.argv[4:], timeout=float(sys.argv[1])).returncode
except subprocess.TimeoutExpired:
    status = sys.argv[2]
elapsed = time.monotonic() - begun
spent = resource.getrusage(resource.RUSAGE_CHILDREN)
with open(sys.argv[3], "w") as it:
    it.write(f"{status} {spent.ru_utime + spent.ru_stime} {elapsed} {spent.ru_maxrss}")
"""


def measured(binary, words, whole):
    """What the program answers to an input, with the most memory that it held."""
    with tempfile.TemporaryDirectory() as scratch:
        files = [os.path.join(scratch, name) for name in ("given", "output", "said", "took")]
        with open(files[0], "wb") as it:
            it.write(whole)
        with open(files[0], "rb") as given, open(files[1], "wb") as output, open(files[2], "wb") as said:
            command = [sys.executable, "-S", "-c", MEASURE, str(PATIENCE), str(HANGS), files[3], binary, *words]
            subprocess.run(command, stdin=given, stdout=output, stderr=said, check=True)
        told = []
        for name in files[1:]:
            with open(name, "rb") as it:
                told.append(it.read())
        status, seconds, elapsed, memory = told[2].split()
        return Answer(int(status), told[0], told[1], float(seconds), float(elapsed), int(memory) * 1024)


class Tally:
    """Counts what is as it is wanted, and prints what isn't."""

    def __init__(self):
        self.passed = self.failed = 0

    def note(self, is_right, name, why=""):
        self.passed += bool(is_right)
        self.failed += not is_right
        if not is_right:
            print(f"{name}: {why}", flush=True)

    def end(self):
        """Prints the sum, and returns the script's status."""
        print(f"{self.passed} passed, {self.failed} failed")
        return 1 if self.failed else 0


def words_of(doc, binary=None, **flags):
    """The words of a script with this docstring: the program and flags, each with what it is where it isn't named."""
    parser = argparse.ArgumentParser(usage=doc.split("\n\n")[1].removeprefix("usage: "))
    parser.add_argument("binary", type=os.path.abspath, nargs="?" if binary else None, default=binary)
    for name, value in flags.items():
        how = {"action": "store_true"} if value is False else {"type": int, "default": value}
        parser.add_argument(f"--{name}", **how)
    return parser.parse_args()
