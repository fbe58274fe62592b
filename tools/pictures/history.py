"""What a run or an audit has to show: lanes of instances along time, and the order or the cycle of their commits."""
import re
from dataclasses import dataclass, field, replace

LEAST, GREATEST = -(2**63), 2**63 - 1


@dataclass(frozen=True)
class Mark:
    """What an instance did at a column of time."""

    # read, range, put, removed, kept or ready
    kind: str
    column: int
    # the cell or the region, as it is printed
    place: str = ""
    words: str = ""


@dataclass
class Lane:
    """An instance: how many commits it saw, and what it did from its first column to its last."""

    number: int
    call: str
    start: int
    first: int
    last: int = 0
    marks: list = field(default_factory=list)
    # active, committed, clashed, aborted or withdrawn
    ending: str = "active"
    note: str = ""
    commit: int = 0


@dataclass(frozen=True)
class Dependency:
    """Why a commit has to stand before another."""

    before: int
    after: int
    # saw, missed or both; empty where it isn't told
    kind: str
    cell: str
    sentence: str


@dataclass
class History:
    """Everything that is drawn of a run or an audit."""

    # instance or record
    noun: str
    lanes: list = field(default_factory=list)
    columns: int = 0
    order: list = field(default_factory=list)
    cycle: list = field(default_factory=list)
    dependencies: list = field(default_factory=list)

    def lane_of(self, commit):
        """The lane of a commit."""
        return next(lane for lane in self.lanes if lane.commit == commit)

    def on_cycle(self):
        """The numbers of the instances on the cycle."""
        return {self.lane_of(commit).number for commit in self.cycle}


REASONS = (
    ("saw", re.compile(r"changed (\S+\[.*\]), and commit (\d+) saw it")),
    ("missed", re.compile(r"looked at (\S+\[.*\]), and missed what commit (\d+) changed there")),
    ("missed", re.compile(r"looked at \S+\[.*\], and missed what commit \d+ changed at (\S+\[.*\])")),
    ("both", re.compile(r"changed (\S+\[.*\]) before commit (\d+) did")),
)


def dependency(before, after, words):
    """What the words say of two commits in a row."""
    front = f"commit {before}, "
    sentence = next((it for it in words if it.startswith(front)), f"commit {before} stands before commit {after}")
    sentence = sentence.replace("`", "")
    for kind, pattern in REASONS:
        found = pattern.search(sentence)
        if found:
            return Dependency(before, after, kind, found[1], sentence)
    return Dependency(before, after, "", "", sentence)


def read_last_line(history, answer):
    """Takes the order or the cycle of the last line, and the words of a cycle."""
    name, *numbers = answer.lines[-1].split()
    commits = [int(it) for it in numbers]
    if name == "order":
        history.order = commits
        return
    history.cycle = commits
    pairs = zip(commits, commits[1:] + commits[:1])
    history.dependencies = [dependency(*pair, answer.words) for pair in pairs]


def numbers_in(text):
    return [int(it) for it in re.findall(r"-?\d+", text)]


def holds(place, cell):
    """Whether a cell is the place, or lies in the region that it is, as both are printed."""
    table, _, keys = place.partition("[")
    other, _, key = cell.partition("[")
    if table != other or ".." not in keys:
        return place == cell
    *fixed, low, high = numbers_in(keys)
    *first, last = numbers_in(key)
    return fixed == first and low <= last <= high


def looked_at(lane, cell):
    """The mark where an instance looked at a cell: an `insert` looks at the one that it changes."""
    looks = [it for it in lane.marks if it.kind in ("read", "range") and holds(it.place, cell)]
    return looks[0] if looks else changed_at(lane, cell)


def changed_at(lane, cell):
    """The mark where an instance changed a cell last."""
    return next((it for it in reversed(lane.marks) if it.kind in ("put", "removed") and it.place == cell), None)


def columns_of(history, link):
    """Where a dependency begins and ends in time, in the lanes of its two commits."""
    one, other = history.lane_of(link.before), history.lane_of(link.after)
    begin = looked_at(one, link.cell) if link.kind == "missed" else changed_at(one, link.cell)
    end = looked_at(other, link.cell) if link.kind == "saw" else changed_at(other, link.cell)
    looks_first = one.first if link.kind == "missed" else one.last
    sees_first = other.first if link.kind == "saw" else other.last
    return begin.column if begin else looks_first, end.column if end else sees_first


def shown(words):
    """Words with the two ends of i64 by their names."""
    return words.replace(str(LEAST), "least").replace(str(GREATEST), "greatest")


def columns_used(lanes):
    """The columns at which something is seen of some lanes, in their order."""
    ends = {it for lane in lanes for it in (lane.first, lane.last)}
    return sorted(ends.union(mark.column for lane in lanes for mark in lane.marks))


def moved_to(lane, places):
    """A lane with its columns at other places."""
    marks = [replace(mark, column=places[mark.column]) for mark in lane.marks]
    return replace(lane, first=places[lane.first], last=places[lane.last], marks=marks)


def only(history, numbers):
    """A history with the lanes of some numbers alone, and with the columns that these use."""
    lanes = [lane for lane in history.lanes if lane.number in numbers]
    used = columns_used(lanes)
    places = {column: at for at, column in enumerate(used)}
    return replace(history, lanes=[moved_to(lane, places) for lane in lanes], columns=len(used))
