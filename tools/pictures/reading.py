"""Reads runs, from a script and what `run` prints, and audits, from records and what `audit` prints."""
import re

from pictures.asking import split_words
from pictures.history import History, Lane, Mark, read_last_line, shown

DEED = re.compile(r"(read|count|sum|list|put|removed|kept) (\w+\[[^\]]*\])(?: (.*))?")
KINDS = {"count": "range", "sum": "range", "list": "range"}


def call(program, arguments):
    return f"{program}({', '.join(arguments)})"


def begun(words):
    """What a line of a begin calls: behind `begin-at` stands the number of commits that it sees."""
    front = 2 if words[0] == "begin-at" else 1
    return call(words[front], words[front + 1:])


class RunReader:
    """Goes over the lines that a run prints; each that tells something of an instance takes a column of time."""

    def __init__(self, script):
        begins = (split_words(line) for line in script)
        self.begins = (begun(words) for words in begins if words[:1] in (["begin"], ["begin-at"]))
        self.history = History("instance")

    def column(self):
        self.history.columns += 1
        return self.history.columns - 1

    def begin(self, words):
        """A line of a begin: it is refused, or the next lane begins."""
        name = next(self.begins)
        if words.startswith("refused"):
            return
        number, start = re.fullmatch(r"(\d+) begun at (\d+)", words).groups()
        self.history.lanes.append(Lane(int(number), name, int(start), self.column()))

    def deed(self, lane, words):
        """A line of a statement of the store."""
        kind, place, value = DEED.fullmatch(words).groups()
        told = f"{shown(place)} {value}" if value else shown(place)
        front = f"{kind} " if kind in KINDS else ""
        lane.marks.append(Mark(KINDS.get(kind, kind), self.column(), place, front + told))

    def ready(self, lane, words):
        """A line that the instance is ready: it may be told more than once, and is shown where there are replies."""
        if words != "ready" and not any(it.kind == "ready" for it in lane.marks):
            lane.marks.append(Mark("ready", self.column(), "", words.replace("ready", "replies")))

    def end(self, lane, words):
        """A line of an instance's end."""
        lane.ending, _, rest = words.partition(" ")
        lane.last = self.column()
        lane.commit = int(rest) if lane.ending == "committed" else 0
        lane.note = "" if lane.commit else shown(words)

    def line(self, text):
        """Any line but the last."""
        head, _, words = text.partition(" ")
        if head == "refused" or re.fullmatch(r"\d+ begun at \d+", text):
            self.begin(text)
        elif not head.isdigit() or words in ("no such instance", "not ready", "ended"):
            return
        elif words.split()[0] == "ready":
            self.ready(self.history.lanes[int(head)], words)
        elif DEED.fullmatch(words):
            self.deed(self.history.lanes[int(head)], words)
        else:
            self.end(self.history.lanes[int(head)], words)


def read_run(script, answer):
    """The history of a run."""
    reader = RunReader(script)
    for text in answer.lines[:-1]:
        reader.line(text)
    history = reader.history
    for lane in history.lanes:
        if lane.ending == "active":
            lane.last = max(history.columns - 1, lane.first)
    read_last_line(history, answer)
    return history


def record_lane(number, words):
    """The lane of a record: from behind the last commit that it saw to its own commit."""
    at = words.index("at", 2)
    start, replies = int(words[at + 1]), words[at + 3 :]
    note = f"replies {' '.join(replies)}" if replies else ""
    lane = Lane(number, call(words[1], words[2:at]), start, 2 * start + 1, 2 * number + 2)
    lane.ending, lane.note, lane.commit = "committed", note, number + 1
    return lane


def read_audit(records, answer):
    """The history of an audit; commit N stands at column 2 N."""
    lines = (split_words(line) for line in records)
    taken = [words for words in lines if words[:1] == ["record"]]
    history = History("record", [record_lane(*it) for it in enumerate(taken)], 2 * len(taken) + 1)
    read_last_line(history, answer)
    return history
