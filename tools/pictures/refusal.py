"""Reads a refusal from what `certify` prints and says."""
import re
from dataclasses import dataclass

from pictures.asking import parameters
from pictures.history import shown

EDGE = re.compile(r"(?:first|second) (\d+):(\S+) (\d+), (\d+):(\S+) (\d+), \((.*?)\) \((.*?)\)")
POINTED = re.compile(r"line (\d+), column \d+: ")
CIRCLE = "in a serial order "


@dataclass(frozen=True)
class Node:
    """A committing path of a program: its name has a letter for each branch."""

    name: str
    parameters: tuple

    def call(self):
        return f"{self.name.partition(':')[0]}({', '.join(self.parameters)})"

    def branches(self):
        """What the letters of the name say."""
        letters = self.name.partition(":")[2]
        told = ", ".join("taken" if it == "t" else "not taken" for it in letters)
        return f":{letters}, the way with its {'if' if len(letters) == 1 else 'ifs'} {told}" if letters else ""


@dataclass(frozen=True)
class Access:
    """A statement of an edge: its line in the input, its text, and the parameters of its instance."""

    line: str
    statement: str
    arguments: dict

    def cell(self):
        """The cell or the region, with numbers in place of parameters; nothing where the statement isn't told."""
        found = re.search(r"(\w+\[)([^\]]*\])", self.statement)
        return shown(found[1] + re.sub(r"\b[A-Za-z_]\w*", self.argument, found[2])) if found else ""

    def argument(self, name):
        return self.arguments.get(name[0], name[0])

    def with_arguments(self):
        told = shown(", ".join(f"{name} = {value}" for name, value in self.arguments.items()))
        return f"with {told}" if told else ""


@dataclass(frozen=True)
class Edge:
    """A vulnerable edge: what looks, and what changes that, unseen."""

    look: Access
    change: Access

    def meeting(self):
        """Where the two meet."""
        look, change = self.look.cell(), self.change.cell()
        if not look or look == change:
            return look
        return f"{change}, which is in {look}" if ".." in look else f"{look}, {change}"


@dataclass(frozen=True)
class Refusal:
    """What is drawn of a refusal."""

    # the three nodes of the two edges; the first and the third may be the same
    nodes: tuple
    edges: tuple
    # the nodes between the third and the first on the way back
    between: tuple
    is_short: bool
    # the programs that have no node on the circle
    others: tuple
    sentences: tuple


def statements_of(lines):
    """The line's number and the statement of each place that the words point at; an edge that is both is told once."""
    told = [(it[1], lines[at + 1].strip()) for at, line in enumerate(lines) if (it := POINTED.match(line))]
    return told * 2 if len(told) == 2 else told


def accesses(answer, canonical_answer, edges, known):
    """The four accesses of both edges, in their order; statements come from the canonical text, and are whole there."""
    places, texts = statements_of(answer.words), statements_of(canonical_answer.words)
    for at, (name, values) in enumerate(it for edge in edges for it in ((edge[1], edge[6]), (edge[4], edge[7]))):
        line = places[at][0] if len(places) == 4 else ""
        statement = texts[at][1] if len(texts) == 4 else ""
        names = known.get(name.partition(":")[0], [])
        yield Access(line, statement, dict(zip(names, values.split(", "))))


def names_between(answer, numbers):
    """The names of the nodes between on the way back, which the words of the circle tell."""
    circle = next((it for it in answer.words if it.startswith(CIRCLE)), "")
    names = re.findall(r"`([^`]+)`", circle)[3:-1]
    return names if len(names) == len(numbers) else [f"way {it}" for it in numbers]


def read_refusal(answer, canonical, canonical_answer):
    """The refusal that `certify` answers to a set, and to its canonical text."""
    known = parameters(canonical)
    edges = [EDGE.fullmatch(line).groups() for line in answer.lines[1:3]]
    back = answer.lines[3].split()[1:]
    names = [edges[0][1], edges[0][4], edges[1][4], *names_between(answer, back[1:-1])]
    nodes = [Node(name, tuple(known.get(name.partition(":")[0], ()))) for name in names]
    four = list(accesses(answer, canonical_answer, edges, known))
    met = {name.partition(":")[0] for name in names}
    return Refusal(
        nodes=tuple(nodes[:3]),
        edges=(Edge(*four[:2]), Edge(*four[2:])),
        between=tuple(nodes[3:]),
        is_short=len(back) == 1,
        others=tuple(Node(name, tuple(known[name])) for name in known if name not in met),
        sentences=tuple(it for it in answer.words if it.startswith((CIRCLE, "what helps"))),
    )
