"""A plain checker of certificates, written from the definitions and from nothing of the program that is tested.

`verdict_on` answers what `verify` has to print for a set and the bytes of a certificate. It goes over all questions of
the committing paths, and takes a certificate only where each entry holds and the levels rise as they have to.
"""
import json
import math

from texts import GREATEST, LEAST, OVER_RANGES, PLACES, Fault, routes_of

MOST_INDEX = 2 ** 32 - 1
MOST_QUESTIONS = 1000000
DEEPEST = 127
WRITING = ("Writes", "Adds", "Keeps")
NODES = ("m", "u", "t", "v")


class NotJson(Exception):
    """Bytes that are no JSON text."""


class Index(int):
    """A whole number of a JSON text."""


def whole(digits):
    """A JSON number without a point: whole where 64 bits hold it; `-0` is none."""
    value = int(digits)
    return Index(value) if digits != "-0" and LEAST <= value < 2 ** 64 else float(value)


def fraction(digits):
    if math.isinf(float(digits)):
        raise NotJson
    return float(digits)


def no_number(word):
    raise NotJson


def depth_of(text):
    """How deep the brackets of a JSON text are."""
    deep = most = 0
    in_text = is_escaped = False
    for sign in text:
        if in_text:
            in_text, is_escaped = is_escaped or sign != '"', sign == "\\" and not is_escaped
        elif sign == '"':
            in_text = True
        elif sign in "[{":
            deep += 1
            most = max(most, deep)
        elif sign in "]}":
            deep -= 1
    return most


def read_json(data):
    try:
        text = data.decode()
        if depth_of(text) > DEEPEST:
            raise NotJson
        value = json.loads(text, parse_int=whole, parse_float=fraction, parse_constant=no_number)
        json.dumps(value, ensure_ascii=False).encode()
    except (ValueError, NotJson):
        raise Fault("fault J1") from None
    return value


def is_index(value, least=0, greatest=MOST_INDEX):
    return isinstance(value, Index) and least <= value <= greatest


def is_list(value, length=None):
    return isinstance(value, list) and length in (None, len(value))


def is_chain(value):
    def is_node(it):
        if not is_list(it, 2) or not isinstance(it[0], str):
            return False
        return is_index(it[1]) if it[0] in NODES else it[0] == "n" and is_index(it[1], LEAST, GREATEST)
    return is_list(value) and all(map(is_node, value))


def is_entry(value):
    if not is_list(value) or not value or not all(map(is_index, value[1:-1])):
        return False
    if value[0] == "apart":
        return len(value) == 6 and is_chain(value[5])
    return value[0] == "cover" and len(value) == 8 and is_list(value[7]) and all(map(is_chain, value[7]))


def read_certificate(data):
    """The entries and levels of the bytes of a certificate, and how many accesses of each node aren't sure."""
    value = read_json(data)
    if not isinstance(value, dict) or not isinstance(value.get("version"), Index):
        raise Fault("fault J2")
    if value["version"] not in (1, 2):
        raise Fault("fault J3")
    lists = ["entries", "levels", *(["bodies"] if value["version"] == 2 else [])]
    if set(value) != {*lists, "version"} or not all(is_list(value[name]) for name in lists):
        raise Fault("fault J2")
    bodies = value.get("bodies", [Index(0)] * len(value["levels"]))
    if not all(map(is_index, [*value["levels"], *bodies])) or not all(map(is_entry, value["entries"])):
        raise Fault("fault J2")
    return value["entries"], value["levels"], bodies


class Path:
    """A committing path: its accesses, each a kind, a table, the ends of each key column, and whether it is sure."""

    def __init__(self, tables, parameters, statements):
        self.grows = {name: grows for name, _, grows in tables}
        self.parameters, self.unknowns, self.accesses = parameters, 0, []
        for it, is_sure in statements:
            self.add(it, is_sure)

    def term(self, expression):
        if expression[0] == "number":
            return "number", expression[1]
        if expression[0] == "name" and expression[1] in self.parameters:
            return "parameter", self.parameters.index(expression[1])
        self.unknowns += 1
        return "unknown", self.unknowns - 1

    def add(self, it, is_sure):
        kind = it[0]
        if kind not in PLACES:
            return
        table, columns = it[PLACES[kind]]
        terms = [self.term(column) for column in columns]
        ends = [(term, term) for term in terms]
        if kind in OVER_RANGES:
            ends = [(term, term) for term in terms[:-2]] + [tuple(terms[-2:])]
        grows = self.grows[table]
        kinds = {
            "get": ["Reads"], "count": ["Reads"], "sum": ["Reads"], "each": ["Reads"],
            "need": ["Sees" if grows else "Reads"], "lacks": ["Lacks" if grows else "Reads"],
            "put": ["Writes"], "delete": ["Writes"],
            "insert": ["Adds"] if grows else ["Reads", "Writes"], "keep": ["Keeps"],
        }[kind]
        self.accesses += [(each, table, ends, is_sure) for each in kinds]

    def in_bodies(self):
        """How many accesses aren't sure."""
        return sum(not is_sure for *_, is_sure in self.accesses)


def paths_of(tables, programs):
    return [Path(tables, parameters, route) for _, parameters, block in programs for route in routes_of(block)]


def edges_asked(mine, theirs):
    """The edges of two accesses that ask: of each whether it leads on, and whether it is of a change that is missed."""
    if mine[1] != theirs[1]:
        return []
    if theirs[0] in ("Writes", "Adds") and mine[0] == "Reads":
        return [("on", True), ("back", False)]
    if theirs[0] == "Adds" and mine[0] in ("Lacks", "Sees"):
        return [("on", True)] if mine[0] == "Lacks" else [("back", False)]
    return [("on", False), ("back", False)] if (mine[0], theirs[0]) == ("Writes", "Writes") else []


def questions_of(paths):
    """All questions by their numbers, with their edges."""
    questions = {}
    places = [(x, a, access) for x, path in enumerate(paths) for a, access in enumerate(path.accesses)]
    for x, a, mine in places:
        for y, b, theirs in places:
            edges = edges_asked(mine, theirs)
            if edges and (edges[0][1] or mine[0] != "Writes" or (x, a) <= (y, b)):
                questions[x, a, y, b] = edges
    return questions


def node(term, is_mine):
    """A term as a node of chains."""
    kind, value = term
    if kind == "number":
        return "n", value
    return {"parameter": "mt", "unknown": "uv"}[kind][not is_mine], value


def holds(chain, facts, first=None, last=None):
    """Whether a list of nodes is a chain, from one node to another where these are named."""
    nodes = [tuple(it) for it in chain]
    if not nodes or first and (nodes[0], nodes[-1]) != (first, last):
        return False
    return all(is_step(one, other, facts) for one, other in zip(nodes, nodes[1:]))


def is_step(one, other, facts):
    if (one, other) in facts or one == ("n", LEAST) or other == ("n", GREATEST):
        return True
    return one[0] == other[0] == "n" and one[1] <= other[1]


def facts_between(mine, theirs):
    facts = set()
    for (low, high), (column, _) in zip(mine[2], theirs[2]):
        facts |= {(node(low, True), node(column, False)), (node(column, False), node(high, True))}
    return facts


def look_at_entry(number, entry, paths, questions):
    """Raises the fault of an entry whose question there is."""
    x, a, y, b = entry[1:5]
    facts = facts_between(paths[x].accesses[a], paths[y].accesses[b])
    if entry[0] == "apart":
        chain = entry[5]
        falls = holds(chain, facts) and chain[0][0] == chain[-1][0] == "n" and chain[0][1] > chain[-1][1]
        if not falls:
            raise Fault(f"fault K4 {number}")
        return
    covering = [paths[it].accesses[place] if place < len(paths[it].accesses) else None
                for it, place in ((x, entry[5]), (y, entry[6]))]
    is_sound = questions[x, a, y, b][0][1] and all(it and it[0] in WRITING and it[3] for it in covering)
    if not is_sound or covering[0][1] != covering[1][1] or len(entry[7]) != 2 * len(covering[0][2]):
        raise Fault(f"fault K5 {number}")
    for column, ((mine, _), (theirs, _)) in enumerate(zip(covering[0][2], covering[1][2])):
        ends = node(mine, True), node(theirs, False)
        there, back = entry[7][2 * column:2 * column + 2]
        if not holds(there, facts, *ends) or not holds(back, facts, *ends[::-1]):
            raise Fault(f"fault K4 {number}")


def look_at_levels(entries, levels, questions):
    """Raises the fault of levels that don't rise as they have to."""
    listed = {tuple(entry[1:5]): entry[0] for entry in entries}
    edges, vulnerable = set(), set()
    for (x, a, y, b), asked in questions.items():
        said = listed.get((x, a, y, b))
        for way, is_missed in asked if said != "apart" else []:
            edge = (x, y) if way == "on" else (y, x)
            edges.add(edge)
            if is_missed and said is None:
                vulnerable.add(edge)
    for x, y in sorted(edges):
        if levels[x] > levels[y]:
            raise Fault(f"fault K6 {x} {y}")
    for x, y, z in sorted((x, y, z) for x, y in vulnerable for it, z in vulnerable if it == y):
        if levels[x] >= levels[z]:
            raise Fault(f"fault K7 {x} {y} {z}")


class Verifier:
    """Verifies certificates of one set."""

    def __init__(self, tables, programs):
        self.paths = paths_of(tables, programs)
        self.questions = questions_of(self.paths)

    def look(self, data):
        """Raises the first fault of a certificate."""
        entries, levels, bodies = read_certificate(data)
        if len(self.questions) > MOST_QUESTIONS:
            raise Fault("fault K8")
        if len(levels) != len(self.paths) or bodies != [path.in_bodies() for path in self.paths]:
            raise Fault("fault K1")
        before = ()
        for number, entry in enumerate(entries):
            numbers = tuple(entry[1:5])
            if numbers not in self.questions:
                raise Fault(f"fault K2 {number}")
            if numbers <= before:
                raise Fault(f"fault K3 {number}")
            before = numbers
            look_at_entry(number, entry, self.paths, self.questions)
        look_at_levels(entries, levels, self.questions)

    def verdict_on(self, data):
        """The status and the line that `verify` has to answer."""
        try:
            self.look(data)
        except Fault as fault:
            return 2, f"{fault}\n".encode()
        return 0, b"robust\n"
