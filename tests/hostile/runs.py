"""A plain engine: what a script of a set has to print, written from the definitions and from nothing of the program.

`is_run_told` compares what `run` answered. It holds whole states, one for each commit, and knows all statements.
"""
from texts import GREATEST, LEAST, Fault

COMPARE = {
    "<": lambda a, b: a < b, "<=": lambda a, b: a <= b, ">": lambda a, b: a > b,
    ">=": lambda a, b: a >= b, "==": lambda a, b: a == b, "!=": lambda a, b: a != b,
}
MOST_EVENTS = 1000000


class Ended(Exception):
    """An instance aborts, for a cause."""


def lines_of(part):
    """The lines of a part that are not skipped, with their numbers and words."""
    lines = part.split(b"\n")
    if lines[-1] == b"":
        lines.pop()
    for number, line in enumerate(lines, 1):
        line = line.removesuffix(b"\r")
        if line and not line.startswith(b"#"):
            yield number, [word for word in line.split(b" ") if word]


def number(word, least=LEAST, greatest=GREATEST):
    """The number of a word, or None."""
    digits = word.removeprefix(b"-")
    if not digits or any(byte not in b"0123456789" for byte in digits):
        return None
    value = int(word)
    return value if least <= value <= greatest else None


def all_numbers(words):
    return all(number(word) is not None for word in words)


def instance(word):
    return number(word, 0, 2 ** 32 - 1)


def row_of(words):
    """A row's table, keys and value, or None."""
    if len(words) not in (5, 6) or words[-2] != b"=" or not all_numbers(words[2:-2] + words[-1:]):
        return None
    return words[1], [number(it) for it in words[2:-2]], number(words[-1])


def start_of(word):
    return number(word, 0, 2 ** 64 - 1)


def event_of(words):
    """An event, a begin with its program's name and its start, and how many it stands for; or None."""
    kind = words[0]
    if kind == b"begin" and len(words) > 1 and all_numbers(words[2:]):
        return ("begin", words[1], [number(it) for it in words[2:]], None), 1
    if kind == b"begin-at" and len(words) > 2 and start_of(words[1]) is not None and all_numbers(words[3:]):
        return ("begin", words[2], [number(it) for it in words[3:]], start_of(words[1])), 1
    if kind == b"step" and len(words) in (2, 3) and instance(words[1]) is not None:
        times = number(words[2], 1, 1000) if len(words) == 3 else 1
        return times and (("step", instance(words[1])), times)
    if kind in (b"commit", b"abort") and len(words) == 2 and instance(words[1]) is not None:
        return (kind.decode(), instance(words[1])), 1
    return (("vacuum",), 1) if words == [b"vacuum"] else None


def read_script(part, tables, programs):
    """The opening rows and the events of a script, or its first fault."""
    names = {name.encode(): (place, columns) for place, (name, columns, _) in enumerate(tables)}
    begun = {program[0].encode(): program for program in programs}
    rows, events = {}, []
    is_late = False
    for line, words in lines_of(part):
        def refuse(fault, is_so):
            if is_so:
                raise Fault(f"fault {fault} line {line}")
        refuse("S1", not words)
        if words[0] == b"row":
            row = row_of(words)
            refuse("S1", row is None)
            name, keys, value = row
            refuse("S2", name not in names)
            table, columns = names[name]
            refuse("S3", len(keys) != columns)
            refuse("S4", is_late)
            cell = (table, *keys, *[0] * (2 - columns))
            refuse("S5", cell in rows)
            rows[cell] = value
            continue
        found = event_of(words)
        refuse("S1", not found)
        event, times = found
        if event[0] == "begin":
            refuse("S2", event[1] not in begun)
            event = ("begin", begun[event[1]], *event[2:])
        is_late = True
        refuse("S6", len(events) + times > MOST_EVENTS)
        events += [event] * times
    return rows, events


class Instance:
    """A program under way: `deeds` goes on to the end of each step."""

    def __init__(self, engine, program, args, start):
        self.engine, self.program, self.start = engine, program, start
        self.names = dict(zip(program[1], args))
        self.changes, self.kept, self.looked, self.replies = {}, set(), [], []
        self.ready, self.ended = "", False
        self.deeds = self.block(program[2], self.names)

    def value(self, expression, names):
        if expression[0] == "name":
            return names[expression[1]]
        if expression[0] == "number":
            return expression[1]
        left, right = self.value(expression[1], names), self.value(expression[2], names)
        value = {"+": left + right, "-": left - right, "*": left * right}[expression[0]]
        if not LEAST <= value <= GREATEST:
            raise Ended("overflow")
        return value

    def place(self, place, names):
        keys = [self.value(it, names) for it in place[1]]
        return self.engine.numbers[place[0]], keys

    def cell(self, place, names):
        table, keys = self.place(place, names)
        return (table, *keys, *[0] * (2 - len(keys)))

    def look(self, cell):
        if cell in self.changes:
            return self.changes[cell]
        self.looked.append(lambda other: other == cell)
        return self.engine.states[self.start].get(cell)

    def holds(self, test, names):
        return any([all([self.compare(it, names) for it in part]) for part in test])

    def compare(self, it, names):
        return COMPARE[it[2]](self.value(it[1], names), self.value(it[3], names)) != it[0]

    def over(self, place, names):
        """How a region prints, and its rows in the order of their keys, each its last key column and its value."""
        table, (*front, low, high) = self.place(place, names)
        columns = self.engine.tables[table][1]

        def is_in(cell):
            return cell[0] == table and list(cell[1:columns]) == front and low <= cell[columns] <= high
        own = set(self.changes)
        self.looked.append(lambda other: is_in(other) and other not in own)
        state = {**self.engine.states[self.start], **self.changes}
        region = f"{place[0]}[{''.join(f'{it}, ' for it in front)}{low}..{high}]"
        found = sorted((cell, value) for cell, value in state.items() if is_in(cell) and value is not None)
        return region, [(cell[columns], value) for cell, value in found]

    def block(self, statements, names):
        names = dict(names)
        for it in statements:
            if it[0] == "if":
                yield from self.block(it[2 if self.holds(it[1], names) else 3], names)
            elif it[0] == "let":
                names[it[1]] = self.value(it[2], names)
            elif it[0] == "reply":
                self.replies.append(self.value(it[1], names))
            elif it[0] == "abort":
                raise Ended("asked")
            elif it[0] == "each":
                region, rows = self.over(it[3], names)
                yield f"list {region} {len(rows)}"
                for key, value in rows:
                    yield from self.block(it[4], {**names, it[1]: key, it[2]: value})
            else:
                yield self.deed(it, names)

    def deed(self, it, names):
        """The line of a store statement."""
        kind, engine = it[0], self.engine
        if kind in ("count", "sum"):
            region, rows = self.over(it[2], names)
            total = len(rows) if kind == "count" else sum(value for _, value in rows)
            if not LEAST <= total <= GREATEST:
                raise Ended("overflow")
            names[it[1]] = total
            return f"{kind} {region} {total}"
        cell = self.cell(it[2 if kind in ("get", "need") else 1], names)
        shown = engine.shown(cell)
        if kind in ("put", "insert"):
            value = self.value(it[2], names)
        found = self.look(cell) if kind in ("get", "need", "lacks", "insert") else None
        if kind in ("lacks", "insert") and found is not None:
            raise Ended(f"present {shown}")
        if kind == "need" and found is None:
            raise Ended(f"missing {shown}")
        if kind in ("put", "insert", "delete"):
            self.changes[cell] = None if kind == "delete" else value
            return f"removed {shown}" if kind == "delete" else f"put {shown} {value}"
        if kind == "keep":
            self.kept.add(cell)
            return f"kept {shown}"
        if kind in ("get", "need"):
            names[it[1]] = self.value(it[3], names) if found is None else found
        return f"read {shown} {'absent' if found is None else found}"


class Engine:
    """The event machine."""

    def __init__(self, tables, rows):
        self.tables = tables
        self.numbers = {it[0]: place for place, it in enumerate(tables)}
        self.states, self.commits, self.instances = [rows], [], []
        self.versions = {cell: [(0, value)] for cell, value in rows.items()}
        self.floor = 0

    def shown(self, cell):
        name, columns, _ = self.tables[cell[0]]
        return f"{name}[{', '.join(map(str, cell[1:1 + columns]))}]"

    def apply(self, event):
        if event[0] == "begin":
            return self.begin(*event[1:])
        if event[0] == "vacuum":
            return self.vacuum()
        if event[1] >= len(self.instances):
            return f"{event[1]} no such instance"
        it = self.instances[event[1]]
        if it.ended:
            return f"{event[1]} ended"
        return f"{event[1]} {getattr(self, event[0])(it)}"

    def begin(self, program, args, start):
        """Begins an instance, at a number of commits where one is named."""
        if len(args) != len(program[1]):
            return "refused wrong arguments"
        newest = len(self.commits)
        start = newest if start is None else start
        if start < self.floor:
            return f"refused too old {self.floor}"
        if start > newest:
            return f"refused too new {newest}"
        self.instances.append(Instance(self, program, args, start))
        return f"{len(self.instances) - 1} begun at {start}"

    def vacuum(self):
        """Drops the versions that nobody can see."""
        self.floor = min((it.start for it in self.instances if not it.ended), default=len(self.commits))
        gone = 0
        for cell, versions in self.versions.items():
            older = [it for it in versions if it[0] <= self.floor]
            left = [it for it in older[-1:] if it[1] is not None] + versions[len(older):]
            gone += len(versions) - len(left)
            self.versions[cell] = left
        return f"vacuumed {gone}"

    def abort(self, it):
        it.ended = True
        return "withdrawn"

    def step(self, it):
        if not it.ready:
            try:
                return next(it.deeds)
            except StopIteration:
                it.ready = " ".join(["ready", *map(str, it.replies)])
            except Ended as cause:
                it.ended = True
                return f"aborted {cause}"
        return it.ready

    def commit(self, it):
        if not it.ready:
            return "not ready"
        it.ended = True
        mine = set(it.changes) | it.kept
        shared = [(cell, -place) for place, other in enumerate(self.commits, 1) if place > it.start
                  for cell in mine & (set(other.changes) | other.kept)]
        if shared:
            cell, place = min(shared)
            return f"clashed on {self.shown(cell)} with {-place}"
        state = {**self.states[-1], **it.changes}
        self.states.append({cell: value for cell, value in state.items() if value is not None})
        self.commits.append(it)
        for cell, value in it.changes.items():
            self.versions.setdefault(cell, []).append((len(self.commits), value))
        return f"committed {len(self.commits)}"

    def depends(self, j, i):
        """Whether commit j has to stand behind commit i."""
        one, other = self.commits[i - 1], self.commits[j - 1]

        def sees(reader, writer):
            return any(looks(cell) for looks in reader.looked for cell in writer.changes)
        return (i < j and bool(set(one.changes) & set(other.changes)) or i <= other.start and sees(other, one)
                or one.start < j and sees(one, other))

    def order(self):
        """The least order of the commits, or None where there is a cycle."""
        left, order = list(range(1, len(self.commits) + 1)), []
        while left:
            free = [j for j in left if not any(self.depends(j, i) for i in left if i != j)]
            if not free:
                return None
            order.append(free[0])
            left.remove(free[0])
        return order

    def rows(self):
        lines = []
        for cell, value in sorted(self.states[-1].items()):
            name, columns, _ = self.tables[cell[0]]
            lines.append(f"row {name} {' '.join(map(str, cell[1:1 + columns]))} = {value}")
        return lines

    def is_cycle(self, line):
        """Whether a line names a cycle of the commits, the least number first and none twice."""
        numbers = [int(word) for word in line.split()[1:]]
        steps = zip(numbers, numbers[1:] + numbers[:1])
        return (len(numbers) > 1 and len(set(numbers)) == len(numbers) and numbers[0] == min(numbers)
                and all(0 < i <= len(self.commits) for i in numbers) and all(self.depends(j, i) for i, j in steps))


def is_run_told(set_of_text, script, told):
    """Whether a status and an output are those of a script of a set. It raises the script's fault."""
    tables, programs = set_of_text
    rows, events = read_script(script, tables, programs)
    engine = Engine(tables, rows)
    lines = [engine.apply(event) for event in events] + engine.rows()
    order = engine.order()
    status, output = told
    if order is not None:
        lines.append(" ".join(["order", *map(str, order)]))
        return (status, output) == (0, "".join(f"{line}\n" for line in lines).encode())
    *first, last = output.decode(errors="replace").splitlines() or [""]
    return (status, first) == (1, lines) and last.startswith("cycle ") and engine.is_cycle(last)
