"""Random sets of programs, and scripts of them: small tables and numbers, so that much meets."""
import random

# the statements that are drawn, some more often; half of the sets have an `each` among them
PLAIN = ("get", "get", "need", "count", "sum", "lacks", "insert", "put", "put", "put", "delete", "keep", "if", "reply")
WITH_EACH = (*PLAIN, "each", "each", "each", "each")
MOST_DEEP = 2  # of branches and `each` in one another
MOST_STEPS = 1000  # of one line; each instance ends within so many
MANY_STEPS = 200  # of one line of a script whose steps that do nothing are told


class Maker:
    """Draws the text of one set, and scripts of it."""

    def __init__(self, chance):
        self.chance = chance
        self.kinds = chance.choice((PLAIN, WITH_EACH))
        self.tables = [(f"t{n}", chance.choice((1, 1, 2)), chance.random() < 0.25) for n in range(chance.randint(1, 2))]

    def expression(self, names):
        chance = self.chance
        if names and chance.random() < 0.65:
            first = chance.choice(names)
        else:
            first = str(chance.randint(0, 2))
        return first if chance.random() < 0.85 else f"{first} {chance.choice('+-*')} {chance.randint(0, 2)}"

    def key(self, arity, names):
        return ", ".join(self.expression(names) for _ in range(arity))

    def span(self, arity, names):
        front = f"{self.expression(names)}, " if arity == 2 else ""
        return front + f"{self.expression(names)}..{self.expression(names)}"

    def statement(self, names, deep):
        """The lines of a statement; a name that it binds is added to the names."""
        chance = self.chance
        table, arity, grows = chance.choice(self.tables)
        kind = chance.choice(self.kinds)
        if grows and kind in ("put", "delete"):
            kind = "insert"
        cell = f"{table}[{self.key(arity, names)}]"
        if kind in ("get", "need", "count", "sum"):
            value = {
                "get": f"get {cell} else {self.expression(names)}",
                "need": f"need {cell}",
                "count": f"count {table}[{self.span(arity, names)}]",
                "sum": f"sum {table}[{self.span(arity, names)}]",
            }[kind]
            name = f"v{self.bound}"
            self.bound += 1
            names.append(name)
            return [f"let {name} = {value};"]
        if kind in ("put", "insert"):
            return [f"{kind} {cell} = {self.expression(names)};"]
        if kind == "if" and deep < MOST_DEEP:
            test = f"{self.expression(names)} {chance.choice(('<', '<=', '==', '!='))} {self.expression(names)}"
            then, otherwise = self.block(list(names), deep + 1), self.block(list(names), deep + 1)
            return [f"if {test} {{", *then, "} else {", *otherwise, "}"]
        if kind == "each" and deep < MOST_DEEP:
            inner = [f"k{self.bound}", f"x{self.bound}"]
            self.bound += 1
            head = f"each {inner[0]}, {inner[1]} in {table}[{self.span(arity, names)}] {{"
            return [head, *self.block(names + inner, deep + 1), "}"]
        if kind in ("reply", "if", "each"):
            return [f"reply {self.expression(names)};"]
        return [f"{kind} {cell};"]

    def block(self, names, deep):
        lines = []
        for _ in range(self.chance.randint(1, 3 if deep else 4)):
            lines += self.statement(names, deep)
        return lines

    def program(self, number):
        params = [f"p{n}" for n in range(self.chance.randint(0, 2))]
        self.bound = 0
        lines = self.block(list(params), 0)
        return len(params), [f"program P{number}({', '.join(params)}) {{", *lines, "}"]

    def text(self):
        """The text of the set, and how many parameters each program has."""
        lines = [f"table {name} {arity}{' grow' if grows else ''};" for name, arity, grows in self.tables]
        counts = []
        for number in range(self.chance.randint(1, 3)):
            count, program = self.program(number)
            counts.append(count)
            lines += program
        return "\n".join(lines) + "\n", counts

    def rows(self):
        chance = self.chance
        lines = []
        for name, arity, _ in self.tables:
            for first in range(3):
                if chance.random() < 0.5:
                    keys = f"{first} {chance.randint(0, 2)}" if arity == 2 else f"{first}"
                    lines.append(f"row {name} {keys} = {chance.randint(-2, 5)}")
        return lines

    def arguments(self, count):
        return " ".join(str(self.chance.randint(0, 2)) for _ in range(count))

    def script(self, counts):
        """Rows, and instances of all programs, each run to its end before the next begins."""
        lines = self.rows()
        for begun, number in enumerate(list(range(len(counts))) * 3):
            begin = f"begin P{number} {self.arguments(counts[number])}".strip()
            lines += [begin, f"step {begun} {MOST_STEPS}", f"commit {begun}"]
        return "\n".join(lines) + "\n"

    def mixed_script(self, counts):
        """Rows, and instances of all programs, some as of older numbers, that are under way at once."""
        chance = self.chance
        lines = self.rows()
        begun = 0
        for _ in range(chance.randint(10, 30)):
            kind = chance.choice(("begin", "begin", "begin-at", "step", "step", "end", "end", "end", "abort", "vacuum"))
            some = chance.randrange(begun + 1)
            if kind in ("begin", "begin-at"):
                number = chance.randrange(len(counts))
                start = f" {chance.randint(0, 3)}" if kind == "begin-at" else ""
                lines.append(f"{kind}{start} P{number} {self.arguments(counts[number])}".strip())
                begun += 1
            elif kind == "end":
                lines += [f"step {some} {MANY_STEPS}", f"commit {some}"]
            else:
                lines.append({"step": f"step {some} {chance.randint(1, 3)}", "abort": f"abort {some}"}.get(kind, kind))
        return "\n".join(lines) + "\n"


def drawn_sets(seed):
    """Sets without end, each with what drew it and how many parameters its programs have."""
    chance = random.Random(seed)
    while True:
        maker = Maker(chance)
        yield maker, *maker.text()
