"""A plain reader of programs, written from the formats and from nothing of the program that is tested.

`read_set` answers a set, or raises the first fault; `printed` is the canonical text of a set.
"""
import re

RESERVED = set("table grow program let get need count sum lacks put insert delete keep if else reply abort or and not"
               " least greatest each in".split())
GREATEST = 2 ** 63 - 1
LEAST = -(2 ** 63)
LONGEST = 1048576
TOKEN = re.compile(rb"([ \t\n\r]+|#[^\n]*)|([A-Za-z_][A-Za-z0-9_]*)|([0-9]+)|(\.\.|[<>=!]=|[()\[\]{},;=+*<>-])")
RELATIONS = ("<", "<=", ">", ">=", "==", "!=")
# where the key or the range stands in a statement of the store
PLACES = {
    "get": 2, "need": 2, "count": 2, "sum": 2, "each": 3,
    "lacks": 1, "put": 1, "insert": 1, "delete": 1, "keep": 1,
}
OVER_RANGES = ("count", "sum", "each")
# how many names a statement binds
BINDS = {"let": 1, "get": 1, "need": 1, "count": 1, "sum": 1, "each": 2}


class Fault(Exception):
    """A fault of a text, with its line of the output."""


def tokens_of(text):
    """The tokens, each with its kind, its spelling and its place."""
    tokens, at = [], 0
    while at < len(text):
        found = TOKEN.match(text, at)
        if not found:
            raise Fault(f"fault {'P1' if text[at] >= 128 else 'P2'} at {at}")
        space, name, number, sign = found.groups()
        far = next((k for k in range(at, found.end()) if text[k] >= 128), None)
        if far is not None:
            raise Fault(f"fault P1 at {far}")
        word = found.group().decode()
        if number and int(word) > GREATEST:
            raise Fault(f"fault P5 at {at}")
        if name and len(word) > 32:
            raise Fault(f"fault P6 at {at}")
        if not space:
            kind = "number" if number else word if sign or word in RESERVED else "name"
            tokens.append((kind, word, at))
        at = found.end()
    return tokens


def look_for_depth(tokens):
    """Raises the fault of too many open signs or operators."""
    opened = operators = 0
    for kind, _, at in tokens:
        if kind in ("(", "[", "{"):
            opened += 1
        elif kind in (")", "]", "}"):
            opened = max(opened - 1, 0)
        if kind in (";", "{", "}"):
            operators = 0
        elif kind in ("+", "-", "*"):
            operators += 1
        if opened > 16 or operators == 33:
            raise Fault(f"fault P7 at {at}")


class Parser:
    """Reads the grammar from the left: each word is taken only where it can stand."""

    def __init__(self, tokens, length):
        self.tokens, self.length, self.at = tokens, length, 0

    def next(self):
        return self.tokens[self.at][0] if self.at < len(self.tokens) else "end"

    def stop(self):
        if self.at == len(self.tokens):
            raise Fault(f"fault P4 at {self.length}")
        raise Fault(f"fault P3 at {self.tokens[self.at][2]}")

    def take(self, *kinds):
        if self.next() not in kinds:
            self.stop()
        self.at += 1
        return self.tokens[self.at - 1][1]

    def may_take(self, kind):
        return self.next() == kind and self.take(kind) == kind

    def whole_set(self):
        tables, programs = [], []
        while self.may_take("table"):
            tables.append(self.table())
        while self.may_take("program"):
            programs.append(self.program())
        if self.next() != "end":
            self.stop()
        return tables, programs

    def table(self):
        name = self.take("name")
        if self.next() == "number" and int(self.tokens[self.at][1]) not in (1, 2):
            self.stop()
        columns = int(self.take("number"))
        grows = self.may_take("grow")
        self.take(";")
        return name, columns, grows

    def program(self):
        name = self.take("name")
        self.take("(")
        parameters = []
        if self.next() == "name":
            parameters.append(self.take("name"))
            while self.may_take(","):
                parameters.append(self.take("name"))
        self.take(")")
        return name, parameters, self.block()

    def block(self):
        self.take("{")
        statements = []
        while not self.may_take("}"):
            statements.append(self.statement())
        return statements

    def statement(self):
        kind = self.take("let", "lacks", "put", "insert", "delete", "keep", "if", "each", "reply", "abort")
        if kind == "if":
            test, then = self.test(), self.block()
            return "if", test, then, self.block() if self.may_take("else") else []
        if kind == "each":
            key = self.take("name")
            self.take(",")
            value = self.take("name")
            self.take("in")
            return "each", key, value, self.range(), self.block()
        it = (kind,)
        if kind == "let":
            name = self.take("name")
            self.take("=")
            it = self.binding(name)
        elif kind != "abort":
            it = (kind, self.expression() if kind == "reply" else self.key())
        if kind in ("put", "insert"):
            self.take("=")
            it += (self.expression(),)
        self.take(";")
        return it

    def binding(self, name):
        if self.may_take("get"):
            key = self.key()
            self.take("else")
            return "get", name, key, self.expression()
        if self.may_take("need"):
            return "need", name, self.key()
        if self.next() in ("count", "sum"):
            return self.take("count", "sum"), name, self.range()
        return "let", name, self.expression()

    def key(self):
        table = self.take("name")
        self.take("[")
        columns = [self.expression()]
        if self.may_take(","):
            columns.append(self.expression())
        self.take("]")
        return table, columns

    def range(self):
        table = self.take("name")
        self.take("[")
        columns = [self.expression()]
        if self.may_take(","):
            columns.append(self.expression())
        self.take("..")
        columns.append(self.expression())
        self.take("]")
        return table, columns

    def test(self):
        conjunctions = [self.conjunction()]
        while self.may_take("or"):
            conjunctions.append(self.conjunction())
        return conjunctions

    def conjunction(self):
        comparisons = [self.comparison()]
        while self.may_take("and"):
            comparisons.append(self.comparison())
        return comparisons

    def comparison(self):
        turned = self.may_take("not")
        left = self.expression()
        relation = self.take(*RELATIONS)
        return turned, left, relation, self.expression()

    def expression(self):
        left = self.product()
        while self.next() in ("+", "-"):
            left = self.take("+", "-"), left, self.product()
        return left

    def product(self):
        left = self.factor()
        while self.may_take("*"):
            left = "*", left, self.factor()
        return left

    def factor(self):
        kind = self.next()
        word = self.take("number", "-", "least", "greatest", "name", "(")
        if kind == "(":
            inner = self.expression()
            self.take(")")
            return inner
        if kind == "name":
            return "name", word
        if kind == "-":
            return "number", -int(self.take("number"))
        return "number", {"least": LEAST, "greatest": GREATEST}[word] if kind != "number" else int(word)


def names_in(expression):
    """The names of an expression, from the left."""
    if expression[0] in ("name", "number"):
        return [expression[1]] if expression[0] == "name" else []
    return names_in(expression[1]) + names_in(expression[2])


class Checker:
    """Looks for the faults of a set, in their order."""

    def __init__(self, tables, programs):
        self.tables, self.programs = tables, programs
        self.columns = {}

    def check(self):
        for number, (name, columns, grows) in enumerate(self.tables):
            self.refuse("C10", number == 64, f"table {number}")
            self.refuse("C1", name in self.columns, f"table {number}")
            self.columns[name] = columns, grows
        for number, (name, parameters, block) in enumerate(self.programs):
            where = f"program {number}"
            self.refuse("C10", number == 16, where)
            self.refuse("C2", name in [it[0] for it in self.programs[:number]], where)
            self.refuse("C10", len(parameters) > 8, where)
            self.refuse("C3", len(set(parameters)) < len(parameters), where)
            self.where, self.count = where, 0
            self.block(block, set(parameters))
            paths = routes_of(block)
            self.refuse("C11", len(paths) > 32, where)
            self.refuse("C10", any(sum(self.accesses(it) for it, _ in path) > 24 for path in paths), where)

    def refuse(self, fault, is_so, where):
        if is_so:
            raise Fault(f"fault {fault} {where}")

    def block(self, statements, visible):
        visible = set(visible)
        has_ended = False
        for statement in statements:
            where = f"{self.where} statement {self.count}"
            self.refuse("C9", has_ended, where)
            self.refuse("C10", self.count == 256, where)
            self.count += 1
            new = self.statement(statement, visible, where)
            has_ended = statement[0] == "abort"
            if statement[0] == "if":
                self.block(statement[2], visible)
                self.block(statement[3], visible)
            if statement[0] == "each":
                self.block(statement[4], visible | new)
            else:
                visible |= new

    def statement(self, statement, visible, where):
        """Looks for the faults of one statement, and answers the names that it binds, an `each` in its block alone."""
        kind = statement[0]
        expressions = []
        if kind in PLACES:
            table, columns = statement[PLACES[kind]]
            self.refuse("C4", table not in self.columns, where)
            wanted, grows = self.columns[table]
            self.refuse("C7", len(columns) != wanted + (kind in OVER_RANGES), where)
            self.refuse("C8", grows and kind in ("put", "delete"), where)
            expressions += columns
        if kind in ("get", "let", "put", "insert", "reply"):
            expressions.append(statement[-1])
        if kind == "if":
            expressions += [side for part in statement[1] for it in part for side in (it[1], it[3])]
        used = [name for it in expressions for name in names_in(it)]
        self.refuse("C5", any(name not in visible for name in used), where)
        bound = statement[1:BINDS.get(kind, 0) + 1]
        self.refuse("C6", bool(set(bound) & visible) or len(set(bound)) < len(bound), where)
        return set(bound)

    def accesses(self, statement):
        """How many accesses a statement has."""
        if statement[0] == "insert":
            return 1 if self.columns[statement[1][0]][1] else 2
        return 1 if statement[0] in PLACES else 0


def routes_of(statements):
    """The lists of statements that reach a block's end, the then-branch before the else-branch.

    With each statement stands whether it is done once: those in the block of an `each` are not.
    """
    routes = [[]]
    for statement in statements:
        if statement[0] == "abort":
            return []
        if statement[0] == "if":
            ways = routes_of(statement[2]) + routes_of(statement[3])
            routes = [front + way for front in routes for way in ways]
        else:
            inside = all_in(statement[4]) if statement[0] == "each" else []
            routes = [[*route, (statement, True), *((it, False) for it in inside)] for route in routes]
    return routes


def all_in(statements):
    """All statements of a block in the order of the text, those of both blocks of a branch too."""
    found = []
    for statement in statements:
        if statement[0] == "if":
            found += all_in(statement[2]) + all_in(statement[3])
        else:
            found += [statement, *(all_in(statement[4]) if statement[0] == "each" else [])]
    return found


def read_set(text):
    """The tables and programs of a text, or its first fault."""
    if len(text) > LONGEST:
        raise Fault(f"fault P8 at {LONGEST}")
    tokens = tokens_of(text)
    look_for_depth(tokens)
    tables, programs = Parser(tokens, len(text)).whole_set()
    Checker(tables, programs).check()
    return tables, programs


def printed_expression(expression, above="", is_right=False):
    if expression[0] == "name":
        return expression[1]
    if expression[0] == "number":
        return {LEAST: "least", GREATEST: "greatest"}.get(expression[1], str(expression[1]))
    sign, left, right = expression
    text = f"{printed_expression(left, sign)} {sign} {printed_expression(right, sign, True)}"
    is_sum = sign != "*"
    needs = above == "*" and (is_sum or is_right) or above in ("+", "-") and is_right and is_sum
    return f"({text})" if needs else text


def printed_place(place):
    return f"{place[0]}[{', '.join(map(printed_expression, place[1]))}]"


def printed_range(place):
    *front, low, high = map(printed_expression, place[1])
    return f"{place[0]}[{''.join(it + ', ' for it in front)}{low}..{high}]"


def printed_test(test):
    def comparison(it):
        return f"{'not ' if it[0] else ''}{printed_expression(it[1])} {it[2]} {printed_expression(it[3])}"
    return " or ".join(" and ".join(map(comparison, part)) for part in test)


def printed_block(statements, indent):
    lines = []
    for it in statements:
        kind = it[0]
        if kind == "if":
            lines += [f"{indent}if {printed_test(it[1])} {{", *printed_block(it[2], indent + "  ")]
            lines += [f"{indent}}} else {{", *printed_block(it[3], indent + "  ")] if it[3] else []
            lines.append(f"{indent}}}")
            continue
        if kind == "each":
            lines.append(f"{indent}each {it[1]}, {it[2]} in {printed_range(it[3])} {{")
            lines += [*printed_block(it[4], indent + "  "), f"{indent}}}"]
            continue
        says = {
            "let": lambda: f"let {it[1]} = {printed_expression(it[2])}",
            "get": lambda: f"let {it[1]} = get {printed_place(it[2])} else {printed_expression(it[3])}",
            "need": lambda: f"let {it[1]} = need {printed_place(it[2])}",
            "reply": lambda: f"reply {printed_expression(it[1])}",
            "abort": lambda: "abort",
        }
        if kind in ("count", "sum"):
            line = f"let {it[1]} = {kind} {printed_range(it[2])}"
        elif kind in ("put", "insert"):
            line = f"{kind} {printed_place(it[1])} = {printed_expression(it[2])}"
        else:
            line = says[kind]() if kind in says else f"{kind} {printed_place(it[1])}"
        lines.append(f"{indent}{line};")
    return lines


def printed(tables, programs):
    """The canonical text of a set."""
    lines = [f"table {name} {columns}{' grow' if grows else ''};" for name, columns, grows in tables]
    for name, parameters, block in programs:
        lines += [f"program {name}({', '.join(parameters)}) {{", *printed_block(block, "  "), "}"]
    return "".join(f"{line}\n" for line in lines)
