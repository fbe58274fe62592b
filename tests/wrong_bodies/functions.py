"""Functions of a crate's sources: where each stands, and the name that a check gives it."""
import functools
import re
from dataclasses import dataclass

# what has no structure of its own: comments, texts and characters
BLANK = re.compile(r"//[^\n]*|/\*.*?\*/|b?\"(?:\\.|[^\"\\])*\"|b?'(?:\\[^\n]{1,8}?|[^'\\\n])'", re.S)
CLAUSE = re.compile(r"\b(requires|ensures|ghost)\*?(\s+[\w-]+)?\s*:?\s*\Z")
ITEM = re.compile(
    r"(?P<attributes>(?:#\[[^\]]*\]\s*)*)(?P<pub>pub(?:\([^)]*\))?\s+)?(?:const\s+|unsafe\s+)*"
    r"(?:(?P<kind>fn|mod|trait)\s+(?P<name>\w+)|(?P<impl>impl)\b(?P<head>[^{;]*))"
)


@dataclass(frozen=True)
class Function:
    file: str
    first: int  # its lines in the file, from 1
    last: int
    path: tuple  # of names: modules, type, function
    is_plain: bool  # a free function or a method of a type, in no cycle of calls
    is_public: bool  # declared `pub`, or of a trait
    text: str
    span: tuple  # where it begins and ends in the file's text
    body: int  # where its body's brace stands there, or its end where it has none

    @property
    def name(self):
        return "::".join(self.path)


def blanked(text):
    return BLANK.sub(lambda it: re.sub(r"[^\n]", " ", it[0]), text)


def module_of(file):
    """Returns the names of the module that a file of src/ is."""
    names = file.removeprefix("src/").removesuffix(".rt").removesuffix("/mod").split("/")
    return () if names in (["lib"], ["main"]) else tuple(names)


def group_end(text, at):
    """Returns the place behind the brace that closes the one at this place."""
    depth = 0
    for it in re.finditer(r"[{}]", text[at:]):
        depth += 1 if it[0] == "{" else -1
        if depth == 0:
            return at + it.end()
    return len(text)


def type_of_impl(head):
    """Returns what stands for an impl in the names of its functions, and whether it is of a trait: `Port` and
    `PortSource`."""
    head = re.sub(r"\s+", " ", head).strip()
    params = set()
    if head.startswith("<"):
        depth, at = 0, 0
        for at, sign in enumerate(head):
            depth += (sign == "<") - (sign == ">")
            if depth == 0:
                break
        params = {it.split(":")[0].strip() for it in re.split(r",(?![^<]*>)", head[1:at])}
        head = head[at + 1 :].strip()
    trait, _, target = head.rpartition(" for ")
    owner = re.match(r"[&\w:]+", target)[0].split("::")[-1]
    if not trait:
        return owner, False
    name, _, rest = trait.partition("<")
    # a lifetime is no part of the name
    words = [it for it in re.findall(r"(?<!['\w])\w+", rest) if it not in params]
    return "".join(it[0].upper() + it[1:] for it in [owner, name.split("::")[-1], *words]), True


def home_of(plain, owner, module):
    """Returns the module of a type, by which its methods are named: this one, or that from which the file takes it."""
    if re.search(rf"\b(?:struct|enum)\s+{owner}\b", plain):
        return module
    taken = re.search(rf"\buse crate::((?:\w+::)+)(?:{owner}\b|\{{[^}}]*\b{owner}\b[^}}]*\}})", plain)
    return tuple(taken[1].removesuffix("::").split("::")) if taken else module


@functools.lru_cache(maxsize=512)
def functions_of(file, text):
    """Returns the functions of a file, outer ones before those in them; a text is read once."""
    plain, found = blanked(text), []

    def walk(start, end, path, is_trait):
        at = start
        while item := ITEM.search(plain, at, end):
            at = item.end()
            if item["impl"]:
                brace = plain.find("{", item.start("impl"))
                behind = group_end(plain, brace)
                owner, of_trait = type_of_impl(item["head"])
                home = path if of_trait else home_of(plain, owner, path)
                walk(brace + 1, behind - 1, (*home, owner), of_trait)
            elif item["kind"] != "fn":
                brace, semicolon = plain.find("{", at), plain.find(";", at)
                if 0 <= semicolon < brace or brace < 0:
                    continue
                behind = group_end(plain, brace)
                walk(brace + 1, behind - 1, (*path, item["name"]), item["kind"] == "trait")
            else:
                brace, behind = body_of(plain, at)
                first, last = plain.count("\n", 0, item.start()) + 1, plain.count("\n", 0, behind) + 1
                is_plain = not is_trait and "cycle" not in item["attributes"]
                is_public = is_trait or (item["pub"] or "").strip() == "pub"
                span, names = (item.start(), behind), (*path, item["name"])
                kinds, text_of_it = (is_plain, is_public), plain[slice(*span)]
                found.append(Function(file, first, last, names, *kinds, text_of_it, span, brace))
            at = behind

    walk(0, len(plain), module_of(file), False)
    return tuple(found)


def body_of(plain, at):
    """Returns the place of the brace of a function's body, and that behind it; of one that has none, twice that behind
    its semicolon."""
    while sign := re.compile(r"[{;]").search(plain, at):
        if sign[0] == ";":
            return sign.end(), sign.end()
        behind = group_end(plain, sign.start())
        if not CLAUSE.search(plain[at : sign.start()]):
            return sign.start(), behind
        at = behind
    return len(plain), len(plain)


def function_at(functions, line):
    """Returns the innermost function that has this line, if any has it."""
    having = [it for it in functions if it.first <= line <= it.last]
    return min(having, key=lambda it: it.last - it.first, default=None)


def body_text(function):
    """Returns a function's text behind its head and its clauses."""
    return function.text[function.body - function.span[0] :]


def calls(caller, callee):
    """Whether a function's body names another as something that it calls, or hands on: a method behind a value or a
    type, any other by no value."""
    name, owner = re.escape(callee.path[-1]), callee.path[-2:-1]
    of_method, of_other = rf"(?:\.\s*|::){name}\b", rf"(?<![.\w]){name}\b(?!\s*:(?!:))"
    is_method = bool(owner) and owner[0][:1].isupper()
    return re.search(of_method if is_method else of_other, body_text(caller)) is not None


def calls_itself(function):
    """Whether a function's body names the function, by no value or module but its own."""
    name = re.escape(function.path[-1])
    owner = re.escape(function.path[-2]) if len(function.path) > 1 else "Self"
    return bool(re.search(rf"(?<![.:\w]){name}\b(?!\s*:)|\b(?:self\.|Self::|{owner}::){name}\b", body_text(function)))
