"""Writes a definition, read into nested tuples, as a Python function that evaluates it.

A definition's clauses are tried in their order, as they stand in its file. A list is a tuple, but a text (a list of numbers below 256 that begins
with `codes` or `decimal`) may be bytes; a record is a dict by its fields, a variant a tuple with its name in front. Functions of several
arguments that are passed on as values take them one by one, as the definitions do.
"""
import re
from functools import partial
from itertools import chain
from typing import Any, Callable, Dict, List, NamedTuple, Tuple

Tree = Tuple[Any, ...]


class Con(tuple[Any, ...]):
    """A variant: its name with its type's, and what it carries."""


class Rec(dict[str, Any]):
    """A record, by its fields."""


class Meaning(NamedTuple):
    """What a name stands for: the name of a Python function of so many arguments, or with `arity` below 0 the text of a value."""

    code: str
    arity: int


def curried(function: Callable[..., Any], arity: int) -> Any:
    """The function that takes its arguments one by one."""

    def collect(done: Tuple[Any, ...]) -> Any:
        return function(*done) if len(done) == arity else lambda x: collect((*done, x))

    return collect(())


def joined(parts: Tuple[Any, ...]) -> Any:
    """Lists one behind the other."""
    some = [part for part in parts if part]
    if len(some) < 2:
        return some[0] if some else ()
    if any(type(part) is bytes for part in some):
        return b"".join([part if type(part) is bytes else bytes(part) for part in some])
    return tuple(chain.from_iterable(some))


def prefixed(head: Any, tail: Any) -> Any:
    return bytes((head,)) + tail if type(tail) is bytes else (head, *tail)


def same(a: Any, b: Any) -> bool:
    """Whether two values are equal; a text may be a tuple or bytes."""
    return bool(a == b) if type(a) is type(b) or bytes not in (type(a), type(b)) else tuple(a) == tuple(b)


def key_of(value: Any, depth: int) -> Any:
    """What tells a value from others while it is kept: so deep its parts, and below them which objects they are."""
    kind = type(value)
    if kind in (int, bool, bytes, str):
        return value
    if depth == 0 or kind not in (tuple, Con, Rec):
        return id(value)
    if kind is Rec:
        return (tuple(value), tuple([key_of(part, depth - 1) for part in value.values()]))
    return tuple([key_of(part, depth - 1) for part in value])


def remembering(function: Callable[..., Any], depth: int, known: Dict[Any, Any]) -> Callable[..., Any]:
    """The function, evaluated once for each argument. What it was asked is kept with its answer, so that no other object takes its place."""

    def remembered(*values: Any) -> Any:
        key = tuple([key_of(value, depth) for value in values])
        found = known.get(key)
        if found is None:
            known[key] = found = (function(*values), values)
        return found[0]

    return remembered


RUNTIME: Dict[str, Any] = {
    "Con": Con, "Rec": Rec, "partial": partial, "curried": curried, "joined": joined, "prefixed": prefixed, "same": same,
    "minus": lambda a, b: a - b if a > b else 0, "quotient": lambda a, b: a // b if b else 0, "rest": lambda a, b: a % b if b else a,
}
SIGNS = {"+": "({} + {})", "*": "({} * {})", "^": "({} ** {})", "-": "minus({}, {})", "/": "quotient({}, {})", "%": "rest({}, {})", "==": "same({}, {})", "&&": "({} and {})", "||": "({} or {})"}

# Functions that Python has a sign for.
WRITTEN = {"b_nat_eq": "({} == {})", "b_nat_lt": "({} < {})", "b_nat_le": "({} <= {})", "b_not": "(not {})", "b_suc": "({} + 1)", "b_length": "len({})"}


def chain_of(tree: Tree, sign: str) -> List[Tree]:
    """What stands between the signs of `a ++ b ++ c`."""
    found = []
    while tree[0] == "op" and tree[1] == sign:
        found.append(tree[2])
        tree = tree[3]
    return [*found, tree]


class Writer:
    """Writes the Python text of one definition."""

    def __init__(self, meaning_of: Callable[[str], Meaning]) -> None:
        self.meaning_of, self.lines, self.count = meaning_of, [], 0  # type: Callable[[str], Meaning], List[str], int

    def fresh(self, name: str) -> str:
        self.count += 1
        return f"{re.sub('[^a-z]', '', name)}_{self.count}"

    # a definition and its clauses

    def definition(self, name: str, clauses: List[Tuple[List[Tree], Tree]]) -> str:
        arguments = [f"a{place}" for place in range(len(clauses[0][0]))]
        self.lines = [f"def {name}({', '.join(arguments)}):"]
        if not any(self.clause(arguments, *clause) for clause in clauses):
            self.lines.append(f"    raise ValueError('{name}: no clause')")
        return "\n".join(self.lines) + "\n"

    def clause(self, arguments: List[str], patterns: List[Tree], body: Tree) -> bool:
        """Writes a clause; whether it is for all values."""
        tests: List[str] = []
        places: Dict[str, str] = {}
        for argument, pattern in zip(arguments, patterns):
            self.match(pattern, argument, tests, places)
        indent = "    "
        if tests:
            self.lines.append(f"{indent}if {' and '.join(tests)}:")
            indent += "    "
        scope = {}
        for local, place in places.items():
            scope[local] = self.fresh(local)
            self.lines.append(f"{indent}{scope[local]} = {place}")
        self.body(body, scope, indent)
        return not tests

    def match(self, pattern: Tree, place: str, tests: List[str], places: Dict[str, str]) -> None:
        """Adds the tests by which the value that stands there fits the pattern, and where each of its names stands."""
        kind = pattern[0]
        if kind == "bind":
            places[pattern[1]] = place
        elif kind == "value":
            tests.append(f"{place} == {pattern[1]!r}")
        elif kind == "nil":
            tests.append(f"not {place}")
        elif kind == "cons":
            tests.append(place)
            self.match(pattern[1], f"{place}[0]", tests, places)
            self.match(pattern[2], f"{place}[1:]", tests, places)
        elif kind == "suc":
            tests.append(f"{place} > 0")
            self.match(pattern[1], f"({place} - 1)", tests, places)
        elif kind == "con":
            tests.append(f"{place}[0] == {pattern[1]!r}")
            for number, part in enumerate(pattern[2], 1):
                self.match(part, f"{place}[{number}]", tests, places)

    def body(self, tree: Tree, scope: Dict[str, str], indent: str) -> None:
        while tree[0] in ("let", "if"):
            if tree[0] == "let":
                value = self.value(tree[2], scope)
                scope = {**scope, tree[1]: self.fresh(tree[1])}
                self.lines.append(f"{indent}{scope[tree[1]]} = {value}")
                tree = tree[3]
            else:
                self.lines.append(f"{indent}if {self.value(tree[1], scope)}:")
                self.body(tree[2], scope, indent + "    ")
                tree = tree[3]
        self.lines.append(f"{indent}return {self.value(tree, scope)}")

    # expressions

    def value(self, tree: Tree, scope: Dict[str, str]) -> str:
        return str(getattr(self, f"{tree[0]}_value")(tree, scope))

    def number_value(self, tree: Tree, scope: Dict[str, str]) -> str:
        return str(tree[1])

    def text_value(self, tree: Tree, scope: Dict[str, str]) -> str:
        return repr(tree[1])

    def list_value(self, tree: Tree, scope: Dict[str, str]) -> str:
        return "()"

    def pair_value(self, tree: Tree, scope: Dict[str, str]) -> str:
        return "Rec({" + ", ".join(f"'{place}': {self.value(part, scope)}" for place, part in enumerate(tree[1])) + "})"

    def if_value(self, tree: Tree, scope: Dict[str, str]) -> str:
        test, yes, no = (self.value(part, scope) for part in tree[1:])
        return f"({yes} if {test} else {no})"

    def let_value(self, tree: Tree, scope: Dict[str, str]) -> str:
        name = self.fresh(tree[1])
        return f"({name} := {self.value(tree[2], scope)}, {self.value(tree[3], {**scope, tree[1]: name})})[1]"

    def fun_value(self, tree: Tree, scope: Dict[str, str]) -> str:
        name = self.fresh(tree[1])
        return f"(lambda {name}: {self.value(tree[2], {**scope, tree[1]: name})})"

    def field_value(self, tree: Tree, scope: Dict[str, str]) -> str:
        return f"{self.value(tree[1], scope)}[{tree[2]!r}]"

    def record_value(self, tree: Tree, scope: Dict[str, str]) -> str:
        base = [f"**{self.value(tree[1], scope)}"] if tree[1] else []
        return "Rec({" + ", ".join(base + [f"{name!r}: {self.value(part, scope)}" for name, part in tree[2]]) + "})"

    def op_value(self, tree: Tree, scope: Dict[str, str]) -> str:
        sign = tree[1]
        if sign in ("++", "∷"):
            parts = [self.value(part, scope) for part in chain_of(tree, sign)]
            if sign == "++":
                return f"joined(({', '.join(parts)}))"
            found = parts.pop()
            if found == "()":
                return f"({', '.join(parts)},)"
            for part in reversed(parts):
                found = f"prefixed({part}, {found})"
            return found
        return SIGNS[sign].format(self.value(tree[2], scope), self.value(tree[3], scope))

    def name_value(self, tree: Tree, scope: Dict[str, str]) -> str:
        return self.called(tree, [], scope)

    def app_value(self, tree: Tree, scope: Dict[str, str]) -> str:
        parts: List[Tree] = []
        while tree[0] == "app":
            parts.insert(0, tree[2])
            tree = tree[1]
        return self.called(tree, parts, scope)

    def called(self, head: Tree, parts: List[Tree], scope: Dict[str, str]) -> str:
        """A function with what it is applied to; it may be too little, or the function may answer one that takes the rest."""
        if head[0] != "name" or head[1] in scope:
            return (scope[head[1]] if head[0] == "name" else self.value(head, scope)) + "".join(f"({self.value(part, scope)})" for part in parts)
        meaning = self.meaning_of(head[1])
        if meaning.code == "b_codes" and parts and parts[0][0] == "text":
            return repr(parts[0][1].encode())
        values = [self.value(part, scope) for part in parts]
        arity = meaning.arity
        if arity < 0:
            return meaning.code + "".join(f"({value})" for value in values)
        if len(values) == arity and meaning.code in WRITTEN:
            return WRITTEN[meaning.code].format(*values)
        if len(values) >= arity:
            return f"{meaning.code}({', '.join(values[:arity])})" + "".join(f"({value})" for value in values[arity:])
        bound = f"partial({', '.join([meaning.code, *values])})" if values else meaning.code
        return bound if arity - len(values) == 1 else f"curried({bound}, {arity - len(values)})"
