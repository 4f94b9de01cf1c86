"""Evaluates the definitions in crates/*/specs as they stand, for tests that compare them with other programs.

It reads the part of the definitions' language that the machine's definitions use: functions by clauses, records, variants,
lists, `if`, `let` and λ. Each definition is written as a Python function (translation.py) when it is first asked for. Statements (definitions
whose value is a type) are read over: nothing here proves anything.
"""
import json
import re
import sys
import threading
from pathlib import Path
from typing import Any, Callable, Dict, List, Optional, Sequence, Tuple

from translation import RUNTIME, Con, Meaning, Tree, Writer, curried, joined, remembering, same

Key = Tuple[str, str]

sys.setrecursionlimit(100_000)
threading.stack_size(512 * 1024 * 1024)

TOKEN = re.compile(r"\s*(--[^\n]*|\"(?:[^\"\\]|\\.)*\"|[A-Za-z_ℕℤ⊤⊥Σ«»][\w'«»]*|\d+|\+\+|&&|\|\||==|[λ∷≡≢≤<×⊎→¬↔(){}\[\];:,.=+\-*/%^|])")
BINARY = [["||"], ["&&"], ["==", "≡", "≤", "<", "≢"], ["++", "∷"], ["+", "-"], ["*", "/", "%"], ["^"]]
RIGHT = {"++", "∷"}


def tokens_of(text: str) -> List[str]:
    found: List[str] = []
    at = 0
    while at < len(text):
        match = TOKEN.match(text, at)
        if not match:
            if text[at:].strip():
                raise SyntaxError(f"cannot read: {text[at:at + 60]!r}")
            break
        at = match.end()
        if not match.group(1).startswith("--"):
            found.append(match.group(1))
    return found


class Parser:
    """Reads an expression into nested tuples."""

    def __init__(self, tokens: List[str]) -> None:
        self.tokens, self.at = tokens, 0

    def peek(self) -> Optional[str]:
        return self.tokens[self.at] if self.at < len(self.tokens) else None

    def take(self, wanted: Optional[str] = None) -> str:
        token = self.peek() or ""
        if wanted is not None and token != wanted:
            raise SyntaxError(f"expected {wanted}, found {token} in {' '.join(map(str, self.tokens[:40]))}")
        self.at += 1
        return token

    def expression(self) -> Tree:
        """An expression as long as it goes: `if`, `let`, λ, or operators over applications."""
        token = self.peek()
        if token == "if":
            self.take()
            test = self.expression()
            self.take("then")
            yes = self.expression()
            self.take("else")
            return ("if", test, yes, self.expression())
        if token == "let":
            self.take()
            name = self.take()
            if self.peek() == ":":
                while self.peek() != "=":
                    self.take()
            self.take("=")
            value = self.expression()
            self.take("in")
            return ("let", name, value, self.expression())
        if token == "λ":
            self.take()
            names = []
            while self.peek() != ".":
                if self.peek() == "(":
                    self.take()
                    names.append(self.take())
                    while self.peek() != ")":
                        self.take()
                    self.take()
                else:
                    names.append(self.take())
            self.take(".")
            body = self.expression()
            for name in reversed(names):
                body = ("fun", name, body)
            return body
        return self.binary(0)

    def binary(self, level: int) -> Tree:
        if level == len(BINARY):
            return self.application()
        left = self.binary(level + 1)
        while self.peek() in BINARY[level]:
            operator = self.take()
            if operator in RIGHT or self.peek() in ("if", "λ", "let"):
                right = self.expression() if self.peek() in ("if", "λ", "let") else self.binary(level)
                return ("op", operator, left, right)
            left = ("op", operator, left, self.binary(level + 1))
        return left

    def application(self) -> Tree:
        head = self.atom()
        while self.starts_atom():
            head = ("app", head, self.atom())
        return head

    def starts_atom(self) -> bool:
        token = self.peek()
        return token is not None and bool(token in ("(", "[", "record") or re.match(r"[A-Za-z_«\"]|\d", token)) and token not in ("then", "else", "in", "where")

    def atom(self) -> Tree:
        """A name, a number, a text, the empty list, a record, or what stands in brackets; with the fields that are taken of it."""
        token = self.take()
        found: Tree
        if token == "(":
            parts = [self.expression()]
            while self.peek() == ",":
                self.take()
                parts.append(self.expression())
            self.take(")")
            found = parts[0] if len(parts) == 1 else ("pair", parts)
        elif token == "[":
            self.take("]")
            found = ("list",)
        elif token == "record":
            base = None if self.peek() == "{" else self.atom()
            self.take("{")
            fields = []
            while self.peek() != "}":
                name = self.take()
                self.take("=")
                fields.append((name, self.expression()))
                if self.peek() == ";":
                    self.take()
            self.take("}")
            found = ("record", base, fields)
        elif token.isdigit():
            found = ("number", int(token))
        elif token[0] == '"':
            found = ("text", json.loads(token))
        elif re.match(r"[A-Za-z_«]", token):
            found = ("name", token)
        else:
            raise SyntaxError(f"no expression begins with {token} in {' '.join(self.tokens[max(0, self.at - 12):self.at + 8])}")
        while self.peek() == "." and self.at + 1 < len(self.tokens) and re.match(r"[A-Za-z_«]|\d", self.tokens[self.at + 1]):
            self.take()
            found = ("field", found, self.take())
        return found


def option(value: Any) -> Con:
    return Con(("None",)) if value is None else Con(("Some", value))


def find(test: Callable[[Any], bool], values: Sequence[Any]) -> Con:
    return option(next((v for v in values if test(v)), None))


def position(test: Callable[[Any], bool], values: Sequence[Any]) -> Con:
    return option(next((i for i, v in enumerate(values) if test(v)), None))


def filter_map(f: Callable[[Any], Con], values: Sequence[Any]) -> Tuple[Any, ...]:
    return tuple(got[1] for got in map(f, values) if got[0] == "Some")


def little_number(count: int, bytes_: Sequence[int]) -> int:
    return sum((bytes_[k] if k < len(bytes_) else 0) << (8 * k) for k in range(count))


BUILTINS: Dict[str, Tuple[Callable[..., Any], int]] = {
    "nat_eq": (lambda a, b: a == b, 2), "nat_lt": (lambda a, b: a < b, 2), "nat_le": (lambda a, b: a <= b, 2),
    "not": (lambda a: not a, 1), "min": (min, 2), "max": (max, 2), "suc": (lambda a: a + 1, 1),
    "map": (lambda f, xs: tuple(map(f, xs)), 2), "filter": (lambda f, xs: tuple(filter(f, xs)), 2),
    "length": (len, 1), "drop": (lambda n, xs: xs[n:], 2), "take": (lambda n, xs: xs[:n], 2),
    "get_or": (lambda xs, i, d: xs[i] if i < len(xs) else d, 3), "slice_index_or": (lambda xs, i, d: xs[i] if i < len(xs) else d, 3),
    "slice_index": (lambda xs, i: xs[i] if i < len(xs) else 0, 2),
    "slice_set": (lambda xs, i, v: xs[:i] + (v,) + xs[i + 1:] if i < len(xs) else xs, 3),
    "replicate": (lambda n, x: (x,) * n, 2), "find": (find, 2), "position": (position, 2), "filter_map": (filter_map, 2),
    "option_to_list": (lambda o: o[1:], 1), "unwrap_or": (lambda o, d: o[1] if o[0] == "Some" else d, 2),
    "option_map": (lambda f, o: Con(("Some", f(o[1]))) if o[0] == "Some" else o, 2),
    "is_some": (lambda o: o[0] == "Some", 1), "is_none": (lambda o: o[0] == "None", 1),
    "count_by": (lambda f, xs: sum(1 for x in xs if f(x)), 2), "sum_by": (lambda f, xs: sum(map(f, xs)), 2),
    "list_any": (lambda f, xs: any(map(f, xs)), 2), "cond": (lambda t, a, b: a if t else b, 3),
    "codes": (str.encode, 1), "decimal": (lambda n: str(n).encode(), 1), "bytes_eq": (same, 2),
    "flat_map": (lambda f, xs: joined(tuple(map(f, xs))), 2),
    "little_number": (little_number, 2), "little_bytes": (lambda n, x: tuple((x >> (8 * k)) & 255 for k in range(n)), 2),
}
RUNTIME["none"], RUNTIME["some"] = Con(("None",)), lambda x: Con(("Some", x))
CONSTANTS = {"true": Meaning("True", -1), "false": Meaning("False", -1), "zero": Meaning("0", -1), "None": Meaning("none", -1), "Some": Meaning("some", 1)}


class Module:
    """One file of definitions: what it names, and its functions by their clauses."""

    def __init__(self, world: "World", key: Key, text: str) -> None:
        self.world, self.key, self.place = world, key, len(world.modules)
        self.names: Dict[str, Tuple[Any, ...]] = {}
        self.clauses: Dict[str, List[str]] = {}
        self.meanings: Dict[str, Meaning] = {}
        self.overrides: Dict[str, Meaning] = {}
        self.remembered: Dict[str, Tuple[int, bool]] = {}
        self.read(text)

    def read(self, text: str) -> None:
        """Reads a file's entries: each begins in the first column."""
        text = re.sub(r"--[^\n]*", "", text)
        # variants under a name for all of them, as `told.Ready`, get plain names of their own
        for type_name, local in re.findall(r"^use Rattle\.[\w.]+\.(\w+)\.TheVariants as (\w+)$", text, re.M):
            for name in set(re.findall(rf"\b{local}\.(\w+)", text)):
                self.names[f"{local}_{name}"] = ("variant", type_name, name)
            text = re.sub(rf"\b{local}\.(\w+)", rf"{local}_\1", text)
        entries: List[List[str]] = []
        current: List[str] = []
        for line in text.split("\n"):
            if line and not line[0].isspace() and line[0] not in ")}":
                entries.append(current)
                current = []
            current.append(line)
        entries.append(current)
        for entry in entries:
            self.entry("\n".join(entry))

    def entry(self, text: str) -> None:
        if text.startswith(("use ", "pub use ")):
            self.use(re.sub(r"^(pub )?use ", "", text.strip()))
        elif re.match(r"(pub )?data ", text):
            self.data(text)
        elif re.match(r"(abbrev |unfoldable |pub |unfolding )", text) or not text.strip():
            pass
        elif "=" in text:
            name = re.match(r"[\w']+", text)
            if name:
                self.clauses.setdefault(name.group(0), []).append(text)

    def use(self, text: str) -> None:
        """Notes the names that a `use` brings, and where they come from."""
        match = re.match(r"Rattle\.(\w+)\.(?:specs|proofs)\.([\w.]+?)\.\{(.*)\}$", text, re.S)
        if not match:
            return
        crate, path, names = match.groups()
        for name in names.split(","):
            name, _, local = name.strip().partition(" as ")
            local = local or name
            if path.startswith("declared.") and path.endswith(".TheVariants"):
                type_name = path.split(".")[-2]
                if type_name not in ("Option", "Result"):
                    self.names[local] = ("variant", type_name, name)
            elif path.startswith("declared.") and path.endswith(".TheConstants"):
                self.names[local] = ("constant", crate, name)
            elif (crate, path) != self.key:
                self.names[local] = ("import", (crate, path), name)

    def data(self, text: str) -> None:
        found = re.search(r"data (\w+)", text)
        assert found
        type_name = found[1]
        for name, rest in re.findall(r"^\s+(\w+) :(.*)$", text, re.M):
            self.names[name] = ("variant", type_name, name)
            named = sum(len(group.split()) for group in re.findall(r"\(([\w ]+) :", rest))
            self.world.carried[type_name, name] = named or rest.count("→")

    def variant_of(self, name: str) -> Optional[Tuple[Any, ...]]:
        entry = self.names.get(name)
        seen = 0
        module: Optional[Module] = self
        while entry and entry[0] == "import" and seen < 9:
            module = self.world.modules.get(entry[1])
            if not module:
                return None
            entry, seen = module.names.get(entry[2]), seen + 1
        return entry if entry and entry[0] == "variant" else None

    def override(self, name: str, function: Any, arity: int = 0) -> None:
        """Another function (or with no arguments a value) stands for what this file means by a name."""
        self.overrides[name] = meaning = Meaning(f"o_{self.place}_{len(self.overrides)}" if name not in self.overrides else self.overrides[name].code, arity)
        self.world.space[meaning.code] = function if arity else lambda: function

    def remember(self, *names: str, depth: int = 0, for_good: bool = False) -> None:
        """These functions are evaluated once for each argument, until the world forgets, or for good. An argument is told from others by its
        parts as deep as this, and then by which objects they are."""
        self.remembered.update({name: (depth, for_good) for name in names})

    def lookup(self, name: str) -> Any:
        """What a name of this file stands for, as a value."""
        meaning = self.meaning_of(name)
        if meaning.arity < 0:
            return eval(meaning.code, self.world.space)
        function = self.world.space[meaning.code]
        return function() if meaning.arity == 0 else curried(lambda *values: self.world.space[meaning.code](*values), meaning.arity)

    def meaning_of(self, name: str) -> Meaning:
        if name not in self.meanings:
            self.meanings[name] = self.find(name)
        return self.meanings[name]

    def find(self, name: str) -> Meaning:
        """What a name stands for in this file."""
        if name in self.overrides:
            return self.overrides[name]
        variant = self.variant_of(name)
        if variant:
            return self.world.variant(variant[1], variant[2])
        if name in self.clauses:
            return self.function(name)
        entry = self.names.get(name)
        if entry and entry[0] == "constant":
            return Meaning(repr(self.world.constants[entry[1], entry[2]]), -1)
        if entry and entry[0] == "import" and entry[1] in self.world.modules:
            return self.world.modules[entry[1]].meaning_of(entry[2])
        original = entry[2] if entry else name
        if original in CONSTANTS:
            return CONSTANTS[original]
        if original in BUILTINS:
            return Meaning(f"b_{original}", BUILTINS[original][1])
        raise NameError(f"{name} in {self.key}")

    def split(self, text: str) -> Tuple[List[str], List[str]]:
        """A clause's patterns and its body, unread."""
        tokens = tokens_of(text)
        depth = 0
        for place, token in enumerate(tokens):
            depth += (token in ("(", "{", "[")) - (token in (")", "}", "]"))
            if token == "=" and depth == 0:
                return tokens[1:place], tokens[place + 1:]
        raise SyntaxError(f"no clause: {text}")

    def function(self, name: str) -> Meaning:
        """A definition of this file; it is written when it is called first."""
        code = f"d_{self.place}_{len(self.meanings)}"
        arity = len(self.patterns(self.split(self.clauses[name][0])[0]))

        def first_call(*values: Any) -> Any:
            self.write(name, code, arity)
            return self.world.space[code](*values)

        self.world.space[code] = first_call
        return Meaning(code, arity)

    def write(self, name: str, code: str, arity: int) -> None:
        """Puts the function that evaluates a definition into the world's space."""
        clauses = []
        for text in self.clauses[name]:
            left, right = self.split(text)
            parser = Parser(right)
            body = parser.expression()
            if parser.peek() is not None:
                raise SyntaxError(f"{name}: {parser.tokens[parser.at:parser.at + 9]} is left over")
            clauses.append((self.patterns(left), body))
        exec(Writer(self.meaning_of).definition(code, clauses), self.world.space)
        if arity == 0 or name in self.remembered:
            depth, for_good = self.remembered.get(name, (0, True))
            known = {} if for_good else self.world.told_apart.setdefault(code, {})
            self.world.space[code] = remembering(self.world.space[code], depth, known)

    def patterns(self, tokens: List[str]) -> List[Tree]:
        parser = Parser(tokens)
        found: List[Tree] = []
        while parser.peek() is not None:
            if parser.peek() == "{":
                while parser.take() != "}":
                    pass
                continue
            found.append(self.pattern(parser.atom()))
        return found

    def pattern(self, tree: Tree) -> Tree:
        """What was read as an expression, as a pattern of a clause."""
        kind = tree[0]
        if kind == "name":
            name = tree[1]
            variant = self.variant_of(name)
            if variant:
                return ("con", f"{variant[1]}.{variant[2]}", [])
            if name in ("true", "false"):
                return ("value", name == "true")
            if name == "zero":
                return ("value", 0)
            if name == "None":
                return ("con", "None", [])
            return ("any",) if name == "_" else ("bind", name)
        if kind == "number":
            return ("value", tree[1])
        if kind == "list":
            return ("nil",)
        if kind == "op" and tree[1] == "∷":
            return ("cons", self.pattern(tree[2]), self.pattern(tree[3]))
        if kind == "app":
            parts: List[Tree] = []
            while tree[0] == "app":
                parts.insert(0, tree[2])
                tree = tree[1]
            name = tree[1]
            if name == "suc":
                return ("suc", self.pattern(parts[0]))
            variant = self.variant_of(name)
            return ("con", f"{variant[1]}.{variant[2]}" if variant else name, [self.pattern(p) for p in parts])
        raise SyntaxError(f"no pattern: {tree}")


class World:
    """All definitions of the crates."""

    def __init__(self, root: Path, crates: List[str]) -> None:
        self.modules: Dict[Key, Module] = {}
        self.carried: Dict[Tuple[str, str], int] = {}
        self.constants: Dict[Tuple[str, str], int] = {}
        self.space: Dict[str, Any] = {**RUNTIME, **{f"b_{name}": function for name, (function, _) in BUILTINS.items()}}
        self.told_apart: Dict[str, Dict[Any, Any]] = {}
        for crate in crates:
            for source in sorted((root / "crates" / crate / "src").glob("*.rt")):
                self.enums(source.read_text())
                self.numbers(crate, source.read_text())
            for source in sorted((root / "crates" / crate / "specs").glob("*.antt")):
                key = (crate, source.stem)
                self.modules[key] = Module(self, key, source.read_text())

    def enums(self, text: str) -> None:
        text = re.sub(r"//[^\n]*", "", text)
        for name, body in re.findall(r"enum (\w+) \{(.*?)\n\}", text, re.S):
            for variant, parts in re.findall(r"(\w+)(\([^)]*\)|\s*\{[^}]*\})?,", body):
                count = 0 if not parts else parts.count(",") + 1 if parts.startswith("(") else parts.count(":")
                self.carried[name, variant] = count

    def numbers(self, crate: str, text: str) -> None:
        """The constants of a source file: numbers, and sums and products of earlier ones."""
        for name, value in re.findall(r"^pub const (\w+): [iu]\w+ = ([\w +*-]+);", text, re.M):
            parts = [part if part in "+-*" else self.number(crate, part) for part in value.split()]
            if None not in parts:
                self.constants[crate, name] = eval(" ".join(map(str, parts)))

    def number(self, crate: str, word: str) -> Optional[int]:
        """The number that a word of such a constant is, or None."""
        digits = word.replace("_", "")
        return int(digits, 0) if re.fullmatch(r"0x[0-9a-fA-F]+|\d+", digits) else self.constants.get((crate, word))

    def variant(self, type_name: str, name: str) -> Meaning:
        full = f"{type_name}.{name}"
        code = "v_" + re.sub(r"\W", "_", full)
        count = self.carried[type_name, name]
        self.space[code] = Con((full,)) if count == 0 else lambda *values: Con((full, *values))
        return Meaning(code, count or -1)

    def forget(self) -> None:
        """What was remembered of values that may be gone."""
        for known in self.told_apart.values():
            known.clear()

    def get(self, crate: str, file: str, name: str) -> Any:
        return self.modules[crate, file].lookup(name)


def in_deep_stack(function: Callable[[], int]) -> int:
    """Runs a function in a thread whose stack is deep enough for recursions over the definitions' lists."""
    result: List[int] = []
    thread = threading.Thread(target=lambda: result.append(function()))
    thread.start()
    thread.join()
    return result[0] if result else 1


def repository() -> Path:
    return Path(__file__).resolve().parents[2]
