"""The condition of a test: ``exists``, ``~exists`` or ``forall``, and a formula over final words."""
from __future__ import annotations

import re
from typing import Callable, List, NamedTuple, Tuple

from .instructions import NAME, NUMBER
from .model import All, Condition, Constant, Equal, Formula, Location, Not, Some

LOCATION = rf"(?:[0-9]+\s*:\s*[a-z0-9]+|\[\s*{NAME}\s*\]|{NAME})"
_TOKEN = re.compile(rf"\s*(/\\|\\/|~|\(|\)|=(?!>)|{LOCATION}|{NUMBER})")
_QUANTIFIER = re.compile(r"\s*(exists|~\s*exists|forall)\b")
# Deeper ones would need more of Python's stack than it has.
_DEEPEST = 50
Wrong = Callable[[int, str], Exception]
# Gives the location or the value that a text names, at a place of the file's text, or raises what `Wrong` gives.
Locate = Callable[[int, str], Location]
Value = Callable[[int, str], int]


class _Token(NamedTuple):
    place: int
    text: str


class _Reader:
    """Reads the tokens of a formula. `wrong` makes an error of a place in the text and what is wrong there."""

    def __init__(self, text: str, start: int, locate: Locate, value: Value, wrong: Wrong) -> None:
        self.locate, self.value, self.wrong = locate, value, wrong
        self.tokens = self._tokens(text, start)
        self.next = 0
        self.depth = 0

    def _tokens(self, text: str, place: int) -> List[_Token]:
        tokens: List[_Token] = []
        end = len(text.rstrip())
        while place < end:
            found = _TOKEN.match(text, place)
            if found is None:
                start = end - len(text[place:end].lstrip())
                raise self.wrong(start, f"{text[start:end].split()[0]!r} isn't in the subset of conditions")
            tokens.append(_Token(found.start(1), "".join(found[1].split())))
            place = found.end()
        return [*tokens, _Token(end, "")]

    def passes(self, text: str) -> bool:
        """Whether the next token is this one, which is passed then."""
        is_next = self.tokens[self.next].text == text
        self.next += is_next
        return is_next

    def taken(self) -> _Token:
        token = self.tokens[self.next]
        if not token.text:
            raise self.wrong(token.place, "the condition isn't whole")
        self.next += 1
        return token

    def some(self) -> Formula:
        parts = [self.all()]
        while self.passes("\\/"):
            parts.append(self.all())
        return parts[0] if len(parts) == 1 else Some(tuple(parts))

    def all(self) -> Formula:
        parts = [self.one()]
        while self.passes("/\\"):
            parts.append(self.one())
        return parts[0] if len(parts) == 1 else All(tuple(parts))

    def one(self) -> Formula:
        token = self.taken()
        self.depth += 1
        if self.depth > _DEEPEST:
            raise self.wrong(token.place, f"the condition is nested deeper than {_DEEPEST}")
        found = self._of(token)
        self.depth -= 1
        return found

    def _of(self, token: _Token) -> Formula:
        if token.text == "~":
            return Not(self.one())
        if token.text == "(":
            inner = self.some()
            closing = self.taken()
            if closing.text != ")":
                raise self.wrong(closing.place, f"')' is due, and not {closing.text!r}")
            return inner
        if token.text in ("true", "false"):
            return Constant(token.text == "true")
        return self._equal(token)

    def _equal(self, token: _Token) -> Formula:
        location = self.locate(token.place, token.text)
        sign = self.taken()
        if sign.text != "=":
            raise self.wrong(sign.place, f"'=' is due, and not {sign.text!r}")
        value = self.taken()
        return Equal(location, self.value(value.place, value.text), value.text)


def parse_condition(text: str, start: int, locate: Locate, value: Value, wrong: Wrong) -> Condition:
    """The condition that stands in a text from a place up to its end.

    Raises
    ------
    LitmusError
        What `wrong` makes, where the condition isn't in the subset.
    """
    found = _QUANTIFIER.match(text, start)
    if found is None:
        rest = text[start:].split()
        place = len(text) - len(text[start:].lstrip()) if rest else len(text.rstrip())
        raise wrong(place, f"exists, ~exists or forall is due, and not {rest[0]!r}" if rest else "the condition is lacking")
    reader = _Reader(text, found.end(), locate, value, wrong)
    formula = reader.some()
    left = reader.tokens[reader.next]
    if left.text:
        raise wrong(left.place, f"the condition is over before {left.text!r}")
    return Condition("".join(found[1].split()), formula)


def locations_of(formula: Formula) -> Tuple[Location, ...]:
    """The locations that a formula names."""
    if isinstance(formula, (All, Some)):
        return tuple(location for part in formula.parts for location in locations_of(part))
    if isinstance(formula, Not):
        return locations_of(formula.part)
    return () if isinstance(formula, Constant) else (formula.location,)
