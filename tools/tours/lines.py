"""The lines of `replay --states`, as docs/FORMATS.md has them: read as JSON, and held to their order. Other text is refused with its line."""
import json
from typing import Any, Dict, List, NamedTuple

Line = Dict[str, Any]
FORM = "safetynet states 1"


class BadStates(Exception):
    """A line that is none of a replay's states, or one that stands in another place."""


class States(NamedTuple):
    """The first line, with the state before the first event that is shown; a line an event; and the summary."""

    first: Line
    events: List[Line]
    summary: Line


def parsed(number: int, text: str) -> Line:
    """The object of a line, whose number is counted from 1. Raises BadStates where it is none."""
    try:
        value = json.loads(text)
    except ValueError:
        value = None
    if not isinstance(value, dict):
        raise BadStates(f"line {number} of the states is no JSON object: {text[:80]}")
    return value


def read(text: str) -> States:
    """The states of this text. Lines that begin with # are the command's own and are passed over.

    Raises BadStates where the first line, the summary or an event's line isn't there or has another place."""
    lines = [parsed(number, line) for number, line in enumerate(text.splitlines(), 1) if not line.startswith("#")]
    if not lines or lines[0].get("form") != FORM:
        raise BadStates(f'the states don\'t begin with a line of the form "{FORM}"')
    if len(lines) < 2 or "summary" not in lines[-1]:
        raise BadStates("the states have no summary")
    begins = int(lines[0]["events"])
    for place, line in enumerate(lines[1:-1], begins + 1):
        if line.get("place") != place:
            raise BadStates(f"the states have no line for event {place}")
    return States(lines[0], lines[1:-1], lines[-1]["summary"])
