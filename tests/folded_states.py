#!/usr/bin/env python3
"""Folds the lines of `replay --states`: `folded_states.py FILE` prints the whole state after each event, a JSON object a line.

From the first line's state on, the parts of an event's line are put in the place of those that they name; a home that is told by its block alone
is as at the program's start, and goes. A line that begins with # is the command's own and is passed over."""
import json
import sys
from typing import Any, Dict, Iterator, List

State = Dict[str, Any]


def folded(state: State, line: Dict[str, Any]) -> State:
    """The state after an event, from that before it and the event's line."""
    if "state" in line:
        whole: State = line["state"]
        return whole
    if "parts" not in line:
        return state
    parts = line["parts"]
    nodes = {node["node"]: node for node in state["nodes"]}
    nodes.update({node["node"]: node for node in parts["nodes"]})
    homes = {home["block"]: home for home in state["homes"]}
    homes.update({home["block"]: home for home in parts["homes"]})
    return {
        "nodes": [nodes[number] for number in sorted(nodes)],
        "homes": [homes[block] for block in sorted(homes) if len(homes[block]) > 1],
        "net": parts["net"] or state["net"],
        "controller": parts["controller"] or state["controller"],
    }


def states_of(text: str) -> Iterator[State]:
    """The states that these lines tell: before the first event, and after each."""
    lines: List[Dict[str, Any]] = [json.loads(line) for line in text.splitlines() if not line.startswith("#")]
    state: State = lines[0]["state"]
    yield state
    for line in lines[1:]:
        if "summary" not in line:
            state = folded(state, line)
            yield state


if __name__ == "__main__":
    with open(sys.argv[1], encoding="ascii") as file:
        for after in states_of(file.read()):
            print(json.dumps(after, separators=(",", ":")))
