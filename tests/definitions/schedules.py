"""Schedules that are worth a look, each with its program and shape (nodes, sets, ways, log entries)."""
from typing import List


def steps(node: int, count: int) -> List[str]:
    return [f"step {node}"] * count


def delivered(*numbers: int) -> List[str]:
    return [f"deliver {number}" for number in numbers]


TAKES_FROM_HOME = ["step 1"] * 3 + ["hop 1", "deliver 1"]
MOVES = steps(0, 3) + delivered(1, 2, 3) + steps(0, 1) + steps(1, 3) + ["hop 4"] + delivered(4, 5) + ["hop 6", "deliver 6", "hop 7", "deliver 7"]
LATE_EDGE = TAKES_FROM_HOME + ["edge 1", "hop 2"]
REPORTS = ["edge 0", "report 0"]

SCHEDULES = {
    "a block moves from one writer to the other, and both are validated": ("adds", (2, 16, 4, 256), MOVES + ["step 1", "edge 0", "edge 1", "report 0", "report 1", "deliver 8", "hop 9", "deliver 9", "validate", "recover"]),
    "the same with the second write after its node's edge": ("adds", (2, 16, 4, 256), MOVES + ["edge 1", "step 1", "edge 0", "report 0", "report 1", "deliver 8", "hop 9", "deliver 9", "validate", "recover"]),
    "a message waits for the interval that it comes from": ("adds", (2, 16, 4, 256), steps(1, 3) + ["hop 1", "edge 0", "edge 0", "deliver 1", "hop 2", "deliver 2", "edge 1", "deliver 2", "edge 1", "deliver 2"]),
    "ownership belongs to the interval of the answer": ("adds", (2, 16, 4, 256), LATE_EDGE + ["deliver 2", "hop 3", "deliver 3", "edge 0", "deliver 3", "report 0", "deliver 4", "report 1", "hop 5", "deliver 5", "validate", "recover", "step 1"]),
    "a lost answer keeps its checkpoint from being validated": ("adds", (2, 16, 4, 256), TAKES_FROM_HOME + ["edge 1", "lose 2", "edge 0", "report 0", "deliver 3", "report 1", "hop 4", "deliver 4", "validate", "recover"]),
    "a lost last message keeps its checkpoint from being validated": ("adds", (2, 16, 4, 256), LATE_EDGE + ["deliver 2", "lose 3", "edge 0", "report 0", "deliver 4", "report 1", "hop 5", "deliver 5", "validate", "recover"]),
    "a store-conditional fails after its copy is lost": ("reserves", (2, 16, 4, 256), steps(0, 3) + delivered(1, 2, 3) + steps(0, 1) + steps(1, 3) + ["hop 4"] + delivered(4, 5) + ["hop 6", "deliver 6", "hop 7", "deliver 7", "step 0"]),
    "an exclusive grant is restored though nobody stored": ("reserves", (1, 16, 4, 256), steps(0, 3) + delivered(1, 2, 3) + ["step 0", "edge 0", "step 0", "edge 0", "report 0", "deliver 4", "validate", "validate", "recover"]),
    "a put waits while its block moves": ("adds", (2, 16, 4, 256), steps(0, 3) + delivered(1, 2, 3) + ["step 0", "evict 0 64"] + steps(1, 3) + ["hop 5"] + delivered(5, 4, 6) + ["hop 7", "deliver 7", "hop 8", "deliver 8", "deliver 4", "deliver 9", "evict 0 64"]),
    "a full log holds a transaction back": ("stores", (1, 16, 4, 4), ["step 0", "step 0"] + delivered(1, 2, 3) + ["step 0", "step 0"] + delivered(4, 5, 6) + ["step 0", "edge 0", "step 0", "deliver 7", "report 0", "deliver 8", "validate", "deliver 9", "deliver 7", "deliver 10", "deliver 11", "step 0"]),
    "messages go round a dead switch": ("puts", (4, 16, 4, 256), ["report 1", "kill a0", "hop 1", "report 0", "recover", "report 1"] + ["hop 3"] * 6 + ["deliver 3", "kill b0", "recover", "kill b0"]),
    "a store-conditional is done": ("reserves", (2, 16, 4, 256), steps(1, 3) + ["hop 1", "deliver 1", "hop 2", "deliver 2", "hop 3", "deliver 3", "step 1"] + steps(0, 3) + ["deliver 4", "hop 5", "deliver 5", "hop 6", "deliver 6", "deliver 7", "step 0", "step 0", "deliver 8", "hop 9", "deliver 9", "hop 10", "deliver 10", "deliver 11", "step 0"]),
    "an exclusive line is written without a message": ("loads", (2, 16, 4, 256), steps(0, 2) + delivered(1, 2, 3) + steps(0, 2) + steps(1, 2) + ["hop 4", "deliver 4", "deliver 5"]),
    "a byte of input is read again after a recovery": ("echoes", (1, 16, 4, 256), ["step 0", "step 0", "input 0 41"] + steps(0, 3) + ["recover"] + steps(0, 4) + REPORTS + ["deliver 1", "validate"]),
    "two bytes are read in one interval": ("pairs", (1, 16, 4, 256), ["input 0 41", "input 0 42"] + steps(0, 8) + REPORTS + ["deliver 1", "validate"]),
    "a recovery comes while the home has forwarded a write": ("adds", (2, 16, 4, 256), steps(0, 3) + delivered(1, 2, 3) + ["step 0", "edge 0", "edge 1", "report 0", "report 1", "deliver 4", "hop 5", "deliver 5", "validate"] + steps(1, 3) + ["hop 8", "deliver 8", "recover"]),
    "a full network refuses": ("puts", (1, 16, 4, 256), ["edge 0"] + ["report 0"] * 1025 + ["deliver 1", "report 0", "validate", "lose 2", "validate"]),
}
