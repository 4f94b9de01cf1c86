"""Drives `safetynet`, a proved simulator of a SafetyNet multiprocessor, from Python.

`Machine` is driven event by event; `replay`, `accesses`, `run`, `runs`, `check`, `judge`, `assemble`, `disassemble` and `demo` are the program's commands. Nothing here
computes what a machine answers: the program is asked. Modules: `machine`, `calls`, `results`, `events`, `report`, `states`, `statistics`, `trace`,
`journal`, `access`, `program`, `errors`, `notebook`; `backends` and `drive` are what a machine stands on; `litmus` is a package of its own.
"""
from .access import Access
from .calls import accesses, assemble, check, demo, disassemble, judge, replay, run, runs
from .errors import ProgramKilled, ProgramMissing, ProgramTimeout, ReportError, SafetyNetError
from .events import (
    Deliver,
    Edge,
    Event,
    Evict,
    Hop,
    Input,
    Kill,
    Lose,
    Recover,
    Report,
    Step,
    Validate,
    parse_event,
    parse_script,
    script_text,
)
from .journal import Journal, Turn
from .machine import Machine
from .program import find_program
from .report import Answer, Core, Foreseen, Message, ReplayReport, Summary, Watch, parse_report, parse_summary
from .results import Replay, Run, Verdict
from .states import CoreState, Flight, Home, NodeState, State
from .statistics import Recovery, Spread, Statistics
from .trace import Record, Trace

__all__ = [
    "Access",
    "Answer",
    "Core",
    "CoreState",
    "Deliver",
    "Edge",
    "Event",
    "Evict",
    "Flight",
    "Foreseen",
    "Home",
    "Hop",
    "Input",
    "Journal",
    "Kill",
    "Lose",
    "Machine",
    "Message",
    "NodeState",
    "ProgramKilled",
    "ProgramMissing",
    "ProgramTimeout",
    "Record",
    "Recover",
    "Recovery",
    "Replay",
    "ReplayReport",
    "Report",
    "ReportError",
    "Run",
    "SafetyNetError",
    "Spread",
    "State",
    "Statistics",
    "Step",
    "Summary",
    "Trace",
    "Turn",
    "Validate",
    "Verdict",
    "Watch",
    "accesses",
    "assemble",
    "check",
    "demo",
    "disassemble",
    "find_program",
    "judge",
    "parse_event",
    "parse_report",
    "parse_script",
    "parse_summary",
    "replay",
    "run",
    "runs",
    "script_text",
]
