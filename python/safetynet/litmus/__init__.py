"""Litmus tests in herd's form, run on the machine under many schedules.

`read_litmus` reads a test, `Runner` runs it, `log_text` writes litmus7's log; `python -m safetynet litmus` does all three. Modules: `model`, `reading`,
`instructions`, `conditions`, `translation`, `schedules`, `log`, `command`.
"""
from .log import Tally, log_text
from .model import Condition, Instruction, LitmusError, Register, State, Test, Thread, Variable
from .reading import parse_litmus, read_litmus
from .schedules import Runner, TrapError
from .translation import Translation, translate

__all__ = [
    "Condition",
    "Instruction",
    "LitmusError",
    "Register",
    "Runner",
    "State",
    "Tally",
    "Test",
    "Thread",
    "Translation",
    "TrapError",
    "Variable",
    "log_text",
    "parse_litmus",
    "read_litmus",
    "translate",
]
