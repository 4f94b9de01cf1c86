"""The words of one run: what a configuration has a value for, and how the command line says it."""
from __future__ import annotations

from dataclasses import dataclass, fields
from typing import Dict, List, Mapping, Tuple, Union

Value = Union[int, str]

# What a replay needs to be the machine that the run had.
SIZES = ("nodes", "sets", "ways", "log")
# A run's other options with a number.
RULES = ("interval", "wait", "budget", "lose_every", "seed")


@dataclass(frozen=True)
class Settings:
    """One configuration of a campaign; the defaults are those of ``safetynet run --help``, but for the order.

    Attributes
    ----------
    program : str
        The program's file, from the top of the checkout, as the campaign's file names it.
    nodes, sets, ways, log : int
        The machine's sizes.
    interval, wait, budget, lose_every, seed : int
        The rules of the run.
    kill : str
        A switch and after how many events it dies, as ``"a1@500"``, or ``"none"``.
    order : str
        Who has the next turn: ``"drawn"``, ``"round"``, or ``"threads"`` where threads are what is studied.
    """

    program: str
    nodes: int = 4
    sets: int = 16
    ways: int = 4
    log: int = 256
    interval: int = 100
    wait: int = 20_000
    budget: int = 1_000_000
    lose_every: int = 0
    kill: str = "none"
    seed: int = 1
    order: str = "drawn"

    def words(self, image: str, *more: str) -> List[str]:
        """The words of the run of an image, each option by its name, with `more` options before the image."""
        words = ["run", "--order", self.order]
        for name in (*SIZES, *RULES):
            words += _option(name, getattr(self, name))
        if self.kill != "none":
            words += ["--kill", self.kill]
        return [*words, *more, image]

    def replay_words(self, image: str, journal: str) -> List[str]:
        """The words by which the journal of the run is replayed."""
        words = ["replay"]
        for name in SIZES:
            words += _option(name, getattr(self, name))
        return [*words, image, journal]

    def values(self) -> Dict[str, Value]:
        """Each value by its name, in the order of the attributes."""
        return {name: getattr(self, name) for name in NAMES}


NAMES: Tuple[str, ...] = tuple(one.name for one in fields(Settings))
NUMBERS = (*SIZES, *RULES)


def _option(name: str, value: int) -> List[str]:
    return [f"--{name.replace('_', '-')}", str(value)]


def settings_of(values: Mapping[str, Value]) -> Settings:
    """The settings of values by their names, where a number may stand as its digits; other names are passed over.

    Raises
    ------
    KeyError
        There is no program.
    ValueError
        A number isn't one.
    """
    numbers = {name: int(values[name]) for name in NUMBERS if name in values}
    texts = {name: str(values[name]) for name in ("kill", "order") if name in values}
    return Settings(str(values["program"]), **numbers, **texts)  # type: ignore[arg-type]
