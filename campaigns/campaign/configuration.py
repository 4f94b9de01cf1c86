"""A campaign's file: which runs there are, as a full product of values or a list of products, and which figures are drawn.

README.md of this folder tells each key. A key or a value of another form is a `CampaignError` that names it. Whether a value is in its range the
program says, before a run is begun (`campaign.front`).
"""
from __future__ import annotations

import re
from dataclasses import dataclass
from pathlib import Path
from typing import Any, Dict, Iterable, Iterator, List, Mapping, Sequence, Tuple

import yaml

from .errors import CampaignError
from .settings import NAMES, NUMBERS, Settings, Value, settings_of

# Of the axes the first changes slowest: with the seeds in front, more seeds make more runs behind those that there are.
AXES: Tuple[str, ...] = ("seed", *(name for name in NAMES if name != "seed"))
RESULTS = ("done", "budget", "cutoff", "trapped")
SCALES = ("even", "linear", "log")
_RANGE = re.compile(r"(0|[1-9][0-9]*)-(0|[1-9][0-9]*)")
_NAME = re.compile(r"[a-z0-9][a-z0-9_-]*")
_KILL = re.compile(r"none|[ab](0|[1-9][0-9]*)@(0|[1-9][0-9]*)")
_JOURNALS = ("none", "all", "unfinished")


@dataclass(frozen=True)
class Product:
    """Every choice of one value from each axis.

    Attributes
    ----------
    axes : tuple
        The name of each axis with its values, in the order of `AXES`; an axis that isn't there has the default.
    """

    axes: Tuple[Tuple[str, Sequence[Value]], ...]

    def __len__(self) -> int:
        length = 1
        for _, values in self.axes:
            length *= len(values)
        return length

    def __getitem__(self, place: int) -> Settings:
        """The settings at a place from 0; the last axis changes first."""
        if not 0 <= place < len(self):
            raise IndexError(place)
        chosen: Dict[str, Value] = {}
        for name, values in reversed(self.axes):
            place, rest = divmod(place, len(values))
            chosen[name] = values[rest]
        return settings_of(chosen)


@dataclass(frozen=True)
class Figure:
    """What a figure shows: a number of each run against a value of its configuration.

    Attributes
    ----------
    name, title : str
        The figure's file, and what stands above it.
    x, y : str
        Columns of the table of runs; `y` is drawn as the median over the runs of a point, in a band from the least to the greatest.
    per : str
        A column that `y` is divided by, or empty. A run where it is 0 isn't drawn.
    series, panel : str
        The columns that part lines and panels, or empty.
    where : mapping
        Of each named column the values whose runs are drawn.
    ends : tuple of str
        The ends whose runs are drawn.
    x_scale, y_scale : str
        ``"even"`` (each value at the same distance; of x alone), ``"linear"`` or ``"log"``.
    x_label, y_label : str
        What stands beside the axes.
    """

    name: str
    title: str
    x: str
    y: str
    per: str = ""
    series: str = ""
    panel: str = ""
    where: Tuple[Tuple[str, Tuple[str, ...]], ...] = ()
    ends: Tuple[str, ...] = RESULTS
    x_scale: str = "even"
    y_scale: str = "linear"
    x_label: str = ""
    y_label: str = ""


@dataclass(frozen=True)
class Campaign:
    """All that a campaign's file says.

    Attributes
    ----------
    name, title, text : str
        Its folder's name, and what its page says of it.
    products : tuple of Product
        Its runs, in order.
    figures : tuple of Figure
        Its figures, in order.
    batch : int
        How many runs one job makes.
    tries : int
        How often a run is tried that dies.
    timeout : int
        Seconds after which a run that hasn't ended counts as one that died.
    journals : str
        ``"none"``, ``"all"``, or ``"unfinished"``: those of runs that ended otherwise than done.
    statistics : bool
        Whether the program's ``--statistics`` is asked for where it has that.
    """

    name: str
    title: str
    text: str
    products: Tuple[Product, ...]
    figures: Tuple[Figure, ...]
    batch: int = 20
    tries: int = 3
    timeout: int = 600
    journals: str = "none"
    statistics: bool = True

    def __len__(self) -> int:
        return sum(map(len, self.products))

    def __getitem__(self, place: int) -> Settings:
        """The settings of a run by its place from 0."""
        for product in self.products:
            if place < len(product):
                return product[place]
            place -= len(product)
        raise IndexError(place)

    def __iter__(self) -> Iterator[Settings]:
        for product in self.products:
            yield from (product[place] for place in range(len(product)))


def _mapping(given: object, what: str, keys: Iterable[str]) -> Dict[str, Any]:
    """What is given as a mapping with these keys alone."""
    if not isinstance(given, dict):
        raise CampaignError(f"{what} has keys with values")
    known = list(keys)
    for key in given:
        if key not in known:
            raise CampaignError(f"{what} has no {key!r}; its keys are {', '.join(known)}")
    return given


def _number(given: object, what: str, least: int = 0) -> int:
    if isinstance(given, bool) or not isinstance(given, int) or given < least:
        raise CampaignError(f"{what} is a number from {least} on, and not {given!r}")
    return given


def _text(given: object, what: str) -> str:
    if not isinstance(given, (str, int)) or isinstance(given, bool):
        raise CampaignError(f"{what} is a text, and not {given!r}")
    return str(given)


def _one_of(given: object, what: str, choices: Tuple[str, ...]) -> str:
    if given not in choices:
        raise CampaignError(f"{what} is one of {', '.join(choices)}, and not {given!r}")
    return str(given)


def _name(given: object, what: str) -> str:
    text = _text(given, what)
    if not _NAME.fullmatch(text):
        raise CampaignError(f"{what} has small letters, digits, - and _ alone, and not {text!r}")
    return text


def _axis_values(name: str, given: object) -> Iterator[Value]:
    """The values of an axis, one by one; a range as ``1-20`` is each number in it."""
    for one in given if isinstance(given, list) else [given]:
        found = _RANGE.fullmatch(one) if isinstance(one, str) else None
        if name in NUMBERS and found:
            yield from range(int(found[1]), int(found[2]) + 1)
        elif name in NUMBERS:
            yield _number(one, name)
        elif name == "kill" and not _KILL.fullmatch(_text(one, name)):
            raise CampaignError(f"kill is none or a switch and a number of events, as a1@500, and not {one!r}")
        else:
            yield _text(one, name)


def _axis(name: str, given: object, what: str) -> Sequence[Value]:
    """The values of an axis; one range alone stays one, however long it is."""
    found = _RANGE.fullmatch(given) if isinstance(given, str) and name in NUMBERS else None
    if found:
        values: Sequence[Value] = range(int(found[1]), int(found[2]) + 1)
    else:
        values = tuple(_axis_values(name, given))
        if len(set(values)) < len(values):
            raise CampaignError(f"{what}: a value of {name} stands twice")
    if not values:
        raise CampaignError(f"{what}: {name} has no value")
    return values


def _product(given: object, what: str) -> Product:
    """A product as its mapping says it."""
    axes = []
    mapping = _mapping(given, what, AXES)
    for name in AXES:
        if name in mapping:
            axes.append((name, _axis(name, mapping[name], what)))
    if "program" not in mapping:
        raise CampaignError(f"{what} has no program")
    return Product(tuple(axes))


def _products(given: Mapping[str, Any]) -> Tuple[Product, ...]:
    """Those of the product and of the list."""
    products: List[Product] = []
    if "product" in given:
        products.append(_product(given["product"], "product"))
    listed = given.get("list", [])
    if not isinstance(listed, list):
        raise CampaignError("list has entries, one after another")
    products += [_product(one, f"entry {number} of list") for number, one in enumerate(listed, 1)]
    if not products:
        raise CampaignError("there is neither a product nor a list")
    return tuple(products)


def _figure(given: object) -> Figure:
    """A figure as its mapping says it."""
    keys = ("name", "title", "x", "y", "per", "series", "panel", "where", "ends", "x_scale", "y_scale", "x_label", "y_label")
    mapping = dict(_mapping(given, "a figure", keys))
    for key in ("name", "x", "y"):
        if key not in mapping:
            raise CampaignError(f"a figure has no {key}")
    name = _name(mapping.pop("name"), "a figure's name")
    where = mapping.pop("where", {})
    if not isinstance(where, dict):
        raise CampaignError(f"where of the figure {name} has columns with values")
    chosen = tuple((str(key), tuple(map(str, it if isinstance(it, list) else [it]))) for key, it in where.items())
    ends = mapping.pop("ends", list(RESULTS))
    ends = tuple(_one_of(one, f"an end of the figure {name}", RESULTS) for one in (ends if isinstance(ends, list) else [ends]))
    scales = {
        "x_scale": _one_of(mapping.pop("x_scale", "even"), f"x_scale of the figure {name}", SCALES),
        "y_scale": _one_of(mapping.pop("y_scale", "linear"), f"y_scale of the figure {name}", SCALES[1:]),
    }
    texts = {key: _text(value, f"{key} of the figure {name}") for key, value in mapping.items()}
    return Figure(name, texts.pop("title", name), texts.pop("x"), texts.pop("y"), where=chosen, ends=ends, **scales, **texts)


def campaign_of(given: object, name: str) -> Campaign:
    """The campaign that a file's content says.

    Parameters
    ----------
    given : object
        The content, as YAML or JSON gives it.
    name : str
        The campaign's name where the content has none.

    Raises
    ------
    CampaignError
        A key or a value is none of a campaign's.
    """
    keys = ("name", "title", "text", "product", "list", "figures", "batch", "tries", "timeout", "journals", "statistics")
    mapping = _mapping(given, "a campaign", keys)
    figures = mapping.get("figures") or []
    if not isinstance(figures, list):
        raise CampaignError("figures has entries, one after another")
    drawn = tuple(map(_figure, figures))
    if len({one.name for one in drawn}) < len(drawn):
        raise CampaignError("two figures have one name")
    numbers = {key: _number(mapping[key], key, 1) for key in ("batch", "tries", "timeout") if key in mapping}
    if not isinstance(mapping.get("statistics", True), bool):
        raise CampaignError("statistics is true or false")
    found = _name(mapping.get("name", name), "the campaign's name")
    return Campaign(
        found,
        _text(mapping.get("title", found), "title"),
        _text(mapping.get("text", ""), "text"),
        _products(mapping),
        drawn,
        journals=_one_of(mapping.get("journals", "none"), "journals", _JOURNALS),
        statistics=mapping.get("statistics", True),
        **numbers,
    )


def read_content(file: Path) -> object:
    """A campaign's file as plain data.

    Raises
    ------
    CampaignError
        The file can't be read, or isn't YAML.
    """
    try:
        return yaml.safe_load(file.read_text(encoding="utf-8"))
    except (OSError, UnicodeDecodeError) as error:
        raise CampaignError(f"{file} can't be read: {error}") from None
    except yaml.YAMLError as error:
        raise CampaignError(f"{file} isn't YAML: {' '.join(str(error).split())}") from None
