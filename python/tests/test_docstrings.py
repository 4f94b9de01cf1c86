"""Every public name of the package has a docstring in NumPy's form, which names its parameters as they are."""
from __future__ import annotations

import importlib
import inspect
import pkgutil
import re
from typing import Any, Iterator, List, Tuple

import safetynet

SECTIONS = ("Parameters", "Attributes", "Returns", "Raises", "Notes")


def public_names() -> Iterator[Tuple[str, Any]]:
    """Every public class, function and method, by its name."""
    modules = [found.name for found in pkgutil.walk_packages(safetynet.__path__, "safetynet.") if not found.name.endswith("__main__")]
    for module in map(importlib.import_module, ["safetynet", *modules]):
        yield module.__name__, module
        for name, value in vars(module).items():
            if name.startswith("_") or getattr(value, "__module__", None) != module.__name__:
                continue
            if inspect.isclass(value) or inspect.isfunction(value):
                yield f"{module.__name__}.{name}", value
            if inspect.isclass(value):
                for part, method in vars(value).items():
                    found = method.fget if isinstance(method, property) else getattr(method, "__func__", method)
                    if not part.startswith("_") and inspect.isfunction(found):
                        yield f"{module.__name__}.{name}.{part}", found


PUBLIC = dict(public_names())
# These do what the method of the same name says that they stand for, in the class above or in every class of their kind.
SAID_ABOVE = re.compile(r"backends\.(Replayed|Driven)\.|events\.\w+\.operands|model\.\w+\.holds|condition")


def test_every_public_name_has_a_docstring() -> None:
    assert len(PUBLIC) > 250
    assert [name for name, value in PUBLIC.items() if not inspect.getdoc(value) and not SAID_ABOVE.search(name)] == []


def sections(text: str) -> List[str]:
    """The titles of a docstring's sections."""
    return [title for title, line in re.findall(r"^(.+)\n(-{3,})$", text, re.M) if len(title) == len(line)]


def test_sections_have_numpy_s_form() -> None:
    for name, value in PUBLIC.items():
        text = inspect.getdoc(value) or ""
        titles = sections(text)
        assert len(titles) == len(re.findall("^---+$", text, re.M)) and titles == sorted(titles, key=SECTIONS.index), (name, titles)
        if "Parameters" in titles:
            block = text.split("Parameters\n----------\n")[1].split("\n\n")[0]
            said = [part for line in re.findall(r"^(\w[\w, ]*?)(?: : .*)?$", block, re.M) for part in line.split(", ")]
            assert said and set(said) <= set(inspect.signature(value).parameters), (name, said)


def test_what_raises_says_so() -> None:
    # what an exported function raises by itself stands in its docstring, or in its module's, under the error's name or that of a more general one
    exported = [vars(safetynet)[name] for name in safetynet.__all__ if inspect.isfunction(vars(safetynet)[name])]
    for function in [*exported, *(value for name, value in PUBLIC.items() if name.startswith("safetynet.machine.Machine."))]:
        text = f"{inspect.getdoc(function)} {inspect.getdoc(inspect.getmodule(function))}"
        for raised in set(re.findall(r"^ +raise (\w+)\(", inspect.getsource(function), re.M)):
            error = getattr(safetynet, raised, ValueError)
            assert any(one.__name__ in text for one in error.__mro__[:-3]), (function, raised)


def test_what_is_exported_is_there() -> None:
    assert sorted(set(safetynet.__all__)) == sorted(safetynet.__all__) and all(hasattr(safetynet, name) for name in safetynet.__all__)
