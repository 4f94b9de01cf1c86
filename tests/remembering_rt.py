#!/usr/bin/env python3
"""Does what rt does, with two of its functions remembered, for a toolchain whose rt remembers nothing.

    tests/remembering_rt.py RT ci

RT is the toolchain's command. Such an rt finds the libraries below a crate, and a sum of the texts of a crate and of all below it, once for
each path through crates.txt. Of these there are some 390,000 below the program, so a gate would read for hours before its upper crates. Both
are functions of files that stay as they are while the gate runs. Nothing else of rt is touched: what is proved, tried and run, and how it is
judged, is its own.
"""
import importlib.machinery
import importlib.util
import os
import sys
from functools import lru_cache
from types import ModuleType


def rt_itself(command: str) -> ModuleType:
    """rt's own file as a module, whose crates remember."""
    loader = importlib.machinery.SourceFileLoader("rt", os.path.realpath(command))
    spec = importlib.util.spec_from_loader("rt", loader)
    assert spec is not None
    rt = importlib.util.module_from_spec(spec)
    loader.exec_module(rt)
    crate = rt.rtlib.Crate
    below = lru_cache(maxsize=None)(crate.below)
    # each caller has a list of its own
    crate.below = lambda self: [*below(self)]
    crate.stamp = lru_cache(maxsize=None)(crate.stamp)
    return rt


if __name__ == "__main__":
    sys.dont_write_bytecode = True
    sys.exit(rt_itself(sys.argv[1]).main(sys.argv[2:]))
