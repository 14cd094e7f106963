"""The kit's own commands and library, for tools that call them, and what they add to it."""
import copy
import importlib.machinery
import importlib.util
import os
import shutil
import sys
import types


def commands():
    """The kit's `rt`, whose calls plant an edit and check a crate with it."""
    rt = os.path.realpath(shutil.which("rt") or sys.exit(f"{sys.argv[0]}: the command rt of the Rattle kit is not on the PATH"))
    loader = importlib.machinery.SourceFileLoader("kit_rt", rt)
    made = importlib.util.module_from_spec(importlib.util.spec_from_loader("kit_rt", loader))
    sys.modules["kit_rt"] = made
    loader.exec_module(made)
    return made


def sum_once(rtlib):
    """Lets a crate's sum over its sources read each crate below it once, and not once on each way to it."""
    own = rtlib.Crate.stamp

    def stamp(crate, known=None):
        known = {} if known is None else known
        if crate not in known:
            alone = copy.copy(crate)
            alone.deps = [types.SimpleNamespace(stamp=lambda it=it: stamp(it, known)) for it in crate.deps]
            known[crate] = own(alone)
        return known[crate]

    rtlib.Crate.stamp = stamp
