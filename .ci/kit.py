"""The kit's `rt` as a module, for the scripts beside this."""
import importlib.machinery
import importlib.util
import os
import shutil
import sys


def rt_itself():
    """`rt` as a module, in which each crate's sum is made once in a run: `rt` makes it anew for each path that leads to it, which takes
    minutes in the upper crates."""
    path = os.path.realpath(shutil.which("rt") or "/opt/rattle/bin/rt")
    loader = importlib.machinery.SourceFileLoader("rt_itself", path)
    made = importlib.util.module_from_spec(importlib.util.spec_from_loader("rt_itself", loader))
    sys.modules["rt_itself"] = made
    loader.exec_module(made)
    sums_once(made.rtlib.Crate)
    return made


def sums_once(kind):
    """Has each crate keep its sum once it is made."""
    made = kind.stamp

    def stamp(crate):
        if "kept_sum" not in crate.__dict__:
            crate.__dict__["kept_sum"] = made(crate)
        return crate.__dict__["kept_sum"]

    kind.stamp = stamp
