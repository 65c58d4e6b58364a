#!/usr/bin/env python3
"""Runs the toolchain's command `rt` with these words, and has it take the sum of each crate once.

    tools/rt.py ci

The `rt` of rattle-kit-13b takes the sum of a crate's files, and the list of the crates below it,
anew along each path of crates that leads there: some two million times in this repository, which
is hours of one processor. This loads the same `rt` and replaces these two functions, `Crate.stamp`
and `Crate.below`, in memory. Within one call of either it keeps what the call has found of each
crate; the next call begins anew. Nothing that `rt` proves, tries, runs or compares is other than
without it.
"""
import functools
import importlib.machinery
import importlib.util
import os
import shutil
import sys
import threading


def once(method):
    """Returns a method without arguments that calls itself on other values, as one that runs once
    for each of them within a call from elsewhere."""
    within = threading.local()

    @functools.wraps(method)
    def answer(self):
        if getattr(within, "kept", None) is None:
            within.kept = {}
            try:
                return method(self)
            finally:
                within.kept = None
        if id(self) not in within.kept:
            within.kept[id(self)] = method(self)
        return within.kept[id(self)]

    return answer


def main():
    path = shutil.which("rt")
    if not path:
        sys.exit("tools/rt.py: the toolchain's command rt isn't on the path")
    with open(path, "rb") as it:
        if b"python" not in it.readline():
            os.execv(path, [path, *sys.argv[1:]])
    loader = importlib.machinery.SourceFileLoader("rt", os.path.realpath(path))
    rt = importlib.util.module_from_spec(importlib.util.spec_from_loader("rt", loader))
    loader.exec_module(rt)
    crate = rt.rtlib.Crate
    for name in ("stamp", "below"):
        if hasattr(crate, name):
            setattr(crate, name, once(getattr(crate, name)))
    return rt.main(sys.argv[1:])


if __name__ == "__main__":
    sys.exit(main())
