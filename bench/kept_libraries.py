#!/usr/bin/env python3
"""Gives the crates of a checkout the libraries that `rt ci` kept of the same sources on this machine, so that `rt check` begins with the first crate that
differs and not with the lowest. It proves nothing and gives no verdict. It needs a kit whose `rt ci` keeps libraries, as rattle-kit-13f.

    bench/kept_libraries.py         at the top of the checkout: lists the crates that it filled
"""
import importlib.machinery
import importlib.util
import os
import shutil
import sys

KIT_BIN = "/opt/rattle/bin"

sys.path.insert(0, KIT_BIN)
import rtlib  # noqa: E402


def rt_module():
    """The command `rt` as a module; its file has no ending."""
    loader = importlib.machinery.SourceFileLoader("rt", f"{KIT_BIN}/rt")
    module = importlib.util.module_from_spec(importlib.util.spec_from_loader("rt", loader))
    loader.exec_module(module)
    return module


def fill(rt, kept, crate):
    """Whether the library was kept; it then stands in the crate's folder as one that was just built."""
    shutil.rmtree(f"{crate.folder}/out/rlib", ignore_errors=True)
    if not kept.give(crate, False, kept.key(crate)):
        return False
    kept.is_built(crate)
    with open(f"{crate.folder}/out/rlib/stamp", "w", encoding="utf-8") as it:
        it.write(crate.stamp())
    return True


def main():
    rt = rt_module()
    rt.Crate.allowed = rt.handles_of(os.getcwd())
    crates = [it for it in rt.crates_of(os.getcwd()) if not it.is_program]
    kept, filled = rt.Kept(crates, False), []
    waiting = sorted(crates, key=lambda it: len(it.below()))
    for crate in waiting:
        if all(dep.name in filled for dep in crate.deps) and fill(rt, kept, crate):
            filled.append(crate.name)
    print(" ".join(filled))
    return 0


if __name__ == "__main__":
    sys.exit(main())
