"""The kit's command `rt` as a module: for tools/edits and tools/profile, which pass the prover the same words as `rt` does."""

import importlib.machinery
import importlib.util
import os
import shutil
import sys

NO_KIT = "the command rt, which belongs to the Rattle kit, is not on PATH (README.md says where it comes from)"


def load():
    """Loads `rt`, so that its crates are those that its own commands work on."""
    found = shutil.which("rt")
    if found is None:
        sys.exit(NO_KIT)
    loader = importlib.machinery.SourceFileLoader("rt", os.path.realpath(found))
    rt = importlib.util.module_from_spec(importlib.util.spec_from_loader("rt", loader))
    # The kit's directory may belong to another user: nothing is written beside its files.
    was, sys.dont_write_bytecode = sys.dont_write_bytecode, True
    loader.exec_module(rt)
    sys.dont_write_bytecode = was
    rt.rtlib.Crate = rt.Crate
    if hasattr(rt, "share_work"):
        # Libraries that another checkout on this machine has built of the same files are taken from there. Not every kit keeps them.
        rt.share_work(False)
    return rt


def crates_of(rt, root):
    """The crates of a repository by their names, lowest first."""
    return {it.name: it for it in rt.rtlib.crates_below(os.path.realpath(root))}


def try_whole(rt, crate, file):
    """Tries an edit in a check of the whole crate. Returns whether it is refused, or None if the check did not end by itself, and what `rt` says."""
    verdict, text = rt.must_fail(crate, str(file), ["--jobs", "1"])
    if isinstance(verdict, bool):
        # Some kits say it in words alone.
        return verdict, text
    return {rt.REFUSED: True, rt.AT_LIMIT: True, rt.MISSED: False, rt.BAD: False}.get(verdict), text
