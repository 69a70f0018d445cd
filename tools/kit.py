"""What the tools take from the inside of the kit's command rt. Kits differ there, and this file alone knows how."""
import contextlib
import importlib.machinery
import importlib.util
import inspect
import shutil
import subprocess
import sys
import os


def loaded(name, path):
    """Returns a program in Python as a module."""
    loader = importlib.machinery.SourceFileLoader(name, path)
    module = importlib.util.module_from_spec(importlib.util.spec_from_loader(name, loader))
    loader.exec_module(module)
    return module


def load_rt():
    """Returns the kit's command rt as a module."""
    return loaded("rt", os.path.realpath(shutil.which("rt") or sys.exit("the Rattle kit's command rt isn't on PATH")))


def crates_of(rt, top):
    """Returns the crates of a repository, each behind those below it. What stands in their folders out/ stays."""
    if len(inspect.signature(rt.crates_of).parameters) == 1:
        return rt.crates_of(top)
    # (an older kit's own moves those folders away)
    rt.rtlib.Crate = rt.Crate
    return rt.rtlib.crates_below(top)


class Kept:
    """What the gate kept of proofs on this machine; nothing, where the kit keeps none."""

    def __init__(self, rt, crates):
        self.kept = rt.Kept(crates) if hasattr(rt, "Kept") else None

    def gives(self, crate):
        """Gives the crate the library that was kept of it, and returns whether there was one."""
        return bool(self.kept and self.kept.give(crate, False, self.kept.key(crate)))

    def note_built(self, crate):
        if self.kept:
            self.kept.is_built(crate)


def copied(rt, folder, to):
    """Copies what a check kept, so that another can begin with it."""
    with contextlib.suppress(AttributeError):
        return rt.linked(folder, to)
    return subprocess.run(["cp", "-a", "--reflink=auto", folder, to], check=True)


def is_refused(rt, answer):
    """Returns whether rt's answer about a must-fail edit says that the prover refused it."""
    return answer in (rt.REFUSED, rt.AT_LIMIT) if hasattr(rt, "REFUSED") else answer is True
