"""What the tools take from the kit: the library of its command rt, which knows with which words a crate is checked and built."""
import functools
import importlib.machinery
import importlib.util
import subprocess
import sys
from pathlib import Path

TOP = Path(__file__).resolve().parents[2]
# The words that a program of the repository is run with in its folder once it is built: it has a small script there.
TRIAL = ["run", "data/first.heap"]


def module_of(name, path):
    """Returns a file of Python as a module, whatever its name ends with."""
    loader = importlib.machinery.SourceFileLoader(name, str(path))
    module = importlib.util.module_from_spec(importlib.util.spec_from_loader(name, loader))
    sys.modules[name] = module
    loader.exec_module(module)
    return module


@functools.cache
def home():
    """Returns the kit's folder."""
    return Path(subprocess.run(["rt", "doc"], check=True, capture_output=True, text=True).stdout.strip()).parent


@functools.cache
def rtlib():
    """Returns rt's own library."""
    return module_of("rtlib", home() / "bin" / "rtlib.py")


@functools.cache
def rt():
    """Returns rt's command, which notes for the machine's other checkouts where a check left what it kept."""
    return module_of("rt_command", home() / "bin" / "rt")


@functools.cache
def crates():
    """Returns rt's view of each crate of the repository by its name."""
    return {it.name: it for it in rtlib().crates_below(str(TOP))}


def offer(name):
    """Notes for the machine's other checkouts that this one's folder of a library holds what proved it, if the kit's rt has such notes."""
    if hasattr(rt(), "offer"):
        crate = crates()[name]
        rt().offer(crate, crate.stamp())


def is_kept(name):
    """Whether there is what rt kept of a library when it proved functions: in this checkout, or of the same text in another one of this
    machine's, where the kit's rt notes that."""
    crate = crates()[name]
    places = rt().places_of(crate) if hasattr(rt(), "places_of") else []
    folders = [crate.folder, *(folder for folder, stamp in places if stamp == crate.stamp())]
    return any((Path(it) / "out" / "incremental").is_dir() for it in folders)


def stands_over_ci(names):
    """Whether these libraries are all as `rt ci` leaves them in a fresh clone: built from nothing, and without the stamp by which other
    commands know what they built themselves."""
    rlibs = [TOP / "crates" / it / "out" / "rlib" for it in names]
    return all((rlib / f"{name}.rlib").is_dir() and not (rlib / "stamp").exists() for name, rlib in zip(names, rlibs))
