"""The toolchain's command `rt` as a module: its crates, the words of a check, and what it keeps."""
import functools
import hashlib
import importlib.machinery
import importlib.util
import os
import subprocess
import sys

sys.dont_write_bytecode = True
HOME = os.path.dirname(subprocess.run(["rt", "doc"], capture_output=True, text=True, check=True).stdout.strip())


def load(name, path):
    """A module from a file whose name is none of Python's."""
    loader = importlib.machinery.SourceFileLoader(name, path)
    module = importlib.util.module_from_spec(importlib.util.spec_from_loader(name, loader))
    sys.modules[name] = module
    loader.exec_module(module)
    return module


rt = load("rt_command", f"{HOME}/bin/rt")
library = rt.rtlib
# The libraries that rt ci builds hold statements alone.
library.Crate.cuts_libraries = True
# (its first call sets a signal's handler, which only the main thread may)
library.guarded()


def keeps():
    """Whether this toolchain's `rt ci` keeps what it proved; an older one proves all in each run (`.ci/kept-ci` helps)."""
    return hasattr(rt, "own_sum")


def crates_of(tree):
    """The crates of a tree by their names, each after those that it stands on."""
    os.chdir(tree)
    found = library.crates_below(tree)
    return {crate.name: crate for crate in sorted(found, key=lambda it: len(it.below()))}


def check_words(crate, flags):
    """The words of a check of a crate, over the libraries as they were built in the tree."""
    return [library.RATTLE, "check", *crate.words(["--jobs", "1", *flags], keeps=False)]


@functools.lru_cache(maxsize=None)
def sum_of_library(folder):
    """A sum of the files of a built library."""
    found = hashlib.sha256()
    for at, folders, files in os.walk(folder):
        folders.sort()
        for name in sorted(files):
            found.update(f"{os.path.relpath(f'{at}/{name}', folder)} {library.sum_of(f'{at}/{name}')}\n".encode())
    return found.hexdigest()


@functools.lru_cache(maxsize=None)
def sum_of_kit():
    """A sum of the toolchain: its name, and the files of its prover, its commands and their rules."""
    with open(f"{HOME}/KIT-ID", "rb") as it:
        found = hashlib.sha256(it.read())
    for name in sorted(os.listdir(f"{HOME}/bin")):
        found.update(f"{name} {library.sum_of(f'{HOME}/bin/{name}')}\n".encode())
    return found.hexdigest()


def own_sum(crate):
    """A sum of the toolchain, what crates.txt says of a crate, and its own files."""
    if keeps():
        return rt.own_sum(crate)
    found = hashlib.sha256(repr((sum_of_kit(), sorted(crate.said.items(), key=repr))).encode())
    for part in library.PARTS:
        for at, folders, files in os.walk(f"{crate.folder}/{part}"):
            folders.sort()
            for name in sorted(files):
                found.update(f"{os.path.relpath(f'{at}/{name}', crate.folder)} {library.sum_of(f'{at}/{name}')}\n".encode())
    return found.hexdigest()


def sum_of_crate(crate):
    """A sum of all that a check of the crate reads: the kit, its own files, and the libraries below as they were built."""
    below = [(it.name, sum_of_library(it.rlib)) for it in crate.below()]
    return hashlib.sha256(repr((own_sum(crate), below)).encode()).hexdigest()
