"""Keeps the libraries of the crates below crates/aggen_c that `rt ci` has proved in this checkout, in out/libraries.

Some versions of the toolchain keep no library from one run to the next, so without these tools/archive would have to prove all of
them again. tools/gate keeps them as soon as `rt ci` has proved the crate: all crates below it are proved then. They are hard links,
so they take no time and little space; later runs of `rt` don't reach them. Each file's name has a suffix, since `rt ci` refuses a
file of .rt or .antt that belongs to no crate.
"""
import os
import shutil
import subprocess
import sys
from pathlib import Path

sys.dont_write_bytecode = True
sys.path.insert(0, str(Path(__file__).resolve().parent))
from rooms import TOP, below, crates_in, link_or_copy

CRATE = "aggen_c"
FOLDER = TOP / "out" / "libraries"
SUFFIX = ".kept"


def sources():
    """Returns what the libraries are made of: the toolchain's version, and the checksum of the sources of the crate and below."""
    commands = (["rt", "version"], [TOP / "tools" / "source-sum", CRATE])
    return "".join(subprocess.run(it, cwd=TOP, check=True, capture_output=True, text=True).stdout for it in commands)


def lower_crates():
    uses = crates_in((TOP / "crates.txt").read_text(encoding="utf-8"))
    return below(CRATE, uses) if CRATE in uses else []


def copy(folder, to, name_of):
    """Links or copies all files below a folder, each to the name that `name_of` returns for its name."""
    for file in folder.rglob("*"):
        if file.is_file():
            path = to / file.relative_to(folder)
            path.parent.mkdir(parents=True, exist_ok=True)
            link_or_copy(file, path.with_name(name_of(file.name)))


def keep(began_with):
    """Links the libraries that `rt ci` has just proved, if they are of the sources that it began with. Keeps all of them or none:
    they fit only each other. A library with rt's stamp is of an earlier run."""
    new = FOLDER.with_suffix(".new")
    for it in (FOLDER, new):
        shutil.rmtree(it, ignore_errors=True)
    left = {it: TOP / "crates" / it / "out" / "rlib" for it in lower_crates()}
    if sources() != began_with or any((it / "stamp").exists() or not (it / f"{name}.rlib").is_dir() for name, it in left.items()):
        return
    new.mkdir(parents=True)
    for name, it in left.items():
        copy(it / f"{name}.rlib", new / f"{name}.rlib", lambda file: file + SUFFIX)
    (new / "sources").write_text(began_with, encoding="utf-8")
    os.replace(new, FOLDER)


def kept():
    """Returns the names of the crates whose libraries are kept for the sources that are there now."""
    file = FOLDER / "sources"
    if not file.is_file() or file.read_text(encoding="utf-8") != sources():
        return []
    return [it.stem for it in FOLDER.glob("*.rlib")]


def give(name, to):
    """Copies the kept library of a crate to a new folder."""
    copy(FOLDER / f"{name}.rlib", to, lambda file: file.removesuffix(SUFFIX))
