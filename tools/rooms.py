"""Makes rooms: copies of the part of the repository that a run of `rt` on one crate reads.

`rt` locks the libraries that a run uses, so parallel runs need rooms of their own. The results that earlier runs have kept are
hard links there. That is safe, since a run writes a new file and renames it.
"""
import os
import re
import shutil
from pathlib import Path

TOP = Path(__file__).resolve().parent.parent
PARTS = ("src", "specs", "proofs")


def crates_in(text):
    """Returns the libraries that each crate of a crates.txt uses, by the crate's name, in the order of its lines."""
    lines = (line.split("#")[0].partition(":") for line in text.splitlines())
    return {head.split()[0]: uses.split() for head, _, uses in lines if head.strip()}


def below(crate, uses):
    """Returns the crates of the repository that this one uses, each after those that it uses itself."""
    found = []
    for it in uses[crate]:
        if it in uses:
            found += [lower for lower in [*below(it, uses), it] if lower not in found]
    return found


def free_memory():
    """Returns the available memory in bytes."""
    text = Path("/proc/meminfo").read_text(encoding="utf-8")
    return 1024 * int(re.search(r"MemAvailable:\s+(\d+)", text)[1])


def link_or_copy(file, to):
    try:
        os.link(file, to)
    except OSError:
        shutil.copy2(file, to)


def furnish(room, crate, uses, top=TOP, keeps=True):
    """Makes the room of a crate of a repository in a new folder: its sources and kept results, and the libraries below it with
    their build output; or the sources alone. Returns the crate's folder there."""
    lower = below(crate, uses)
    (room / "crates").mkdir(parents=True)
    shutil.copy2(top / "HANDLES", room)
    rows = (top / "crates.txt").read_text(encoding="utf-8").splitlines(True)
    rows = (it for it in rows if {*crates_in(it)} & {*lower, crate})
    (room / "crates.txt").write_text("".join(rows), encoding="utf-8")
    for it, kept in [*((it, ["out/rlib"]) for it in lower), (crate, ["out/incremental", "out/rlib"])]:
        for part in (*PARTS, *(kept if keeps else ())):
            folder = top / "crates" / it / part
            if folder.is_dir():
                shutil.copytree(folder, room / "crates" / it / part, copy_function=link_or_copy)
    return room / "crates" / crate
