#!/usr/bin/env python3
"""Predicts how long `rt ci` and the scripts of .ci/run take from nothing, from the processor seconds in build-times.txt.

    tools/schedule.py [--cores N] [--crates]

It simulates the schedule of `rt ci`. The proofs of a crate and of its tests begin when the crates that it uses are proved; of the
tasks that can begin, the one with the longest chain of work after it is first. Each task takes one core, as in tools/gate. The
edits that must fail begin when no proof can.
"""
import argparse
import os
import sys
from pathlib import Path
from typing import NamedTuple

sys.dont_write_bytecode = True
sys.path.insert(0, str(Path(__file__).resolve().parent))
from rooms import TOP, crates_in

CORES = len(os.sched_getaffinity(0))
# processor seconds of a crate that is not in the table
UNKNOWN = (100, 0, 0)


class Task(NamedTuple):
    """A task of `rt ci`: the keys of those that it waits for, its processor seconds, and whether proofs go before it."""

    after: list
    work: float
    is_edit: bool = False


def times_in(text):
    """Returns the processor seconds of each line: those of a crate's proof, tests and edits, or those of a script."""
    lines = (line.split("#")[0].split() for line in text.splitlines())
    return {it[0]: tuple(map(float, it[1:])) for it in lines if it}


def read_times():
    return times_in((TOP / "build-times.txt").read_text(encoding="utf-8"))


def read_crates():
    """Returns the crates of the repository, each with those of them that it uses."""
    uses = crates_in((TOP / "crates.txt").read_text(encoding="utf-8"))
    return {crate: [it for it in used if it in uses] for crate, used in uses.items()}


def edit_tasks(crate, proofs, work, count):
    """Returns the tasks that try a crate's edits. Several edits need one more task first, a second proof of the crate."""
    if count == 1:
        return {(crate, "edit", 0): Task(proofs, work, True)}
    first = 0.5 * work
    tasks = {(crate, "seed"): Task(proofs[:-2], first, True)}
    for number in range(count):
        tasks[crate, "edit", number] = Task([*proofs, (crate, "seed")], (work - first) / (count + 1), True)
    tasks[crate, "sound"] = Task([(crate, "edit", it) for it in range(count)], (work - first) / (count + 1), True)
    return tasks


def tasks_of(crates, times, kept=()):
    """Returns the tasks of `rt ci` by their keys; the crates in `kept` cost nothing."""
    tasks = {}
    for crate, used in crates.items():
        proof, tests, edits = (0, 0, 0) if crate in kept else times.get(crate, UNKNOWN)
        below = [(it, "proof") for it in used]
        tasks[crate, "proof"], tasks[crate, "tests"] = Task(below, proof), Task(below, tests)
        count = len([*(TOP / "crates" / crate / "must-fail").glob("*.edit")])
        if edits and count:
            tasks |= edit_tasks(crate, [*below, (crate, "proof"), (crate, "tests")], edits, count)
    return tasks


def chains(tasks):
    """Returns for each task the processor seconds of the longest chain of tasks that begins with it."""
    users, found = {it: [] for it in tasks}, {}
    for key, task in tasks.items():
        for it in task.after:
            users[it].append(key)

    def chain(key):
        if key not in found:
            found[key] = tasks[key].work + max(map(chain, users[key]), default=0)
        return found[key]

    for it in tasks:
        chain(it)
    return found


def ends_of(tasks, cores):
    """Returns the second at which each task ends."""
    chain = chains(tasks)
    waiting = sorted(tasks, key=lambda it: (tasks[it].is_edit, -chain[it]))
    now, running, ends = 0.0, {}, {}
    while waiting or running:
        ready = [it for it in waiting if all(used in ends for used in tasks[it].after)]
        for key in ready[: cores - len(running)]:
            running[key] = now + tasks[key].work
            waiting.remove(key)
        now = min(running.values())
        for key in [it for it, end in running.items() if end <= now]:
            ends[key] = running.pop(key)
    return ends


def main():
    options = argparse.ArgumentParser(description=__doc__, formatter_class=argparse.RawDescriptionHelpFormatter)
    options.add_argument("--cores", type=int, default=CORES, help="the number of cores; by default that of this machine")
    options.add_argument("--crates", action="store_true", help="also print when the proof of each crate ends")
    options = options.parse_args()
    times, crates = read_times(), read_crates()
    tasks = tasks_of(crates, times)
    ends = ends_of(tasks, options.cores)
    if options.crates:
        for end, crate in sorted((ends[it, "proof"], it) for it in crates):
            print(f"{end / 60:6.1f} {crate}")
    work = sum(it.work for it in tasks.values())
    print(f"rt ci: {max(ends.values()) / 60:.1f} minutes on {options.cores} cores, {work / 60:.0f} processor minutes")
    scripts = sum(sum(them) for name, them in times.items() if "/" in name)
    if scripts:
        print(f"scripts: at least {scripts / options.cores / 60:.1f} minutes, {scripts / 60:.0f} processor minutes")


if __name__ == "__main__":
    main()
