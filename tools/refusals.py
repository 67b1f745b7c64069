"""Reads and writes wrong-bodies/refused.txt: the refusals of the wrong bodies that wrong-bodies/theorem.txt names.

Each line is a refusal that the prover has given: the name of the edit, the checksum of the edit, that of the sources that decide
it (`tools/source-sum --deciding CRATE`), the logic of the toolchain, which `rt version` prints, and the goals that stayed open.
Goals are separated by commas. If none of them is a clause of the function, a sentence after a bar says which clause excludes the
body. The sentence is written by hand, and kept as long as the edit is the same.
"""
import hashlib
import os
import re
import shutil
import subprocess
from dataclasses import dataclass
from pathlib import Path

HEAD = """\
# The wrong bodies of theorem.txt that the prover has refused: the name, the checksums of the edit and of the sources that decide
# it, the logic of the toolchain, and the goals that stayed open. `tests/wrong-bodies --listed --write` writes the lines, and
# tests/refused-bodies checks them. What follows a bar is written by hand: which clause excludes the body, if no goal is a clause.
"""
COMMAND = "tests/wrong-bodies --listed --write"
# a goal at a return of the function is one of its clauses
CLAUSE = re.compile(r"returns\b")
# verdicts that are no refusal
NO_REFUSAL = ("refused", "NOT REFUSED", "NO VERDICT", "BAD EDIT")
# the number of hexadecimal digits of a checksum that a line has
DIGITS = 16


@dataclass
class Refusal:
    """A line of refused.txt without the name."""

    edit: str
    sources: str
    logic: str
    goals: list
    sentence: str = ""

    def line(self, name):
        said = f" | {self.sentence}" if self.sentence else ""
        return f"{name} {self.edit} {self.sources} {self.logic} {', '.join(self.goals)}{said}"


def logic_of_kit():
    """Returns the hash that `rt version` prints after `logic`, or an empty text without rt."""
    if not shutil.which("rt"):
        return ""
    said = subprocess.run(["rt", "version"], check=True, capture_output=True, text=True).stdout
    found = re.search(r"\blogic (\w+)", said)
    return found[1] if found else ""


class Refusals:
    """The file refused.txt of a repository, and what its lines have to agree with."""

    def __init__(self, top):
        self.top, self.file = top, top / "wrong-bodies" / "refused.txt"
        self.sums = {}

    def listed(self):
        """Returns the names of the edits of the theorem, `CRATE/NAME`."""
        return (self.top / "wrong-bodies" / "theorem.txt").read_text(encoding="utf-8").split()

    def path_of(self, name):
        """Returns the path of the edit with a name, or None."""
        crate, _, edit = name.partition("/")
        paths = (self.top / it / f"{edit}.edit" for it in (f"wrong-bodies/{crate}", f"crates/{crate}/must-fail"))
        return next((it for it in paths if it.is_file()), None)

    def edit_sum(self, name):
        return hashlib.sha256(self.path_of(name).read_bytes()).hexdigest()[:DIGITS]

    def source_sum(self, name):
        """Returns the checksum of the sources that decide an edit."""
        crate = name.partition("/")[0]
        if crate not in self.sums:
            words = [self.top / "tools" / "source-sum", "--deciding", crate]
            self.sums[crate] = subprocess.run(words, check=True, capture_output=True, text=True).stdout[:DIGITS]
        return self.sums[crate]

    def read(self):
        """Returns the refusals by name, in the order of the lines. Raises ValueError for a line that is none."""
        found = {}
        lines = self.file.read_text(encoding="utf-8").splitlines() if self.file.is_file() else []
        for line in lines:
            if not line.strip() or line.startswith("#"):
                continue
            words, _, sentence = line.partition(" | ")
            parts = words.split(" ", 4)
            if len(parts) != 5 or parts[0] in found:
                raise ValueError(f"{self.file.name}: not a refusal, or a second one of its edit: {line[:80]}")
            goals = [it.strip() for it in parts[4].split(",") if it.strip()]
            found[parts[0]] = Refusal(*parts[1:4], goals, sentence.strip())
        return found

    def sums_of(self, name):
        """Returns the checksums of an edit and of the sources that decide it."""
        return self.edit_sum(name), self.source_sum(name)

    def write(self, name, sums, logic, goals):
        """Writes the line of an edit that the prover has refused, with its checksums at that time. Keeps the other lines, and the
        sentence of the same edit."""
        found = self.read()
        sentence = found[name].sentence if name in found and found[name].edit == sums[0] else ""
        goals = [re.sub(r"[,|\s]+", " ", it).strip() for it in goals]
        found[name] = Refusal(*sums, logic, goals, sentence)
        listed = self.listed()
        lines = [found[it].line(it) for it in sorted({*found} & {*listed}, key=listed.index)]
        new = self.file.with_suffix(".new")
        new.write_text(HEAD + "".join(f"{it}\n" for it in lines), encoding="utf-8")
        os.replace(new, self.file)

    def fault_of(self, name, refusal):
        """Returns what is wrong with the refusal of an edit, or None. Doesn't look at the logic."""
        if self.path_of(name) is None:
            return "theorem.txt names it, but this edit does not exist"
        if refusal is None:
            return f"it has no line: run {COMMAND}"
        if refusal.edit != self.edit_sum(name):
            return f"the edit has changed since it was refused: run {COMMAND}"
        if refusal.sources != self.source_sum(name):
            return f"the sources that decide it have changed since it was refused: run {COMMAND}"
        if not refusal.goals or any(it.startswith(NO_REFUSAL) for it in refusal.goals):
            return f"its line has no goal: run {COMMAND}"
        if not refusal.sentence and not any(CLAUSE.match(it) for it in refusal.goals):
            return "no goal is a clause: write after ` | ` in its line which clause excludes the body"
        return None

    def is_stale(self, name, refusal, logic):
        """Returns whether an edit has to be tried again before its line is right."""
        if refusal is None or refusal.logic != logic or not refusal.goals:
            return True
        return (refusal.edit, refusal.sources) != self.sums_of(name)
