"""Reads the rows of tests/rows/tree-files: contents by hand, each with its answer as a tree file. That file explains the rows."""
import re
from dataclasses import dataclass
from pathlib import Path

TOP = Path(__file__).resolve().parent.parent
WORD = re.compile(r"(\)|[0-9a-f]+)\*(\d+)")


@dataclass
class Row:
    """A row: the number of its line, a grammar's text and the listing of its plan, the pass as whose file the content is read,
    the content, and the right answer."""

    line: int
    grammar: str
    plan: str
    number: int
    content: bytes
    right: str


def bytes_of(written):
    """Returns the bytes of words of two hexadecimal digits each. `*N` after a word or a closing parenthesis repeats it."""
    open_ = [b""]
    for word in written.split():
        if word == "(":
            open_.append(b"")
            continue
        times = WORD.fullmatch(word)
        what, count = (times[1], int(times[2])) if times else (word, 1)
        group = open_.pop() if what == ")" else bytes.fromhex(what)
        open_[-1] += group * count
    (whole,) = open_
    return whole


def rows():
    """Returns all rows, in order."""
    grammar, plan, number, content = "", "", 0, None
    found = []
    text = (TOP / "tests" / "rows" / "tree-files").read_text(encoding="utf-8")
    for line, written in enumerate(text.splitlines(), 1):
        verb, _, rest = written.partition(" ")
        if verb == "grammar":
            grammar, plan, number = (TOP / "examples" / f"{rest}.ag").read_text(encoding="utf-8"), "", 0
        elif verb == "text":
            grammar, plan, number = rest + "\n", "", 0
        elif verb == "more":
            grammar += rest + "\n"
        elif verb == "plan":
            plan += rest + "\n"
        elif verb == "pass":
            number = int(rest)
        elif verb == "file":
            content = bytes_of(rest)
        elif verb == "=" and content is not None:
            found.append(Row(line, grammar, plan, number, content, rest))
            content = None
        elif written and not written.startswith("#"):
            raise ValueError(f"tests/rows/tree-files, line {line}: no row is written so")
    return found
