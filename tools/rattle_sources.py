"""Reads the sources of the crates without the toolchain: the string literals of a file, and its functions with their clauses."""
import re
from dataclasses import dataclass, field
from pathlib import Path

TOP = Path(__file__).resolve().parent.parent
# the crates that only test others
TEST_CRATES = {"suite", "rows", "cases", "translations", "failures", "read_back"}
TOKEN = re.compile(r"""(?P<blank>\s+|//[^\n]*|/\*.*?\*/)|(?P<string>"(?:[^"\\]|\\.)*")|(?P<char>'(?:\\u\{\w+\}|\\.|[^'\\\n])')"""
                   r"""|(?P<word>\w+)|(?P<sign>.)""", re.DOTALL)
# a clause is in braces, and a name may come before it
CLAUSE_WORDS = {"ensures", "requires"}
OPENING, CLOSING = {"{", "(", "["}, {"}", ")", "]"}
QUALIFIERS = {"pub", "const", "unsafe", "extern"}
FORMATTING = {"write", "writeln", "format"}
ESCAPE = re.compile(r"\\(u\{(\w+)\}|\n\s*|.)", re.DOTALL)
ESCAPED = {"n": "\n", "r": "\r", "t": "\t", "0": "\0"}
PLACEHOLDER = re.compile(r"\{\{|\}\}|\{[^{}]*\}")


@dataclass
class Token:
    kind: str
    text: str
    line: int


@dataclass
class Literal:
    """A string literal: its pieces between the placeholders, which are one piece if it is not a format."""

    line: int
    pieces: list


@dataclass
class Function:
    """A function that is not in a trait or in an implementation of one."""

    line: int
    name: str
    is_public: bool
    clauses: list = field(default_factory=list)


def product_crates():
    """Returns the folders of the crates that don't only test others."""
    lines = (TOP / "crates.txt").read_text(encoding="utf-8").splitlines()
    names = (it.split(":")[0].split()[0] for it in lines if it and not it.startswith("#"))
    return [TOP / "crates" / it for it in names if it not in TEST_CRATES]


def source_files(crate):
    """Returns the files of a crate's sources."""
    return sorted((crate / "src").rglob("*.rt"))


def read_tokens(text):
    """Returns the tokens of a source, without comments and blanks."""
    found, line = [], 1
    for match in TOKEN.finditer(text):
        if match.lastgroup != "blank":
            found.append(Token(match.lastgroup, match[0], line))
        line += match[0].count("\n")
    return found


def end_of_group(tokens, at):
    """Returns the index after the group that the token at `at` opens."""
    level = 0
    while at < len(tokens):
        level += (tokens[at].text in OPENING) - (tokens[at].text in CLOSING)
        at += 1
        if level == 0:
            break
    return at


def end_of_ghost(tokens, at):
    """Returns the index after a ghost item or field: after its semicolon or comma, or before the brace that ends its type."""
    while tokens[at].text not in (";", ",") and tokens[at].text not in CLOSING:
        at = end_of_group(tokens, at)
    return at + (tokens[at].text not in CLOSING)


def end_of_clause(tokens, at):
    """Returns the index after a clause, whose first word is at `at`."""
    while tokens[at].text != "{":
        at += 1
    return end_of_group(tokens, at)


def code_of(tokens):
    """Returns the tokens without ghost items and clauses."""
    found, at = [], 0
    while at < len(tokens):
        if tokens[at].text == "ghost":
            at = end_of_ghost(tokens, at)
        elif tokens[at].text in CLAUSE_WORDS:
            at = end_of_clause(tokens, at)
        else:
            found.append(tokens[at])
            at += 1
    return found


def plain_text(literal):
    """Returns the text that a string literal stands for."""
    def of(match):
        if match[2]:
            return chr(int(match[2], 16))
        return "" if match[1].startswith("\n") else ESCAPED.get(match[1], match[1])

    return ESCAPE.sub(of, literal[1:-1])


def pieces_of(text):
    """Returns the pieces of a format between its placeholders."""
    pieces, end = [""], 0
    for match in PLACEHOLDER.finditer(text):
        pieces[-1] += text[end:match.start()]
        if match[0] in ("{{", "}}"):
            pieces[-1] += match[0][0]
        else:
            pieces.append("")
        end = match.end()
    pieces[-1] += text[end:]
    return pieces


def formats_in(tokens):
    """Returns the indices of the string literals that are formats: of `write!` and its kin, and of `#[error(..)]`."""
    found = set()
    for at, token in enumerate(tokens[:-2]):
        is_macro = token.text in FORMATTING and tokens[at + 1].text == "!"
        is_error = token.text == "error" and tokens[at + 1].text == "("
        if is_macro or is_error:
            first = at + 1 + is_macro
            last = end_of_group(tokens, first)
            found |= set([it for it in range(first, last) if tokens[it].kind == "string"][:1])
    return found


def read_literals(text):
    """Returns the string literals of a source outside ghost items and clauses."""
    tokens = code_of(read_tokens(text))
    formats = formats_in(tokens)
    found = []
    for at, token in enumerate(tokens):
        if token.kind == "string":
            plain = plain_text(token.text)
            found.append(Literal(token.line, pieces_of(plain) if at in formats else [plain]))
    return found


def end_of_generics(tokens, at):
    """Returns the index after the parameters in angle brackets at `at`, or `at` if there are none."""
    if tokens[at].text != "<":
        return at
    level = 0
    while True:
        is_arrow = tokens[at - 1].text in "-="
        level += (tokens[at].text == "<") - (tokens[at].text == ">" and not is_arrow)
        at += 1
        if level == 0:
            return at


def read_function(tokens, at, owner):
    """Returns the function whose `fn` is at `at`, and the index after its head."""
    first = at
    while first and tokens[first - 1].text in QUALIFIERS:
        first -= 1
    is_public = tokens[first].text == "pub"
    function = Function(tokens[at].line, owner + tokens[at + 1].text, is_public)
    at = end_of_generics(tokens, at + 2)
    while tokens[at].text not in ("{", ";"):
        if tokens[at].text in CLAUSE_WORDS:
            function.clauses.append(tokens[at].text)
            at = end_of_clause(tokens, at)
        else:
            at = end_of_group(tokens, at)
    return function, at


def read_functions(text):
    """Returns the functions of a source, except those of traits and of their implementations. The name of a function of a type
    begins with the type's name and `::`."""
    tokens, found, at, owner, end = read_tokens(text), [], 0, "", -1
    while at < len(tokens):
        word = tokens[at].text
        if at >= end:
            owner, end = "", -1
        if word == "ghost":
            at = end_of_ghost(tokens, at)
        elif word in ("impl", "trait") and end < 0 and tokens[at].kind == "word":
            head = end_of_generics(tokens, at + 1)
            opening = next(it for it in range(head, len(tokens)) if tokens[it].text == "{")
            is_of_trait = word == "trait" or any(it.text == "for" for it in tokens[head:opening])
            owner, end = tokens[head].text + "::", end_of_group(tokens, opening)
            at = end if is_of_trait else opening + 1
        elif word == "fn" and tokens[at + 1].kind == "word":
            function, at = read_function(tokens, at, owner)
            found.append(function)
            at = end_of_group(tokens, at)
        else:
            at += 1
    return found
