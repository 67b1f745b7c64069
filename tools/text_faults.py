"""Finds all faults G2 and G3 of a grammar's text by their definitions: a parser of grammars and of expressions, written from
docs/LANGUAGE and the definitions in crates/ag_expr/specs and crates/ag_text/specs.

It shares no code with the libraries. The tokens are those of tree_files.py. The parser stops at the first token that can't be
accepted. Then it goes on at the next token with which a rule or a declaration can begin: see `next_part`.
"""
import re
from dataclasses import dataclass

import tree_files
from tree_files import CLASSES, GrammarFault, Token

RESERVED = {"start", "symbol", "syn", "inh", *CLASSES}
# the calls by the number of their arguments
CALLS = {it: 1 for it in ("len", "text", "number", "keys", "iserr")}
CALLS |= {it: 2 for it in ("nth", "append", "join", "get", "has", "orelse")} | {"put": 3}
UNBINDABLE = {"let", "in", "if", "then", "else", "div", "mod", *CALLS}
# the operators, from the weakest to the tightest
OPERATORS = (("==", "<"), ("++",), ("+", "-"), ("*", "div", "mod"))
MAX_LEVELS, MAX_NUMBER, MAX_PLACE = 64, 2**63 - 1, 65_535
SEPARATORS = " \t\r\n"
# what looks like a number or an occurrence, and what is up to the next separator
LIKELY = re.compile(r"[0-9]+|\$(?:[^\W\d_]|[._])*[0-9](?:\w|\.)*")
UP_TO_SEPARATOR = re.compile(rf".[^{SEPARATORS}]*", re.DOTALL)


@dataclass
class Stop(Exception):
    """A fault of a text: its number, and its offset in characters."""

    number: str
    at: int


@dataclass
class Input:
    """The tokens of a text, or of a part of it, and what is after them: the number of the fault if a token is needed there, and
    the offset. X1: no token begins. X3: the number or place of the token is too large. X2: the text ends."""

    tokens: list
    ending: str
    end: int

    def sign(self, at):
        """Returns a token as it is written, if it is a name or a sign, and None for other tokens and the end."""
        token = self.tokens[at] if at < len(self.tokens) else None
        return token.says if token and token.kind not in ("number", "text", "occurrence") else None


def is_too_large(token):
    """Returns whether the number or the place of a token is above its limit."""
    return token.kind == "number" and token.says > MAX_NUMBER or token.kind == "occurrence" and token.says[0] > MAX_PLACE


def input_of(text):
    """Returns the tokens of a text, up to its end or to the first place where none begins."""
    tokens, at = [], 0
    while True:
        while at < len(text) and text[at] in SEPARATORS:
            at += 1
        if at == len(text):
            return Input(tokens, "X2", at)
        try:
            token, end = tree_files.token_at(text, at)
        except GrammarFault:
            return Input(tokens, "X1", at)
        if is_too_large(token):
            return Input(tokens, "X3", at)
        tokens.append(token)
        at = end


class Expression:
    """A parser of an expression, which is all of an input."""

    def __init__(self, tokens):
        self.input, self.at = tokens, 0

    def refuse(self, number="X2"):
        """Fails at the next token, or where the tokens end."""
        if self.at < len(self.input.tokens):
            raise Stop(number, self.input.tokens[self.at].at)
        raise Stop(self.input.ending, self.input.end)

    def sign(self):
        return self.input.sign(self.at)

    def take(self, sign):
        if self.sign() != sign:
            self.refuse()
        self.at += 1

    def is_operand(self, scope):
        token = self.input.tokens[self.at] if self.at < len(self.input.tokens) else Token("end", None, 0)
        return token.kind in ("number", "text", "occurrence") or token.kind == "name" and token.says in scope

    def whole(self, levels, scope):
        """Reads an expression of at most some levels, with the names in scope."""
        if levels == 0:
            begins = self.is_operand(scope) or self.sign() in {"let", "if", "(", "[", "{", *CALLS}
            self.refuse("X4" if begins else "X2")
        if self.sign() == "let":
            self.at += 1
            token = self.input.tokens[self.at] if self.at < len(self.input.tokens) else None
            if token is None or token.kind != "name" or token.says in UNBINDABLE:
                self.refuse()
            self.at += 1
            self.take("=")
            self.whole(levels - 1, scope)
            self.take("in")
            self.whole(levels - 1, scope | {token.says})
        elif self.sign() == "if":
            for word in ("if", "then", "else"):
                self.take(word)
                self.whole(levels - 1, scope)
        else:
            self.chain(0, levels, scope)

    def chain(self, rank, levels, scope):
        """Reads operands with operators of a rank between them; there is at most one comparison."""
        if rank == len(OPERATORS):
            self.atom(levels, scope)
            return
        self.chain(rank + 1, levels, scope)
        while self.sign() in OPERATORS[rank]:
            self.at += 1
            self.chain(rank + 1, levels, scope)
            if rank == 0:
                return

    def several(self, count, close, levels, scope):
        """Reads a number of expressions, or any number from one on if it is None, with commas between them, and what closes."""
        self.whole(levels - 1, scope)
        taken = 1
        while taken < count if count else self.sign() == ",":
            self.take(",")
            self.whole(levels - 1, scope)
            taken += 1
        self.take(close)

    def atom(self, levels, scope):
        sign = self.sign()
        if sign == "{":
            self.at += 1
            self.take("}")
        elif sign == "[":
            self.at += 1
            if self.sign() == "]":
                self.at += 1
            else:
                self.several(None, "]", levels, scope)
        elif sign == "(":
            self.at += 1
            self.several(1, ")", levels, scope)
        elif sign in CALLS:
            self.at += 1
            self.take("(")
            self.several(CALLS[sign], ")", levels, scope)
        elif self.is_operand(scope):
            self.at += 1
        else:
            self.refuse()

    def read(self):
        """Reads the whole input. Fails if it is no expression."""
        self.whole(MAX_LEVELS, frozenset())
        if self.at < len(self.input.tokens) or self.input.ending != "X2":
            self.refuse()


class Grammar:
    """A parser of a grammar's text, or of the rest of one."""

    def __init__(self, tokens):
        self.input, self.at = tokens, 0

    def token(self):
        return self.input.tokens[self.at] if self.at < len(self.input.tokens) else Token("end", None, self.input.end)

    def sign(self):
        return self.input.sign(self.at)

    def accept(self, is_right):
        """Takes the next token if it is right. Fails if it isn't."""
        if not is_right:
            raise Stop("G2", self.token().at)
        self.at += 1

    def take(self, sign):
        self.accept(self.sign() == sign)

    def name(self):
        self.accept(self.token().kind == "name" and self.token().says not in RESERVED)

    def symbol(self):
        self.take("symbol")
        self.name()
        for word in ("syn", "inh"):
            if self.sign() == word:
                self.take(word)
                self.name()
                while self.sign() == ",":
                    self.take(",")
                    self.name()
        self.take(";")

    def item(self):
        token = self.token()
        if token.kind == "name" and token.says in CLASSES:
            self.at += 1
        elif token.kind == "text":
            self.accept(token.says and not any(it in token.says for it in SEPARATORS))
        else:
            self.name()

    def expression(self):
        """Reads an expression up to the first `;`, and this."""
        rest = self.input.tokens[self.at :]
        count = next((number for number, it in enumerate(rest) if it.kind == ";"), None)
        if count is None:
            # all tokens are read, and the fault is at the latest where they end
            Expression(Input(rest, self.input.ending, self.input.end)).read()
            raise Stop(self.input.ending, self.input.end)
        Expression(Input(rest[:count], "X2", rest[count].at)).read()
        self.at += count + 1

    def rules(self):
        """Reads rules, and the `}` after them."""
        while self.token().kind != "end" and self.sign() != "}":
            self.accept(self.token().kind == "occurrence")
            self.take("=")
            self.expression()
        self.take("}")

    def production(self):
        self.name()
        self.take("=")
        while self.token().kind != "end" and self.sign() != "{":
            self.item()
        self.take("{")
        self.rules()

    def declarations(self):
        """Reads declarations of symbols and productions in any order, up to the end of the text."""
        while self.token().kind != "end":
            if self.sign() == "symbol":
                self.symbol()
            else:
                self.production()
        self.finish()

    def finish(self):
        if self.input.ending != "X2":
            raise Stop("G2", self.input.end)

    def grammar(self):
        self.take("start")
        self.name()
        self.take(";")
        while self.sign() == "symbol":
            self.symbol()
        while self.token().kind != "end":
            self.production()
        self.finish()

    def rest(self):
        """Reads the rest of a text, from a rule or a declaration on."""
        if self.token().kind == "occurrence":
            self.rules()
        self.declarations()


def next_part(tokens, at):
    """Returns the input from the next part on: from the first token that is at an offset or after it, is not the first of all, and
    can begin a part. A part begins with `symbol` after `;` or `}`; with a name that is not reserved and `=`, after one of these; or
    with an occurrence and `=`, after `;` or `{`."""
    for number in range(1, len(tokens.tokens)):
        token, before, after = tokens.tokens[number], tokens.sign(number - 1), tokens.sign(number + 1)
        if token.kind == "name":
            is_part = before in (";", "}") and (token.says == "symbol" or token.says not in RESERVED and after == "=")
        else:
            is_part = token.kind == "occurrence" and before in (";", "{") and after == "="
        if token.at >= at and is_part:
            return Input(tokens.tokens[number:], tokens.ending, tokens.end)
    return Input([], tokens.ending, tokens.end)


def faults_of(text):
    """Returns the faults of a text, as stops: none if it is a grammar."""
    tokens, found, parse = input_of(text), [], Grammar.grammar
    while tokens.tokens or not found:
        try:
            parse(Grammar(tokens))
            return found
        except Stop as stop:
            found.append(Stop(stop.number if stop.number == "G2" else f"G3 {stop.number}", stop.at))
            tokens, parse = next_part(tokens, stop.at), Grammar.rest
    return found


def found_end(text, at):
    """Returns the end of what is found at an offset: of the token there; if there is none, or its number or place is too large, of
    what looks like a number or an occurrence; or else of all up to the next separator."""
    if at == len(text):
        return at
    try:
        token, end = tree_files.token_at(text, at)
        if not is_too_large(token):
            return end
    except GrammarFault:
        pass
    return (LIKELY.match(text, at) or UP_TO_SEPARATOR.match(text, at)).end()
