"""Reads grammars and tree files, by docs/LANGUAGE and docs/FORMATS alone.

It shares no code with the libraries, so that their answers can be compared with its own (`benches/mutate`), and pictures show
the content of a file (`tools/picture`). It is not proved. Nothing here recurses over a tree.

`grammar_in` reads the parts of a grammar's text that its trees and its passes need, `passes_in` reads the output of
`aggen plan`, and `read_tree` reads a tree file.
"""
import re
from dataclasses import dataclass, field

LETTERS = b"AGT2"
HEADER = 6
# 16 values of the node's own, and 16 for each of 16 children
LONGEST_BODY = 3 + 272 * 1_048_576
LONGEST_SPELLING = 1_048_576
DEEPEST_VALUE = 64
LONGEST_LEX = 65_535
# the limits of a tree: its levels, and its nodes and tokens
MAX_LEVELS, MAX_RECORDS = 65_536, 1_048_576
CLASSES = ("NAME", "NUMBER", "TEXT")
ERRORS = ("overflow", "divide", "kind", "index", "key", "number", "big", "deep")


# Grammars


class GrammarFault(Exception):
    """The text is not a grammar, or a name in it is not declared."""


@dataclass(frozen=True)
class Token:
    """A token of a grammar's text: its kind ("name", "number", "text", "occurrence" or a sign), its value, and its offset in
    characters. The value of an occurrence is its place and its attribute."""

    kind: str
    says: object
    at: int


@dataclass(frozen=True)
class Item:
    """An item of a right side: a symbol's or a class's number, or a literal's text."""

    kind: str
    which: object


@dataclass
class Symbol:
    """A symbol: its attributes in declared order, the synthesized ones first, and the number of synthesized ones."""

    name: str
    attributes: list
    synthesized: int = 0


@dataclass
class Rule:
    """A rule: its target and the occurrences in its expression, as tokens."""

    target: Token
    uses: list


@dataclass
class Production:
    """A production: its left side's number, its items and its rules."""

    left: int
    items: list
    rules: list
    at: int

    def stored(self):
        """Returns the items that have a place, from place 1 on."""
        return [item for item in self.items if item.kind != "literal"]


@dataclass
class Grammar:
    """A grammar. Symbols and productions are numbered from 0, in the order of the text."""

    text: str
    symbols: list = field(default_factory=list)
    productions: list = field(default_factory=list)
    start: int = 0

    def number_of(self, name):
        """Returns the number of the symbol with this name. Fails if none is declared."""
        for number, symbol in enumerate(self.symbols):
            if symbol.name == name:
                return number
        raise GrammarFault(f"no symbol {name} is declared")

    def name_of(self, item):
        """Returns an item as it is written."""
        if item.kind == "literal":
            return f'"{item.which}"'
        return CLASSES[item.which] if item.kind == "class" else self.symbols[item.which].name

    def item_at(self, production, place):
        """Returns the symbol or class at a place of a production; place 0 is its left side. Fails if it has no such place."""
        items = [Item("symbol", production.left), *production.stored()]
        if place >= len(items):
            raise GrammarFault(f"a production of {self.symbols[production.left].name} has no place {place}")
        return items[place]

    def written(self, number):
        """Returns a production as it is written, without its rules."""
        production = self.productions[number]
        right = "".join(f" {self.name_of(item)}" for item in production.items)
        return f"{self.symbols[production.left].name} ={right}"

    def line_of(self, at):
        """Returns the line of an offset, from 1."""
        return self.text.count("\n", 0, at) + 1


SIGN = re.compile(r"\+\+|==|[-+*<=()\[\]{},;]")
NUMBER = re.compile(r"[0-9]+")
TEXT = re.compile(r'"((?:[^"\\]|\\["\\ntr])*)"')
PLACE = re.compile(r"\$([0-9]+)\.")
ESCAPE = re.compile(r"\\(.)")
ESCAPED = {"n": "\n", "t": "\t", "r": "\r"}


def name_end(text, at):
    """Returns the end of the name that begins at an offset: XID_Start or `_`, then XID_Continue. Returns the offset if no name
    begins there."""
    if not text[at : at + 1].isidentifier():
        return at
    end = at + 1
    while end < len(text) and ("_" + text[end]).isidentifier():
        end += 1
    return end


def token_at(text, at):
    """Returns the longest token that begins at an offset, and its end. Fails if none begins there."""
    if place := PLACE.match(text, at):
        end = name_end(text, place.end())
        if end > place.end():
            return Token("occurrence", (int(place[1]), text[place.end() : end]), at), end
    elif (end := name_end(text, at)) > at:
        return Token("name", text[at:end], at), end
    elif it := NUMBER.match(text, at):
        return Token("number", int(it[0]), at), it.end()
    elif it := TEXT.match(text, at):
        said = ESCAPE.sub(lambda found: ESCAPED.get(found[1], found[1]), it[1])
        return Token("text", said, at), it.end()
    elif it := SIGN.match(text, at):
        return Token(it[0], it[0], at), it.end()
    raise GrammarFault(f"no token begins in line {text.count(chr(10), 0, at) + 1}")


class Tokens:
    """The tokens of a text, in order. Spaces, tabs, CR and LF separate them."""

    def __init__(self, text):
        self.text, self.end = text, 0
        self.next = None
        self.step()

    def step(self):
        """Takes the next token."""
        taken, at = self.next, self.end
        while at < len(self.text) and self.text[at] in " \t\r\n":
            at += 1
        if at < len(self.text):
            self.next, self.end = token_at(self.text, at)
        else:
            self.next, self.end = Token("end", None, at), at
        return taken

    def is_word(self, word):
        """Returns whether the next token is this name."""
        return (self.next.kind, self.next.says) == ("name", word)

    def take(self, kind, word=None):
        """Takes a token of a kind, which is `word` if one is passed. Fails if the next token is another one."""
        if self.next.kind != kind or word not in (None, self.next.says):
            line = self.text.count("\n", 0, self.next.at) + 1
            raise GrammarFault(f"line {line}: expected {word or kind}, found {self.next.says or self.next.kind}")
        return self.step()

    def names(self):
        """Takes names that commas separate."""
        taken = [self.take("name").says]
        while self.next.kind == ",":
            self.step()
            taken.append(self.take("name").says)
        return taken


def symbol_in(tokens):
    """Reads a symbol: "symbol" name [ "syn" names ] [ "inh" names ] ";" """
    tokens.take("name", "symbol")
    symbol = Symbol(tokens.take("name").says, [])
    for word in ("syn", "inh"):
        if tokens.is_word(word):
            tokens.step()
            symbol.attributes += tokens.names()
        if word == "syn":
            symbol.synthesized = len(symbol.attributes)
    tokens.take(";")
    return symbol


def item_in(tokens, grammar):
    """Reads an item: name | literal | "NAME" | "NUMBER" | "TEXT" """
    if tokens.next.kind == "text":
        return Item("literal", tokens.step().says)
    name = tokens.take("name").says
    if name in CLASSES:
        return Item("class", CLASSES.index(name))
    return Item("symbol", grammar.number_of(name))


def rule_in(tokens):
    """Reads a rule: occurrence "=" expr ";". Of the expression it keeps only the occurrences; no expression contains a `;`
    outside a text."""
    target, uses = tokens.take("occurrence"), []
    tokens.take("=")
    while tokens.next.kind not in (";", "end"):
        token = tokens.step()
        if token.kind == "occurrence" and token.says not in [it.says for it in uses]:
            uses.append(token)
    tokens.take(";")
    return Rule(target, uses)


def production_in(tokens, grammar):
    """Reads a production: name "=" { item } "{" { rule } "}" """
    left = tokens.take("name")
    tokens.take("=")
    production = Production(grammar.number_of(left.says), [], [], left.at)
    while tokens.next.kind != "{":
        production.items.append(item_in(tokens, grammar))
    tokens.step()
    while tokens.next.kind != "}":
        production.rules.append(rule_in(tokens))
    tokens.step()
    return production


def grammar_in(text):
    """Reads a grammar: "start" name ";" { symbol } { production }. Expressions are not checked, but each occurrence must have a
    place and an attribute that exist."""
    tokens, grammar = Tokens(text), Grammar(text)
    tokens.take("name", "start")
    start = tokens.take("name").says
    tokens.take(";")
    while tokens.is_word("symbol"):
        grammar.symbols.append(symbol_in(tokens))
    while tokens.next.kind != "end":
        grammar.productions.append(production_in(tokens, grammar))
    grammar.start = grammar.number_of(start)
    for production in grammar.productions:
        for rule in production.rules:
            for place, attribute in [it.says for it in (rule.target, *rule.uses)]:
                item = grammar.item_at(production, place)
                there = ["lex"] if item.kind == "class" else grammar.symbols[item.which].attributes
                if attribute not in there:
                    raise GrammarFault(f"{grammar.name_of(item)} has no attribute {attribute}")
    return grammar


PASS_LINE = re.compile(r"pass (\d+) (right-to-left|left-to-right):((?: \S+)*)")


def passes_in(listing, grammar):
    """Returns the pass of each attribute, by its symbol's number and its name, from the output of `aggen plan`."""
    passes = {}
    for number, line in enumerate(listing.splitlines(), 1):
        found = PASS_LINE.fullmatch(line)
        if not found or int(found[1]) != number or (found[2] == "right-to-left") != (number % 2 == 1):
            raise GrammarFault(f"no line of a plan: {line}")
        for name in found[3].split():
            symbol, _, attribute = name.partition(".")
            passes[grammar.number_of(symbol), attribute] = number
    every = {(number, it) for number, symbol in enumerate(grammar.symbols) for it in symbol.attributes}
    if passes.keys() != every:
        raise GrammarFault("the plan is of another grammar")
    return passes


# Values


class Malformed(Exception):
    """The bytes do not begin with the spelling of a well value."""


@dataclass(frozen=True)
class Failure:
    """An error value."""

    name: str


def bytes_at(content, at, length):
    """Returns `length` bytes from an offset on, and the offset after them."""
    if at + length > len(content):
        raise Malformed
    return content[at : at + length], at + length


def count_at(content, at):
    """Returns a number of four bytes, and the offset after it."""
    there, end = bytes_at(content, at, 4)
    return int.from_bytes(there, "big"), end


def text_at(content, at):
    """Returns a text, which is spelled as its length in four bytes and its UTF-8, and the offset after it."""
    length, at = count_at(content, at)
    there, end = bytes_at(content, at, length)
    try:
        return bytes(there).decode("utf-8"), end
    except UnicodeDecodeError:
        raise Malformed from None


def list_at(content, at, levels):
    """Returns a list, which is spelled as a count and its values, and the offset after it. No value is an error."""
    count, at = count_at(content, at)
    items = []
    for _ in range(count):
        item, at = any_value_at(content, at, levels)
        if isinstance(item, Failure):
            raise Malformed
        items.append(item)
    return items, at


def table_at(content, at, levels):
    """Returns a table, which is spelled as a count and its keys with their values, and the offset after it. The bytes of the
    keys are in ascending order, and no value is an error."""
    count, at = count_at(content, at)
    pairs, before = {}, None
    for _ in range(count):
        key, at = text_at(content, at)
        value, at = any_value_at(content, at, levels)
        if isinstance(value, Failure) or (before is not None and key.encode() <= before):
            raise Malformed
        pairs[key], before = value, key.encode()
    return pairs, at


def any_value_at(content, at, levels):
    """Returns the value that is spelled from an offset on, and the offset after it. `levels` is the number of lists and tables
    around it."""
    kind, at = bytes_at(content, at, 1)
    if kind[0] == 0:
        there, end = bytes_at(content, at, 8)
        return int.from_bytes(there, "big", signed=True), end
    if kind[0] == 1:
        return text_at(content, at)
    if kind[0] in (2, 3) and levels < DEEPEST_VALUE:
        return (list_at, table_at)[kind[0] - 2](content, at, levels + 1)
    if kind[0] == 4:
        number, end = bytes_at(content, at, 1)
        if 1 <= number[0] <= len(ERRORS):
            return Failure(ERRORS[number[0] - 1]), end
    raise Malformed


def value_at(content, at):
    """Returns the well value that is spelled from an offset on, and the offset after it."""
    value, end = any_value_at(content, at, 0)
    if end - at > LONGEST_SPELLING:
        raise Malformed
    return value, end


SHOWN = {'"': '\\"', "\\": "\\\\", "\n": "\\n", "\r": "\\r", "\t": "\\t"}


def shown(value):
    """Returns a value as text for a reader."""
    if isinstance(value, int):
        return str(value)
    if isinstance(value, str):
        return '"' + "".join(SHOWN.get(it, it) for it in value) + '"'
    if isinstance(value, list):
        return "[" + ", ".join(map(shown, value)) + "]"
    if isinstance(value, dict):
        return "{" + ", ".join(f"{shown(key)}: {shown(it)}" for key, it in value.items()) + "}"
    return f"error {value.name}"


# Tree files


@dataclass
class Record:
    """A record of a tree file: its own values by name, in declared order; the number of its parent's record in the order of
    reading (None for the root); its place there; and its level, from 1. A token has no production."""

    item: Item
    production: object
    values: dict
    parent: object
    place: int
    level: int


@dataclass
class Answer:
    """The answer for a content. Without a fault it is the file of a tree; `fault` is the offset that R1 prints. `beyond` is the
    limit that was exceeded first, from the end of the file: P2 if a record was expected one level too deep, P3 if one record too
    many was expected, and empty if neither happened."""

    records: int = 0
    fault: object = None
    why: str = ""
    beyond: str = ""

    def refusal(self):
        """Returns the first refusal, as a line of the program begins; empty for the file of a tree within the limits."""
        return self.beyond or ("" if self.fault is None else f"R1 at {self.fault}")


def pass_of(content):
    """Returns the number of the pass that wrote a file, or None if it does not begin as a tree file."""
    if len(content) < HEADER or content[:4] != LETTERS:
        return None
    return int.from_bytes(content[4:HEADER], "big")


def body_before(content, end):
    """Returns the offset of the body whose frame ends at an offset, or None if no frame ends there. A frame is a body after the
    header, and its length in four bytes, from 3 to 285,212,675."""
    if end - HEADER < 4:
        return None
    length = int.from_bytes(content[end - 4 : end], "big")
    if not 3 <= length <= min(LONGEST_BODY, end - 4 - HEADER):
        return None
    return end - 4 - length


def values_in(spellings, at, count):
    """Returns `count` values from an offset on, the offset of each, and the offset after the last one."""
    values, offsets = [], [at]
    for _ in range(count):
        value, at = value_at(spellings, at)
        values.append(value)
        offsets.append(at)
    return values, offsets


class Reader:
    """Reads records of a grammar's trees in files of one pass."""

    def __init__(self, grammar, passes, number):
        """Makes a reader. `passes` may be None for pass 0, which has no values of attributes."""
        self.grammar, self.number = grammar, number
        self.known, self.copied = [], []
        for symbol, it in enumerate(grammar.symbols):
            by = [bool(number) and passes[symbol, name] <= number for name in it.attributes]
            self.known.append([name for name, is_known in zip(it.attributes, by) if is_known])
            self.copied.append(sum(by[: it.synthesized]))
        self.children = [production.stored() for production in grammar.productions]

    def copies_of(self, item):
        """Returns the number of values of a child that its parent's record copies: the synthesized ones, or a token's text."""
        return 1 if item.kind == "class" else self.copied[item.which]

    def token_in(self, spelling):
        """Returns the value of a token, and the copy of it that its parent's record must have, as bytes."""
        (lex,), (_, end) = values_in(spelling, 0, 1)
        if end != len(spelling) or not isinstance(lex, str) or len(lex.encode()) > LONGEST_LEX:
            raise Malformed
        return {"lex": lex}, spelling

    def record_in(self, body, item, copy):
        """Reads a body as a record of an item. Returns its production (None for a token), its values, and its copies for each
        child, as bytes. Fails if it is not such a record, or if `copy`, the bytes in its parent's record, is different."""
        kind, which, spellings = body[0], int.from_bytes(body[1:3], "big"), body[3:]
        if item.kind == "class":
            values, copied = self.token_in(spellings)
            if (kind, which) != (1, item.which) or copy not in (None, copied):
                raise Malformed
            return None, values, []
        if kind != 0 or which >= len(self.children) or self.grammar.productions[which].left != item.which:
            raise Malformed
        names, copies = self.known[item.which], []
        values, offsets = values_in(spellings, 0, len(names))
        if copy not in (None, spellings[: offsets[self.copied[item.which]]]):
            raise Malformed
        for child in self.children[which]:
            begin = offsets[-1]
            offsets += values_in(spellings, begin, self.copies_of(child))[1]
            copies.append(spellings[begin : offsets[-1]])
        if offsets[-1] != len(spellings):
            raise Malformed
        return which, dict(zip(names, values)), copies

    def pending_children(self, production, copies, record, level):
        """Returns the children whose records are expected after that of a node, the last one first, each with its copies in the
        node's record. In the file of an even pass the rightmost child is first."""
        places = list(enumerate(zip(self.children[production], copies), 1))
        if self.number % 2 == 1:
            places.reverse()
        return [(item, copy, record, place, level + 1) for place, (item, copy) in places]


def read_tree(content, grammar, passes, number, visit=None):
    """Reads a content as the file of a pass: its frames from the end, each as the record that the tree expects there. Calls
    `visit` with each record, and stops at the first fault. The offset of the fault is 0 if the content does not begin as a tree
    file, 4 if it is of another pass, and 6 if a frame is missing. Otherwise it is the end of the frame that is damaged, that is
    not the expected record, that differs from the copy in its parent's record, or that is left over."""
    answer = Answer()
    if pass_of(content) != number:
        is_none = pass_of(content) is None
        answer.fault, answer.why = (0, "no tree file begins so") if is_none else (4, "the file is of another pass")
        return answer
    reader, end = Reader(grammar, passes, number), len(content)
    awaited = [(Item("symbol", grammar.start), None, None, 0, 1)]
    while awaited:
        item, copy, parent, place, level = awaited.pop()
        answer.beyond = answer.beyond or limit_beyond(level, answer.records)
        begin = body_before(content, end)
        try:
            if begin is None:
                raise Malformed
            production, values, copies = reader.record_in(content[begin : end - 4], item, copy)
        except Malformed:
            answer.fault, answer.why = end, reason_at(grammar, begin, end, item)
            return answer
        if visit:
            visit(Record(item, production, values, parent, place, level))
        if production is not None:
            awaited += reader.pending_children(production, copies, answer.records, level)
        answer.records, end = answer.records + 1, begin
    if end != HEADER:
        answer.fault, answer.why = end, "the tree is whole, and something is left over"
    return answer


def limit_beyond(level, before):
    """Returns the limit that a record at a level exceeds, after `before` records; empty within the limits."""
    if level > MAX_LEVELS:
        return "P2"
    return "P3" if before == MAX_RECORDS else ""


def reason_at(grammar, begin, end, item):
    """Returns why no record of an item ends at `end`. `begin` is the offset of the body, or None if no frame ends there."""
    if end == HEADER:
        return f"the record of {grammar.name_of(item)} is missing"
    if begin is None:
        return "no frame ends here"
    return f"no record of {grammar.name_of(item)} ends here"
