"""Finds all faults of a grammar's text by their definitions, with their places, in the order in which `aggen` lists them.

It shares no code with the libraries. The tokens are those of tree_files.py. The faults N1 to N10 were written from docs/LANGUAGE,
docs/REFUSALS ("All faults of a grammar") and crates/normalform/specs/faults, and L1 from crates/llparse/specs: FIRST, FOLLOW, the
predictions of the textbook, and for each pair of productions the least look-ahead. `stuck_of` of stuck_messages.py says whether
passes evaluate a grammar (A1), pass by pass (Jazayeri and Walter, 1975).

The faults of a text that is no grammar (G2, G3) are found by text_faults.py. `faults_in` finds the list, and `object_of` returns
what `--json` says of the places of a fault.
"""
from bisect import bisect_right
from dataclasses import dataclass, field
from functools import cached_property
from itertools import accumulate, chain

import stuck_messages
import text_faults
import tree_files
from tree_files import CLASSES, GrammarFault

RESERVED = {"start", "symbol", "syn", "inh", *CLASSES}
MAX_SYMBOLS, MAX_ATTRIBUTES, MAX_PRODUCTIONS, MAX_ITEMS, MAX_CHILDREN = 256, 16, 512, 64, 16
MAX_LITERAL_BYTES, MAX_LITERALS, MAX_TEXT_BYTES = 255, 1024, 1_048_576


# Texts


@dataclass(frozen=True)
class Spot:
    """A token of a text: its kind and value as in tree_files.py, and its offsets in characters."""

    kind: str
    says: object
    at: int
    end: int


@dataclass
class RawSymbol:
    """The declaration of a symbol: its name and its attributes, as tokens, and its offsets."""

    name: Spot
    syn: list
    inh: list
    at: int
    end: int = 0

    def names(self):
        """Returns the names of the attributes, the synthesized ones first."""
        return [it.says for it in self.syn + self.inh]


@dataclass
class RawRule:
    """A rule: its target, each occurrence in its expression, the offsets of the expression, and the offset after the `;`."""

    target: Spot
    occurrences: list
    expression: tuple
    end: int

    def arguments(self):
        """Returns the occurrences, each once, where it appears first."""
        found = {}
        for it in self.occurrences:
            found.setdefault(it.says, it)
        return list(found.values())


@dataclass
class RawProduction:
    """A production: its left side, its items and its rules, the offset of its `{`, and the one after its `}`."""

    left: Spot
    items: list
    rules: list
    brace: int = 0
    end: int = 0

    def placed(self):
        """Returns the items that have a place, the left side first."""
        return [self.left, *(it for it in self.items if it.kind != "text")]


@dataclass
class Raw:
    """A grammar as its text has it, with names."""

    text: str
    start: Spot = None
    symbols: list = field(default_factory=list)
    productions: list = field(default_factory=list)

    @cached_property
    def offsets(self):
        """The offset in bytes of each character, and that of the end."""
        return [0, *accumulate(len(it.encode()) for it in self.text)]

    @cached_property
    def lines(self):
        """The offset in characters of each line."""
        return [0, *(at + 1 for at, it in enumerate(self.text) if it == "\n")]

    def symbol(self, name):
        """Returns the first declaration of a name, or None."""
        return next((it for it in self.symbols if it.name.says == name), None)

    def position(self, at):
        """Returns the line and the column of an offset in characters, both from 1."""
        line = bisect_right(self.lines, at)
        return line, at - self.lines[line - 1] + 1


class Reader:
    """Reads the tokens of a text one after the other. Expressions are not checked."""

    def __init__(self, text):
        self.text, self.spots, self.at = text, [], 0
        at = 0
        while True:
            while at < len(text) and text[at] in " \t\r\n":
                at += 1
            if at == len(text):
                break
            token, end = tree_files.token_at(text, at)
            self.spots.append(Spot(token.kind, token.says, at, end))
            at = end
        self.spots.append(Spot("end", None, len(text), len(text)))

    def next(self):
        return self.spots[self.at]

    def is_word(self, word):
        return (self.next().kind, self.next().says) == ("name", word)

    def take(self, kind, word=None):
        """Takes a token of a kind: the word if one is passed, else no reserved one."""
        spot = self.next()
        if spot.kind != kind or (spot.says != word if word else kind == "name" and spot.says in RESERVED):
            raise GrammarFault(f"offset {spot.at}: expected {word or kind}")
        self.at += 1
        return spot

    def names_after(self, word):
        """Takes a word and the names after it, or nothing."""
        if not self.is_word(word):
            return []
        self.take("name", word)
        taken = [self.take("name")]
        while self.next().kind == ",":
            self.take(",")
            taken.append(self.take("name"))
        return taken

    def symbol(self):
        at = self.take("name", "symbol").at
        symbol = RawSymbol(self.take("name"), self.names_after("syn"), self.names_after("inh"), at)
        symbol.end = self.take(";").end
        return symbol

    def item(self):
        spot = self.next()
        if spot.kind == "name" and spot.says in CLASSES:
            return self.take("name", spot.says)
        if spot.kind == "text" and (not spot.says or any(it in spot.says for it in " \t\r\n")):
            raise GrammarFault(f"offset {spot.at}: no literal")
        return self.take("text" if spot.kind == "text" else "name")

    def rule(self):
        target, occurrences = self.take("occurrence"), []
        begin = self.take("=").end
        while self.next().kind not in (";", "end"):
            spot = self.next()
            occurrences += [spot] if spot.kind == "occurrence" else []
            self.at += 1
        last = self.take(";")
        return RawRule(target, occurrences, (begin, last.at), last.end)

    def production(self):
        production = RawProduction(self.take("name"), [], [])
        self.take("=")
        while self.next().kind != "{":
            production.items.append(self.item())
        production.brace = self.take("{").at
        while self.next().kind != "}":
            production.rules.append(self.rule())
        production.end = self.take("}").end
        return production


def read(text):
    """Reads the text of a grammar. Fails with GrammarFault if it is none."""
    reader, raw = Reader(text), Raw(text)
    reader.take("name", "start")
    raw.start = reader.take("name")
    reader.take(";")
    while reader.is_word("symbol"):
        raw.symbols.append(reader.symbol())
    while reader.next().kind != "end":
        raw.productions.append(reader.production())
    return raw


# Faults


@dataclass
class Fault:
    """A fault: its number, the token at its place (None if it has no place), whether the line has the offset in bytes, the
    missing rules (N6), the related tokens, and the look-ahead as a message says it (L1)."""

    number: str
    spot: object
    has_offset: bool = True
    rules: list = field(default_factory=list)
    related: list = field(default_factory=list)
    ahead: str = ""


def is_class(spot):
    return spot.kind == "name" and spot.says in CLASSES


def names_at(raw, production, place):
    """Returns the names of the attributes at a place of a production: none if there is no such place, and None at a symbol that
    is not declared."""
    placed = production.placed()
    if place >= len(placed):
        return []
    if is_class(placed[place]):
        return ["lex"]
    symbol = raw.symbol(placed[place].says)
    return None if symbol is None else symbol.names()


def kind_of(raw, production, occurrence):
    """Returns the kind of the attribute that an occurrence names, "syn" or "inh"; None if it does not exist."""
    place, name = occurrence.says
    if name not in (names_at(raw, production, place) or []):
        return None
    spot = production.placed()[place]
    # of two attributes of one name it is the first
    return "syn" if is_class(spot) or name in [it.says for it in raw.symbol(spot.says).syn] else "inh"


def symbol_at(raw, production, occurrence):
    """Returns the name in the declaration of the symbol at the place of an occurrence, in a list; an empty list for a token."""
    placed = production.placed()
    spot = placed[occurrence.says[0]] if occurrence.says[0] < len(placed) else None
    symbol = None if spot is None or is_class(spot) else raw.symbol(spot.says)
    return [] if symbol is None else [symbol.name]


def unknown_names(raw):
    """N1: symbols that are not declared, and attributes that do not exist. Of an attribute of a symbol that is not declared
    nothing is said."""
    found = []
    for production in raw.productions:
        for spot in [production.left, *production.items]:
            if spot.kind == "name" and not is_class(spot) and raw.symbol(spot.says) is None:
                found.append(Fault("N1", spot))
        for spot in chain.from_iterable([rule.target, *rule.arguments()] for rule in production.rules):
            names = names_at(raw, production, spot.says[0])
            if names is not None and spot.says[1] not in names:
                found.append(Fault("N1", spot, related=symbol_at(raw, production, spot)))
    return found


def doubled_names(raw):
    """N2: symbols that are declared before, and attributes of which the same declaration has one of this name before."""
    found, symbols = [], {}
    for symbol in raw.symbols:
        attributes = {}
        for seen, spot in [(symbols, symbol.name), *((attributes, it) for it in symbol.syn + symbol.inh)]:
            first = seen.setdefault(spot.says, spot)
            if first is not spot:
                found.append(Fault("N2", spot, related=[first]))
    return found


def bad_start(raw):
    """N3: the start symbol is not declared, has an inherited attribute, or no synthesized attribute `out`."""
    symbol = raw.symbol(raw.start.says)
    if symbol and not symbol.inh and "out" in [it.says for it in symbol.syn]:
        return []
    return [Fault("N3", raw.start, has_offset=False)]


def closure(first, grow):
    """Returns the least set that has the elements `first` and with each set what `grow` finds for it."""
    found = set(first)
    while not (more := grow(found)) <= found:
        found |= more
    return found


def endless_and_unreached(raw):
    """N4: symbols from which no sentence can be built. N5: symbols that the start symbol does not reach."""
    clauses = [(it.left.says, {x.says for x in it.items if x.kind == "name" and not is_class(x)}) for it in raw.productions]
    productive = closure((), lambda found: {left for left, right in clauses if right <= found})
    reached = closure([raw.start.says], lambda found: set().union(*(right for left, right in clauses if left in found)))
    sets = (("N4", productive), ("N5", reached))
    return [Fault(number, it.name) for number, names in sets for it in raw.symbols if it.name.says not in names]


def missing_rules(raw):
    """N6: for a production, all attributes that it has to define and for which it has no rule."""
    found = []
    for production in raw.productions:
        targets = {rule.target.says for rule in production.rules}
        lacking = []
        for place, spot in enumerate(production.placed()):
            symbol = None if is_class(spot) else raw.symbol(spot.says)
            defined = [] if symbol is None else symbol.inh if place else symbol.syn
            lacking += [(place, it) for it in defined if (place, it.says) not in targets]
        if lacking:
            rules = [f"${place}.{it.says}" for place, it in lacking]
            found.append(Fault("N6", production.left, False, rules, [it for _, it in lacking]))
    return found


def wrong_rules(raw):
    """N7: a rule before it has the same target. N8: the target is an attribute that other productions define. N9: an argument is an
    attribute that the production defines. An attribute that does not exist has none of these."""
    doubled, foreign, own = [], [], []
    for production in raw.productions:
        targets = {}
        for rule in production.rules:
            place, kind = rule.target.says[0], kind_of(raw, production, rule.target)
            first = targets.setdefault(rule.target.says, rule.target)
            if kind is not None and first is not rule.target:
                doubled.append(Fault("N7", rule.target, related=[first]))
            if kind == ("syn" if place else "inh"):
                foreign.append(Fault("N8", rule.target, related=symbol_at(raw, production, rule.target)))
            for it in rule.arguments():
                if kind_of(raw, production, it) == ("inh" if it.says[0] else "syn"):
                    own.append(Fault("N9", it, related=symbol_at(raw, production, it)))
    return doubled + foreign + own


def exceeded_limits(raw):
    """N10: one fault for each limit, at the first symbol or production that exceeds it; a limit of the whole has no place."""
    def literals(production):
        return [it.says for it in production.items if it.kind == "text"]

    def first(spots, is_over):
        return next(([of_place] for of_place, it in spots if is_over(it)), [])

    symbols = [(it.name, it) for it in raw.symbols]
    productions = [(it.left, it) for it in raw.productions]
    different = {it for production in raw.productions for it in literals(production)}
    places = [
        [None] if len(symbols) > MAX_SYMBOLS else [],
        first(symbols, lambda it: len(it.names()) > MAX_ATTRIBUTES),
        [None] if len(productions) > MAX_PRODUCTIONS else [],
        first(productions, lambda it: len(it.items) > MAX_ITEMS),
        first(productions, lambda it: len(it.placed()) > MAX_CHILDREN + 1),
        first(productions, lambda it: any(len(x.encode()) > MAX_LITERAL_BYTES for x in literals(it))),
        [None] if len(different) > MAX_LITERALS else [],
    ]
    return [Fault("N10", it, has_offset=False) for it in chain.from_iterable(places)]


def name_faults(raw):
    """Returns the faults N1 to N10 of a grammar. What only follows from another fault is left out."""
    doubled = doubled_names(raw)
    names = unknown_names(raw) + doubled + bad_start(raw)
    structure = [] if names else endless_and_unreached(raw)
    missing = [] if doubled else missing_rules(raw)
    return names + structure + missing + wrong_rules(raw) + exceeded_limits(raw)


# Look-ahead


END = ("end", None)


def first_sets(productions, nullable):
    """Returns the terminals with which each symbol can begin."""
    first = {it.left: set() for it in productions}

    def of_items(items):
        """Returns FIRST of items."""
        found = set()
        for it in items:
            if it.kind != "symbol":
                return found | {(it.kind, it.which)}
            found |= first[it.which]
            if it.which not in nullable:
                return found
        return found

    grows = True
    while grows:
        sizes = sum(map(len, first.values()))
        for it in productions:
            first[it.left] |= of_items(it.items)
        grows = sizes < sum(map(len, first.values()))
    return of_items


def are_nullable(items, nullable):
    """Returns whether all items are nullable symbols."""
    return all(it.kind == "symbol" and it.which in nullable for it in items)


def follow_sets(grammar, first_of, nullable):
    """Returns the look-aheads that can follow each symbol."""
    follow = {it.left: set() for it in grammar.productions}
    follow[grammar.start].add(END)
    grows = True
    while grows:
        sizes = sum(map(len, follow.values()))
        for it in grammar.productions:
            for number, item in enumerate(it.items):
                if item.kind == "symbol":
                    rest = it.items[number + 1 :]
                    follow[item.which] |= first_of(rest)
                    if are_nullable(rest, nullable):
                        follow[item.which] |= follow[it.left]
        grows = sizes < sum(map(len, follow.values()))
    return follow


def predictions_of(grammar):
    """Returns the look-aheads that predict each production."""
    clauses = [(it.left, it.items) for it in grammar.productions]
    nullable = closure((), lambda found: {left for left, items in clauses if are_nullable(items, found)})
    first_of = first_sets(grammar.productions, nullable)
    follow = follow_sets(grammar, first_of, nullable)
    return [first_of(items) | (follow[left] if are_nullable(items, nullable) else set()) for left, items in clauses]


def said_ahead(ahead):
    """Returns a look-ahead as messages say it."""
    kind, which = ahead
    return f"`{which}`" if kind == "literal" else f"a {CLASSES[which]}" if kind == "class" else "the end of the text"


def conflicts_of(grammar):
    """Returns each two productions of one symbol that some look-ahead predicts both, by their numbers, with the least such
    look-ahead: literals in the order of the text, then classes, then the end."""
    literals = [it.which for production in grammar.productions for it in production.items if it.kind == "literal"]
    order = {("literal", it): number for number, it in enumerate(dict.fromkeys(literals))}
    order |= {("class", it): len(order) + it for it in range(len(CLASSES))}
    order[END] = len(order)
    predictions, found = predictions_of(grammar), []
    for second, it in enumerate(grammar.productions):
        for first in range(second):
            common = predictions[first] & predictions[second]
            if grammar.productions[first].left == it.left and common:
                found.append((first, second, min(common, key=order.get)))
    return sorted(found, key=lambda it: it[:2])


def plan_faults(raw):
    """Returns the faults L1 and A1 of a grammar without N1 to N10."""
    grammar = tree_files.grammar_in(raw.text)
    lefts = [it.left for it in raw.productions]
    found = [
        Fault("L1", lefts[first], False, related=[lefts[second]], ahead=said_ahead(ahead))
        for first, second, ahead in conflicts_of(grammar)
    ]
    return found + ([Fault("A1", None, False)] if stuck_messages.stuck_of(grammar) else [])


def faults_in(content):
    """Returns what is read of the bytes of a grammar, and its faults: G4 or G1. If there is none, those of the next kinds: G2 and
    G3, N1 to N10, L1 and A1."""
    if len(content) > MAX_TEXT_BYTES:
        return Raw(""), [Fault("G4", None, False)]
    try:
        text = content.decode()
    except UnicodeDecodeError as it:
        text = content[: it.start].decode()
        return Raw(text), [Fault("G1", Spot("", None, len(text), len(text)))]
    stops = text_faults.faults_of(text)
    if stops:
        return Raw(text), [Fault(it.number, Spot("", None, it.at, text_faults.found_end(text, it.at))) for it in stops]
    raw = read(text)
    return raw, name_faults(raw) or plan_faults(raw)


def place_of(raw, spot):
    """Returns the members of an object that are the place of a token."""
    first, last = raw.position(spot.at), raw.position(spot.end)
    return {
        "at": raw.offsets[spot.at], "end": raw.offsets[spot.end], "line": first[0], "column": first[1],
        "end_line": last[0], "end_column": last[1],
    }


def object_of(raw, fault):
    """Returns the object of a fault without its message and its remedy. The number of an expression's fault is G3 alone."""
    place = {} if fault.spot is None else place_of(raw, fault.spot)
    related = [place_of(raw, it) for it in fault.related]
    return {"number": fault.number.split()[0], **place, "rules": fault.rules, "related": related}
