"""Reads the rows of crates/cases about strikes, and answers them by the definition of the strikes of an assignment alone.

It shares no code with the libraries. Grammars are read by tree_files.py. `rows_in` yields the rows `strikes` and `least` with
the grammar that each is about, and `is_least` says whether lists of strikes are those of an assignment. A strike is
(symbol, attribute, production, rule, argument), all from 0; the passes of an assignment are a row of numbers for each symbol.
"""
from dataclasses import dataclass

import tree_files


@dataclass
class Row:
    """A row: its line, its verb, the text after the verb, its answer, and the text of the grammar that it is about."""

    line: int
    verb: str
    rest: str
    answer: str
    text: str


def rows_in(lines):
    """Yields the rows about strikes."""
    text = grammar = ""
    for number, line in enumerate(lines, 1):
        verb, _, rest = line.partition(" ")
        if verb == "text":
            text = rest
        elif verb == "more":
            text += "\n" + rest
        elif verb == "grammar":
            grammar = rest or text
        elif verb in ("strikes", "least"):
            yield Row(number, verb, rest, lines[number].removeprefix("= "), grammar)


def strikes_of(spelled):
    """Returns the lists of strikes that a row spells."""
    if spelled == "none":
        return []
    lists = [[] if part == "-" else part.split(" ") for part in spelled.split(" | ")]
    return [[tuple(map(int, one.split("."))) for one in part] for part in lists]


def passes_of(spelled):
    """Returns the passes that a row spells: by the numbers of a symbol and of an attribute, the attribute's pass."""
    rows = [] if spelled == "-" else spelled.split(" / ")
    numbers = [[] if row == "-" else row.split(" ") for row in rows]
    return {(symbol, attr): int(own) for symbol, row in enumerate(numbers) for attr, own in enumerate(row)}


def arguments_of(rule):
    """Returns the different occurrences in a rule's expression, in the order of their first appearance."""
    return list(dict.fromkeys(use.says for use in rule.uses))


class Strikes:
    """A grammar, and the answers about its strikes."""

    def __init__(self, text):
        self.grammar = tree_files.grammar_in(text)

    def attribute_at(self, production, says):
        """Returns the numbers of an attribute at a place, and None for that of a token."""
        item = self.grammar.item_at(production, says[0])
        if item.kind != "symbol":
            return None
        return item.which, self.grammar.symbols[item.which].attributes.index(says[1])

    def named(self, strike):
        """Returns the places of the target and of the argument that a strike names, and the argument's attribute. None if it
        names nothing, or a rule for another attribute."""
        symbol, attr, number, which, arg = strike
        if number >= len(self.grammar.productions):
            return None
        production = self.grammar.productions[number]
        if which >= len(production.rules):
            return None
        rule = production.rules[which]
        arguments = arguments_of(rule)
        if arg >= len(arguments) or self.attribute_at(production, rule.target.says) != (symbol, attr):
            return None
        return rule.target.says[0], arguments[arg][0], self.attribute_at(production, arguments[arg])

    def is_good(self, number, passes, struck, strike):
        """Returns whether a strike is valid in a pass: its argument is struck before it, or has this pass or a later one and is
        at the target's child or at a child that the pass visits later."""
        named = self.named(strike)
        if named is None or named[2] is None:
            return False
        place, other, used = named
        later = other <= place if number % 2 else other >= place
        is_ahead = place > 0 and other > 0 and later
        return used in struck or (is_ahead and passes.get(used, 0) >= number)

    def are_strikes(self, number, passes, strikes):
        """Returns whether a list has a valid strike for each attribute of a later pass, once, and no other strike."""
        struck = set()
        for one in strikes:
            attribute = one[:2]
            is_next = attribute not in struck and passes.get(attribute, 0) > number
            if not is_next or not self.is_good(number, passes, struck, one):
                return False
            struck.add(attribute)
        return struck == {attribute for attribute, own in passes.items() if own > number}

    def is_least(self, passes, lists):
        """Returns whether lists are the strikes of an assignment: one list for each pass."""
        if len(lists) != max(passes.values(), default=0):
            return False
        return all(self.are_strikes(number, passes, one) for number, one in enumerate(lists, 1))


def faults_in(lines, least_passes):
    """Returns the number of rows, the number of those answered `true`, and the faults. `least_passes` finds the passes of a
    grammar, by the names of symbols and attributes."""
    faults, count, right = [], 0, 0
    for row in rows_in(lines):
        strikes = Strikes(row.text)
        if row.verb == "least":
            passes, lists = row.rest.split(" : ")
            answer = strikes.is_least(passes_of(passes), strikes_of(lists))
            right += answer
            is_right = row.answer == str(answer).lower()
        else:
            names = least_passes(strikes.grammar)
            passes = {
                (number, attr): names[symbol.name, name]
                for number, symbol in enumerate(strikes.grammar.symbols)
                for attr, name in enumerate(symbol.attributes)
            }
            is_right = strikes.is_least(passes, strikes_of(row.answer))
        count += 1
        if not is_right:
            faults.append(f"crates/cases/stdin:{row.line}: `{row.answer}` is not the answer")
    return count, right, faults
