"""Checks the output of `aggen why` for a grammar, by docs/LANGUAGE alone.

It shares no code with the libraries. Grammars are read by tree_files.py. It finds the least passes of a grammar by their
definition, and then reads each printed line: the rule must be at its place, with that target and that argument, and the reason
must hold for the pass. Each rule of a chain waits for the attribute of the next one, and the last rule waits for none.
`check_grammar` and `check_attribute` read an answer, and a `Checker` collects its faults.
"""
import re
from collections import Counter
from itertools import takewhile

import tree_files
from stuck_messages import attribute_of, is_too_early, position_of, stuck_of

MAX_LINES, MAX_PASSES = 40, 20
NAMES = ("right-to-left", "left-to-right")
LINK = re.compile(
    r"  (\w+)\.(\w+): `\$(\d+)\.(\w+)` \((.+):(\d+):(\d+)\) uses `\$(\d+)\.(\w+)` \((\w+)\.(\w+)\), (.+)"
)
OTHERS = re.compile(r"  and (\d+) more")
FIRST = re.compile(r"(\d+) (pass|passes), no plan has fewer")
NEXT = re.compile(r"pass (\d+) computes (\w+)\.(\w+), since pass (\d+) \((\S+)\) can't:")
OWN = re.compile(r"pass (\d+) computes (\w+)\.(\w+)")
EARLIER = re.compile(r"pass (\d+) \((\S+)\) can't compute (\w+)\.(\w+):")
STUCK = re.compile(r"no plan computes all attributes, passes (\S+) wait for (this rule|these rules):")
EITHER = re.compile(r"passes (\S+) can't compute (\w+)\.(\w+):")
COPY = re.compile(r"\(*\s*\$\d+\.\w+\s*\)*")


def direction_of(number):
    """Returns the direction of a pass, 1 for left to right, else -1."""
    return 1 if number % 2 == 0 else -1


def name_of(direction):
    """Returns the name of a direction."""
    return NAMES[direction == 1]


def dependencies_of(grammar):
    """Returns each different dependency of a target on an argument: (place, target, place, argument)."""
    found = {}
    for production in grammar.productions:
        for rule in production.rules:
            target = attribute_of(grammar, production, rule.target.says)
            for use in rule.uses:
                argument = attribute_of(grammar, production, use.says)
                if argument is not None:
                    found[rule.target.says[0], target, use.says[0], argument] = None
    return list(found)


def passes_of(grammar):
    """Returns the least pass of each attribute that has one. Each pass computes the attributes that it can and that no earlier
    pass computes."""
    dependencies = dependencies_of(grammar)
    users = {}
    for one in dependencies:
        users.setdefault(one[3], []).append(one)
    left = {(symbol.name, name) for symbol in grammar.symbols for name in symbol.attributes}
    passes, number, idle = {}, 0, 0
    while left and idle < 2:
        number += 1
        direction = direction_of(number)
        waiting = [
            target
            for place, target, other, argument in dependencies
            if target in left and argument in left and is_too_early(direction, place, other)
        ]
        struck = set(waiting)
        while waiting:
            for _, target, _, _ in users.get(waiting.pop(), ()):
                if target in left and target not in struck:
                    struck.add(target)
                    waiting.append(target)
        passes |= {attribute: number for attribute in left - struck}
        idle = 0 if left - struck else idle + 1
        left = struck
    return passes


def is_copy(grammar, rule):
    """Returns whether the expression of a rule is one occurrence."""
    said = grammar.text[rule.target.at : grammar.text.index(";", rule.target.at)].partition("=")[2].strip()
    return COPY.fullmatch(said) is not None


def hints_of(grammar):
    """Returns the lines about attributes that no rule uses, and about those that are only copied."""
    used, rules, copies = set(), Counter(), Counter()
    for production in grammar.productions:
        for rule in production.rules:
            target = attribute_of(grammar, production, rule.target.says)
            rules[target] += 1
            copies[target] += is_copy(grammar, rule)
            used |= {attribute_of(grammar, production, use.says) for use in rule.uses}
    declared = [(symbol.name, name) for symbol in grammar.symbols for name in symbol.attributes]
    root = (grammar.symbols[grammar.start].name, "out")
    unused = [f"  {'.'.join(one)}" for one in declared if one not in used and one != root]
    copied = [
        f"  {'.'.join(one)} ({rules[one]} rule{'s' if rules[one] > 1 else ''})"
        for one in declared
        if rules[one] and rules[one] == copies[one]
    ]
    lines = []
    for head, names in (("no rule uses:", unused), ("only copied, each rule is one occurrence:", copied)):
        if names:
            lines += ["", head, *shortened(names)]
    return lines


def shortened(lines):
    """Returns the first forty lines, and the number of the others."""
    others = len(lines) - MAX_LINES
    return [*lines[:MAX_LINES], *([f"  and {others} more"] if others > 0 else [])]


class Checker:
    """A grammar with its least passes, and the faults of the lines about it."""

    def __init__(self, text, file):
        self.grammar = tree_files.grammar_in(text)
        self.file = file
        self.passes = passes_of(self.grammar)
        self.rules = {
            position_of(text, rule.target.at): (production, rule)
            for production in self.grammar.productions
            for rule in production.rules
        }
        declared = sum(len(symbol.attributes) for symbol in self.grammar.symbols)
        self.stuck = set(stuck_of(self.grammar)) if len(self.passes) < declared else set()
        self.faults = []
        self.links = 0

    def blame(self, why, line):
        """Adds a fault."""
        self.faults.append(f"{why}: {line}")

    def reason_for(self, pass_or_direction, places, used):
        """Returns the reason that holds for a rule, and whether the rule waits for what it uses."""
        (place, other), number = places, pass_or_direction
        if self.stuck:
            if not is_too_early(number, place, other):
                return "which no pass computes", True
            if place == other:
                return f"which is known only after the visit of ${place}", False
            return f"and ${other} is visited after ${place}", False
        own = self.passes[used]
        if not is_too_early(direction_of(number), place, other):
            return f"which pass {own} computes", True
        if place == other:
            return f"which pass {own} computes only during its visit of ${place}", False
        if own == number:
            return f"which pass {own} computes, but it visits ${other} after ${place}", False
        return f"which pass {own} computes, and pass {number} visits ${other} after ${place}", False

    def is_candidate(self, number, attribute):
        """Returns whether an attribute has no pass before one, or is stuck."""
        return attribute in self.stuck if self.stuck else self.passes[attribute] >= number

    def link(self, number, line):
        """Reads the line of a rule. Returns the attribute that it computes, the one that it uses, and whether it waits."""
        found = LINK.fullmatch(line)
        if not found:
            return self.blame("can't be read", line)
        symbol, name, place, written, file, row, column, other, use, owner, used, reason = found.groups()
        known = self.rules.get((int(row), int(column)))
        if known is None or file != self.file:
            return self.blame("no rule is there", line)
        production, rule = known
        target, argument = (int(place), written), (int(other), use)
        if rule.target.says != target or argument not in [one.says for one in rule.uses]:
            return self.blame("the rule is another", line)
        if attribute_of(self.grammar, production, target) != (symbol, name):
            return self.blame("the rule computes another attribute", line)
        if attribute_of(self.grammar, production, argument) != (owner, used):
            return self.blame("the rule uses another attribute", line)
        right, waits = self.reason_for(number, (target[0], argument[0]), (owner, used))
        if reason != right:
            return self.blame(f"the reason is not {right!r}", line)
        if not self.is_candidate(number, (owner, used)) or not self.is_candidate(number, (symbol, name)):
            return self.blame("an attribute is computed before", line)
        self.links += 1
        return (symbol, name), (owner, used), waits

    def chain(self, number, lines, first):
        """Checks the lines of a chain that begins with an attribute."""
        awaited, waits = first, True
        for count, line in enumerate(lines):
            if count == MAX_LINES and OTHERS.fullmatch(line):
                return
            link = self.link(number, line)
            if link is None:
                return
            if not waits or link[0] != awaited:
                self.blame("no rule before it waits for this one", line)
            _, awaited, waits = link
        if waits:
            self.blame("the chain has no end", ".".join(first))

    def plan(self, paragraphs):
        """Checks the answer about a plan, without its hints."""
        most = max(self.passes.values())
        head = FIRST.fullmatch("\n".join(paragraphs[0]))
        if not head or int(head[1]) != most or (head[2] == "pass") != (most == 1):
            return self.blame("the number of passes is another", paragraphs[0])
        numbers = [number for number in range(2, most + 1) if number in self.passes.values()]
        if len(numbers) != len(paragraphs) - 1:
            return self.blame("a pass is missing, or there is one too many", numbers)
        for number, (line, *links) in zip(numbers, paragraphs[1:]):
            found = NEXT.fullmatch(line)
            if not found or (found[1], found[4], found[5]) != (str(number), str(number - 1), name_of(direction_of(number - 1))):
                self.blame("the heading is another", line)
            elif self.passes[found[2], found[3]] != number:
                self.blame("the attribute has another pass", line)
            else:
                self.chain(number - 1, links, (found[2], found[3]))

    def attribute(self, paragraphs, pair):
        """Checks the answer about an attribute."""
        name, own = ".".join(pair), self.passes[pair]
        if own == 1:
            if paragraphs != [[f"pass 1 computes {name}, and no pass is earlier"]]:
                self.blame("it has pass 1", paragraphs)
            return
        numbers = list(range(own - 1, 0, -1))
        others = numbers[MAX_PASSES:]
        if paragraphs[0] != [f"pass {own} computes {name}"]:
            self.blame("the attribute has another pass", paragraphs[0])
        if others:
            last = "pass 1 can't compute it either" if others == [1] else f"passes {others[0]} to 1 can't compute it either"
            if paragraphs.pop() != [last]:
                self.blame("the number of the other passes is another", last)
        if len(paragraphs) - 1 != len(numbers[:MAX_PASSES]):
            return self.blame("a pass is missing, or there is one too many", name)
        for number, (line, *links) in zip(numbers, paragraphs[1:]):
            if line != f"pass {number} ({name_of(direction_of(number))}) can't compute {name}:":
                self.blame("the heading is another", line)
            self.chain(number, links, pair)

    def obstacles(self, paragraph):
        """Checks the rules that all attributes without a pass wait for."""
        line, *links = paragraph
        found = STUCK.fullmatch(line)
        if not found or found[1] not in NAMES:
            return self.blame("the heading is another", line)
        direction = 1 if found[1] == NAMES[1] else -1
        shown = list(takewhile(lambda one: not OTHERS.fullmatch(one), links))
        if (found[2] == "this rule") != (len(links) == 1):
            self.blame("the number of rules is another", line)
        for one in shown:
            link = self.link(direction, one)
            if link and link[2]:
                self.blame("the rule waits for another", one)

    def stuck_attribute(self, paragraphs, pair):
        """Checks the answer about an attribute of a grammar that no order of passes evaluates."""
        name = ".".join(pair)
        if pair not in self.stuck:
            if paragraphs != [[f"{name} is not one of the attributes that no pass computes"]]:
                self.blame("a pass computes it", paragraphs)
            return
        if paragraphs[0] != [f"no pass computes {name}"] or len(paragraphs) != 3:
            return self.blame("not two directions", paragraphs)
        for direction, (line, *links) in zip((-1, 1), paragraphs[1:]):
            if line != f"passes {name_of(direction)} can't compute {name}:":
                self.blame("the heading is another", line)
            self.chain(direction, links, pair)


def paragraphs_of(lines):
    """Returns the paragraphs of lines, which empty lines separate."""
    return [part.split("\n") for part in "\n".join(lines).split("\n\n")]


def rules_in(printed):
    """Returns the rules that `why` prints for a grammar: the passes that each makes needed, by its line and column and what it
    uses."""
    rules, number = {}, None
    for line in printed.splitlines():
        if found := NEXT.fullmatch(line):
            number = int(found[1])
        elif found := LINK.fullmatch(line):
            rules.setdefault((int(found[6]), int(found[7]), (int(found[8]), found[9])), set()).add(number)
    return rules


def check_grammar(checker, printed):
    """Checks the output of `why` for a grammar."""
    lines, hints = printed.split("\n"), hints_of(checker.grammar)
    if lines.pop() != "" or (hints and lines[-len(hints) :] != hints):
        return checker.blame("the hints are not", "\n".join(hints))
    paragraphs = paragraphs_of(lines[: len(lines) - len(hints)])
    if not checker.stuck:
        checker.plan(paragraphs)
    elif len(paragraphs) != 1:
        checker.blame("not one paragraph", paragraphs)
    else:
        checker.obstacles(paragraphs[0])


def check_attribute(checker, printed, pair):
    """Checks the output of `why` for an attribute, which is a symbol's name and an attribute's name."""
    lines = printed.split("\n")
    if lines.pop() != "":
        return checker.blame("no line break at the end", printed)
    paragraphs = paragraphs_of(lines)
    if checker.stuck:
        checker.stuck_attribute(paragraphs, pair)
    else:
        checker.attribute(paragraphs, pair)
