"""Makes grammars that no order of passes evaluates, and checks the messages of `aggen` about them (A1), by docs/LANGUAGE alone.

It shares no code with the libraries. Grammars are read by tree_files.py. `changed_grammars` changes one argument of one rule, and
`faults_of` reads a message and checks each reason in it against the grammar.
"""
import random
import re
import subprocess
from dataclasses import dataclass

import tree_files

DIRECTIONS = {"right to left": -1, "left to right": 1}
MESSAGE = re.compile(
    r"A1((?: \S+)+): no number of passes computes these attributes \(a value depends on itself, or an attribute needs different "
    r"passes at different nodes\)\. From (right to left|left to right), all of them wait for (this rule|these rules): (.+), "
    r"(change it|change one or more of them), or use a separate attribute for each pass\n"
)
REASON = re.compile(
    r"`\$(\d+)\.(\w+)` \((.+):(\d+):(\d+)\) uses `\$(\d+)\.(\w+)`, (?:and \$(\d+) is visited after \$(\d+)"
    r"|which is known only after the visit of \$(\d+))"
)
OTHERS = re.compile(r"and (\d+) more")
MAX_NAMED = 8


@dataclass
class Changed:
    """A grammar with one argument changed: its text, and the line and column of the changed rule, both from 1."""

    text: str
    line: int
    column: int


def position_of(text, at):
    """Returns the line and the column of an offset in characters, both from 1."""
    return text.count("\n", 0, at) + 1, at - text.rfind("\n", 0, at)


def is_inherited(grammar, item, name):
    """Returns whether a symbol has an inherited attribute of this name."""
    if item.kind != "symbol":
        return False
    symbol = grammar.symbols[item.which]
    return name in symbol.attributes[symbol.synthesized :]


def synthesized_of(grammar, item):
    """Returns the names of the synthesized attributes of a symbol, and none of a class."""
    if item.kind != "symbol":
        return []
    symbol = grammar.symbols[item.which]
    return symbol.attributes[: symbol.synthesized]


def changes_of(grammar):
    """Returns each change: a rule for an inherited attribute of a child, one of its arguments, and a synthesized attribute of the
    same or a later child in place of it."""
    changes = []
    for production in grammar.productions:
        last = len(production.stored())
        for rule in production.rules:
            place, name = rule.target.says
            if place == 0 or not is_inherited(grammar, grammar.item_at(production, place), name):
                continue
            for use in rule.uses:
                for other in range(place, last + 1):
                    for synthesized in synthesized_of(grammar, grammar.item_at(production, other)):
                        if use.says != (other, synthesized):
                            changes.append((rule, use, (other, synthesized)))
    return changes


def change(text, rule, use, other):
    """Returns a text in which a rule uses another attribute in place of one of its arguments."""
    parts, end = [], rule.target.at
    done = rule.target.at
    while True:
        while text[end] in " \t\r\n":
            end += 1
        token, after = tree_files.token_at(text, end)
        if token.kind == ";":
            break
        if token.kind == "occurrence" and token.says == use.says and end != rule.target.at:
            parts += [text[done:end], f"${other[0]}.{other[1]}"]
            done = after
        end = after
    return text[: rule.target.at] + "".join(parts) + text[done:]


def changed_grammars(paths, seed):
    """Yields each grammar with one argument changed, in an order by a seed."""
    changes = []
    for path in paths:
        text = path.read_text()
        changes += [(text, *one) for one in changes_of(tree_files.grammar_in(text))]
    random.Random(seed).shuffle(changes)
    for text, rule, use, other in changes:
        yield Changed(change(text, rule, use, other), *position_of(text, rule.target.at))


def message_of(program, folder, text):
    """Returns what `plan` prints on standard error for a grammar."""
    (folder / "stuck.ag").write_text(text)
    words = [program, "plan", "stuck.ag"]
    run = subprocess.run(words, cwd=folder, stdout=subprocess.DEVNULL, stderr=subprocess.PIPE, timeout=120)
    return run.stderr.decode()


# Messages, checked against the grammar


def attribute_of(grammar, production, says):
    """Returns the attribute of an occurrence as (symbol's name, attribute), and None for that of a token."""
    item = grammar.item_at(production, says[0])
    return (grammar.symbols[item.which].name, says[1]) if item.kind == "symbol" else None


def dependencies_of(grammar):
    """Returns each dependency of each rule: the target's place and attribute, and those of what it uses."""
    found = []
    for production in grammar.productions:
        for rule in production.rules:
            target = attribute_of(grammar, production, rule.target.says)
            for use in rule.uses:
                argument = attribute_of(grammar, production, use.says)
                if argument is not None:
                    found.append((rule.target.says[0], target, use.says[0], argument))
    return found


def is_too_early(direction, place, other):
    """Returns whether a pass evaluates a rule for a place before it has visited the child at the other place."""
    return place != 0 and other != 0 and (place == other or (other - place) * direction > 0)


def struck_by(dependencies, candidates, first):
    """Returns the candidates that wait for the first ones, and these."""
    struck, grows = set(first), True
    while grows:
        more = {target for _, target, _, argument in dependencies if target in candidates and argument in struck}
        grows = not more <= struck
        struck |= more
    return struck


def stuck_of(grammar):
    """Returns the attributes that no pass can have, in declared order."""
    dependencies = dependencies_of(grammar)
    declared = [(symbol.name, name) for symbol in grammar.symbols for name in symbol.attributes]
    left, direction, idle = set(declared), -1, 0
    while left and idle < 2:
        first = {
            target
            for place, target, other, argument in dependencies
            if target in left and argument in left and is_too_early(direction, place, other)
        }
        struck = struck_by(dependencies, left, first)
        idle = idle + 1 if struck == left else 0
        left, direction = struck, -direction
    return [attribute for attribute in declared if attribute in left]


def rule_at(grammar, line, column):
    """Returns the production and the rule whose target is at a line and a column; None if there is none."""
    for production in grammar.productions:
        for rule in production.rules:
            if position_of(grammar.text, rule.target.at) == (line, column):
                return production, rule
    return None


def fault_of_reason(grammar, direction, stuck, reason):
    """Returns the fault of a printed reason, and the attribute that it is about; None for no fault."""
    found = REASON.fullmatch(reason)
    if not found:
        return f"can't be read: {reason}", None
    place, name, _, line, column, other, used, later, than, within = found.groups()
    known = rule_at(grammar, int(line), int(column))
    if known is None:
        return f"no rule is at {line}:{column}", None
    production, rule = known
    target, argument = (int(place), name), (int(other), used)
    if rule.target.says != target or argument not in [use.says for use in rule.uses]:
        return f"the rule at {line}:{column} is another: {reason}", None
    if within is not None:
        holds = int(within) == int(place) == int(other)
    else:
        holds = (int(later), int(than)) == (int(other), int(place)) and (int(other) - int(place)) * direction > 0
    if not holds or target[0] == 0 or argument[0] == 0:
        return f"the pass is not too early: {reason}", None
    attributes = [attribute_of(grammar, production, says) for says in (target, argument)]
    if any(attribute not in stuck for attribute in attributes):
        return f"an attribute of it has a pass: {reason}", None
    return None, attributes[0]


def faults_of(text, message):
    """Returns the faults of the message A1 for a grammar's text, which are none if each reason holds."""
    grammar = tree_files.grammar_in(text)
    found = MESSAGE.fullmatch(message)
    if not found:
        return [f"the message can't be read: {message}"]
    stuck = stuck_of(grammar)
    if [f"{symbol}.{name}" for symbol, name in stuck] != found[1].split():
        return [f"the attributes are not those that no pass can have: {found[1]}"]
    direction, reasons, faults, named = DIRECTIONS[found[2]], found[4].split("; "), [], []
    others = OTHERS.fullmatch(reasons[-1])
    if others:
        reasons.pop()
    for reason in reasons:
        fault, attribute = fault_of_reason(grammar, direction, stuck, reason)
        faults += [fault] if fault else []
        named.append(attribute)
    if len(set(named)) != len(named) or len(reasons) > MAX_NAMED or (others and len(reasons) < MAX_NAMED):
        faults.append("the rules are not named once each, or not eight at most")
    ends = ("this rule", "change it") if len(reasons) == 1 else ("these rules", "change one or more of them")
    if (found[3], found[5]) != ends:
        faults.append("the number of rules is another")
    if not faults and not others and struck_by(dependencies_of(grammar), set(stuck), named) != set(stuck):
        faults.append("some attribute waits for none of the rules")
    return faults
