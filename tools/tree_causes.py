"""Finds where errors arise in a tree file of the last pass, by docs/LANGUAGE.md and docs/FORMATS.md alone.

`study` evaluates each rule on the values in the file, and follows each error to the occurrence that passed it on, or to the rule
in which it arises. It shares no code with the crates, so that the program's explanations can be compared with it
(`tests/causes`).
"""
import re

from tree_files import Failure, Tokens, grammar_in, pass_of, read_tree

LEAST, GREATEST = -(2**63), 2**63 - 1
CALLS = {"len": 1, "text": 1, "number": 1, "keys": 1, "iserr": 1, "nth": 2, "append": 2, "join": 2, "get": 2, "has": 2,
         "orelse": 2, "put": 3}


# Expressions


def parse(tokens):
    """Reads an expression up to a `;`, a `)`, a `]`, a `,` or a reserved word, and returns it as nested tuples."""
    if tokens.is_word("let"):
        tokens.step()
        name = tokens.take("name").says
        tokens.take("=")
        bound = parse(tokens)
        tokens.take("name", "in")
        return ("let", name, bound, parse(tokens))
    if tokens.is_word("if"):
        tokens.step()
        condition = parse(tokens)
        tokens.take("name", "then")
        yes = parse(tokens)
        tokens.take("name", "else")
        return ("if", condition, yes, parse(tokens))
    left = chain(tokens, 0)
    if tokens.next.kind in ("==", "<"):
        sign = tokens.step().kind
        return ("op", sign, left, chain(tokens, 0))
    return left


LEVELS = [("++",), ("+", "-"), ("*", "div", "mod")]


def sign_of(tokens):
    """Returns the sign or word of the next token, which may be an operator."""
    return tokens.next.says if tokens.next.kind == "name" and tokens.next.says in ("div", "mod") else tokens.next.kind


def chain(tokens, level):
    """Reads operands with operators of a level between them."""
    if level == len(LEVELS):
        return atom(tokens)
    left = chain(tokens, level + 1)
    while sign_of(tokens) in LEVELS[level]:
        sign = sign_of(tokens)
        tokens.step()
        left = ("op", sign, left, chain(tokens, level + 1))
    return left


def atom(tokens):
    """Reads an operand."""
    token = tokens.step()
    if token.kind in ("number", "text"):
        return ("value", token.says)
    if token.kind == "occurrence":
        return ("occurrence", token.says)
    if token.kind == "name" and token.says in CALLS:
        tokens.take("(")
        arguments = [parse(tokens)]
        while tokens.next.kind == ",":
            tokens.step()
            arguments.append(parse(tokens))
        tokens.take(")")
        return ("call", token.says, arguments)
    if token.kind == "name":
        return ("name", token.says)
    if token.kind == "(":
        inner = parse(tokens)
        tokens.take(")")
        return inner
    if token.kind == "[":
        items = []
        while tokens.next.kind != "]":
            items.append(parse(tokens))
            if tokens.next.kind == ",":
                tokens.step()
        tokens.step()
        return ("list", items)
    tokens.take("}")
    return ("value", {})


def weight(value):
    """Returns the length of the spelling of a value, in bytes."""
    if isinstance(value, int):
        return 9
    if isinstance(value, str):
        return 5 + len(value.encode())
    if isinstance(value, list):
        return 5 + sum(map(weight, value))
    if isinstance(value, dict):
        return 5 + sum(4 + len(key.encode()) + weight(it) for key, it in value.items())
    return 2


def depth(value):
    """Returns the depth of nested lists and tables."""
    if isinstance(value, list):
        return 1 + max(map(depth, value), default=0)
    if isinstance(value, dict):
        return 1 + max(map(depth, value.values()), default=0)
    return 0


def fit(value):
    """Returns a value, or the error of the limit that it exceeds."""
    if isinstance(value, (int, Failure)):
        return value
    if depth(value) > 64:
        return Failure("deep")
    return Failure("big") if weight(value) > 1_048_576 else value


def ranged(number):
    """Returns a number, or the error `overflow`."""
    return number if LEAST <= number <= GREATEST else Failure("overflow")


def is_number(value):
    """Returns whether a value is a number."""
    return isinstance(value, int)


HERE = "here"


def evaluate(expr, lookup, bound):
    """The value, and of an error its source: an occurrence, or HERE."""
    kind = expr[0]
    if kind == "value":
        return made(fit(expr[1]))
    if kind == "occurrence":
        value = lookup(expr[1])
        return value, (expr[1] if isinstance(value, Failure) else None)
    if kind == "name":
        return bound[expr[1]]
    if kind == "let":
        return evaluate(expr[3], lookup, {**bound, expr[1]: evaluate(expr[2], lookup, bound)})
    if kind == "if":
        condition = evaluate(expr[1], lookup, bound)
        if isinstance(condition[0], Failure):
            return condition
        if not is_number(condition[0]):
            return made(Failure("kind"))
        return evaluate(expr[2] if condition[0] != 0 else expr[3], lookup, bound)
    arguments = [evaluate(it, lookup, bound) for it in (expr[2:] if kind == "op" else expr[2] if kind == "call" else expr[1])]
    if kind == "call" and expr[1] == "iserr":
        return made(int(isinstance(arguments[0][0], Failure)))
    if kind == "call" and expr[1] == "orelse":
        return arguments[1] if isinstance(arguments[0][0], Failure) else arguments[0]
    for argument in arguments:
        if isinstance(argument[0], Failure):
            return argument
    values = [argument[0] for argument in arguments]
    if kind == "list":
        return made(fit(values))
    return made(operated(expr[1], *values))


def made(value):
    """A value that the expression itself computes."""
    return value, (HERE if isinstance(value, Failure) else None)


def operated(name, a, b=None, c=None):
    """The value of an operator or a call, of arguments that are not errors."""
    both = is_number(a) and is_number(b)
    if name == "==":
        return int(type(a) is type(b) and a == b)
    if name == "<":
        if both:
            return int(a < b)
        return int(a.encode() < b.encode()) if isinstance(a, str) and isinstance(b, str) else Failure("kind")
    if name in ("+", "-", "*"):
        return ranged({"+": a + b, "-": a - b, "*": a * b}[name]) if both else Failure("kind")
    if name in ("div", "mod"):
        if not both:
            return Failure("kind")
        if b == 0:
            return Failure("divide")
        quotient = abs(a) // abs(b) * (1 if (a < 0) == (b < 0) else -1)
        return ranged(quotient) if name == "div" else a - b * quotient
    if name == "++":
        if type(a) is type(b) and isinstance(a, (str, list)):
            return fit(a + b)
        return Failure("kind")
    if name == "len":
        return Failure("kind") if is_number(a) else len(a.encode()) if isinstance(a, str) else len(a)
    if name == "nth":
        if not (isinstance(a, list) and is_number(b)):
            return Failure("kind")
        return a[b] if 0 <= b < len(a) else Failure("index")
    if name == "append":
        return fit([*a, b]) if isinstance(a, list) else Failure("kind")
    if name == "join":
        if not (isinstance(a, list) and isinstance(b, str) and all(isinstance(it, str) for it in a)):
            return Failure("kind")
        return fit(b.join(a))
    if name == "text":
        return str(a) if is_number(a) else Failure("kind")
    if name == "number":
        if not isinstance(a, str):
            return Failure("kind")
        if not re.fullmatch("-?[0-9]+", a, re.ASCII) or not LEAST <= int(a) <= GREATEST:
            return Failure("number")
        return int(a)
    if name == "put":
        if not (isinstance(a, dict) and isinstance(b, str)):
            return Failure("kind")
        return fit(dict(sorted({**a, b: c}.items(), key=lambda it: it[0].encode())))
    if name in ("get", "has"):
        if not (isinstance(a, dict) and isinstance(b, str)):
            return Failure("kind")
        if name == "has":
            return int(b in a)
        return a[b] if b in a else Failure("key")
    return sorted(a, key=str.encode) if isinstance(a, dict) else Failure("kind")


def expression_of(grammar, rule):
    """Returns the expression of a rule."""
    tokens = Tokens(grammar.text[rule.target.at :])
    tokens.take("occurrence")
    tokens.take("=")
    return parse(tokens)


# Trees


class Node:
    """A node with its record, its children by their places, the places from the root, and the number of tokens before it."""

    def __init__(self, record):
        self.record, self.children, self.path, self.before = record, {}, None, 0


def tree_in(grammar, content):
    """Returns the nodes of a file of the last pass, in the order of reading."""
    last = pass_of(content)
    # the file has all attributes, so any passes up to the last one fit
    passes = {(number, name): 1 for number, symbol in enumerate(grammar.symbols) for name in symbol.attributes}
    nodes = []
    answer = read_tree(content, grammar, passes, last, lambda record: nodes.append(Node(record)))
    if answer.fault is not None:
        raise SystemExit(f"R1 at {answer.fault}: {answer.why}")
    for node in nodes:
        if node.record.parent is not None:
            nodes[node.record.parent].children[node.record.place] = node
    return nodes


def in_order(grammar, root):
    """Returns the nodes in the order of the sentence, each with its path and the number of tokens before it; and the number of
    all tokens."""
    order, before = [], 0
    stack = [(root, ())]
    while stack:
        it, path = stack.pop()
        if it is None:
            before += 1
            continue
        it.path, it.before = path, before
        order.append(it)
        if it.record.production is None:
            before += 1
            continue
        place, todo = 0, []
        for item in grammar.productions[it.record.production].items:
            if item.kind == "literal":
                todo.append((None, None))
            else:
                place += 1
                todo.append((it.children[place], (*path, place)))
        stack += reversed(todo)
    return order, before


def value_at(node, occurrence):
    """Returns the value of an occurrence in a rule of a node."""
    place, name = occurrence
    return (node if place == 0 else node.children[place]).record.values[name]


def expressions_of(grammar):
    """Returns the expression of each rule of each production."""
    return [[expression_of(grammar, rule) for rule in production.rules] for production in grammar.productions]


def arising(grammar, expressions, order):
    """Returns the rules in which errors arise, in the order of the sentence, each with its node; and the number of values in the
    file that differ from those of their rules."""
    found, wrong = [], 0
    for node in order:
        if node.record.production is None:
            continue
        for number, rule in enumerate(grammar.productions[node.record.production].rules):
            value, source = evaluate(expressions[node.record.production][number], lambda it, node=node: value_at(node, it), {})
            wrong += value != value_at(node, rule.target.says)
            if source == HERE:
                found.append((node, number))
    return found, wrong


def cause_of(grammar, expressions, nodes):
    """Returns the node and the number of the rule in which the error of the root's `out` arises, and the number of rules that
    passed it on."""
    parents = {id(child): it for it in nodes for child in it.children.values()}
    node, target, steps = nodes[0], (0, "out"), 0
    while True:
        rules = grammar.productions[node.record.production].rules
        number = next(number for number, rule in enumerate(rules) if rule.target.says == target)
        _, source = evaluate(expressions[node.record.production][number], lambda it, node=node: value_at(node, it), {})
        if source == HERE:
            return node, number, steps
        steps += 1
        place, name = source
        if place == 0:
            target = (node.record.place, name)
            node = parents[id(node)]
        else:
            node, target = node.children[place], (0, name)


def study(grammar_text, content):
    """Returns the grammar, the nodes in the order of the sentence, the rules in which errors arise, the number of wrong values,
    and the cause of the error of the root's `out`, or None if that is not an error."""
    grammar = grammar_in(grammar_text)
    nodes = tree_in(grammar, content)
    order, _ = in_order(grammar, nodes[0])
    expressions = expressions_of(grammar)
    found, wrong = arising(grammar, expressions, order)
    is_error = isinstance(nodes[0].record.values["out"], Failure)
    return grammar, order, found, wrong, cause_of(grammar, expressions, nodes) if is_error else None
