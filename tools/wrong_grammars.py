"""Makes small accepted grammars from a seed, and plants faults in them and in others: G2 and G3, N1 to N10, L1 and A1.

`grammar_text` makes a grammar that can be evaluated in passes, and usually parsed. `planted` makes up to five changes in the text of
a grammar, which fault_lists.py reads, and `torn` changes up to five tokens of a text. What faults the text then has is not known
here: a change may cause several, or none.
"""
import re
from dataclasses import dataclass, field

import fault_lists
from tree_files import CLASSES, GrammarFault

SYMBOLS = ["S", "A", "B", "List", "Rest", "É", "größe", "let", "text", "_x", "項", "Name", "if1"]
ATTRIBUTES = ["s", "t", "env", "code", "lex", "if", "é", "值", "x1", "mod", "number", "_"]
LITERALS = ["a", "b", "if", "(", ")", ";", "+", "é", "=", "==", "{", '\\"', "\\\\", "x;y", "$1.s", "項"]
CONSTANTS = ['""', "0", "[]", "{}", '"a; $1.s é"', '"\\"; \\\\"', '"two\nlines"', 'let x = "é" in x ++ x', "007", "(1 + 2) * 3"]
# the places of `#` are those of attributes
EXPRESSIONS = [
    "#", "#", "#", "# ++ #", "[#, #]", "# + 1", 'put({}, "k", #)', "let y = # in [y, y, #]", "if # then # else 0", "text(#)",
    '"é\n;" ++ #', "(#) == #", "orelse(#, #)", "# + # * #",
]


@dataclass
class Symbol:
    """A symbol of a grammar that is made: its name, and its attributes with their layers. An attribute of layer k can be computed in
    pass k."""

    name: str
    syn: dict
    inh: dict = field(default_factory=dict)


def declaration(symbol):
    """Returns the declaration of a symbol as text."""
    lists = (("syn", symbol.syn), ("inh", symbol.inh))
    return f"symbol {symbol.name}" + "".join(f" {word} {', '.join(names)}" for word, names in lists if names) + ";"


class Maker:
    """Makes the text of a grammar from random numbers."""

    def __init__(self, random):
        self.random = random
        self.layers = random.choice([1, 2, 2, 2, 3])
        names = random.sample(SYMBOLS, random.choice([1, 2, 3, 3, 4, 5, 6]))
        self.symbols = [self.symbol(it) for it in names]
        out = random.choice([0, 1])
        start = self.symbols[0]
        others = [it for it in start.syn if it != "out"][: random.randrange(2)]
        start.inh, start.syn = {}, {it: self.layers for it in ([*others, "out"], ["out", *others])[out]}

    def symbol(self, name):
        random = self.random
        names = random.sample(ATTRIBUTES, random.randrange(5))
        count = random.randrange(len(names) + 1)
        layers = {it: random.randint(1, self.layers) for it in names}
        return Symbol(name, {it: layers[it] for it in names[:count]}, {it: layers[it] for it in names[count:]})

    def usable(self, children, place, layer):
        """Returns the occurrences that a rule for a place may use, if its target is of a layer. Odd layers go from right to
        left."""
        found = [f"$0.{name}" for name, it in children[0].inh.items() if it <= layer]
        for other, child in enumerate(children[1:], 1):
            if child is None:
                found.append(f"${other}.lex")
                continue
            is_visited = place == 0 or (other > place if layer % 2 else other < place)
            found += [f"${other}.{name}" for name, it in child.syn.items() if it < layer or it == layer and is_visited]
        return found

    def expression(self, usable):
        random = self.random
        if not usable or random.random() < 0.2:
            return random.choice(CONSTANTS)
        return re.sub("#", lambda _: random.choice(usable), random.choice(EXPRESSIONS))

    def rules(self, children):
        """Returns the rules of a production; a child is a symbol, or None for a token."""
        rules = []
        for place, child in enumerate(children):
            defined = {} if child is None else child.inh if place else child.syn
            for name, layer in defined.items():
                rules.append(f"${place}.{name} = {self.expression(self.usable(children, place, layer))};")
        self.random.shuffle(rules)
        return " ".join(rules)

    def production(self, number, required, begun, may_recurse):
        """Returns a production of the symbol with this number. Its right side has the symbols of the numbers `required`, and others,
        also earlier ones if `may_recurse`. It usually begins with a literal that is not in `begun`, which is added there."""
        random = self.random
        others = self.symbols if may_recurse else self.symbols[number + 1 :]
        items = [self.symbols[it] for it in required]
        items += random.choices([None, random.choice(LITERALS), *others], k=random.choice([0, 0, 1, 1, 2]))
        random.shuffle(items)
        left = [it for it in LITERALS if it not in begun]
        if left and (may_recurse or random.random() < 0.9):
            begun.append(random.choice(left[: random.choice([1, len(left)])]))
            items.insert(0, begun[-1])
        children = [self.symbols[number], *(it for it in items if not isinstance(it, str))]
        right = "".join(f" {self.written(it)}" for it in items)
        return f"{self.symbols[number].name} ={right} {{ {self.rules(children)} }}"

    def written(self, item):
        """Returns an item, which is a symbol, the text of a literal, or None for a token of some class."""
        return self.random.choice(CLASSES) if item is None else f'"{item}"' if isinstance(item, str) else item.name

    def text(self):
        """Returns the text: declarations and productions, each in some order."""
        random = self.random
        required = [[] for _ in self.symbols]
        for number in range(1, len(self.symbols)):
            required[random.randrange(number)].append(number)
        productions = []
        for number in range(len(self.symbols)):
            begun = []
            productions.append(self.production(number, required[number], begun, False))
            for _ in range(random.choice([0, 0, 1, 1, 2])):
                productions.append(self.production(number, [], begun, True))
        declarations = [declaration(it) for it in self.symbols]
        if random.random() < 0.5:
            random.shuffle(declarations)
            random.shuffle(productions)
        return "\n".join([f"start {self.symbols[0].name};", *declarations, *productions, ""])


def laid_out(random, text):
    """Returns a text with other separators between its tokens, or with no separators where none are needed."""
    style = random.choice(["same", "same", "dense", "loose"])
    if style == "same":
        return text
    spots, parts = fault_lists.Reader(text).spots, []
    for number, spot in enumerate(spots):
        before = spots[number - 1].kind if number else ";"
        if style == "loose":
            parts.append("".join(random.choice([" ", "\n", "\t", "\r\n", "  "]) for _ in range(random.choice([1, 1, 1, 2]))))
        elif before not in ";{}()[]," and spot.kind not in ";{}()[],":
            parts.append(" ")
        parts.append(text[spot.at : spot.end])
    return "".join(parts)


def grammar_text(random):
    """Returns the text of a grammar without N1 to N10 and without A1."""
    return laid_out(random, Maker(random).text())


# Changes. Each function returns a text with one change, or None if the grammar has no place for it.


def spliced(text, at, end, new):
    return text[:at] + new + text[end:]


def replaced(raw, spot, new):
    return spliced(raw.text, spot.at, spot.end, new)


def inserted(raw, at, new):
    return spliced(raw.text, at, at, new)


def choice(random, items):
    """Returns one of the items, or None if there are none."""
    return random.choice(items) if items else None


def other_name(random, raw):
    """Returns a name that is usually not declared."""
    declared = [it.name.says for it in raw.symbols]
    return random.choice([*SYMBOLS, "Nmae", random.choice(declared) + random.choice("sé1_") if declared else "X"])


def rules_of(raw):
    return [(production, rule) for production in raw.productions for rule in production.rules]


def occurrences_of(raw, wanted):
    """Returns each production with its occurrences that its rules define ("defined") or may use ("used"), as text."""
    found = []
    for production in raw.productions:
        texts = []
        for place, spot in enumerate(production.placed()):
            symbol = None if fault_lists.is_class(spot) else raw.symbol(spot.says)
            if symbol is None:
                texts += [f"${place}.lex"] if wanted == "used" else []
            else:
                names = symbol.inh if (place > 0) == (wanted == "defined") else symbol.syn
                texts += [f"${place}.{it.says}" for it in names]
        if texts:
            found.append((production, texts))
    return found


def constant_rules(raw, left, items):
    """Returns rules for all that a production has to define, given the texts of its left side and of its items."""
    rules = []
    for place, name in enumerate([left, *(it for it in items if it[0] != '"')]):
        symbol = None if name in CLASSES else raw.symbol(name)
        defined = [] if symbol is None else symbol.inh if place else symbol.syn
        rules += [f"${place}.{it.says} = 0;" for it in defined]
    return " ".join(rules)


def items_of(raw, production):
    """Returns the items of a production as they are written."""
    return [raw.text[it.at : it.end] for it in production.items]


def with_production(random, raw, left, items):
    """Returns a text with one more production, at the end or before another one."""
    added = f"{left} = {' '.join(items)} {{ {constant_rules(raw, left, items)} }}"
    before = choice(random, raw.productions) if random.random() < 0.5 else None
    return raw.text + "\n" + added if before is None else inserted(raw, before.left.at, added + " ")


def using(raw, rule, occurrence):
    """Returns a text in which a rule uses one more occurrence."""
    begin, end = rule.expression
    return spliced(raw.text, begin, end, f" [{raw.text[begin:end].strip()}, {occurrence}]")


def rename_symbol(random, raw):
    spots = [raw.start]
    for production in raw.productions:
        spots += [production.left, *(it for it in production.items if it.kind == "name")] * 2
    spots += [it.name for it in raw.symbols]
    return replaced(raw, random.choice(spots), other_name(random, raw))


def rename_attribute(random, raw):
    spots = []
    for _, rule in rules_of(raw):
        spots += [rule.target, *rule.occurrences]
    spot = choice(random, spots)
    if spot is None:
        return None
    place, name = spot.says
    far = f"${place + random.randint(1, 9)}.{name}"
    new = random.choice([f"${place}.{random.choice(ATTRIBUTES)}", f"${place}.{name}é", far])
    return replaced(raw, spot, random.choice([new, new, f"$000{new[1:]}"]))


def rename_declared_attribute(random, raw):
    spot = choice(random, [spot for it in raw.symbols for spot in it.syn + it.inh])
    return spot and replaced(raw, spot, random.choice([spot.says + "s", *ATTRIBUTES]))


def undeclare(random, raw):
    symbol = choice(random, raw.symbols)
    return symbol and spliced(raw.text, symbol.at, symbol.end, "")


def declare_again(random, raw):
    symbol, before = choice(random, raw.symbols), choice(random, raw.symbols)
    if symbol is None:
        return None
    names = random.sample(ATTRIBUTES, 2)
    other = declaration(Symbol(symbol.name.says, {names[0]: 1}, random.choice([{}, {names[1]: 1}])))
    new = random.choice([raw.text[symbol.at : symbol.end], f"symbol {symbol.name.says};", other])
    return inserted(raw, random.choice([before.at, before.end]), f" {new} ")


def declare_attribute_again(random, raw):
    symbol = choice(random, [it for it in raw.symbols if it.syn or it.inh])
    if symbol is None:
        return None
    spot, after = random.choice(symbol.syn + symbol.inh), random.choice(symbol.syn + symbol.inh)
    return inserted(raw, after.end, f", {spot.says}")


def change_start(random, raw):
    symbol = raw.symbol(raw.start.says)
    out = choice(random, [it for it in symbol.syn if it.says == "out"] if symbol else [])
    way = random.randrange(3)
    if out and way == 0:
        return replaced(raw, out, random.choice(ATTRIBUTES))
    if symbol and way == 1:
        return inserted(raw, symbol.end - 1, (", " if symbol.inh else " inh ") + random.choice(ATTRIBUTES))
    return replaced(raw, raw.start, random.choice([other_name(random, raw), *(it.name.says for it in raw.symbols)]))


def make_endless(random, raw):
    """Lets each production of a symbol contain it or another symbol, or removes all of them."""
    symbol = choice(random, raw.symbols)
    if symbol is None:
        return None
    name, text = symbol.name.says, raw.text
    added = random.choice([name, name, random.choice(raw.symbols).name.says, None])
    for it in reversed([it for it in raw.productions if it.left.says == name]):
        text = spliced(text, it.left.at, it.end, "") if added is None else spliced(text, it.brace, it.brace, f" {added} ")
    return text


def make_unreached(random, raw):
    """Adds a symbol that no other one uses, or replaces an item."""
    spot = choice(random, [it for production in raw.productions for it in production.items if it.kind == "name"])
    if spot and random.random() < 0.5:
        return replaced(raw, spot, random.choice(["NAME", '"a"', ""]))
    if not raw.symbols:
        return None
    name, attribute = random.choice(SYMBOLS) + "2", random.choice(ATTRIBUTES)
    last = raw.symbols[-1].end
    also = random.choice(["", f" {name}", f" {random.choice(raw.symbols).name.says}"])
    return inserted(raw, last, f" symbol {name} syn {attribute};") + f'\n{name} = "z"{also} {{ $0.{attribute} = 1; }}\n'


def remove_rules(random, raw):
    text = raw.text
    rules = [rule for _, rule in rules_of(raw)]
    for rule in sorted(random.sample(rules, min(len(rules), random.choice([1, 1, 2, 3]))), key=lambda it: -it.end):
        text = spliced(text, rule.target.at, rule.end, "")
    return text if rules else None


def declare_attribute(random, raw):
    symbol = choice(random, raw.symbols)
    spot = choice(random, symbol.syn + symbol.inh if symbol else [])
    return spot and inserted(raw, spot.end, f", {random.choice(ATTRIBUTES)}3")


def double_rule(random, raw):
    pair = choice(random, rules_of(raw))
    if pair is None:
        return None
    production, rule = pair
    text = raw.text[rule.target.at : rule.end]
    new = random.choice([text, f"${rule.target.says[0]}.{rule.target.says[1]} = 0;"])
    return inserted(raw, random.choice([it.target.at for it in production.rules] + [production.end - 1]), f" {new} ")


def define_foreign(random, raw):
    found = choice(random, occurrences_of(raw, "used"))
    if found is None:
        return None
    production, texts = found
    at = random.choice([it.end for it in production.rules] + [production.end - 1])
    return inserted(raw, at, f" {random.choice(texts)} = 1; ")


def use_own(random, raw):
    found = choice(random, occurrences_of(raw, "defined"))
    rule = choice(random, found[0].rules if found else [])
    return rule and using(raw, rule, random.choice(found[1]))


def exceed_limit(random, raw):
    production, symbol = choice(random, raw.productions), choice(random, raw.symbols)
    if production is None or symbol is None:
        return None
    spot = choice(random, symbol.syn + symbol.inh)
    ways = ["items", "items", "children", "children", "length", "length", "productions", "literals", "symbols"]
    way = random.choice(ways + ["attributes"] * (3 if spot else 0))
    if way == "attributes":
        count = 17 - len(symbol.names()) + random.randrange(-1, 2)
        return inserted(raw, spot.end, "".join(f", a{it}" for it in range(count)))
    if way == "items":
        return inserted(raw, production.brace, ' "x"' * (65 - len(production.items) + random.randrange(-1, 2)) + " ")
    if way == "children":
        return inserted(raw, production.brace, " NAME" * (18 - len(production.placed()) + random.randrange(-1, 2)) + " ")
    if way == "length":
        return inserted(raw, production.brace, f' "{"é" * 126}{"x" * random.choice([3, 4, 5])}" ')
    left = raw.productions[0].left.says
    rules = constant_rules(raw, left, [])
    if way == "productions":
        count = 512 - len(raw.productions) + random.randrange(0, 2)
        return raw.text + "\n" + "".join(f'{left} = "w{it}" {{ {rules} }}\n' for it in range(count))
    if way == "literals":
        numbers = range(1024 + random.randrange(-20, 2))
        rows = (" ".join(f'"v{it}"' for it in numbers[at : at + 60]) for at in range(0, len(numbers), 60))
        return raw.text + "\n" + "".join(f"{left} = {row} {{ {rules} }}\n" for row in rows)
    numbers = range(257 - len(raw.symbols) + random.randrange(-1, 1))
    text = inserted(raw, raw.symbols[-1].end, "".join(f"\nsymbol Y{it};" for it in numbers))
    rows = (" ".join(f"Y{it}" for it in numbers[at : at + 16]) for at in numbers[::16])
    used = "".join(f'{left} = "y{number}" {row} {{ {rules} }}\n' for number, row in enumerate(rows))
    return text + "\n" + used + "".join(f"Y{it} = {{ }}\n" for it in numbers)


def double_production(random, raw):
    it = choice(random, raw.productions)
    if it is None:
        return None
    at = random.choice([x.left.at for x in raw.productions] + [len(raw.text)])
    return inserted(raw, at, f" {raw.text[it.left.at : it.end]} ")


def begin_alike(random, raw):
    """Adds a production with the beginning of another one of its symbol, or of its items from some item on."""
    it = choice(random, raw.productions)
    if it is None:
        return None
    items = items_of(raw, it)
    items = items[: random.randint(0, len(items))] if random.random() < 0.7 else items[random.randint(0, len(items)) :]
    if random.random() < 0.5 and len(items) < 10:
        items = [*items, random.choice(['"a"', "NAME", it.left.says])]
    left = it.left.says if random.random() < 0.8 else random.choice(raw.productions).left.says
    return with_production(random, raw, left, items)


def add_empty(random, raw):
    left = choice(random, [it.left.says for it in raw.productions])
    return left and with_production(random, raw, left, [])


def recurse_left(random, raw):
    it = choice(random, raw.productions)
    if it is None:
        return None
    others = [x.name.says for x in raw.symbols] + ['"+"', "NAME"]
    first = random.choice([it.left.says, it.left.says, random.choice(others)])
    return with_production(random, raw, it.left.says, [first, *random.sample(others, random.randrange(min(3, len(others))))])


def change_literal(random, raw):
    spots = [it for production in raw.productions for it in production.items if it.kind == "text"]
    spot = choice(random, spots)
    other = random.choice(spots) if spots else None
    return spot and replaced(raw, spot, random.choice([raw.text[other.at : other.end], ""]))


def add_circle(random, raw):
    """Lets a rule for a child use an attribute of this child or of another one, or makes a short circle."""
    found = []
    for production in raw.productions:
        for rule in production.rules:
            if rule.target.says[0] == 0:
                continue
            for place, spot in enumerate(production.placed()):
                symbol = raw.symbol(spot.says) if place and not fault_lists.is_class(spot) else None
                found += [(rule, f"${place}.{it.says}") for it in (symbol.syn if symbol else [])]
    pair = choice(random, found)
    return pair and using(raw, *pair)


def add_both_ways(random, raw):
    """Adds productions of the start symbol that use a symbol from the right and from the left."""
    symbol = choice(random, [it for it in raw.symbols if it.syn and it.inh])
    start = raw.symbol(raw.start.says)
    if symbol is None or start is None:
        return None
    name, syn, inh = symbol.name.says, random.choice(symbol.syn).says, random.choice(symbol.inh).says
    text = raw.text
    for word, one, other in random.sample([("l", 1, 2), ("r", 2, 1), ("s", 1, 1)], 2):
        rules = constant_rules(raw, start.name.says, ['""', name, name])
        rules = rules.replace(f"${one}.{inh} = 0", f"${one}.{inh} = ${other}.{syn}").replace("$0.out = 0", "$0.out = $1." + syn)
        text += f'\n{start.name.says} = "{word}9" {name} {name} {{ {rules} }}'
    rule = choice(random, [it for _, it in rules_of(raw) if it.target.says == (0, syn)])
    if rule is None or rule.target.says[1] != syn:
        return text
    begin, end = rule.expression
    return spliced(text, begin, end, f" $0.{inh}") if random.random() < 0.8 else text


NAME_PLANTS = {
    "N1": [rename_symbol, rename_attribute, rename_attribute, undeclare, rename_declared_attribute],
    "N2": [declare_again, declare_attribute_again],
    "N3": [change_start],
    "N4": [make_endless],
    "N5": [make_unreached],
    "N6": [remove_rules, remove_rules, declare_attribute],
    "N7": [double_rule],
    "N8": [define_foreign],
    "N9": [use_own],
}
# N4 and N5 are looked for only without N1 to N3
LATER_PLANTS = {it: plants for it, plants in NAME_PLANTS.items() if it > "N3"}
LIMIT_PLANTS = {"N10": [exceed_limit]}
PLAN_PLANTS = {
    "L1": [double_production, begin_alike, begin_alike, add_empty, recurse_left, change_literal],
    "A1": [add_circle, add_circle, add_both_ways],
}


def planted(random, text):
    """Returns the text of a grammar with one to five faults planted, and the numbers that they are meant to have."""
    plants = random.choice([NAME_PLANTS, NAME_PLANTS, NAME_PLANTS | PLAN_PLANTS, LATER_PLANTS, PLAN_PLANTS, PLAN_PLANTS])
    if random.random() < 0.08:
        plants = random.choice([LIMIT_PLANTS, NAME_PLANTS | LIMIT_PLANTS])
    raw, meant = fault_lists.read(text), []
    for _ in range(random.randint(1, 5)):
        number = random.choice([*plants])
        changed = random.choice(plants[number])(random, raw)
        if changed is None:
            continue
        try:
            raw = fault_lists.read(changed)
        except GrammarFault:
            continue
        meant.append(number)
    return raw.text, meant


# tokens and other texts that are put in places of tokens
STRANGE = [
    ";", "=", "{", "}", "(", ")", "[", "]", ",", "+", "++", "==", "<", "let", "in", "if", "then", "else", "div", "len", "put",
    "symbol", "syn", "inh", "start", "NAME", "x", "É", "0", "9223372036854775807", '"x"', '""', '"two words"', "$0.out", "$1.lex",
    "{}", "let x =", "$0.s = 1;", "A = { }", "symbol B;", "((((", "if 1 then",
]
# those where no token begins, or one with a number that is too large
NO_TOKENS = [
    "@", "'a'", "|", "// x", "#", "$0", "$1 .s", '"\\q"', "9223372036854775808", "$65536.a", "$70000.s.t", "\u00a0", "\u200b",
]


def torn(random, text):
    """Returns a text with one to five tokens removed, doubled or replaced, or one quote removed, and the number of changes."""
    spots = fault_lists.Reader(text).spots[:-1]
    chosen = random.sample(spots, min(len(spots), random.randint(1, 5)))
    for spot in sorted(chosen, key=lambda it: -it.at):
        token = text[spot.at : spot.end]
        if token[0] == '"' and random.random() < 0.3:
            new = random.choice([token[1:], token[:-1]])
        elif random.random() < 0.02:
            new = "(" * random.choice([62, 63, 64, 65]) + token
        else:
            new = random.choice(["", "", f"{token} {token}", random.choice(STRANGE), f"{token} {random.choice(STRANGE)}"])
            new = random.choice(NO_TOKENS) if random.random() < 0.05 else new
        text = spliced(text, spot.at, spot.end, f" {new} ")
    return text, len(chosen)


def unreadable(random, text):
    """Returns the bytes of a text with some that are not UTF-8, or with spaces up to the greatest length or one byte more."""
    content = text.encode()
    if random.random() < 0.2:
        return content + b" " * (fault_lists.MAX_TEXT_BYTES - len(content) + random.randrange(2))
    at = len(text[: random.randint(0, len(text))].encode())
    return content[:at] + random.choice([b"\xff", b"\xc3", b"\xe2\x82", b"\xed\xa0\x80"]) + content[at:]
