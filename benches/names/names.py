"""Sentences of names.ag in this folder, and variants of that grammar: one with a pass that reads the tables, and some with
chains of nodes that only pass the table on."""
from pathlib import Path

# the number of declarations of a procedure, itself included, and the number of imported names
IN_PROC = 10
IMPORTED = 60

NAMES = Path(__file__).resolve().with_suffix(".ag").read_text()


def grouped(words, size):
    """Puts words into nested groups of at most `size` parts, so that the list of them is not deep."""
    while len(words) > size:
        words = ["{ " + " ".join(words[at : at + size]) + " }" for at in range(0, len(words), size)]
    return " ".join(words)


def operand(seed, proc, local, imported):
    """Returns the operand that a seed chooses: a number, or a name that is declared at this place. One seed in 97 chooses an
    unknown name."""
    if seed % 97 == 0:
        return f"none{seed % 7}"
    kind, choice = seed % 4, seed // 4
    if kind == 0:
        return str(choice % 1000)
    if kind == 1 and local > 0:
        return f"x{choice % local}"
    return f"proc{choice % proc}" if kind == 2 and proc > 0 else f"lib{choice % imported}"


def expression(seed, proc, local, imported):
    """Returns an expression of three different operands."""
    a, b, c = (operand(3 * seed + 31 * at + 1, proc, local, imported) for at in range(3))
    forms = [f"{a} + {b} * {c}", f"{a} * ({b} + {c})", f"-{a} < {c} | {b} * {c}", f"({a} < {b} & {c}) + {b}"]
    return forms[seed % len(forms)]


def sentence(declarations, imported=IMPORTED, in_proc=IN_PROC):
    """Returns a sentence with this number of declarations. Each procedure sees those before it, and has constants whose names
    repeat in all procedures."""
    lines = ["use " + grouped([f"lib{index}" for index in range(imported)], 10) + ";"]
    for proc in range(declarations // in_proc):
        lines.append(f"proc proc{proc} {{")
        for local in range(in_proc - 1):
            lines.append(f"  let x{local} = {expression(7919 * proc + 104729 * local, proc, local, imported)};")
        lines.append(f"  return {operand(4 * proc + 1, proc, in_proc - 1, imported)}; }}")
    return "\n".join(lines) + "\n"


def replaced(grammar, replacements):
    """Replaces texts that each occur once in the grammar."""
    for before, after in replacements:
        if grammar.count(before) != 1:
            raise SystemExit(f"names: expected once in the grammar, found {grammar.count(before)} times: {before}")
        grammar = grammar.replace(before, after)
    return grammar


def read_again():
    """Returns the grammar with a third pass, from right to left, which reads all tables and writes them again: it adds to each
    constant the sum of the procedures after its own."""
    return replaced(NAMES, [
        ("Procs syn count, sum, wrong inh env", "Procs syn count, sum, wrong, late inh env"),
        ("Decls syn count, after, wrong inh env", "Decls syn count, after, wrong, late inh env, rest"),
        ("Decl syn after, wrong inh env", "Decl syn after, wrong, late inh env, rest"),
        ('" names are unknown"', '" names are unknown, late " ++ text($2.late)'),
        ("$3.env = $2.after;", "$2.rest = $4.sum; $0.late = ($2.late + $4.late) mod 65521; $3.env = $2.after;"),
        ("Procs = { ", "Procs = { $0.late = 0; "),
        ("$0.count = 1 +", "$0.late = ($1.late + $2.late) mod 65521; $1.rest = $0.rest; $2.rest = $0.rest; $0.count = 1 +"),
        ("Decls = { ", "Decls = { $0.late = 0; "),
        ('["constant", $2.value]);', '["constant", $2.value]); $0.late = ($2.value + $0.rest) mod 65521;'),
    ])


def chain(links, attributes, last):
    """Returns the declarations and the productions of nodes Link0, Link1, .. that only pass their values on, down to a symbol."""
    rules = "{ " + " ".join(f"$0.{it} = $1.{it};" for it in attributes) + " $1.env = $0.env; }\n"
    names = [f"Link{index}" for index in range(links)]
    symbols = "".join(f"symbol {name} syn {', '.join(attributes)} inh env;\n" for name in names)
    return symbols, "".join(f"{name} = {below} {rules}" for name, below in zip(names, [*names[1:], last]))


def linked_values(links):
    """Returns the grammar with this number of nodes between a procedure and its value, which only pass their values on. The nodes of
    one procedure are done before those of the next one begin."""
    symbols, productions = chain(links, ["value", "wrong"], "Expr")
    changes = [("symbol Decls", symbols + "symbol Decls"), ('Decls "return" Expr ";"', 'Decls "return" Link0 ";"')]
    return replaced(NAMES, changes) + productions


def linked_procedures(links):
    """Returns the grammar with this number of nodes between a procedure and the next one, which only pass their values on. So the
    nodes of all procedures are on the way from the root to the last one."""
    symbols, productions = chain(links, ["count", "sum", "wrong"], "Procs")
    changes = [("symbol Decls", symbols + "symbol Decls"), ('";" "}" Procs {', '";" "}" Link0 {')]
    return replaced(NAMES, changes) + productions
