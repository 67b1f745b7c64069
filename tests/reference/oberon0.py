"""Oberon-0 from the definition of the language: a parser, a checker and an interpreter, written without examples/oberon0.ag.

`python3 oberon0.py FILE` prints the mistakes of the module in the file, a line each, and ends with status 1; or it runs the
module on standard input. A run that ends with a fault prints its message on standard error and has status 1 too.

The parts of a module become functions at once: parsing an expression or a statement checks it and returns what it does, as a
function of the frame of the call. A frame is a dictionary of the variables of a call, with the frame of the procedure around it
under the key None.
"""
import re
import sys
import threading
from dataclasses import dataclass, field
from typing import Any, Callable

TOKEN = re.compile(r"\s*(?:([^\W\d]\w*)|(\d+)|(:=|\.\.|<=|>=|[-+*=#<>&~.,;:|()\[\]]))")
KEYWORDS = set("""MODULE CONST TYPE VAR PROCEDURE BEGIN END ARRAY OF RECORD IF THEN ELSIF ELSE WHILE DO FOR TO BY CASE DIV MOD
OR""".split())
LEAST, GREATEST = -(2**63), 2**63 - 1
MAX_CALLS = 10000
MAX_ELEMENTS = 1000000


class Fault(Exception):
    """A run ends with a fault: a result out of range, an index outside its array, and so on."""


class NoModule(Exception):
    """The text is not a module: a token can't be accepted."""


@dataclass(eq=False)
class Type:
    """A type, which is equal only to itself: its name, and the length and element type of an array or the fields of a record."""

    name: str
    length: int = 0
    element: Any = None
    fields: dict | None = None

    def new(self):
        """Returns the value of a new variable."""
        if self.element is not None:
            return [self.element.new() for _ in range(self.length)]
        if self.fields is not None:
            return {name: of.new() for name, of in self.fields.items()}
        return 0


INTEGER, BOOLEAN, UNKNOWN = Type("INTEGER"), Type("BOOLEAN"), Type("?")


@dataclass
class Entry:
    """The meaning of a name: its kind, its type, the scope that declares it, the value of a constant, whether a variable is a VAR
    parameter, and the procedure."""

    kind: str
    type: Type
    scope: Any = None
    value: Any = None
    procedure: Any = None


@dataclass
class Procedure:
    """A procedure: its parameters as (name, is VAR, type), its level, the types of its variables, and its statements."""

    parameters: list
    level: int
    variables: dict = field(default_factory=dict)
    body: Callable = None


@dataclass
class Scope:
    """A module or a procedure: its path for messages, its level, its names, its mistakes and those of procedures in it."""

    path: str
    level: int
    outer: Any
    names: dict = field(default_factory=dict)
    wrong: list = field(default_factory=list)
    nested: list = field(default_factory=list)
    variables: dict = field(default_factory=dict)

    def find(self, name):
        """Returns the entry of a name in this scope or the next one around it that has it, or None."""
        scope = self
        while scope is not None:
            if name in scope.names:
                return scope.names[name]
            scope = scope.outer
        return None

    def declare(self, name, entry):
        """Declares a name, and records a mistake if it is already declared."""
        if name in self.names:
            self.wrong.append(f"{name} is declared twice")
        entry.scope = self
        self.names[name] = entry

    def lines(self):
        """Returns the mistakes of this scope and of those in it, each with its path."""
        return [f"{self.path}: {line}" for line in self.wrong] + self.nested


@dataclass
class Operand:
    """An expression: its type, the function of a frame that computes it, and its value if it is constant. A variable also has the
    function of a frame that returns its place, as a container and a key."""

    type: Type
    compute: Callable
    constant: Any = None
    place: Callable = None
    text: str = ""


def in_range(value, what):
    """Returns a number if an INTEGER can have it, or raises a fault."""
    if not LEAST <= value <= GREATEST:
        raise Fault(f"a {what} is too large")
    return value


def divided(a, b, take):
    """Returns a quotient or remainder, of a positive divisor."""
    if b < 1:
        raise Fault("a divisor is not positive")
    return take(a, b)


ADDERS = {
    "+": (INTEGER, INTEGER, lambda a, b: in_range(a() + b(), "sum")),
    "-": (INTEGER, INTEGER, lambda a, b: in_range(a() - b(), "difference")),
    "OR": (BOOLEAN, BOOLEAN, lambda a, b: a() or b()),
}
MULTIPLIERS = {
    "*": (INTEGER, INTEGER, lambda a, b: in_range(a() * b(), "product")),
    "DIV": (INTEGER, INTEGER, lambda a, b: divided(a(), b(), lambda x, y: x // y)),
    "MOD": (INTEGER, INTEGER, lambda a, b: divided(a(), b(), lambda x, y: x % y)),
    "&": (BOOLEAN, BOOLEAN, lambda a, b: a() and b()),
}
RELATORS = {
    "=": (None, BOOLEAN, lambda a, b: int(a() == b())),
    "#": (None, BOOLEAN, lambda a, b: int(a() != b())),
    "<": (INTEGER, BOOLEAN, lambda a, b: int(a() < b())),
    "<=": (INTEGER, BOOLEAN, lambda a, b: int(a() <= b())),
    ">": (INTEGER, BOOLEAN, lambda a, b: int(a() > b())),
    ">=": (INTEGER, BOOLEAN, lambda a, b: int(a() >= b())),
}


def tokens_of(text):
    """Returns the tokens of a module's text as (kind, text), and an empty one at the end."""
    found, at = [], 0
    text = text.rstrip()
    while at < len(text):
        match = TOKEN.match(text, at)
        if not match:
            raise NoModule(f"no token begins at {text[at:at + 10]!r}")
        name, number, other = match.groups()
        if name is not None:
            found.append(("keyword" if name in KEYWORDS else "name", name))
        else:
            found.append(("number", number) if number is not None else ("mark", other))
        at = match.end()
    return found + [("end", "")]


def copy_of(value):
    """Returns a copy of a value, which shares nothing with it."""
    if isinstance(value, list):
        return [copy_of(item) for item in value]
    if isinstance(value, dict):
        return {name: copy_of(item) for name, item in value.items()}
    return value


def at_level(frame, count):
    """Returns the frame that is `count` levels further out."""
    for _ in range(count):
        frame = frame[None]
    return frame


class Reader:
    """Reads a module, with the scope that it is in."""

    def __init__(self, text, machine):
        self.tokens, self.at, self.machine = tokens_of(text), 0, machine
        outermost = Scope("", -1, None)
        self.scope = outermost
        outermost.names = {
            "INTEGER": Entry("type", INTEGER), "BOOLEAN": Entry("type", BOOLEAN),
            "TRUE": Entry("constant", BOOLEAN, value=1), "FALSE": Entry("constant", BOOLEAN, value=0),
            "Read": self.predefined([("x", True, INTEGER)], machine.read),
            "Write": self.predefined([("x", False, INTEGER)], machine.write),
            "WriteLn": self.predefined([], machine.write_line),
        }

    @staticmethod
    def predefined(parameters, body):
        """Returns the entry of a procedure of the language itself, whose level is 0."""
        return Entry("procedure", UNKNOWN, procedure=Procedure(parameters, 0, body=body))

    # tokens

    def next(self):
        """Returns the text of the next token, or None for a name or a number."""
        kind, text = self.tokens[self.at]
        return text if kind in ("keyword", "mark", "end") else None

    def accept(self, text):
        """Takes the next token if it is this one. Returns whether it is."""
        if self.next() != text:
            return False
        self.at += 1
        return True

    def expect(self, text):
        """Takes the next token, which must be this one."""
        if not self.accept(text):
            raise NoModule(f"expected {text}, found {self.tokens[self.at][1]}")

    def word(self, kind):
        """Takes the next token, which must be of this kind, and returns its text."""
        found, text = self.tokens[self.at]
        if found != kind:
            raise NoModule(f"expected a {kind}, found {text}")
        self.at += 1
        return text

    def is_next(self, kind):
        """Returns whether the next token is of this kind."""
        return self.tokens[self.at][0] == kind

    def complain(self, line):
        """Records a mistake of this scope."""
        self.scope.wrong.append(line)

    def agree(self, what, wanted, found):
        """Records a mistake unless a type is the wanted one. Returns whether it is."""
        if found is wanted or found is UNKNOWN or wanted is UNKNOWN:
            return True
        self.complain(f"{what}: expected {wanted.name}, found {found.name}")
        return False

    # declarations

    def module(self):
        """Reads a module, and returns its mistakes and its procedure."""
        self.expect("MODULE")
        name = self.word("name")
        self.expect(";")
        procedure = Procedure([], 0)
        self.scope = Scope(name, 0, self.scope)
        lines = self.block(name, procedure)
        self.expect(".")
        self.expect("")
        return lines, procedure

    def block(self, name, procedure):
        """Reads the rest of a module or a procedure after its heading, leaves its scope, and returns the mistakes in it."""
        if self.accept("CONST"):
            while self.is_next("name"):
                self.constant_declaration()
        if self.accept("TYPE"):
            while self.is_next("name"):
                self.type_declaration()
        if self.accept("VAR"):
            while self.is_next("name"):
                for variable, of in self.names("variable"):
                    self.scope.variables[variable] = of
                self.expect(";")
        while self.accept("PROCEDURE"):
            self.procedure()
        body = self.statements() if self.accept("BEGIN") else (lambda frame: None)
        self.expect("END")
        end = self.word("name")
        if end != name:
            self.complain(f"{name} ends with the name {end}")
        procedure.variables, procedure.body = self.scope.variables, body
        lines = self.scope.lines()
        self.scope = self.scope.outer
        return lines

    def constant_declaration(self):
        """Reads the declaration of a constant."""
        name = self.word("name")
        if name in self.scope.names:
            self.complain(f"{name} is declared twice")
        self.expect("=")
        value = self.expression("", UNKNOWN)
        self.expect(";")
        if value.constant is None and value.type is not UNKNOWN:
            self.complain(f"{name} is not constant")
        self.scope.names[name] = Entry("wrong", UNKNOWN, self.scope) if value.constant is None \
            else Entry("constant", value.type, self.scope, value.constant)

    def type_declaration(self):
        """Reads the declaration of a type."""
        name = self.word("name")
        if name in self.scope.names:
            self.complain(f"{name} is declared twice")
        self.expect("=")
        of = self.type(f"{self.scope.path}.{name}")
        self.expect(";")
        self.scope.names[name] = Entry("type", of, self.scope)

    def names(self, kind):
        """Reads names and their type, declares them, and returns them with it."""
        names = [self.word("name")]
        while self.accept(","):
            names.append(self.word("name"))
        self.expect(":")
        mistakes, self.scope.wrong = self.scope.wrong, []
        of = self.type(f"the type of {self.scope.path}.{names[-1]}")
        of_type, self.scope.wrong = self.scope.wrong, mistakes
        for name in names:
            self.scope.declare(name, Entry(kind, of))
        self.scope.wrong += of_type
        return [(name, of) for name in names]

    def type(self, name):
        """Reads a type, which has this name if it is a new one."""
        if self.accept("ARRAY"):
            length = self.constant(f"the length of {name}")
            if length is not None and not 1 <= length <= MAX_ELEMENTS:
                self.complain(f"the length of {name} is not from 1 to {MAX_ELEMENTS}")
            self.expect("OF")
            return Type(name, length=length, element=self.type(name + "[]"))
        if self.accept("RECORD"):
            return self.record(name)
        word = self.word("name")
        entry = self.scope.find(word)
        if entry is None:
            self.complain(f"{word} is not declared")
        elif entry.kind != "type":
            self.complain(f"{word} is not a type")
        return entry.type if entry is not None and entry.kind == "type" else UNKNOWN

    def record(self, name):
        """Reads the fields of a record."""
        fields = {}
        while True:
            if self.is_next("name"):
                names = [self.word("name")]
                while self.accept(","):
                    names.append(self.word("name"))
                self.expect(":")
                at = len(self.scope.wrong)
                of = self.type(f"the type of {name}.{names[-1]}")
                twice = []
                for one in names:
                    if one in fields:
                        twice.append(f"{name}.{one} is declared twice")
                    fields[one] = of
                self.scope.wrong[at:at] = twice
            if not self.accept(";"):
                break
        self.expect("END")
        return Type(name, fields=fields)

    def procedure(self):
        """Reads a procedure after its first word."""
        name = self.word("name")
        outer = self.scope
        procedure = Procedure([], outer.level + 1)
        outer.declare(name, Entry("procedure", UNKNOWN, procedure=procedure))
        self.scope = Scope(f"{outer.path}.{name}", procedure.level, outer)
        if self.accept("(") and not self.accept(")"):
            while True:
                is_var = self.accept("VAR")
                for one, of in self.names("variable"):
                    procedure.parameters.append((one, is_var, of))
                    self.scope.names[one].value = is_var
                if not self.accept(";"):
                    break
            self.expect(")")
        self.expect(";")
        outer.nested += self.block(name, procedure)
        self.expect(";")

    # statements: each becomes a function of the frame

    def statements(self):
        """Reads statements."""
        run = [self.statement()]
        while self.accept(";"):
            run.append(self.statement())
        run = [one for one in run if one is not None]

        def all_of(frame):
            for one in run:
                one(frame)
        return all_of

    def statement(self):
        """Reads a statement, and returns its function, or None for the empty one."""
        if self.is_next("name"):
            return self.assignment_or_call()
        for word, read in (("IF", self.if_), ("WHILE", self.while_), ("FOR", self.for_), ("CASE", self.case)):
            if self.accept(word):
                return read()
        return None

    def assignment_or_call(self):
        """Reads an assignment, or the call of a procedure."""
        target, entry = self.designator()
        if self.accept(":="):
            if target.place is None:
                self.complain(f"{target.text} is not a variable")
            value = self.expression(f"the value for {target.text}", target.type if target.place is not None else UNKNOWN)

            def assign(frame):
                result = copy_of(value.compute(frame))
                container, key = target.place(frame)
                container[key] = result
            return assign
        return self.call(target.text, entry)

    def call(self, name, entry):
        """Reads the arguments of a call."""
        procedure = entry.procedure if entry.kind == "procedure" else None
        if procedure is None and entry.kind != "wrong":
            self.complain(f"{name} is not a procedure")
        wanted = procedure.parameters if procedure is not None else []
        arguments = []
        if self.accept("(") and not self.accept(")"):
            while True:
                number = len(arguments)
                what = f"argument {number + 1} of {name}"
                _, is_var, of = wanted[number] if number < len(wanted) else ("", False, UNKNOWN)
                argument = self.expression(what, of)
                if is_var and argument.place is None:
                    self.complain(f"{what} is not a variable")
                arguments.append(argument)
                if not self.accept(","):
                    break
            self.expect(")")
        if procedure is not None and len(arguments) != len(wanted):
            self.complain(f"arguments of {name}: expected {len(wanted)}, found {len(arguments)}")
        return self.calling(procedure, arguments)

    def calling(self, procedure, arguments):
        """Returns the function of a call."""
        level = self.scope.level

        def call(frame):
            given = {}
            for (name, is_var, _), argument in zip(procedure.parameters, arguments):
                given[name] = argument.place(frame) if is_var else copy_of(argument.compute(frame))
            if procedure.level == 0:
                procedure.body(given)
            else:
                self.machine.call(procedure, at_level(frame, level - procedure.level + 1), given)
        return call

    def if_(self):
        """Reads an IF statement after its first word."""
        branches, otherwise = [], None
        while True:
            condition = self.expression("the condition of IF", BOOLEAN)
            self.expect("THEN")
            branches.append((condition, self.statements()))
            if not self.accept("ELSIF"):
                break
        if self.accept("ELSE"):
            otherwise = self.statements()
        self.expect("END")

        def choose(frame):
            for condition, then in branches:
                if condition.compute(frame):
                    return then(frame)
            return otherwise(frame) if otherwise is not None else None
        return choose

    def while_(self):
        """Reads a WHILE statement after its first word."""
        condition = self.expression("the condition of WHILE", BOOLEAN)
        self.expect("DO")
        body = self.statements()
        self.expect("END")

        def repeat(frame):
            while condition.compute(frame):
                body(frame)
        return repeat

    def for_(self):
        """Reads a FOR statement after its first word."""
        variable, _ = self.designator()
        name = variable.text.partition(".")[0].partition("[")[0]
        if variable.place is None or variable.text != name:
            self.complain(f"{variable.text} is not the name of a variable")
        self.agree(f"FOR {name}", INTEGER, variable.type if variable.place is not None else UNKNOWN)
        self.expect(":=")
        first = self.expression(f"the start of FOR {name}", INTEGER)
        self.expect("TO")
        last = self.expression(f"the end of FOR {name}", INTEGER)
        step = 1
        if self.accept("BY"):
            step = self.constant("BY")
            if step == 0:
                self.complain("BY is 0")
        self.expect("DO")
        body = self.statements()
        self.expect("END")

        def count(frame):
            end = last.compute(frame)
            container, key = variable.place(frame)
            container[key] = first.compute(frame)
            while container[key] <= end if step > 0 else container[key] >= end:
                body(frame)
                container[key] = in_range(container[key] + step, "sum")
        return count

    def case(self):
        """Reads a CASE statement after its first word."""
        chosen = self.expression("the expression of CASE", INTEGER)
        self.expect("OF")
        arms, otherwise, ranges = [], None, []
        while True:
            if self.next() not in ("|", "ELSE", "END"):
                labels = [self.label(ranges)]
                while self.accept(","):
                    labels.append(self.label(ranges))
                self.expect(":")
                arms.append((labels, self.statements()))
            if not self.accept("|"):
                break
        if self.accept("ELSE"):
            otherwise = self.statements()
        self.expect("END")
        self.note_repeated(ranges)

        def choose(frame):
            value = chosen.compute(frame)
            for labels, then in arms:
                if any(low <= value <= high for low, high in labels):
                    return then(frame)
            if otherwise is None:
                raise Fault("no label of CASE fits")
            return otherwise(frame)
        return choose

    def label(self, ranges):
        """Reads a label or a range of labels, and adds it to the ranges with the place for a message about it."""
        low = self.constant("a label")
        high = self.constant("a label") if self.accept("..") else low
        if low is None or high is None:
            return 1, 0
        if high < low:
            self.complain(f"no label is from {low} to {high}")
        ranges.append((low, high, len(self.scope.wrong)))
        return low, high

    def note_repeated(self, ranges):
        """Records a mistake for each range that shares a number with a later one, at its place."""
        for index in range(len(ranges) - 1, -1, -1):
            low, high, place = ranges[index]
            shared = [number for number in (low, high) if any(a <= number <= b for a, b, _ in ranges[index + 1:])]
            if shared:
                self.scope.wrong.insert(place, f"the label {shared[0]} is used twice")

    # expressions

    def constant(self, what):
        """Reads a constant INTEGER, and returns its value. Returns None and records a mistake if it is not one."""
        value = self.expression(what, INTEGER)
        if value.type is INTEGER and value.constant is None:
            self.complain(f"{what} is not constant")
        return value.constant if value.type is INTEGER else None

    def expression(self, what, wanted):
        """Reads an expression, which must be of the wanted type."""
        value = self.simple()
        if self.next() in RELATORS:
            value = self.binary(RELATORS, value, self.simple)
        self.agree(what, wanted, value.type)
        return value

    def simple(self):
        """Reads terms with signs between them."""
        if self.next() in ("+", "-"):
            value = self.binary(ADDERS, Operand(INTEGER, lambda frame: 0, 0), self.term)
        else:
            value = self.term()
        while self.next() in ADDERS:
            value = self.binary(ADDERS, value, self.term)
        return value

    def term(self):
        """Reads factors."""
        value = self.factor()
        while self.next() in MULTIPLIERS:
            value = self.binary(MULTIPLIERS, value, self.factor)
        return value

    def binary(self, operators, left, read_right):
        """Reads an operator and its right operand, and returns both operands combined."""
        sign = self.next()
        self.at += 1
        wanted, result, combine = operators[sign]
        right = read_right()
        fits = True
        if wanted is None and left.type not in (INTEGER, BOOLEAN, UNKNOWN):
            self.complain(f"the left operand of {sign}: expected INTEGER or BOOLEAN, found {left.type.name}")
            fits = False
        elif wanted is None:
            fits = self.agree(f"the right operand of {sign}", left.type, right.type)
        else:
            fits = self.agree(f"the left operand of {sign}", wanted, left.type)
            fits = self.agree(f"the right operand of {sign}", wanted, right.type) and fits
        constant = None
        if sign in ("DIV", "MOD") and right.type is INTEGER and right.constant is not None and right.constant < 1:
            self.complain(f"the divisor of {sign} is not positive")
            fits = False
        elif fits and left.constant is not None and right.constant is not None:
            try:
                constant = combine(lambda: left.constant, lambda: right.constant)
            except Fault:
                self.complain(f"the result of {sign} is too large")
                fits = False
        if not fits or UNKNOWN in (left.type, right.type):
            return Operand(UNKNOWN, lambda frame: 0)
        return Operand(result, lambda frame: combine(lambda: left.compute(frame), lambda: right.compute(frame)), constant)

    def factor(self):
        """Reads a number, a variable, a constant, an expression in parentheses, or a factor with `~` before it."""
        if self.is_next("number"):
            number = self.word("number")
            if int(number) > GREATEST:
                self.complain(f"the number {number} is too large")
                return Operand(UNKNOWN, lambda frame: 0)
            return Operand(INTEGER, lambda frame: int(number), int(number))
        if self.accept("("):
            value = self.expression("", UNKNOWN)
            self.expect(")")
            return Operand(value.type, value.compute, value.constant)
        if self.accept("~"):
            value = self.factor()
            if not self.agree("the operand of ~", BOOLEAN, value.type):
                return Operand(UNKNOWN, lambda frame: 0)
            constant = None if value.constant is None else 1 - value.constant
            return Operand(value.type, lambda frame: 1 - value.compute(frame), constant)
        value, entry = self.designator()
        if value.type.name in ("a procedure", "a type"):
            self.complain(f"{value.text} is {value.type.name} and has no value")
            return Operand(UNKNOWN, lambda frame: 0, place=lambda frame: ({}, ""))
        return value

    def designator(self):
        """Reads a name and its selectors, and returns the selected variable and the entry of the name."""
        name = self.word("name")
        entry = self.scope.find(name)
        if entry is None:
            self.complain(f"{name} is not declared")
            entry = Entry("wrong", UNKNOWN)
        value = self.named(name, entry)
        while True:
            if self.accept("."):
                value = self.field_of(value, self.word("name"))
            elif self.accept("["):
                value = self.element_of(value)
            else:
                return value, entry

    def named(self, name, entry):
        """Returns a name as an operand."""
        if entry.kind == "constant":
            return Operand(entry.type, lambda frame: entry.value, entry.value, text=name)
        if entry.kind == "wrong":
            return Operand(UNKNOWN, lambda frame: 0, place=lambda frame: ({}, ""), text=name)
        if entry.kind != "variable":
            return Operand(Type(f"a {entry.kind}"), lambda frame: 0, text=name)
        count = self.scope.level - entry.scope.level

        def place(frame):
            frame = at_level(frame, count)
            return frame[name] if entry.value else (frame, name)
        return Operand(entry.type, lambda frame: read_place(place(frame)), place=place, text=name)

    def field_of(self, value, name):
        """Returns a field of a record."""
        of = UNKNOWN
        if value.type is not UNKNOWN:
            if value.type.fields is None:
                self.complain(f"{value.text} is not a record")
            elif name not in value.type.fields:
                self.complain(f"{value.text} has no field {name}")
            else:
                of = value.type.fields[name]

        def place(frame):
            return read_place(value.place(frame)), name
        return Operand(of, lambda frame: read_place(place(frame)), place=place, text=f"{value.text}.{name}")

    def element_of(self, value):
        """Reads the rest of an index, and returns the element of an array."""
        is_array = value.type.element is not None
        if not is_array and value.type is not UNKNOWN:
            self.complain(f"{value.text} is not an array")
        index = self.expression(f"the index of {value.text}", INTEGER)
        length = value.type.length
        if is_array and index.type is INTEGER and index.constant is not None and length is not None \
                and not 0 <= index.constant < length:
            self.complain(f"{value.text} has no element {index.constant}")
        self.expect("]")

        def place(frame):
            number = index.compute(frame)
            if not 0 <= number < length:
                raise Fault("an index is outside its array")
            return read_place(value.place(frame)), number
        return Operand(value.type.element if is_array else UNKNOWN, lambda frame: read_place(place(frame)), place=place,
                       text=f"{value.text}[]")


def read_place(place):
    """Returns the value of a variable."""
    container, key = place
    return container[key]


class Machine:
    """Runs procedures, on the numbers of the standard input."""

    def __init__(self):
        self.depth, self.numbers = 0, None

    def call(self, procedure, outer, given):
        """Runs a call of a procedure, with the frame around it and its arguments."""
        if self.depth == MAX_CALLS:
            raise Fault("the calls nest too deep")
        frame = {None: outer}
        frame.update((name, of.new()) for name, of in procedure.variables.items())
        frame.update(given)
        self.depth += 1
        procedure.body(frame)
        self.depth -= 1

    def read(self, frame):
        """Runs the procedure Read."""
        if self.numbers is None:
            self.numbers = iter(sys.stdin.read().split())
        container, key = frame["x"]
        number = next(self.numbers, None)
        if number is None:
            raise Fault("no number is left to read")
        container[key] = int(number)

    def write(self, frame):
        """Runs the procedure Write."""
        sys.stdout.write(f" {frame['x']}")

    def write_line(self, frame):
        """Runs the procedure WriteLn."""
        sys.stdout.write("\n")


def run(path):
    """Checks the module in a file and runs it; returns the status."""
    machine = Machine()
    with open(path, encoding="utf-8") as file:
        lines, module = Reader(file.read(), machine).module()
    for line in lines:
        print(line)
    if lines:
        return 1
    try:
        machine.call(module, None, {})
    except Fault as fault:
        sys.stdout.flush()
        print(fault, file=sys.stderr)
        return 1
    return 0


def main():
    """Runs the module on a stack that is large enough for deep recursion."""
    sys.setrecursionlimit(1000000)
    threading.stack_size(512 * 1024 * 1024)
    status = []
    thread = threading.Thread(target=lambda: status.append(run(sys.argv[1])))
    thread.start()
    thread.join()
    return status[0] if status else 2


if __name__ == "__main__":
    sys.exit(main())
