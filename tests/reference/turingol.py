"""Turingol (Knuth, 1968) from its definition: an interpreter of programs, and a machine that runs quintuples.

Nothing here comes from examples/turingol.ag. A program is run statement by statement, and a machine quintuple by quintuple; both
begin on a tape that has the blank symbol wherever nothing else is said, and end where no statement or quintuple follows.
"""
import re
from dataclasses import dataclass

TOKEN = re.compile(r'\s*(?:"([^"\n]*)"|([^\W\d]\w*)|([,;:.{}]))')


class Endless(Exception):
    """A run has taken more steps than it may."""


@dataclass
class Tape:
    """A tape: its blank symbol, its other symbols by square, and the square that is read."""

    blank: str
    squares: dict
    at: int = 0

    def read(self):
        """Returns the symbol of the square."""
        return self.squares.get(self.at, self.blank)

    def write(self, symbol):
        """Writes the symbol of the square."""
        self.squares[self.at] = symbol

    def move(self, direction):
        """Moves one square to the left or to the right, or stays."""
        self.at += {"left": -1, "right": 1, "stay": 0}[direction]

    def content(self):
        """Returns the symbols that aren't blank with their squares, and the square that is read."""
        return {square: symbol for square, symbol in self.squares.items() if symbol != self.blank}, self.at


class Program:
    """A program: its alphabet, its instructions in order, its labels, and its mistakes."""

    def __init__(self, text):
        self.tokens = [match.groups() for match in TOKEN.finditer(text)]
        self.at, self.code, self.labels, self.wrong = 0, [], {}, []
        for word in ("tape", "alphabet", "is"):
            self.expect(word)
        self.alphabet = [self.word()]
        while self.accept(","):
            self.alphabet.append(self.word())
        self.expect(";")
        self.statements()
        self.expect(".")
        self.check()

    def word(self):
        """Takes a word."""
        _, word, _ = self.tokens[self.at]
        if word is None:
            raise ValueError(f"token {self.at} is not a word")
        self.at += 1
        return word

    def accept(self, what):
        """Takes the next token if it is this word or mark. Returns whether it is."""
        if self.at == len(self.tokens) or what not in self.tokens[self.at][1:]:
            return False
        self.at += 1
        return True

    def expect(self, what):
        """Takes the next token, which must be this word or mark."""
        if not self.accept(what):
            raise ValueError(f"token {self.at} is not {what}")

    def quoted(self):
        """Takes a symbol in quotes."""
        quoted, _, _ = self.tokens[self.at]
        if quoted is None:
            raise ValueError(f"token {self.at} is not a symbol in quotes")
        self.at += 1
        return quoted

    def statements(self):
        """Reads statements."""
        self.statement()
        while self.accept(";"):
            self.statement()

    def statement(self):
        """Reads a statement, and adds its instructions."""
        if self.accept("print"):
            self.code.append(["print", self.quoted()])
        elif self.accept("move"):
            direction = "left" if self.accept("left") else "right"
            if direction == "right":
                self.expect("right")
            self.expect("one")
            self.expect("square")
            self.code.append(["move", direction])
        elif self.accept("go"):
            self.expect("to")
            self.code.append(["go", self.word()])
        elif self.accept("if"):
            for word in ("the", "tape", "symbol", "is"):
                self.expect(word)
            test = ["unless", self.quoted(), 0]
            self.expect("then")
            self.code.append(test)
            self.statement()
            test[2] = len(self.code)
        elif self.accept("{"):
            self.statements()
            self.expect("}")
        elif self.tokens[self.at][1] is not None:
            self.labels.setdefault(self.word(), []).append(len(self.code))
            self.expect(":")
            self.statement()

    def check(self):
        """Records symbols that aren't in the alphabet or are in it twice, and labels that are missing or declared twice."""
        self.wrong += [f"{name} is twice in the alphabet" for name in set(self.alphabet) if self.alphabet.count(name) > 1]
        self.wrong += [f"the label {name} is there twice" for name, places in self.labels.items() if len(places) > 1]
        for instruction in self.code:
            if instruction[0] in ("print", "unless") and instruction[1] not in self.alphabet:
                self.wrong.append(f"{instruction[1]} is not in the alphabet")
            if instruction[0] == "go" and instruction[1] not in self.labels:
                self.wrong.append(f"the label {instruction[1]} is missing")

    def run(self, squares, most):
        """Runs the program on a tape, for at most `most` instructions, and returns the tape's content."""
        tape, at = Tape(self.alphabet[0], dict(squares)), 0
        for _ in range(most):
            if at == len(self.code):
                return tape.content()
            verb, *what = self.code[at]
            at += 1
            if verb == "print":
                tape.write(what[0])
            elif verb == "move":
                tape.move(what[0])
            elif verb == "go":
                at = self.labels[what[0]][0]
            elif tape.read() != what[0]:
                at = what[1]
        raise Endless


class TuringMachine:
    """A Turing machine: the text has the first state and the blank symbol in a line, and a quintuple in each other line."""

    def __init__(self, text):
        (self.first, self.blank), *rows = [line.split(" ") for line in text.splitlines()]
        self.quintuples = {}
        for state, symbol, *then in rows:
            if (state, symbol) in self.quintuples or len(then) != 3:
                raise ValueError(f"a quintuple of {state} and {symbol} is not the only one")
            self.quintuples[state, symbol] = then

    def run(self, squares, most):
        """Runs the machine on a tape, for at most `most` steps, and returns the tape's content."""
        tape, state = Tape(self.blank, dict(squares)), self.first
        for _ in range(most):
            step = self.quintuples.get((state, tape.read()))
            if step is None:
                return tape.content()
            symbol, direction, state = step
            tape.write(symbol)
            tape.move(direction)
        raise Endless
