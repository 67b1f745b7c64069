"""Reads the commands of shell scripts without running them: the words of each, and the text on its standard input.

What a word contains of a variable is known if the script gives the variable one value before, outside functions; what it contains
of anything else (parameters, the output of commands) is the character UNKNOWN."""
import re
from dataclasses import dataclass, field

UNKNOWN = "\0"
ASSIGNMENT = re.compile(r"(\w+)(\+?)=")
HEREDOC = re.compile(r"<<-?\s*(['\"]?)(\w+)\1")
# a command substitution that prints a text of the script
PRINTED = re.compile(r"cat <<'(\w+)'\n(.*)\n\1\s*", re.DOTALL)
NAME = re.compile(r"\w+")
ANSI = re.compile(r"\\(x[0-9a-f]{1,2}|[0-7]{1,3}|.)", re.DOTALL)
ANSI_LETTERS = {"n": "\n", "t": "\t", "r": "\r", "e": "\x1b", "a": "\a"}
BLANK, ENDS = " \t", "\n;|&(){}"


@dataclass
class Command:
    """A command: its line, its words, and the text on its standard input."""

    line: int
    words: list = field(default_factory=list)
    given: str = ""


def plain_ansi(text):
    """Returns what a text in `$'..'` stands for. Bytes that are not ASCII are UNKNOWN."""
    return ANSI.sub(lambda it: ANSI_LETTERS.get(it[1], it[1] if it[1] in "\\'\"" else UNKNOWN), text)


class Reader:
    """Reads the commands of a script, with the variables of those before."""

    def __init__(self, text, variables):
        self.text, self.at, self.variables = text, 0, variables
        self.commands, self.heredocs = [Command(1)], []

    def end_of_quote(self, at):
        """Returns the index of the single quote that ends a text in `$'..'`."""
        while self.text[at] != "'":
            at += 1 + (self.text[at] == "\\")
        return at

    def end_of_group(self, at, closing):
        """Returns the index after the sign that closes a group, whose content begins at `at`."""
        opening, level = {"}": "{", ")": "("}[closing], 1
        while level:
            character = self.text[at]
            if character == "\\":
                at += 1
            elif character == "'":
                at = self.text.index("'", at + 1)
            elif character in opening + closing:
                level += 1 if character == opening else -1
            at += 1
        return at

    def read_expansion(self):
        """Reads what begins with `$`, and returns what it stands for."""
        following = self.text[self.at + 1:self.at + 2]
        name = NAME.match(self.text, self.at + 1)
        if following in ("(", "{"):
            end = self.end_of_group(self.at + 2, {"(": ")", "{": "}"}[following])
            inner, self.at = self.text[self.at + 2:end - 1], end
            printed = PRINTED.fullmatch(inner)
            return printed[2] if printed else self.variables.get(inner, UNKNOWN)
        if name and not name[0][0].isdigit():
            self.at = name.end()
            return self.variables.get(name[0], UNKNOWN)
        self.at += 2
        return UNKNOWN

    def read_double(self):
        """Reads a text in double quotes after the first one, and returns what it stands for."""
        found = ""
        while self.text[self.at] != '"':
            if self.text[self.at] == "$":
                found += self.read_expansion()
                continue
            if self.text[self.at] == "\\" and self.text[self.at + 1] in '$`"\\\n':
                self.at += 1
            found += self.text[self.at]
            self.at += 1
        self.at += 1
        return found

    def read_word(self):
        """Reads a word, and returns what it stands for."""
        found, text = "", self.text
        while self.at < len(text) and text[self.at] not in BLANK + "\n;|&()<>":
            character = text[self.at]
            if text.startswith("$'", self.at):
                end = self.end_of_quote(self.at + 2)
                found, self.at = found + plain_ansi(text[self.at + 2:end]), end + 1
            elif character == "$":
                found += self.read_expansion()
            elif character == '"':
                self.at += 1
                found += self.read_double()
            elif character == "'":
                end = text.index("'", self.at + 1)
                found, self.at = found + text[self.at + 1:end], end + 1
            else:
                self.at += character == "\\"
                found += text[self.at:self.at + 1].replace("\n", "")
                self.at += 1
        return found

    def end_command(self):
        """Ends a command. If it is an assignment outside a function, the variable gets the value."""
        command = self.commands[-1]
        if len(command.words) == 1 and (match := ASSIGNMENT.match(command.words[0])):
            old = self.variables.get(match[1], "") if match[2] else ""
            self.variables[match[1]] = old + command.words[0][match.end():]
        line = self.text.count("\n", 0, self.at) + 1 if command.words else command.line
        if command.words:
            self.commands.append(Command(line))

    def read_heredocs(self):
        """Reads the texts that begin in the next line."""
        for command, delimiter in self.heredocs:
            end = self.text.index(f"\n{delimiter}\n", self.at - 1)
            command.given, self.at = self.text[self.at:end + 1], end + len(delimiter) + 2
        self.heredocs = []

    def read_redirection(self):
        """Reads a redirection, and a text after `<<<` or `<<`."""
        heredoc = HEREDOC.match(self.text, self.at)
        if self.text.startswith("<<<", self.at):
            self.at += 3
            self.skip_blanks()
            self.commands[-1].given = self.read_word()
        elif heredoc:
            self.heredocs.append((self.commands[-1], heredoc[2]))
            self.at = heredoc.end()
        else:
            self.at += 1
            self.skip_blanks()
            if self.text[self.at] not in "<>&(":
                self.read_word()

    def skip_blanks(self):
        while self.text[self.at] in BLANK or self.text.startswith("\\\n", self.at):
            self.at += 1

    def read(self):
        """Returns the commands of the script."""
        while self.at < len(self.text):
            character = self.text[self.at]
            if character in BLANK:
                self.at += 1
            elif character == "#":
                self.at = self.text.index("\n", self.at)
            elif character in ENDS and not self.text.startswith("{}", self.at):
                self.end_command()
                self.at += 1
                if character == "\n":
                    self.read_heredocs()
            elif character in "<>":
                self.read_redirection()
            else:
                word = self.read_word()
                if not word and self.text[self.at - 1:self.at] == "\n":
                    continue
                self.commands[-1].words.append(word)
        return [it for it in self.commands if it.words]


def read_commands(text, variables):
    """Returns the commands of a script. `variables` has the values of variables by name, and gets those of the script."""
    return Reader(text, variables).read()
