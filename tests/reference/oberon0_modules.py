"""Makes Oberon-0 modules of any length, always the same ones: `python3 oberon0_modules.py LINES` prints one.

A module has procedures of some fifty lines, each with a constant, a type, variables, a nested procedure with a VAR parameter, loops,
CASE and IF, and a call of the procedure before it. The module calls every tenth procedure and prints what it computes.
"""
import sys

HEAD = """MODULE Large;
  CONST modulus = 1009; size = 8;
  TYPE Vector = ARRAY size OF INTEGER;
  VAR total: INTEGER; shared: Vector;
"""

PROCEDURE = """
  PROCEDURE Work{n}(VAR result: INTEGER; seed: INTEGER; values: Vector);
    CONST
      step = {step};
    TYPE
      Pair = RECORD
        sum, count: INTEGER;
        isOdd: BOOLEAN
      END;
    VAR
      i: INTEGER;
      pair: Pair;

    PROCEDURE Mix(VAR to: INTEGER; by: INTEGER);
    BEGIN
      to := (to * {factor} + by - i) MOD modulus;
      IF (to MOD 2 = 1) & ~ pair.isOdd THEN
        pair.isOdd := TRUE;
        pair.count := pair.count + 1
      ELSIF (to < step) OR (i = seed) THEN
        pair.isOdd := FALSE
      ELSE
        to := to + 1
      END
    END Mix;

  BEGIN
    pair.sum := seed;
    pair.isOdd := seed MOD 2 = 1;
    i := 0;
    WHILE i < size DO
      values[i] := values[i] + pair.sum;
      Mix(values[i], step);
      i := i + 1
    END;
    FOR i := size - 1 TO 0 BY -step DO
      CASE values[i] MOD 10 OF
        0 .. 3, 7:
          pair.sum := pair.sum + values[i]
      | 5:
          Mix(pair.sum, {n})
      ELSE
        shared[i] := (shared[i] + pair.sum) MOD modulus
      END
    END;
{call}    result := (result + pair.sum + pair.count) MOD modulus
  END Work{n};
"""


def procedure(number):
    """Returns the text of a procedure, which calls the one before it."""
    called = f"    IF pair.isOdd & (seed > 0) THEN\n      Work{number - 1}(result, seed - 1, values)\n    END;\n" if number else ""
    return PROCEDURE.format(n=number, step=1 + number % 3, factor=3 + number % 7, call=called)


def module(lines):
    """Returns a module of about `lines` lines."""
    parts, length, number = [HEAD], HEAD.count("\n") + 6, 0
    while length < lines:
        parts.append(procedure(number))
        length += parts[-1].count("\n")
        length += number % 10 == 0
        number += 1
    calls = "".join(f"  Work{n}(total, {n % 5}, shared); Write(total);\n" for n in range(0, number, 10))
    parts.append(f"\nBEGIN\n  total := 1;\n{calls}  WriteLn\nEND Large.\n")
    return "".join(parts)


if __name__ == "__main__":
    sys.stdout.write(module(int(sys.argv[1])))
