"""Tests of the library through its Python binding, for tests/library.

    library.py run GRAMMAR SENTENCE    prints the output of `aggen run`, and ends with its status; `plan` likewise
    library.py test GRAMMAR SENTENCE   tests the other parts of the binding
"""
import pickle
import sys
import threading
from pathlib import Path

import aggen


def print_result(command, grammar, sentence):
    """Prints the translation or the plan as the program does, and returns its status."""
    try:
        with aggen.Translator(grammar) as translator:
            if command == "plan":
                result = translator.plan().encode()
            else:
                result = translator.translate(sentence)
                assert translator.evaluate(translator.parse(sentence)) == result
    except aggen.Refusal as refusal:
        print(refusal, file=sys.stderr)
        compare_fields(refusal)
        return refusal.status
    sys.stdout.buffer.write(result)
    return 0


def compare_fields(refusal):
    """Compares the fields of a refusal with its message; an assertion fails if they differ."""
    first, *words = refusal.message.split(" ")
    assert refusal.number == (first.rstrip(":") if first != "NoMemory" else None), refusal
    name = "grammar" if refusal.status == aggen.Status.GRAMMAR else "sentence"
    if refusal.place:
        assert "(%s:%d:%d)" % (name, *refusal.place) in refusal.message, refusal
    if refusal.offset is not None:
        assert f"at {refusal.offset}" in refusal.message, refusal


def refusal_of(call):
    try:
        call()
    except aggen.Refusal as refusal:
        return refusal
    raise AssertionError("nothing was refused")


def test(grammar, sentence):
    """Tests the parts of the binding that no row covers."""
    translator = aggen.Translator(grammar.decode())
    assert translator.translate(sentence.decode()) == b"868352"
    refusal = refusal_of(lambda: translator.translate("10.2"))
    assert (refusal.status, refusal.number, refusal.offset, refusal.place) == (aggen.Status.SENTENCE, "S2", 3, (1, 4))
    refusal = refusal_of(lambda: translator.evaluate(b"no tree file"))
    assert (refusal.status, refusal.number, refusal.offset, refusal.place) == (aggen.Status.TREE_FILE, "R1", 0, None)
    assert str(refusal) == refusal.message
    translator.close()
    translator.close()
    refusal = refusal_of(lambda: translator.translate(sentence))
    assert (refusal.status, refusal.number, str(refusal)) == (aggen.Status.NO_TRANSLATOR, None, "status 1")
    # a message and a translation with more bytes than the first buffer
    names = ["N" * 200 + str(number) for number in range(10)]
    symbols = " ".join(f"symbol {it};" for it in names)
    endless = " ".join(f"{it} = {names[0]} {{ }}" for it in names)
    text = f'start S; symbol S syn out; {symbols} S = {names[0]} {{ $0.out = ""; }} {endless}'
    refusal = refusal_of(lambda: aggen.Translator(text))
    assert refusal.status == aggen.Status.GRAMMAR and refusal.message.startswith(refusal.number)
    assert len(refusal.message) > aggen.MESSAGE
    # the refusal can be pickled, and a sentence has to be text or bytes
    assert pickle.loads(pickle.dumps(refusal)).message == refusal.message
    try:
        translator.parse(5)
        raise AssertionError("5 is accepted as a sentence")
    except TypeError:
        pass
    letters = aggen.Translator('start S; symbol S syn out; S = NAME { $0.out = $1.lex ++ "!"; }')
    for length in (1, 4094, 4095, 4096, 60000):
        assert letters.translate("a" * length) == b"a" * length + b"!"
    # a translator in each thread
    results = []

    def translate_often():
        mine = aggen.Translator(grammar)
        results.extend(mine.translate(sentence) for _ in range(100))

    threads = [threading.Thread(target=translate_often) for _ in range(4)]
    for thread in threads:
        thread.start()
    for thread in threads:
        thread.join()
    assert results == [b"868352"] * 400
    assert aggen.version().count(".") == 2


def main():
    command, *files = sys.argv[1:]
    grammar, sentence = (Path(file).read_bytes() for file in files)
    if command == "test":
        test(grammar, sentence)
        return 0
    return print_result(command, grammar, sentence)


if __name__ == "__main__":
    sys.exit(main())
