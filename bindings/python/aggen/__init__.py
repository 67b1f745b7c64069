"""Translators from attribute grammars, by the shared library libaggen.so.

    with aggen.Translator(grammar) as translator:
        text = translator.translate("1101.01")

The library is the file that the environment variable AGGEN_LIBRARY names, else libaggen.so beside this file, as in the wheel,
else libaggen.so where the system finds it. If it can't be loaded, the import raises OSError.

A call that fails raises Refusal; its status says why. Texts are str, which is encoded as UTF-8, or bytes. Anything else raises
TypeError, and a str with a lone surrogate UnicodeEncodeError. A translator can be used by several threads: its calls wait for
each other.
"""
from __future__ import annotations

import ctypes
import enum
import os
import threading
from pathlib import Path
from types import TracebackType
from typing import Any, Callable

__all__ = ["Refusal", "Status", "Translator", "version"]

NO_OFFSET = 2**64 - 1
# the capacity of a message's buffer; a longer message gets one of its own
MESSAGE = 1024


class Status(enum.IntEnum):
    """Why a call failed. The values are those of aggen.h."""

    NO_TRANSLATOR = 1
    MISUSE = 2
    GRAMMAR = 3
    SENTENCE = 4
    TREE_FILE = 5
    NO_TEXT = 6
    NO_MEMORY = 7


class Refusal(Exception):
    """A call failed: it rejected a grammar, a sentence or a tree file, or memory was refused.

    status   why the call failed
    number   as "N8"; None for a refusal without a number
    offset   in bytes from 0, in the input of the call; None if the refusal has no place there
    place    the line and the column, from 1, or None
    message  one line, which begins with the number
    """

    def __init__(self, status: Status, number: str | None, offset: int | None, place: tuple[int, int] | None, message: str):
        super().__init__(message)
        self.status = status
        self.number = number
        self.offset = offset
        self.place = place
        self.message = message

    def __reduce__(self) -> tuple[Any, ...]:
        return type(self), (self.status, self.number, self.offset, self.place, self.message)


class _Handle(ctypes.Structure):
    _fields_ = [("translator", ctypes.c_void_p)]


class _Refusal(ctypes.Structure):
    _fields_ = [
        ("letter", ctypes.c_uint8),
        ("index", ctypes.c_uint8),
        ("offset", ctypes.c_uint64),
        ("line", ctypes.c_size_t),
        ("column", ctypes.c_size_t),
        ("message_length", ctypes.c_size_t),
    ]


def _path() -> str:
    """Returns the path of the library, or the name by which the system finds it."""
    beside = Path(__file__).with_name("libaggen.so")
    return os.environ.get("AGGEN_LIBRARY") or (str(beside) if beside.exists() else "libaggen.so")


def _load() -> ctypes.CDLL:
    library = ctypes.CDLL(_path())
    text, size, handle = ctypes.c_char_p, ctypes.c_size_t, ctypes.POINTER(_Handle)
    report = [ctypes.c_void_p, size, ctypes.POINTER(_Refusal)]
    out = [ctypes.c_void_p, size, ctypes.POINTER(size)]
    library.aggen_build.argtypes = [text, size, handle, *report]
    for name in ("aggen_translate", "aggen_evaluate", "aggen_parse"):
        getattr(library, name).argtypes = [handle, text, size, *out, *report]
    library.aggen_plan.argtypes = [handle, *out, *report]
    library.aggen_free.argtypes, library.aggen_free.restype = [handle], None
    library.aggen_version.argtypes, library.aggen_version.restype = [], text
    return library


_library = _load()


def version() -> str:
    """Returns the version of the library."""
    return str(_library.aggen_version().decode())


def _bytes_of(text: str | bytes) -> bytes:
    return text.encode() if isinstance(text, str) else bytes(memoryview(text))


class Translator:
    """The translator of a grammar's text.

    Raises Refusal with the status GRAMMAR if the text is rejected, and NO_MEMORY if memory is refused. Each call of a method
    raises Refusal with the status NO_MEMORY too, and after `close` NO_TRANSLATOR.
    """

    def __init__(self, grammar: str | bytes):
        # a call locks it, and may lock it again, as `__del__` may be called within a call
        self._lock = threading.RLock()
        self._handle = _Handle()
        self._refusal = _Refusal()
        self._message = ctypes.create_string_buffer(MESSAGE)
        text = _bytes_of(grammar)
        with self._lock:
            self._check(lambda: _library.aggen_build(text, len(text), self._handle, *self._report()))

    def translate(self, sentence: str | bytes) -> bytes:
        """Returns the translation of a sentence.

        Raises Refusal with the status SENTENCE if the sentence is rejected, and NO_TEXT if its translation is not a text.
        """
        return self._result(_library.aggen_translate, _bytes_of(sentence))

    def evaluate(self, file: bytes) -> bytes:
        """Returns the translation of the tree in a tree file of pass 0, as `parse` returns one.

        Raises Refusal with the status TREE_FILE if the file is rejected, and NO_TEXT if the translation is not a text.
        """
        return self._result(_library.aggen_evaluate, bytes(memoryview(file)))

    def parse(self, sentence: str | bytes) -> bytes:
        """Returns the tree file of a sentence. Raises Refusal with the status SENTENCE if the sentence is rejected."""
        return self._result(_library.aggen_parse, _bytes_of(sentence))

    def plan(self) -> str:
        """Returns the passes, a line for each."""
        return self._result(_library.aggen_plan).decode()

    def close(self) -> None:
        """Frees the translator. A second call does nothing."""
        with self._lock:
            _library.aggen_free(self._handle)

    def __enter__(self) -> Translator:
        return self

    def __exit__(self, kind: type[BaseException] | None, error: BaseException | None, trace: TracebackType | None) -> None:
        self.close()

    def __del__(self) -> None:
        if hasattr(self, "_handle"):
            self.close()

    def _report(self) -> tuple[Any, ...]:
        return self._message, len(self._message), self._refusal

    def _result(self, function: Callable[..., int], *inputs: bytes) -> bytes:
        arguments = [it for text in inputs for it in (text, len(text))]
        length = ctypes.c_size_t()
        out = ctypes.create_string_buffer(4096)
        with self._lock:
            while True:
                room = len(out)
                self._check(lambda: function(self._handle, *arguments, out, room, length, *self._report()))
                if length.value <= room:
                    return out.raw[: length.value]
                out = ctypes.create_string_buffer(length.value)

    def _check(self, call: Callable[[], int]) -> None:
        """Makes a call, and raises its refusal. Makes the call again if the message needs a larger buffer."""
        status = call()
        needed = self._refusal.message_length
        if status not in (0, Status.MISUSE) and needed > len(self._message):
            self._message = ctypes.create_string_buffer(needed)
            status = call()
        if status == 0:
            return
        found = self._refusal if status != Status.MISUSE else _Refusal(offset=NO_OFFSET)
        message = self._message.raw[: min(found.message_length, len(self._message))].decode(errors="replace")
        raise Refusal(
            Status(status),
            f"{chr(found.letter)}{found.index}" if found.letter else None,
            found.offset if found.offset != NO_OFFSET else None,
            (found.line, found.column) if found.line else None,
            message or f"status {status}",
        )
