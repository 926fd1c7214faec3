"""Cedar schemas, by proved calls: canonical texts, JSON, layout, and the exact faults of a text that is no schema.

>>> import cedar_schema
>>> cedar_schema.recover("entity B; entity A in B;")
'entity A in [B];\\n\\nentity B;\\n'
"""
from __future__ import annotations

import ctypes
import ctypes.util
import json
import os
import re
from typing import List, NamedTuple, Optional, Sequence, Tuple

__all__ = [
    "Answer",
    "Completions",
    "DeepError",
    "Fault",
    "InputError",
    "Place",
    "Position",
    "Report",
    "SchemaError",
    "UsageError",
    "check",
    "complete",
    "format",
    "from_json",
    "include",
    "recover",
    "report",
    "run",
    "same",
    "to_json",
    "version",
]

DONE, REFUSED, USAGE, NOT_TEXT, TOO_LONG, MEMORY, TOO_DEEP = 0, 1, 2, 5, 6, 7, 8


class Fault(NamedTuple):
    """Why a text is no schema. Places are bytes from the start of the text as UTF-8."""

    message: str
    """What is wrong."""
    place: Optional[Tuple[int, int]]
    """The first byte and the one behind the last, where the fault has a place."""
    label: Optional[str]
    """What the place stands for, such as what could stand there."""
    help: Optional[str]
    """How to mend it, where there is advice."""


class SchemaError(ValueError):
    """The text is no schema. `faults` has each reason, and never is empty."""

    def __init__(self, text: str) -> None:
        super().__init__(text.rstrip("\n"))
        self.faults: List[Fault] = _faults(text)

    @property
    def message(self) -> str:
        """The message of the first fault."""
        return self.faults[0].message

    @property
    def place(self) -> Optional[Tuple[int, int]]:
        """The place of the first fault."""
        return self.faults[0].place

    @property
    def help(self) -> Optional[str]:
        """The advice on the first fault."""
        return self.faults[0].help


class InputError(ValueError):
    """The input is not UTF-8, or longer than 16,777,216 bytes."""


class DeepError(InputError):
    """More than 256 brackets are open at one place of the input."""


class UsageError(ValueError):
    """The words ask for no command."""


class Answer(NamedTuple):
    """What `run` answers: the status and both outputs."""

    status: int
    out: bytes
    err: bytes


class Completions(NamedTuple):
    """What may stand at a place of a text."""

    kinds: List[str]
    """The kinds of tokens, as messages call them."""
    names: List[str]
    """The names that complete the word that ends at the place."""


class Position(NamedTuple):
    """Where a place of a text begins or ends."""

    byte: int
    """The bytes ahead of it, as UTF-8."""
    line: int
    """The line, from 1."""
    column: int
    """The column in characters, from 1."""
    utf16: int
    """The column in UTF-16 units, from 1."""


class Place(NamedTuple):
    """A place that a report points to, up to and not including its end."""

    start: Position
    end: Position
    text: Optional[str]
    """What the place stands for, such as what could stand there."""


class Report(NamedTuple):
    """A fault or a warning of a text."""

    severity: str
    """`error` or `warning`."""
    message: str
    help: Optional[str]
    """How to mend it, where there is advice."""
    places: List[Place]


class _Bytes(ctypes.Structure):
    _fields_ = [("at", ctypes.c_void_p), ("len", ctypes.c_size_t)]


class _Answer(ctypes.Structure):
    _fields_ = [("out", _Bytes), ("err", _Bytes)]


def _load() -> ctypes.CDLL:
    beside = os.path.join(os.path.dirname(os.path.abspath(__file__)), "libcedar_schema.so.0")
    named = os.environ.get("CEDAR_SCHEMA_LIBRARY")
    for path in [named, beside, "libcedar_schema.so.0", ctypes.util.find_library("cedar_schema")]:
        if path is None or (path is beside and not os.path.exists(path)):
            continue
        try:
            return ctypes.CDLL(path)
        except OSError:
            if path is named:
                raise
    raise ImportError("libcedar_schema.so.0 is not found: install it, or set CEDAR_SCHEMA_LIBRARY to its path")


_library = _load()
_calls = {}
for _name in ["recover", "check", "to_json", "from_json", "from_deprecated", "format", "report"]:
    _call = getattr(_library, f"cedar_schema_{_name}")
    _call.argtypes = [ctypes.c_char_p, ctypes.c_size_t, ctypes.POINTER(_Answer)]
    _call.restype = ctypes.c_uint8
    _calls[_name] = _call
_library.cedar_schema_complete.argtypes = [
    ctypes.c_char_p,
    ctypes.c_size_t,
    ctypes.c_size_t,
    ctypes.POINTER(_Answer),
]
_library.cedar_schema_complete.restype = ctypes.c_uint8
for _call in [_library.cedar_schema_same, _library.cedar_schema_include]:
    _call.argtypes = [ctypes.c_char_p, ctypes.c_size_t, ctypes.c_char_p, ctypes.c_size_t, ctypes.POINTER(_Answer)]
    _call.restype = ctypes.c_uint8
_library.cedar_schema_run.argtypes = [
    ctypes.POINTER(_Bytes),
    ctypes.c_size_t,
    ctypes.c_char_p,
    ctypes.c_size_t,
    ctypes.POINTER(_Answer),
]
_library.cedar_schema_run.restype = ctypes.c_uint8
_library.cedar_schema_free.argtypes = [ctypes.POINTER(_Answer)]
_library.cedar_schema_free.restype = None
_library.cedar_schema_version.restype = ctypes.c_uint32
_nothing = ctypes.create_string_buffer(1)


def _empty() -> _Answer:
    at = ctypes.addressof(_nothing)
    return _Answer(_Bytes(at, 0), _Bytes(at, 0))


def _taken(status: int, answer: _Answer) -> Answer:
    try:
        out = ctypes.string_at(answer.out.at, answer.out.len)
        err = ctypes.string_at(answer.err.at, answer.err.len)
    finally:
        _library.cedar_schema_free(ctypes.byref(answer))
    return Answer(status, out, err)


def _bytes(text: "str | bytes") -> bytes:
    return text if isinstance(text, bytes) else text.encode("utf-8", "surrogatepass")


def _answer(name: str, text: "str | bytes") -> str:
    data = _bytes(text)
    answer = _empty()
    status = _calls[name](data, len(data), ctypes.byref(answer))
    return _out(_taken(status, answer))


def _of_two(call: "ctypes._FuncPointer", first: "str | bytes", second: "str | bytes") -> str:
    one, other = _bytes(first), _bytes(second)
    answer = _empty()
    status = call(one, len(one), other, len(other), ctypes.byref(answer))
    return _out(_taken(status, answer))


def _out(answer: Answer) -> str:
    if answer.status == DONE:
        return answer.out.decode("utf-8")
    told = answer.err.decode("utf-8")
    if answer.status == REFUSED:
        raise SchemaError(told)
    if answer.status == USAGE:
        raise UsageError(told.rstrip("\n"))
    if answer.status == MEMORY:
        raise MemoryError("out of memory")
    if answer.status == TOO_DEEP:
        raise DeepError("more than 256 brackets are open at one place")
    raise InputError(told.rstrip("\n"))


_ERROR = re.compile(r"error: (.*)", re.S)
_AT = re.compile(r"  at (\d+)\.\.(\d+)(?:: (.*))?")


def _faults(text: str) -> List[Fault]:
    found: List[Fault] = []
    for block in re.split(r"^(?=error: )", text, flags=re.M):
        if not block:
            continue
        message: List[str] = []
        place, label, advice = None, None, None
        for line in block.rstrip("\n").split("\n"):
            at = _AT.fullmatch(line)
            if at and place is None:
                place, label = (int(at[1]), int(at[2])), at[3]
            elif line.startswith("  help: "):
                advice = line[len("  help: ") :]
            elif place is None and advice is None:
                message.append(line)
        found.append(Fault("\n".join(message)[len("error: ") :], place, label, advice))
    return found


def recover(text: "str | bytes") -> str:
    """The one canonical text of what a schema text means. Raises SchemaError where it is no schema."""
    return _answer("recover", text)


def check(text: "str | bytes") -> Tuple[int, int]:
    """How many entity types and actions a schema text declares. Raises SchemaError where it is no schema."""
    numbers = re.fullmatch(r"(\d+) entity types, (\d+) actions\n", _answer("check", text))
    assert numbers is not None
    return int(numbers[1]), int(numbers[2])


def to_json(text: "str | bytes") -> str:
    """The JSON form of a schema text. Raises SchemaError where it is no schema."""
    return _answer("to_json", text)


def from_json(text: "str | bytes", *, deprecated: bool = False) -> str:
    """The canonical text of what a JSON schema means. Raises SchemaError where it is none."""
    return _answer("from_deprecated" if deprecated else "from_json", text)


def format(text: "str | bytes") -> str:
    """A schema text laid out anew, with its comments. Raises SchemaError where it is no schema."""
    return _answer("format", text)


def complete(text: "str | bytes", place: int) -> Completions:
    """What may stand at a place, which counts bytes of the text as UTF-8.

    Raises SchemaError where the text before the place has a fault, and where there is no such place.
    """
    data = _bytes(text)
    answer = _empty()
    status = _library.cedar_schema_complete(data, len(data), place, ctypes.byref(answer))
    lines = _out(_taken(status, answer)).splitlines()
    return Completions(
        [line[len("kind ") :] for line in lines if line.startswith("kind ")],
        [line[len("name ") :] for line in lines if line.startswith("name ")],
    )


def _report(line: str) -> Report:
    told = json.loads(line)
    places = [
        Place(Position(**place["start"]), Position(**place["end"]), place["text"]) for place in told["places"]
    ]
    return Report(told["severity"], told["message"], told["help"], places)


def report(text: "str | bytes") -> List[Report]:
    """What is reported of a schema text: its warnings, or its faults. A text with faults raises nothing."""
    data = _bytes(text)
    answer = _empty()
    status = _calls["report"](data, len(data), ctypes.byref(answer))
    taken = _taken(status, answer)
    lines = _out(taken._replace(status=DONE) if taken.status == REFUSED else taken)
    return [_report(line) for line in lines.split("\n")[:-1]]


def same(first: "str | bytes", second: "str | bytes") -> bool:
    """Whether two schema texts mean the same. Raises SchemaError where one of them is no schema."""
    return _of_two(_library.cedar_schema_same, first, second) == "same\n"


def include(old: "str | bytes", new: "str | bytes") -> Optional[str]:
    """None where the new schema admits all that the old one does, and else what the first value is about that it does
    not admit. Raises SchemaError where one of them is no schema."""
    found = _of_two(_library.cedar_schema_include, old, new)
    return None if found == "included\n" else found[len("not included: ") : -1]


def run(words: "Sequence[str | bytes]", text: "str | bytes" = b"") -> Answer:
    """What the program cedar_schema_tool answers to these words and this input. Raises no SchemaError."""
    data = _bytes(text)
    kept = [_bytes(word) for word in words]
    listed = (_Bytes * max(1, len(kept)))()
    buffers = [ctypes.create_string_buffer(word, len(word) + 1) for word in kept]
    for place, (word, buffer) in enumerate(zip(kept, buffers)):
        listed[place] = _Bytes(ctypes.addressof(buffer), len(word))
    answer = _empty()
    status = _library.cedar_schema_run(listed, len(kept), data, len(data), ctypes.byref(answer))
    if status == MEMORY:
        raise MemoryError("out of memory")
    return _taken(status, answer)


def version() -> Tuple[int, int, int]:
    """The version of the library: major, minor, patch."""
    number = _library.cedar_schema_version()
    return number // 10000, number // 100 % 100, number % 100
