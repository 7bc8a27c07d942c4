"""SPDX licence expressions, by the proved library libspdx.

    licences = spdx.Licences.read("/usr/local/share/spdx/spdx.json")
    licences.check("MIT OR Apache-2.0")                     # None, or spdx.Refused
    licences.fix("mit/apache-2.0")                          # "MIT OR Apache-2.0"
    licences.evaluate("MIT OR Zlib", ["Zlib"])              # True
    licences.evaluate_bits("MIT OR Zlib", [False, True])    # True: requirement by requirement
    licences.simplify("MIT OR (MIT AND Zlib)")              # "MIT"
    licences.compare("MIT AND Zlib", "MIT")                 # spdx.Relation.MORE: the first asks for more
    licences.lines(["MIT", "Apache2"], ["MIT"])             # a verdict for each, in one call
    licences.listed("GPL-2.0")                              # spdx.Listing.DEPRECATED

Texts are str or bytes; places are in bytes of UTF-8. `TypeError` is raised where another value is given for a text, or
one text for several; a number that has more than 32 bits is a `ValueError`.

`Licences` reads its list once, and any number of threads may ask it at once; Python's lock is free meanwhile. Its memory
is given back with the object, or before, by `close` or the end of a `with`, which are for when no other thread asks it.
"""

from __future__ import annotations

import ctypes
import ctypes.util
import enum
import operator
import os
from typing import Iterable, NamedTuple, Optional, Union

STRICT, LAX, NORMAL = 0, 1, 2

Text = Union[str, bytes]


class SpdxError(Exception):
    """A call had no answer."""


class Refused(SpdxError):
    """A text or a licensee is refused: `start` and `end` are in bytes, `reason` is a number, `message` its text. `text`
    is 1 where it is the second of two texts, and else 0."""

    def __init__(
        self, start: int, end: int, reason: int, message: str, licensee: Optional[int] = None, text: int = 0
    ):
        who = "the second text: " if text else "" if licensee is None else f"licensee {licensee}: "
        super().__init__(f"{who}{start}..{end}: {message}")
        self.start, self.end, self.reason, self.message = start, end, reason, message
        self.licensee, self.text = licensee, text


class Unmet(SpdxError):
    """The licensees don't make the expression true."""


class Relation(enum.IntEnum):
    """How what the first of two expressions asks compares with what the second one asks."""

    SAME, MORE, LESS, NEITHER = range(4)


class Listing(enum.IntEnum):
    """What the list says of a name."""

    UNLISTED, CURRENT, DEPRECATED = range(3)


class Lines(NamedTuple):
    """The answers to lines, as spdx_lines writes them, and their counts."""

    verdicts: list[str]
    lines: int
    refused: int


class _Report(ctypes.Structure):
    _fields_ = [
        ("status", ctypes.c_uint32),
        ("reason", ctypes.c_uint32),
        ("start", ctypes.c_size_t),
        ("end", ctypes.c_size_t),
        ("number", ctypes.c_size_t),
        ("length", ctypes.c_size_t),
        ("lines", ctypes.c_uint64),
        ("refused", ctypes.c_uint64),
    ]


class _Bytes(ctypes.Structure):
    """A text or a buffer. The first field keeps what it points to alive."""

    _fields_ = [("bytes", ctypes.c_char_p), ("length", ctypes.c_size_t)]


class _Buffer(ctypes.Structure):
    _fields_ = [("bytes", ctypes.c_void_p), ("length", ctypes.c_size_t)]


class _List(ctypes.Structure):
    """A handle: all zeroes are a closed one."""

    _fields_ = [("at", ctypes.c_void_p), ("state", ctypes.c_uint32)]


_OK, _REFUSED, _NOT_TEXT, _LICENSEE, _LICENSEE_NOT_TEXT, _UNMET = range(6)
_TOO_MANY, _NO_FIX, _SHORT, _ARGUMENT, _LIST, _MEMORY, _TOO_MANY_SETS = range(6, 13)


def _library() -> ctypes.CDLL:
    path = os.environ.get("SPDX_LIBRARY") or ctypes.util.find_library("spdx") or "libspdx.so"
    library = ctypes.CDLL(path)
    handle = ctypes.POINTER(_List)
    texts = {"listed": 1, "check": 1, "canonical": 1, "fix": 1, "normal": 1, "simplify": 1, "requirements": 1}
    texts |= {"compare": 2, "evaluate": 2, "choose": 2, "lines": 2}
    for name, count in texts.items():
        call = getattr(library, f"spdx_{name}")
        mode = [] if name in ("fix", "listed") else [ctypes.c_uint32]
        out = [] if name in ("listed", "check", "compare", "evaluate") else [_Buffer]
        call.restype, call.argtypes = _Report, [handle, *mode, *[_Bytes] * count, *out]
    bits = library.spdx_evaluate_bits
    bits.restype, bits.argtypes = _Report, [handle, ctypes.c_uint32, _Bytes, ctypes.c_char_p, ctypes.c_size_t]
    library.spdx_open.restype, library.spdx_open.argtypes = _Report, [_Bytes, handle]
    library.spdx_close.restype, library.spdx_close.argtypes = _Report, [handle]
    library.spdx_reason.restype, library.spdx_reason.argtypes = _Report, [ctypes.c_uint32, _Buffer]
    return library


_LIBRARY = _library()


def _given(data: Union[bytes, bytearray, memoryview]) -> bytes:
    if isinstance(data, (bytes, bytearray, memoryview)):
        return bytes(data)
    raise TypeError(f"a text or bytes are due, not {type(data).__name__}")


def _encoded(text: Text) -> bytes:
    return text.encode("utf-8", "surrogatepass") if isinstance(text, str) else _given(text)


def _number(number: int) -> int:
    """A number of 32 bits. C would take a greater one modulo 2 ** 32."""
    index = operator.index(number)
    if 0 <= index < 2**32:
        return index
    raise ValueError(f"{index} is no number of 32 bits")


def _bytes(text: bytes) -> _Bytes:
    return _Bytes(text, len(text))


def _joined(lines: Iterable[Text]) -> bytes:
    if isinstance(lines, (str, bytes, bytearray, memoryview)):
        raise TypeError("several texts are due, as in a list, and not one text")
    parts = [_encoded(line) for line in lines]
    if any(b"\n" in part for part in parts):
        raise ValueError("a newline in a line")
    return b"".join(part + b"\n" for part in parts)


def _written(call, *given, guess: int = 256) -> tuple[_Report, bytes]:
    """What the call writes: once more where the buffer was too short."""
    while True:
        buffer = ctypes.create_string_buffer(max(guess, 1))
        report = call(*given, _Buffer(ctypes.addressof(buffer), guess))
        if report.status != _SHORT:
            return report, buffer.raw[: report.length]
        guess = report.length


def reason(number: int) -> str:
    """What a reason says, apart from the words that were expected."""
    report, text = _written(_LIBRARY.spdx_reason, _number(number))
    _raise(report)
    return text.decode()


def _raise(report: _Report) -> None:
    status = report.status
    if status == _OK:
        return
    if status in (_REFUSED, _LICENSEE):
        licensee, text = (report.number, 0) if status == _LICENSEE else (None, report.number)
        raise Refused(report.start, report.end, report.reason, reason(report.reason), licensee, text)
    if status == _UNMET:
        raise Unmet("the licensees don't make the expression true")
    if status == _MEMORY:
        raise MemoryError
    said = {
        _NOT_TEXT: f"the {'second ' if report.number else ''}text is not UTF-8",
        _LICENSEE_NOT_TEXT: f"licensee {report.number} is not UTF-8",
        _TOO_MANY: f"{report.number} licensees are useful, more than 1,024",
        _TOO_MANY_SETS: f"{report.number} sets of requirements are made of an expression, more than 4,096",
        _LIST: "the bytes are no list of licences",
        _ARGUMENT: "a number that means nothing, or a list that is closed",
    }
    raise SpdxError(said.get(status, f"status {status}"))


class Licences:
    """A list of licences, in the JSON of `spdx list make`. `SpdxError` where the bytes are none."""

    def __init__(self, json: bytes):
        given = _given(json)
        self._list = _List()
        _raise(_LIBRARY.spdx_open(_bytes(given), self._list))

    def close(self) -> None:
        """Gives the list's memory back. The calls raise `SpdxError` from then on; a second close does nothing."""
        _LIBRARY.spdx_close(self._list)

    def __enter__(self) -> "Licences":
        return self

    def __exit__(self, *_) -> None:
        self.close()

    def __del__(self, close=_LIBRARY.spdx_close) -> None:
        opened = getattr(self, "_list", None)
        if opened is not None:
            close(opened)

    @classmethod
    def read(cls, path: Union[str, os.PathLike]) -> "Licences":
        """The list of a file."""
        with open(path, "rb") as file:
            return cls(file.read())

    def listed(self, name: Text) -> Listing:
        """What the list says of a licence's or an exception's name, the case of ASCII letters aside."""
        report = _LIBRARY.spdx_listed(self._list, _bytes(_encoded(name)))
        _raise(report)
        return Listing(report.number)

    def check(self, text: Text, mode: int = STRICT) -> None:
        """Raises `Refused` where the text is no expression."""
        _raise(_LIBRARY.spdx_check(self._list, _number(mode), _bytes(_encoded(text))))

    def canonical(self, text: Text, mode: int = STRICT) -> str:
        """The canonical text of an expression."""
        return self._text(_LIBRARY.spdx_canonical, _number(mode), _bytes(_encoded(text)))

    def normal(self, text: Text, mode: int = STRICT) -> str:
        """The one text of its tree."""
        return self._text(_LIBRARY.spdx_normal, _number(mode), _bytes(_encoded(text)))

    def simplify(self, text: Text, mode: int = STRICT) -> str:
        """The text of what an expression means: with `STRICT`, two have the same exactly if they mean the same."""
        return self._text(_LIBRARY.spdx_simplify, _number(mode), _bytes(_encoded(text)))

    def compare(self, one: Text, other: Text, mode: int = STRICT) -> Relation:
        """How what the first expression asks compares with what the second one asks."""
        report = _LIBRARY.spdx_compare(self._list, _number(mode), _bytes(_encoded(one)), _bytes(_encoded(other)))
        _raise(report)
        return Relation(report.number)

    def fix(self, text: Text) -> Optional[str]:
        """What to write in place of a text that is refused, where there is a fix."""
        report, fix = _written(_LIBRARY.spdx_fix, self._list, _bytes(_encoded(text)))
        if report.status == _NO_FIX:
            return None
        _raise(report)
        return fix.decode()

    def evaluate(self, text: Text, licensees: Iterable[Text], mode: int = STRICT) -> bool:
        """Whether those who hold these licences may use what comes under the expression."""
        report = _LIBRARY.spdx_evaluate(self._list, _number(mode), _bytes(_encoded(text)), _bytes(_joined(licensees)))
        if report.status == _UNMET:
            return False
        _raise(report)
        return True

    def requirements(self, text: Text, mode: int = STRICT) -> list[str]:
        """The requirements of an expression, from left to right."""
        return self._text(_LIBRARY.spdx_requirements, _number(mode), _bytes(_encoded(text))).split("\n")[:-1]

    def evaluate_bits(self, text: Text, met: Iterable[bool], mode: int = STRICT) -> bool:
        """Whether the expression is true where each of its `requirements`, in their order, is met or not. `ValueError`
        where there is not an answer for each."""
        answers = [bool(answer) for answer in met]
        bits = bytearray(len(answers) // 8 + 1)
        for place, answer in enumerate(answers):
            bits[place // 8] |= answer << place % 8
        report = _LIBRARY.spdx_evaluate_bits(self._list, _number(mode), _bytes(_encoded(text)), bytes(bits), len(answers))
        if report.status == _UNMET:
            return False
        if report.status == _ARGUMENT and report.number:
            raise ValueError(f"{len(answers)} answers for {report.number} requirements")
        _raise(report)
        return True

    def choose(self, text: Text, licensees: Iterable[Text], mode: int = STRICT) -> list[str]:
        """The requirements of the least choice among the licensees; `Unmet` where there is none."""
        chosen = self._text(_LIBRARY.spdx_choose, _number(mode), _bytes(_encoded(text)), _bytes(_joined(licensees)))
        return chosen.split("\n")[:-1]

    def lines(self, texts: Iterable[Text], licensees: Iterable[Text] = (), mode: int = STRICT) -> Lines:
        """The verdict on each text, by one call."""
        given = _bytes(_joined(texts))
        report, out = _written(
            _LIBRARY.spdx_lines, self._list, _number(mode), _bytes(_joined(licensees)), given, guess=4 * given.length + 256
        )
        _raise(report)
        return Lines(out.decode().split("\n")[:-1], report.lines, report.refused)

    def _text(self, call, *given) -> str:
        report, text = _written(call, self._list, *given)
        _raise(report)
        return text.decode()
