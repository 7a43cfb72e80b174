"""The services of the marking desk from Python, over the shared object libnxa.so: one function for each, with nothing of its own.

A record, a script or a word is given as bytes (also bytearray or memoryview); a word may be a list or tuple of letters as well. What a
service writes comes back as bytes. Where the desk refuses, a function raises Refused with the refusal's number, record and place.

    >>> import nxa
    >>> x = nxa.catalogue(4)
    >>> nxa.test(x, [0, 0])
    False
    >>> nxa.compare(x, nxa.catalogue(1))
    Comparison(same=False, word=b'\\x00\\x00', accepted_by=2)

A word with a letter outside the record's alphabet is not accepted, not even where the record accepts every word:

    >>> nxa.test(nxa.catalogue(1), [0, 1]), nxa.test(nxa.catalogue(1), [0, 2, 1])
    (True, False)

A second record of 0 bytes, a blank, means the machine with no states over the first one's letters:

    >>> nxa.compare(nxa.catalogue(3), b"")
    Comparison(same=False, word=b'\\x01', accepted_by=1)
    >>> nxa.compare(nxa.catalogue(0), b"").same
    True

The shared object is the file that the environment variable NXA_LIBRARY names, or else libnxa.so.1 where the loader finds it.
`make -C host shared` makes it and `make -C host install` installs it. The rules of each service stand in nxa.h.
"""

import ctypes
import operator
import os
from typing import List, NamedTuple, Optional, Sequence, Union

__all__ = ["Refused", "Minimal", "Comparison", "RECORD_MAX", "WORD_MAX", "check", "rewrite", "test", "minimal", "compare",
           "sum", "meet", "complement", "mirror", "product", "star", "catalogue", "mark", "mark_line"]

RECORD_MAX = 1039  # bytes of the longest record
WORD_MAX = 63      # letters of the longest word that a comparison writes
LINE_ROOM = 128    # bytes lent for a line of a marked script; a longer line is asked for again

Bytes = Union[bytes, bytearray, memoryview]
Word = Union[Bytes, Sequence[int]]

_NO_ROOM = 12

# What each refusal says, and what its place tells. 9 no longer comes.
_REASONS = {
    1: ("the record is shorter than 7 bytes", "its length"),
    2: ("the mark is wrong", "the first wrong byte"),
    3: ("the version is not 1", "the version's offset"),
    4: ("there are more than 32 states", "their number's offset"),
    5: ("there are no letters or more than 8", "their number's offset"),
    6: ("the length does not fit the states and letters", "the length needed"),
    7: ("a field names a state that there is not", "the offset of the first such field"),
    8: ("the records have different letters", "their number's offset"),
    10: ("the product of the dimensions is over 64", "the product"),
    11: ("the result has more than 32 states", "its dimension"),
    12: ("the lent buffer is too short", "the bytes needed"),
    13: ("there is no such number in the catalogue", "the number"),
    14: ("the record accepts the empty word, so that it has no star", "the place"),
}


class Refused(Exception):
    """The desk refuses: the number of the refusal, the record it is about (1 or 2; 0 where none is named), and a place."""

    def __init__(self, number: int, record: int, place: int) -> None:
        super().__init__(number, record, place)
        self.number = number
        self.record = record
        self.place = place

    def __str__(self) -> str:
        reason, place = _REASONS.get(self.number, ("an unknown reason", "place"))
        about = f", record {self.record}" if self.record else ""
        return f"refused ({self.number}{about}): {reason}; {place}: {self.place}"


class Minimal(NamedTuple):
    """A minimal record, and the dimension of its language: the number of its states."""

    record: bytes
    dimension: int


class Comparison(NamedTuple):
    """Whether two records accept the same words; if not, the first word that just one accepts, and which one (1 or 2) does."""

    same: bool
    word: Optional[bytes]
    accepted_by: Optional[int]


# ---- the shared object

class _Reply(ctypes.Structure):
    _fields_ = [(name, ctypes.c_size_t) for name in ("number", "record", "place", "length", "value")]


_SLICE = [ctypes.c_char_p, ctypes.c_size_t]
_LENT = [ctypes.c_void_p, ctypes.c_size_t]
_SIZE_MAX = ctypes.c_size_t(-1).value

_library = ctypes.CDLL(os.environ.get("NXA_LIBRARY", "libnxa.so.1"))


def _service(name, *parameters):
    function = getattr(_library, name)
    function.restype = _Reply
    function.argtypes = [kind for parameter in parameters for kind in parameter]
    return function


_check = _service("nxa_check", _SLICE)
_rewrite = _service("nxa_rewrite", _SLICE, _LENT)
_test = _service("nxa_test", _SLICE, _SLICE)
_minimal = _service("nxa_minimal", _SLICE, _LENT)
_compare = _service("nxa_compare", _SLICE, _SLICE, _LENT)
_sum = _service("nxa_sum", _SLICE, _SLICE, _LENT)
_meet = _service("nxa_meet", _SLICE, _SLICE, _LENT)
_complement = _service("nxa_complement", _SLICE, _LENT)
_mirror = _service("nxa_mirror", _SLICE, _LENT)
_product = _service("nxa_product", _SLICE, _SLICE, _LENT)
_star = _service("nxa_star", _SLICE, _LENT)
_catalogue = _service("nxa_catalogue", [ctypes.c_size_t], _LENT)
_mark = _service("nxa_mark", _SLICE, [ctypes.c_size_t], _LENT)


# ---- what goes in and what comes out

def _bytes(value: Bytes) -> bytes:
    # bytes(5) would be five zeros, so that a number by mistake would pass for a record.
    if not isinstance(value, (bytes, bytearray, memoryview)):
        raise TypeError(f"bytes are wanted, not {type(value).__name__}")
    return bytes(value)


def _letters(word: Word) -> bytes:
    return bytes(word) if isinstance(word, (list, tuple)) else _bytes(word)


def _size(number: int) -> int:
    # ctypes would cut a larger number off, or wrap a negative one, without a word.
    number = operator.index(number)
    if not 0 <= number <= _SIZE_MAX:
        raise ValueError(f"{number} is no size")
    return number


def _slices(*slices: bytes) -> list:
    return [part for each in slices for part in (each, len(each))]


def _granted(reply: _Reply) -> _Reply:
    if reply.number != 0:
        raise Refused(reply.number, reply.record, reply.place)
    return reply


def _written(service, arguments, room: int):
    """Calls a service with a lent buffer of so many bytes: its reply and what it wrote."""
    out = ctypes.create_string_buffer(_size(room))
    reply = _granted(service(*arguments, out, room))
    return reply, out.raw[:reply.length]


# ---- the services; room is the size of the buffer that is lent, and what is lent unless it is given is always enough

def check(record: Bytes) -> None:
    """Returns for a well-formed record; raises Refused 1 to 7 for any other."""
    _granted(_check(*_slices(_bytes(record))))


def rewrite(record: Bytes, room: int = RECORD_MAX) -> bytes:
    """Reads a record into its fields and writes it afresh: the same bytes. Refused 1 to 7, 12."""
    return _written(_rewrite, _slices(_bytes(record)), room)[1]


def test(record: Bytes, word: Word) -> bool:
    """Says whether a record accepts a word; one with a letter outside its alphabet, wherever it comes, it does not. Refused 1 to 7."""
    return _granted(_test(*_slices(_bytes(record), _letters(word)))).value == 1


def minimal(record: Bytes, room: int = RECORD_MAX) -> Minimal:
    """Gives the minimal record of a record, and its dimension. Refused 1 to 7, 12."""
    reply, written = _written(_minimal, _slices(_bytes(record)), room)
    return Minimal(written, reply.value)


def compare(first: Bytes, second: Bytes, room: int = WORD_MAX) -> Comparison:
    """Compares the words that two records over the same letters accept; the second may be a blank. Refused 1 to 8, 12."""
    reply, word = _written(_compare, _slices(_bytes(first), _bytes(second)), room)
    return Comparison(True, None, None) if reply.value == 0 else Comparison(False, word, reply.value)


def sum(first: Bytes, second: Bytes, room: int = RECORD_MAX) -> bytes:
    """Gives the minimal record of the words that just one of two records accepts; the second may be a blank. Refused 1 to 8, 11, 12."""
    return _written(_sum, _slices(_bytes(first), _bytes(second)), room)[1]


def meet(first: Bytes, second: Bytes, room: int = RECORD_MAX) -> bytes:
    """Gives the minimal record of the words that both records accept; the second may be a blank. Refused 1 to 8, 10, 11, 12."""
    return _written(_meet, _slices(_bytes(first), _bytes(second)), room)[1]


def complement(record: Bytes, room: int = RECORD_MAX) -> bytes:
    """Gives the minimal record of the words that a record does not accept. Refused 1 to 7, 11, 12."""
    return _written(_complement, _slices(_bytes(record)), room)[1]


def mirror(record: Bytes, room: int = RECORD_MAX) -> bytes:
    """Gives the minimal record of a record's words reversed. Refused 1 to 7, 12."""
    return _written(_mirror, _slices(_bytes(record)), room)[1]


def product(first: Bytes, second: Bytes, room: int = RECORD_MAX) -> bytes:
    """Gives the minimal record of the words that have an odd number of cuts into a word of the first record and then a word of the
    second, which may be a blank. Refused 1 to 8, 11, 12."""
    return _written(_product, _slices(_bytes(first), _bytes(second)), room)[1]


def star(record: Bytes, room: int = RECORD_MAX) -> bytes:
    """Gives the minimal record of the words that have an odd number of cuts into words of a record, which must not accept the empty
    word. Refused 1 to 7, 14, 11, 12."""
    return _written(_star, _slices(_bytes(record)), room)[1]


def catalogue(number: int, room: int = RECORD_MAX) -> bytes:
    """Gives out the catalogue's record of this number, 0 to 5. Refused 13, 12."""
    return _written(_catalogue, [_size(number)], room)[1]


def mark_line(script: Bytes, index: int, room: Optional[int] = None) -> Optional[str]:
    """Gives the line of the record with this index in a script, without its line end, or None if marking ends before it. Refused 12,
    only where a room is given."""
    arguments = [*_slices(_bytes(script)), _size(index)]
    try:
        written = _written(_mark, arguments, LINE_ROOM if room is None else room)[1]
    except Refused as refused:
        if room is not None or refused.number != _NO_ROOM:
            raise
        written = _written(_mark, arguments, refused.place)[1]
    return written.decode("ascii")[:-1] if written else None


def mark(script: Bytes) -> List[str]:
    """Marks a script, a key record and then answers, end to end: a line for each record, as the marking program prints them. A script
    of 0 bytes has no lines."""
    lines: List[str] = []
    while (line := mark_line(script, len(lines))) is not None:
        lines.append(line)
    return lines
