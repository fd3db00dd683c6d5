"""The shared library: where it is, and its functions with their types, as span.h declares them."""

from __future__ import annotations

import ctypes
import os
from ctypes import POINTER, c_char_p, c_int64, c_size_t, c_uint8, c_uint64
from pathlib import Path

RELEASE = 40200
"""The release of this package, and of the library that it works with: 10,000 * 4 + 100 * 2 + 0."""

_NAME = "libspan.so.4.2"
_SYMBOL = "span_release_4_2"

ANSWER_SIZE = 208
QUESTIONS = 8
PLAN_SIZE = 128
TEXT_SIZE = 10
STAMPS = 32
PICKS = 64
ROUND = 32
COUNTS = 4
DESK_MEMORY = 262304
DESK_WORDS = 692
DESK_TICKET = 3
TOO_FEW_PLACES = 255

_bytes = [c_char_p, c_size_t]
_room = [POINTER(c_uint8), c_size_t]
_words = [POINTER(c_uint64), c_size_t]

_FUNCTIONS = {
    "span_version": [],
    "span_solve": _bytes + _room,
    "span_check": _bytes + _bytes,
    "span_reasons": _bytes + _bytes + _words + _words,
    "span_read": _bytes + [c_uint64, c_uint64] + _words + _words,
    "span_write": [c_uint64, c_uint64, c_uint64] + _words + _words + [c_uint64, c_uint64] + _room,
    "span_convert": _bytes + _room,
    "span_merge": _bytes + _bytes + _bytes + [c_int64] + _room,
    "span_hours_read": _bytes,
    "span_hours_write": [c_uint64] + _room,
    "span_first_open": _words + [c_uint64],
    "span_marks_differ": _bytes + _bytes + [c_uint64],
    "span_census": [c_uint64, c_uint64, c_uint64] + _words,
    "span_desk_open": _room + _words,
    "span_desk_take": _room + _words + _bytes,
    "span_desk_step": _room + _words,
    "span_desk_collect": _room + _words + [c_uint64] + _room,
}


class LibraryError(ImportError):
    """The shared library is missing, or is of another release than this package."""


def _candidates() -> list[str]:
    """Where the library may be, in this order; a name without a folder is looked up by the system."""
    named = os.environ.get("SPAN_LIBRARY")
    if named:
        return [named]
    above = Path(__file__).resolve().parents
    prefixes = [above[place] for place in (3, 4, 5) if place < len(above)]
    folders = [prefix / "lib" / _NAME for prefix in prefixes]
    return [str(path) for path in folders if path.exists()] + [_NAME]


def _load() -> tuple[ctypes.CDLL, str]:
    """The first library that is there. One of another release is an error, and no other is taken in its place."""
    failures = []
    for path in _candidates():
        try:
            library = ctypes.CDLL(path)
        except OSError as error:
            failures.append(str(error))
            continue
        if not hasattr(library, _SYMBOL):
            raise LibraryError(f"{path} is of another release than this package, which is 4.2")
        return library, path
    raise LibraryError(f"{_NAME} is not there: install libspan4.2, or name its file in SPAN_LIBRARY ({'; '.join(failures)})")


_library, _path = _load()

for _name, _types in _FUNCTIONS.items():
    _function = getattr(_library, _name)
    _function.argtypes = _types
    _function.restype = c_uint64

call = _library
"""The library's functions, with their types set."""


def library_path() -> str:
    """The file of the shared library, or the name by which the system found it."""
    return _path


def buffer(size: int) -> ctypes.Array[c_uint8]:
    """Bytes to be lent, all 0."""
    return (c_uint8 * size)()


def words(size: int) -> ctypes.Array[c_uint64]:
    """Places of 64 bits to be lent, all 0."""
    return (c_uint64 * size)()


def listed(numbers: list[int]) -> ctypes.Array[c_uint64]:
    """Numbers as the library reads them."""
    return (c_uint64 * len(numbers))(*numbers)
