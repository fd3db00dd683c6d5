"""The calls over records. Each raises Refusal where the library refuses, and keeps nothing."""

from __future__ import annotations

import struct
from dataclasses import dataclass
from functools import lru_cache
from typing import Optional, Sequence, Union

from . import _library
from ._library import ANSWER_SIZE, COUNTS, PICKS, PLAN_SIZE, QUESTIONS, ROUND, STAMPS, TEXT_SIZE, buffer, call, listed, words
from ._words import Answer, Class, Reasons, Refusal, Verdict

Bytes = Union[bytes, bytearray, memoryview]

_OFFSET = 1 << 31
_BLANK = -(1 << 31)
_HEADER = struct.Struct("<IHHHiH")


def _asked(result: int) -> int:
    """The result, where it is no refusal."""
    refusal = result & 255
    if refusal:
        raise Refusal(refusal)
    return result


def _minute(offset: int) -> Optional[int]:
    """The minute that an offset number stands for."""
    return None if offset == 0 else offset - _OFFSET


def _offset(minute: Optional[int]) -> int:
    """The offset number of a minute. What has none, or is blank by its bits, is far beyond every limit, and is refused as such."""
    if minute is None:
        return 0
    return minute + _OFFSET if _BLANK < minute < _OFFSET else 1


@lru_cache(maxsize=None)
def _fields(stamps: int, picks: int) -> struct.Struct:
    return struct.Struct(f"<{stamps}i{picks}H")


def _taken_apart(record: bytes, problem: bytes = b"", trials: int = 0, names: tuple[str, ...] = ()) -> Answer:
    """The fields of a record that the library wrote or took."""
    _, _, n, number, span, start = _HEADER.unpack_from(record)
    stamps = n + 1 if number == Class.LEAST else 0
    picks = (len(record) - _HEADER.size - 4 * stamps) // 2
    fields = _fields(stamps, picks).unpack_from(record, _HEADER.size)
    minutes = tuple([None if stamp == _BLANK else stamp for stamp in fields[:stamps]])
    least = None if span == _BLANK else span
    return Answer(Class(number), least, minutes, start, fields[stamps:], record, problem, trials, names)


def version() -> int:
    """The release that the library says it is: 40200 is 4.2.0."""
    return int(call.span_version())


def solve(problem: Bytes) -> list[Answer]:
    """Answers a problem record of kind 1, 3 or 5, one answer a question; no bytes are an idle day.

    ``problem`` of each answer is the record with its question alone, by which ``judge`` and ``reasons`` work.
    """
    problem = bytes(problem)
    if len(problem) < 12 or problem[4:6] != b"\3\0":
        return [_solved(problem)]
    lent = buffer(QUESTIONS * ANSWER_SIZE)
    _asked(call.span_solve(problem, len(problem), lent, len(lent)))
    written, answers, at = bytes(lent), [], 0
    for question in range(int.from_bytes(problem[10:12], "little")):
        end = at + 4 + int.from_bytes(written[at : at + 4], "little")
        answers.append(_taken_apart(written[at:end], _alone(problem, question)))
        at = end
    return answers


def _solved(problem: bytes, names: tuple[str, ...] = ()) -> Answer:
    """The answer to a problem of one question."""
    lent = buffer(ANSWER_SIZE)
    result = _asked(call.span_solve(problem, len(problem), lent, ANSWER_SIZE))
    written = bytes(lent)
    return _taken_apart(written[: 4 + written[0]], problem, result >> 8, names)


def _alone(problem: bytes, question: int) -> bytes:
    """The record of kind 1 with one of the questions of a record of kind 3, which the library took."""
    n, m, count = struct.unpack_from("<HHH", problem, 6)
    row = 8 * (n + 1)
    rules, rest = problem[12 : 12 + row * m], problem[12 + row * m :]
    body = struct.pack("<HHH", 1, n, m) + rules + rest[row * question : row * (question + 1)]
    return struct.pack("<I", len(body)) + body


def check(problem: Bytes, answer: Bytes) -> Verdict:
    """Judges an answer from any engine to a problem of kind 1 or 5, and trusts none. Raises Refusal, 14 where it is not certified."""
    problem, answer = bytes(problem), bytes(answer)
    result = _asked(call.span_check(problem, len(problem), answer, len(answer)))
    return Verdict(Class(result >> 8 & 255), _minute(result >> 32))


def reasons(problem: Bytes, answer: Bytes) -> Reasons:
    """Names the rules behind an accepted answer, and the binding round of a least span. Raises Refusal, 16 where it is bottomless."""
    problem, answer = bytes(problem), bytes(answer)
    rules, turns = words(PICKS), words(ROUND)
    result = _asked(call.span_reasons(problem, len(problem), answer, len(answer), rules, PICKS, turns, ROUND))
    named, moments = result >> 8 & 255, result >> 16 & 255
    return Reasons(tuple(rules[:named]), tuple(turns[:moments]) if moments else None)


def read(record: Bytes, n: int, m: int) -> Answer:
    """Reads an answer record for a problem of n and m."""
    record = bytes(record)
    stamps, picks = words(STAMPS), words(PICKS)
    _asked(call.span_read(record, len(record), _counted(n), _counted(m), stamps, STAMPS, picks, PICKS))
    return _taken_apart(record)


def write(answer: Answer, n: int, m: int) -> bytes:
    """Writes the record of an answer for a problem of n and m, by its class, span, start, stamps and picks."""
    lent = buffer(ANSWER_SIZE)
    stamps = listed([_offset(stamp) for stamp in answer.stamps])
    picks = listed([_counted(pick) for pick in answer.picks])
    result = call.span_write(
        answer.answer_class, _offset(answer.span), _counted(answer.start), stamps, len(stamps), picks, len(picks),
        _counted(n), _counted(m), lent, ANSWER_SIZE,
    )  # fmt: skip
    return bytes(lent[: _asked(result) >> 8])


def _counted(number: int) -> int:
    """A number of 64 bits without a sign; what is none is far beyond every limit, and is refused as such."""
    return number if 0 <= number < 1 << 64 else (1 << 64) - 1


def convert(stored: Bytes) -> bytes:
    """A stored problem of kind 1 or 3 without the rules whose left list is all blank; class and least span of each question stay."""
    stored = bytes(stored)
    lent = buffer(max(len(stored), 1))
    return bytes(lent[: _asked(call.span_convert(stored, len(stored), lent, len(lent))) >> 8])


def merge(
    problem: Bytes, first: Sequence[Optional[int]], second: Sequence[Optional[int]], shift: int = 0
) -> tuple[Optional[int], ...]:
    """Two plans into one: each moment is the later of the first plan's and the second plan's plus ``shift``, which is 0 or less.

    A plan has a minute a moment, the anchor's 0 first, None where it is left out.
    """
    problem, one, other, lent = bytes(problem), _plan(first), _plan(second), buffer(PLAN_SIZE)
    shift = max(min(shift, (1 << 63) - 1), -(1 << 63))
    result = _asked(call.span_merge(problem, len(problem), one, len(one), other, len(other), shift, lent, PLAN_SIZE))
    size = result >> 8
    stamps = struct.unpack(f"<{size // 4}i", bytes(lent[:size]))
    return tuple(None if stamp == _BLANK else stamp for stamp in stamps)


def _plan(stamps: Sequence[Optional[int]]) -> bytes:
    """The bytes of a plan; a minute that has no four bytes of its own is far beyond the limit, and is refused as such."""
    field = [_BLANK if stamp is None else max(min(stamp, _OFFSET - 1), _BLANK + 1) for stamp in stamps]
    return struct.pack(f"<{len(field)}i", *field)


def read_hours(text: str) -> Optional[int]:
    """The minutes of a text in hours and minutes, as 7:05 or -0:05; None for two hyphens. Raises Refusal 18."""
    told = text.encode("utf-8", "surrogatepass")
    return _minute(_asked(call.span_hours_read(told, len(told))) >> 32)


def write_hours(minutes: Optional[int]) -> str:
    """Minutes as hours and minutes; None is two hyphens. Raises Refusal 18 beyond 6,000,000 of 0."""
    lent = buffer(TEXT_SIZE)
    return bytes(lent[: _asked(call.span_hours_write(_offset(minutes), lent, TEXT_SIZE)) >> 8]).decode("ascii")


@dataclass(frozen=True)
class Window:
    """A window of a week list, in minutes from Monday 0:00: from its opening minute to the one before its closing minute."""

    opening: int
    closing: int


def first_open(week: Sequence[Union[Window, tuple[int, int]]], minute: int) -> Optional[int]:
    """The first open minute at or after a minute, counted from a Monday 0:00; None is never. Raises Refusal 19."""
    pairs = [(one.opening, one.closing) if isinstance(one, Window) else one for one in week]
    numbers = listed([_counted(number) for pair in pairs for number in pair])
    return _minute(_asked(call.span_first_open(numbers, len(numbers), _offset(minute))) >> 32)


@dataclass(frozen=True)
class Census:
    """How often each class occurs among the problems of a census; ``refused`` are those with a silent rule."""

    least: int
    bottomless: int
    none: int
    refused: int


def census(n: int, m: int, w: int) -> Census:
    """Counts by class all problems of kind 1 with this n and m whose leads are blank or -w to w. Raises Refusal 27."""
    counts = words(COUNTS)
    _asked(call.span_census(_counted(n), _counted(m), _counted(w), counts, COUNTS))
    return Census(*counts)


def marks_differ(before: Bytes, after: Bytes, count: int) -> bool:
    """Whether two lists of mark bytes differ in some byte of their first ``count``. Raises ValueError where a list has fewer."""
    before, after = bytes(before), bytes(after)
    result = int(call.span_marks_differ(before, len(before), after, len(after), _counted(count)))
    if result == _library.TOO_FEW_PLACES:
        raise ValueError("a list has fewer bytes than are to be compared")
    return result != 0
