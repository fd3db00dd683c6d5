"""The words of documents 01 and 02 as types: classes, answers, verdicts, reasons, refusals, faults."""

from __future__ import annotations

import enum
from dataclasses import dataclass, field
from typing import Optional

_REASONS = (
    "the problem has fewer than 10 bytes",
    "the problem's length field is not its size - 4",
    "the problem's kind is not one that this call takes",
    "n is above 31 or m above 63",
    "the problem's size does not fit its kind, n and m, and for kind 3 the count of questions",
    "a lead is neither blank nor within 20,160 of 0",
    "the buffer is too short: 208 bytes an answer, 128 a merged plan, or the converted record",
    "the answer has fewer than 16 bytes",
    "the answer's length field is not its size - 4",
    "the answer's kind is not 4, its class not 1 to 3, or its start none of its class",
    "the answer's n is not the problem's, or its size does not fit its class",
    "the span or a stamp is outside its form",
    "a pick is above its highest value",
    "the form is right and the answer is not accepted",
    "the count of questions is 0 or above 8",
    "the answer is bottomless",
    "a rule has an all-blank left list",
    "the text is not of its form, the value is beyond 6,000,000 of 0, or the buffer is under 10 bytes",
    "the week list is not of its form, or the minute is beyond 6,000,000 of 0",
    "a state is neither 0 nor 1",
    "all 16 places of the desk hold a problem, or its tickets are used up",
    "the desk holds no such ticket",
    "the desk's memory is shorter than 16 problems",
    "the shift is above 0",
    "a plan breaks a rule",
    "a merged stamp would be below -6,000,000",
    "w is 0 or above 20,160, n or m is beyond its limit, or there are more than 65,536 problems",
)


def reason(number: int) -> str:
    """What is wrong, by the number of a refusal."""
    return _REASONS[number - 1] if 1 <= number <= len(_REASONS) else "no refusal has this number"


class Refusal(Exception):
    """A call refused what it was handed; nothing was written."""

    def __init__(self, number: int) -> None:
        super().__init__(number)
        self.number = number
        """1 to 27; docs/RECORDS.md has their order."""

    @property
    def reason(self) -> str:
        """What is wrong, in words."""
        return reason(self.number)

    def __str__(self) -> str:
        line = "not certified" if self.number == 14 else f"refused {self.number}"
        return f"{line}: {self.reason}"


class Fault(ValueError):
    """A problem cannot be built; the message says where and why. The row was not added."""


class Class(enum.IntEnum):
    """The class of an answer, about the plans that keep the rules and count."""

    LEAST = 1
    """Some plan has this whole span, and none has a smaller one."""
    BOTTOMLESS = 2
    """For every whole number some plan has a span at or under it."""
    NONE = 3
    """There is no such plan."""

    def __str__(self) -> str:
        return self.name.lower()


@dataclass(frozen=True)
class Verdict:
    """What the checker accepted."""

    answer_class: Class
    span: Optional[int]
    """The least span in minutes; None in the other classes."""

    def __str__(self) -> str:
        return f"accepted {self.answer_class}" + ("" if self.span is None else f" {self.span}")


@dataclass(frozen=True)
class Reasons:
    """What holds an answer up."""

    rules: tuple[int, ...]
    """The rules that reached moments pick, ascending, from 1 on: with these alone class and span are the same."""
    round: Optional[tuple[int, ...]]
    """The binding round of a least span, moments in turn; None where the answer is none."""


@dataclass(frozen=True)
class Answer:
    """An answer to one question, with the records that it stands in: they are the grounds to be kept."""

    answer_class: Class
    span: Optional[int]
    """The least span in minutes; None in the other classes."""
    stamps: tuple[Optional[int], ...]
    """A minute a moment, the anchor's 0 first, None where it is left out; empty but for least."""
    start: int
    picks: tuple[int, ...]
    record: bytes = field(default=b"", repr=False)
    """The bytes of the answer."""
    problem: bytes = field(default=b"", repr=False)
    """The bytes of the problem with this question alone."""
    trials: int = 0
    """The trials of this question, where they are known: 0 else."""
    names: tuple[str, ...] = field(default=(), repr=False)
    """The names of the moments, where they have some."""

    @property
    def plan(self) -> dict[str, Optional[int]]:
        """When each moment is, by its name or number, in minutes from the anchor; empty where there is no plan."""
        names = self.names or tuple(str(moment) for moment in range(len(self.stamps)))
        return dict(zip(names, self.stamps))

    def judge(self) -> Verdict:
        """What the checker says of this answer; it accepts each answer of the engine. Raises Refusal where a record was changed."""
        from ._calls import check

        return check(self.problem, self.record)

    def reasons(self) -> Reasons:
        """The rules behind the answer, and the binding round. Raises Refusal 16 where it is bottomless."""
        from ._calls import reasons

        return reasons(self.problem, self.record)

    def __str__(self) -> str:
        return str(self.answer_class) + ("" if self.span is None else f" {self.span}")
