"""Problems built row by row or from dictionaries. docs/RECORDS.md tells the bytes."""

from __future__ import annotations

from array import array
from typing import Any, Mapping, Optional, Sequence, Union
import struct
import sys

from . import _calls
from ._words import Answer, Fault, Verdict

MOST_N = 31
"""The most moments beside the anchor."""
MOST_M = 63
"""The most rules."""
MOST_LEAD = 20160
"""A lead is blank or within this of 0, in minutes."""
QUESTIONS = 8
"""The most questions of one problem."""
BLANK = None
"""A lead that is not there; a moment that a list does not name has it too."""

Moment = Union[int, str]
List = Mapping[Moment, Optional[int]]
"""A list of a row: moments, by name or number, each with its lead."""

_BLANK = -(1 << 31)
_SWAPPED = sys.byteorder == "big"


class Problem:
    """A problem that is being built. Moments have names or are numbers; the anchor is moment 0.

    >>> quarrel = Problem(1)
    >>> quarrel.rule({0: 30}, {1: 0}), quarrel.rule({1: 0}, {0: 20}), quarrel.question({1: 0}, {0: 0})
    (1, 2, 0)
    >>> print(quarrel.solve()[0])
    none
    >>> quarrel.suspend(2)
    >>> print(quarrel.solve()[0])
    least 30
    """

    def __init__(self, moments: Union[int, Sequence[str]], anchor: str = "anchor") -> None:
        """A problem of so many moments beside the anchor, or of moments with these names; without rows."""
        named = not isinstance(moments, int)
        self._names: tuple[str, ...] = (anchor, *moments) if not isinstance(moments, int) else ()
        self._count = len(self._names) if named else int(moments) + 1  # type: ignore[arg-type]
        if not 1 <= self._count <= MOST_N + 1:
            raise Fault(f"there are at most {MOST_N} moments beside the anchor, and at least none")
        self._places: dict[Moment, int] = {moment: moment for moment in range(self._count)}
        if not named:  # as JSON has numbers in front of a colon
            self._places.update({str(moment): moment for moment in range(self._count)})
        for place, name in enumerate(self._names):
            if not isinstance(name, str) or name in self._places:
                raise Fault(f"the moment {name!r} is no name, or is there twice")
            self._places[name] = place
        self._blank = array("i", [_BLANK]) * (2 * self._count)
        self._rules: list[bytes] = []
        self._suspended: set[int] = set()
        self._questions: list[bytes] = []

    @classmethod
    def from_dict(cls, told: Mapping[str, Any]) -> Problem:
        """A problem from a dictionary, as JSON has it::

            {"anchor": "decision", "moments": ["cleaned", "ready"],
             "rules": [{"left": {"decision": 60}, "right": {"cleaned": 0}, "suspended": false}],
             "questions": [{"first": {"ready": 0}, "second": {"decision": 0}}]}

        ``moments`` may be a number; moments are then numbers, or texts of numbers. ``anchor`` and ``suspended`` may be left out. A word that is
        none of these is a Fault.
        """
        _known(told, {"anchor", "moments", "rules", "questions"}, "the problem")
        if "moments" not in told:
            raise Fault("the problem has no moments")
        problem = cls(told["moments"], told.get("anchor", "anchor"))
        for number, rule in enumerate(told.get("rules", []), 1):
            _known(rule, {"left", "right", "suspended"}, f"rule {number}")
            problem.rule(rule.get("left", {}), rule.get("right", {}), bool(rule.get("suspended", False)))
        for number, question in enumerate(told.get("questions", []), 1):
            _known(question, {"first", "second"}, f"question {number}")
            problem.question(question.get("first", {}), question.get("second", {}))
        return problem

    @property
    def n(self) -> int:
        """The moments beside the anchor."""
        return self._count - 1

    @property
    def m(self) -> int:
        """The rules."""
        return len(self._rules)

    @property
    def questions(self) -> int:
        """The questions."""
        return len(self._questions)

    @property
    def names(self) -> tuple[str, ...]:
        """The names of the moments, the anchor's first; empty where they are numbers."""
        return self._names

    def rule(self, left: List, right: List, suspended: bool = False) -> int:
        """Adds a rule: the later of the left moments, each with its lead, is at most the later of the right ones. Its number, from 1 on."""
        number = self.m + 1
        if number > MOST_M:
            raise Fault(f"rule {number}: there are at most {MOST_M} rules")
        row = self._row(f"rule {number}", left, right)
        if all(lead is None for lead in left.values()):
            raise Fault(f"rule {number}: the left list is all blank")
        self._rules.append(row)
        if suspended:
            self._suspended.add(number)
        return number

    def suspend(self, rule: int, suspended: bool = True) -> None:
        """Suspends a rule, or puts it in force again; it keeps its number."""
        if not 1 <= rule <= self.m:
            raise Fault(f"rule {rule}: there is no such row")
        (self._suspended.add if suspended else self._suspended.discard)(rule)

    def question(self, first: List, second: List) -> int:
        """Adds a question: the span to the later of the first moments from the later of the second ones. Its place, from 0 on."""
        place = self.questions
        if place == QUESTIONS:
            raise Fault(f"question {place + 1}: there are at most {QUESTIONS} questions")
        self._questions.append(self._row(f"question {place + 1}", first, second))
        return place

    def _row(self, name: str, left: List, right: List) -> bytes:
        """The leads of a row as they stand in a record."""
        row, places = self._blank[:], self._places
        for word, base, leads in (("left", 0, left), ("right", self._count, right)):
            for moment, lead in leads.items():
                place = places.get(moment)
                if place is None or isinstance(moment, bool):
                    raise Fault(f"{name}, {word} list, moment {moment!r}: there is no such moment")
                if lead is None:
                    continue
                if not isinstance(lead, int) or not -MOST_LEAD <= lead <= MOST_LEAD:
                    raise Fault(f"{name}, {word} list, moment {moment!r}: the lead {lead!r} is no whole number within {MOST_LEAD} of 0")
                if row[base + place] != _BLANK:
                    raise Fault(f"{name}, {word} list, moment {moment!r}: the list has this moment twice")
                row[base + place] = lead
        if _SWAPPED:
            row.byteswap()
        return row.tobytes()

    def record(self) -> bytes:
        """The record: of kind 1; of kind 3 where there are several questions; of kind 5 where a rule is suspended.

        No kind has suspended rules and several questions; ``solve`` asks one after the other then.
        """
        if self.questions <= 1:
            return self.alone(0)
        if self._suspended:
            raise Fault("a record with suspended rules has one question")
        return self._bytes(3, struct.pack("<H", self.questions), self._questions)

    def alone(self, question: int = 0) -> bytes:
        """The record with one of the questions alone, by its place: of kind 1, or of kind 5 where a rule is suspended."""
        if not 0 <= question < self.questions:
            raise Fault(f"question {question + 1}: there is no such question")
        row = [self._questions[question]]
        if not self._suspended:
            return self._bytes(1, b"", row)
        states = [rule not in self._suspended for rule in range(1, self.m + 1)]
        return self._bytes(5, struct.pack(f"<{self.m}H", *states), row)

    def _bytes(self, kind: int, between: bytes, questions: list[bytes]) -> bytes:
        body = b"".join([struct.pack("<HHH", kind, self.n, self.m), between, *self._rules, *questions])
        return struct.pack("<I", len(body)) + body

    def solve(self) -> list[Answer]:
        """Answers every question, in their order; suspended rules and several questions may stand together."""
        return [self.solve_one(question) for question in range(max(self.questions, 1))]

    def solve_one(self, question: int = 0) -> Answer:
        """Answers one question, by its place."""
        record = self.alone(question)
        return _calls._solved(record, self._names)

    def judge(self, answer: Union[Answer, bytes], question: int = 0) -> Verdict:
        """Judges an answer from any engine to one of the questions. Raises Refusal, 14 where it is not certified."""
        return _calls.check(self.alone(question), answer.record if isinstance(answer, Answer) else answer)


def _known(told: Any, words: set[str], where: str) -> None:
    """Whether a dictionary has these words alone."""
    if not isinstance(told, Mapping):
        raise Fault(f"{where} is no dictionary")
    for word in told:
        if word not in words:
            raise Fault(f"{where} has the word {word!r}, and may have {', '.join(sorted(words))}")
