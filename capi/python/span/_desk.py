"""A desk for sixteen problems (document 02, 2.11)."""

from __future__ import annotations

from dataclasses import dataclass
from typing import Optional, Union

from ._calls import Bytes, _asked, _taken_apart
from ._library import ANSWER_SIZE, DESK_MEMORY, DESK_TICKET, DESK_WORDS, buffer, call, words
from ._problem import Problem
from ._words import Answer


@dataclass(frozen=True)
class Step:
    """What a step made: the ticket that had its trial, and whether it is answered now."""

    ticket: int
    done: bool


class Desk:
    """A desk holds up to 16 problems of one question, and makes one trial a step for the one at the head of the line.

    It keeps memory and state as each call left them, which is all that the next call asks. It is not to be used by two threads at once.

    >>> desk = Desk()
    >>> ticket = desk.take(b"")     # an idle day
    >>> desk.collect(ticket) is None
    True
    >>> while desk.step(): pass
    >>> print(desk.collect(ticket))
    least 0
    """

    def __init__(self) -> None:
        """A desk with nothing on it."""
        self._memory, self._state = buffer(DESK_MEMORY), words(DESK_WORDS)
        self._held: dict[int, tuple[bytes, tuple[str, ...]]] = {}
        self._lent = (self._memory, DESK_MEMORY, self._state, DESK_WORDS)
        _asked(call.span_desk_open(*self._lent))

    def take(self, problem: Union[Problem, Bytes]) -> int:
        """Takes a problem in at the end of the line, and gives its ticket, from 1 on. Raises Refusal, 21 where all places are held."""
        record = problem.record() if isinstance(problem, Problem) else bytes(problem)
        _asked(call.span_desk_take(*self._lent, record, len(record)))
        ticket = int(self._state[DESK_TICKET])
        self._held[ticket] = (record, problem.names if isinstance(problem, Problem) else ())
        return ticket

    def step(self) -> Optional[Step]:
        """Makes one trial for the problem at the head of the line; None where no problem waits."""
        result = _asked(call.span_desk_step(*self._lent))
        return Step(int(self._state[DESK_TICKET]), result == 512) if result else None

    def collect(self, ticket: int) -> Optional[Answer]:
        """Hands over the answer of a ticket, whose place is free again; None while it waits. Raises Refusal 22: no such ticket is held."""
        lent = buffer(ANSWER_SIZE)
        result = _asked(call.span_desk_collect(*self._lent, ticket if 0 <= ticket < 1 << 64 else 0, lent, ANSWER_SIZE))
        if result == 0:
            return None
        problem, names = self._held.pop(ticket)
        written = bytes(lent)
        return _taken_apart(written[: 4 + written[0]], problem, result >> 16, names)
