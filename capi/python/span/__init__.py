"""The span engine and its checker, release 4.2, for Python programs.

A problem has moments, rules between them and questions. It is built row by row or from a dictionary, and answered in one call:

>>> day = Problem(["cleaned", "ready"], anchor="decision")
>>> day.rule({"decision": 60}, {"cleaned": 0})      # decision + 60 <= cleaned
1
>>> day.rule({"cleaned": 5}, {"ready": 0})          # cleaned + 5 <= ready
2
>>> day.question({"ready": 0}, {"decision": 0})     # the span from decision to ready
0
>>> answer, = day.solve()
>>> answer.span, answer.plan
(65, {'decision': 0, 'cleaned': 60, 'ready': 65})
>>> print(answer.judge())
accepted least 65
>>> answer.reasons().rules
(1, 2)

What the functions answer is proved of the code in libspan.so.4.2; this package and the words around it are tested, not proved. It needs the
standard library alone, and the shared library: of the system, of the prefix below which the package stands, or where SPAN_LIBRARY names it.
``docs/RECORDS.md`` tells the bytes of every record.
"""

from ._calls import (
    Census,
    Window,
    census,
    check,
    convert,
    first_open,
    marks_differ,
    merge,
    read,
    read_hours,
    reasons,
    solve,
    version,
    write,
    write_hours,
)
from ._desk import Desk, Step
from ._library import RELEASE, LibraryError, library_path
from ._problem import BLANK, MOST_LEAD, MOST_M, MOST_N, QUESTIONS, Problem
from ._words import Answer, Class, Fault, Reasons, Refusal, Verdict, reason

__version__ = "4.2.0"

__all__ = [
    "BLANK",
    "MOST_LEAD",
    "MOST_M",
    "MOST_N",
    "QUESTIONS",
    "RELEASE",
    "Answer",
    "Census",
    "Class",
    "Desk",
    "Fault",
    "LibraryError",
    "Problem",
    "Reasons",
    "Refusal",
    "Step",
    "Verdict",
    "Window",
    "census",
    "check",
    "convert",
    "first_open",
    "library_path",
    "marks_differ",
    "merge",
    "read",
    "read_hours",
    "reason",
    "reasons",
    "solve",
    "version",
    "write",
    "write_hours",
]
