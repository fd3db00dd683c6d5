"""The package over the shared library, tried against docs/RECORDS.md and capi/span.h.

    tools/shared target/shared
    SPAN_LIBRARY=target/shared/libspan.so.4.2 PYTHONPATH=capi/python python3 -m unittest discover -s capi/python/tests
"""

from __future__ import annotations

import doctest
import json
import os
import re
import subprocess
import sys
import time
import unittest
from dataclasses import replace
from pathlib import Path

import span
from span import Class, Fault, Problem, Refusal, _calls, _desk, _library, _problem

ROOT = Path(__file__).resolve().parents[3]


def load_tests(loader: unittest.TestLoader, tests: unittest.TestSuite, pattern: str) -> unittest.TestSuite:
    """The examples of the docstrings too."""
    for module in (span, _calls, _desk, _problem):
        tests.addTests(doctest.DocTestSuite(module))
    return tests


def examples() -> dict[str, bytes]:
    """The bytes below each heading of docs/RECORDS.md."""
    name, found = "", {}
    for line in (ROOT / "docs/RECORDS.md").read_text(encoding="utf-8").splitlines():
        if line.startswith("##"):
            name = line.strip("# ")
        parts = [part.strip() for part in line.split("  ") if part.strip()]
        if line.startswith("    ") and len(parts) == 3 and parts[0].isdigit():
            found[name] = found.get(name, b"") + bytes.fromhex(parts[1].replace(" ", ""))
    return found


def day() -> Problem:
    """The rules of the day."""
    problem = Problem(["cleaned", "ready", "arrival"], anchor="decision")
    problem.rule({"decision": 70}, {"cleaned": 0})
    problem.rule({"ready": 0}, {"decision": 50})
    problem.rule({"cleaned": 0, "ready": 15}, {"arrival": 0})
    return problem


def asked(*questions: tuple[str, str]) -> Problem:
    """The day with questions from a moment to another."""
    problem = day()
    for start, end in questions:
        problem.question({end: 0}, {start: 0})
    return problem


TO_ARRIVAL = ("ready", "arrival")


class Records(unittest.TestCase):
    """Problems and answers as docs/RECORDS.md has them."""

    def test_the_builder_makes_the_bytes_of_the_page(self) -> None:
        smallest, quarrel, weekend = Problem(0), Problem(1), asked(TO_ARRIVAL)
        smallest.question({0: 5}, {0: 2})
        quarrel.rule({0: 30}, {1: 0})
        quarrel.rule({1: 0}, {0: 20})
        quarrel.question({1: 0}, {0: 0})
        weekend.suspend(2)
        for name, problem in {
            "The smallest problem": smallest,
            "The quarrel": quarrel,
            "The day": asked(TO_ARRIVAL),
            "Two questions": asked(TO_ARRIVAL, ("decision", "arrival")),
            "The weekend": weekend,
        }.items():
            self.assertEqual(problem.record(), examples()[name], name)

    def test_dictionaries_are_problems(self) -> None:
        told = {
            "anchor": "decision",
            "moments": ["cleaned", "ready", "arrival"],
            "rules": [
                {"left": {"decision": 70}, "right": {"cleaned": 0}},
                {"left": {"ready": 0}, "right": {"decision": 50}, "suspended": True},
                {"left": {"cleaned": 0, "ready": 15}, "right": {"arrival": 0, "cleaned": None}},
            ],
            "questions": [{"first": {"arrival": 0}, "second": {"ready": 0}}],
        }
        self.assertEqual(Problem.from_dict(told).record(), examples()["The weekend"])
        quarrel = """{"moments": 1, "questions": [{"first": {"1": 0}, "second": {"0": 0}}],
            "rules": [{"left": {"0": 30}, "right": {"1": 0}}, {"left": {"1": 0}, "right": {"0": 20}}]}"""
        self.assertEqual(Problem.from_dict(json.loads(quarrel)).record(), examples()["The quarrel"])

    def test_answers_are_read_written_and_judged(self) -> None:
        page = examples()
        for problem, name, verdict in [
            (page["The day"], "The day's answer", "accepted least 20"),
            (page["The weekend"], "The weekend's answer", "accepted least 15"),
            (asked(("arrival", "ready")).record(), "A bottomless answer", "accepted bottomless"),
        ]:
            answer = span.read(page[name], 3, 3)
            self.assertEqual(span.write(answer, 3, 3), page[name], name)
            self.assertEqual(str(span.check(problem, page[name])), verdict)
            self.assertEqual(f"accepted {answer}", verdict)
        quarrel = span.check(page["The quarrel"], page["The quarrel's answer"])
        self.assertEqual((quarrel.answer_class, quarrel.span), (Class.NONE, None))
        self.assertEqual(str(span.check(b"", page["The idle day's answer"])), "accepted least 0")

    def test_several_questions_in_one_record(self) -> None:
        record = examples()["Two questions"]
        first, second = span.solve(record)
        self.assertEqual((first.span, second.span), (20, 70))
        for answer in (first, second):
            self.assertEqual(answer.judge().span, answer.span)

    def test_questions_and_suspended_rules_together(self) -> None:
        problem = asked(TO_ARRIVAL, ("decision", "arrival"))
        self.assertEqual([answer.span for answer in problem.solve()], [20, 70])
        problem.suspend(2)
        answers = problem.solve()
        self.assertEqual([answer.span for answer in answers], [15, 70])
        self.assertEqual([answer.judge().span for answer in answers], [15, 70])
        with self.assertRaises(Fault):
            problem.record()
        problem.suspend(2, False)
        self.assertEqual(len(problem.record()), 172)

    def test_a_plan_has_names(self) -> None:
        answer = asked(TO_ARRIVAL).solve_one()
        self.assertEqual(answer.plan, {"decision": 0, "cleaned": 70, "ready": 50, "arrival": 70})
        self.assertEqual(answer.trials, 23)
        reasons = answer.reasons()  # where its round starts is free, like the answer's start
        self.assertEqual((reasons.rules, sorted(reasons.round or ())), ((1, 2, 3), [0, 1, 2, 3]))
        back = asked(("arrival", "ready")).solve_one()
        self.assertEqual((str(back), back.plan, back.span), ("bottomless", {}, None))
        with self.assertRaises(Refusal) as refused:
            back.reasons()
        self.assertEqual(refused.exception.number, 16)

    def test_the_checker_trusts_nobody(self) -> None:
        problem = asked(TO_ARRIVAL)
        answer = problem.solve_one()
        wrong = span.write(replace(answer, span=21), 3, 3)
        with self.assertRaises(Refusal) as refused:
            problem.judge(wrong)
        self.assertEqual(str(refused.exception), "not certified: the form is right and the answer is not accepted")


class Limits(unittest.TestCase):
    """What is beyond a limit is a fault or a refusal, and never another number."""

    def refused(self, number: int, call, *words) -> None:
        with self.assertRaises(Refusal) as refused:
            call(*words)
        self.assertEqual(refused.exception.number, number)

    def test_faults_have_a_place(self) -> None:
        problem = day()
        for message, call in [
            ("rule 4, left list, moment 'porter': there is no such moment", lambda: problem.rule({"porter": 0}, {})),
            ("rule 4, right list, moment 1: the lead 20161 is", lambda: problem.rule({0: 0}, {1: 20161})),
            ("rule 4, left list, moment 0: the lead 1.5 is", lambda: problem.rule({0: 1.5}, {})),  # type: ignore[dict-item]
            ("rule 4, left list, moment 'cleaned': the list has this moment twice", lambda: problem.rule({1: 0, "cleaned": 0}, {})),
            ("rule 4: the left list is all blank", lambda: problem.rule({0: None}, {1: 0})),
            ("rule 4: there is no such row", lambda: problem.suspend(4)),
            ("question 1: there is no such question", problem.solve),
            ("there are at most 31", lambda: Problem(32)),
            ("there are at most 31", lambda: Problem(-1)),
            ("'a' is no name, or is there twice", lambda: Problem(["a", "a"])),
            ("rule 1 has the word 'let'", lambda: Problem.from_dict({"moments": 1, "rules": [{"let": {}}]})),
            ("the problem has no moments", lambda: Problem.from_dict({})),
        ]:
            with self.assertRaises(Fault) as fault:
                call()
            self.assertIn(message, str(fault.exception))
        self.assertEqual(problem.m, 3)

    def test_no_number_wraps(self) -> None:
        record = asked(TO_ARRIVAL).record()
        answer = span.solve(record)[0]
        for far in (-(1 << 31), 1 << 31, 1 << 70, -(1 << 70)):
            self.refused(12, span.write, replace(answer, stamps=(0, far, 0, 0)), 3, 3)
            self.refused(12, span.write, replace(answer, span=far), 3, 3)
            self.refused(12, span.merge, record, (0, far, 50, 70), answer.stamps)
            self.refused(18, span.write_hours, far)
            self.refused(19, span.first_open, [(0, 10)], far)
            self.refused(27, span.census, far, 0, 1)
            self.refused(4, span.read, answer.record, far, 0)
        self.refused(24, span.merge, record, answer.stamps, answer.stamps, 1 << 80)
        self.refused(13, span.write, replace(answer, picks=(0, 0, 0, 70000)), 3, 3)
        self.refused(19, span.first_open, [(-1, 10)], 0)

    def test_every_string_of_bytes_is_taken(self) -> None:
        record = asked(TO_ARRIVAL).record()
        for size in range(1, len(record)):
            with self.assertRaises(Refusal):
                span.solve(record[:size])
        self.assertEqual(span.solve(bytearray(record))[0].span, 20)
        self.assertEqual(span.solve(memoryview(record))[0].span, 20)
        self.assertEqual(span.solve(b"")[0].span, 0)


class Others(unittest.TestCase):
    """The calls beside engine and checker."""

    def test_conversion(self) -> None:
        stored = bytes.fromhex("16000000 0100 0000 0100 00000080 07000000 05000000 02000000")
        with self.assertRaises(Refusal) as refused:
            span.solve(stored)
        self.assertEqual(str(refused.exception), "refused 17: a rule has an all-blank left list")
        self.assertEqual(span.solve(span.convert(stored))[0].span, 3)
        with self.assertRaises(Refusal):
            span.convert(b"")

    def test_hours(self) -> None:
        for text, minutes in {"7:05": 425, "-0:05": -5, "0:00": 0, "--": None, "-100000:00": -6000000}.items():
            self.assertEqual(span.read_hours(text), minutes)
            self.assertEqual(span.write_hours(minutes), text)
        for text in ("07:05", "7:5", "-0:00", "7:60", "100000:01", "", "7:05\n", "７:05", "\ud800"):
            with self.assertRaises(Refusal):
                span.read_hours(text)

    def test_opening_hours(self) -> None:
        week = [span.Window(1440 * day + 420, 1440 * day + 1080) for day in range(5)]
        self.assertEqual(span.first_open(week, 4 * 1440 + 1080), 7 * 1440 + 420)
        self.assertEqual(span.first_open([(420, 1080)], -1), 420)
        self.assertIsNone(span.first_open([], 0))

    def test_merging(self) -> None:
        problem = Problem(2)
        problem.rule({0: 30}, {1: 0})
        problem.question({1: 0}, {0: 0})
        record = problem.record()
        self.assertEqual(span.merge(record, (0, 30, None), (0, 50, 35), -15), (0, 35, 20))
        with self.assertRaises(Refusal) as refused:
            span.merge(record, (0, 30, None), (0, 29, None))
        self.assertEqual(refused.exception.reason, "a plan breaks a rule")

    def test_census_marks_and_version(self) -> None:
        self.assertEqual(span.census(0, 0, 1), span.Census(9, 3, 4, 0))
        self.assertTrue(span.marks_differ(b"\1\0\1", b"\1\0\0", 3))
        self.assertFalse(span.marks_differ(b"\1\0\1", b"\1\0\0", 2))
        with self.assertRaises(ValueError):
            span.marks_differ(b"", b"", 1)
        self.assertEqual(span.version(), span.RELEASE)

    def test_the_desk_answers_as_the_engine_does(self) -> None:
        desk, problems = span.Desk(), [asked(pair) for pair in (TO_ARRIVAL, ("arrival", "ready"), ("decision", "arrival"))]
        tickets = [desk.take(problem) for problem in problems]
        self.assertEqual(tickets, [1, 2, 3])
        done = []
        while (step := desk.step()) is not None:
            done += [step.ticket] if step.done else []
        self.assertEqual(done[0], 2)
        for ticket, problem in zip(tickets, problems):
            answer, alone = desk.collect(ticket), problem.solve_one()
            self.assertEqual(answer, alone)
        for wrong in (1, 0, -1, 1 << 64):
            with self.assertRaises(Refusal) as refused:
                desk.collect(wrong)
            self.assertEqual(refused.exception.number, 22)

    def test_a_full_desk_says_so(self) -> None:
        desk = span.Desk()
        for _ in range(16):
            desk.take(b"")
        with self.assertRaises(Refusal) as refused:
            desk.take(b"")
        self.assertEqual(refused.exception.number, 21)


class Boundary(unittest.TestCase):
    """The package against the header and the library."""

    def test_reasons_are_the_header_s(self) -> None:
        header = (ROOT / "capi/span.h").read_text(encoding="utf-8")
        told = {int(number): words for number, words in re.findall(r'case (\d+): return "(.*)";', header)}
        for number in range(1, 28):
            self.assertEqual(span.reason(number), told[number])
        self.assertEqual((span.reason(0), span.reason(28)), ("no refusal has this number",) * 2)

    def test_every_function_of_the_header_has_its_words(self) -> None:
        header = (ROOT / "capi/span.h").read_text(encoding="utf-8")
        declared = dict(re.findall(r"^uint64_t (span_\w+)\(([^;]*)\);", header, re.M | re.S))
        del declared["span_release_4_2"]
        self.assertEqual(set(declared), set(_library._FUNCTIONS))
        for name, words in declared.items():
            count = 0 if words == "void" else words.count(",") + 1
            self.assertEqual(len(_library._FUNCTIONS[name]), count, name)
        sizes = dict(re.findall(r"#define SPAN_(\w+) (\d+)", header))
        for name in ("ANSWER_SIZE", "QUESTIONS", "PLAN_SIZE", "TEXT_SIZE", "STAMPS", "PICKS", "ROUND", "COUNTS", "DESK_MEMORY",
                     "DESK_WORDS", "DESK_TICKET", "TOO_FEW_PLACES"):  # fmt: skip
            self.assertEqual(getattr(_library, name), int(sizes[name]), name)
        self.assertEqual(span.RELEASE, int(sizes["VERSION"]))

    def loaded(self, library: str) -> str:
        """What is said where the package is loaded with another library."""
        words = dict(os.environ, SPAN_LIBRARY=library, PYTHONPATH=str(Path(span.__file__).parents[1]))
        done = subprocess.run([sys.executable, "-c", "import span"], env=words, capture_output=True, text=True)
        self.assertNotEqual(done.returncode, 0)
        return done.stderr

    def test_another_library_is_refused(self) -> None:
        self.assertIn("libspan.so.4.2 is not there", self.loaded("/nowhere/libspan.so"))
        self.assertIn("is of another release", self.loaded("libc.so.6"))

    def test_the_example_prints_the_day(self) -> None:
        words = dict(os.environ, PYTHONPATH=str(Path(span.__file__).parents[1]))
        script = Path(__file__).resolve().parents[1] / "examples/ward_day.py"
        done = subprocess.run([sys.executable, str(script)], env=words, capture_output=True, text=True, check=True)
        comment = (ROOT / "capi/ward_day.c").read_text(encoding="utf-8").split(" * prints\n *\n")[1].split(" */")[0]
        self.assertEqual(done.stdout, comment.replace(" *     ", ""))


class Speed(unittest.TestCase):
    """5,000 of the largest problems within 2 seconds of processor time, from rows to answers."""

    def test_five_thousand_of_the_largest(self) -> None:
        started = time.process_time()
        for number in range(5000):
            if number % 100 == 0:
                problem = Problem(31)
                for rule in range(63):
                    problem.rule({rule % 31: 30 + rule + number % 7}, {rule % 31 + 1: 0})
                problem.question({31: 0}, {0: 0})
            self.assertEqual(problem.solve_one().answer_class, Class.LEAST)
        self.assertLess(time.process_time() - started, 2)


if __name__ == "__main__":
    unittest.main()
