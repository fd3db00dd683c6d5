"""A ward's day: built from a dictionary, solved, judged, and printed. ward_day.c is the same in C."""

import span

day = span.Problem.from_dict(
    {
        "anchor": "decision",
        "moments": ["cleaned", "ready", "arrival"],
        "rules": [
            {"left": {"decision": 70}, "right": {"cleaned": 0}},  # decision + 70 <= cleaned
            {"left": {"ready": 0}, "right": {"decision": 50}},  # ready <= decision + 50
            {"left": {"cleaned": 0, "ready": 15}, "right": {"arrival": 0}},  # later of cleaned, ready + 15 <= arrival
        ],
        "questions": [{"first": {"arrival": 0}, "second": {"ready": 0}}],  # from ready to arrival
    }
)
answer = day.solve_one()
print(answer.judge(), "minutes from ready to arrival" if answer.span is not None else "")
for moment, minutes in list(answer.plan.items())[1:]:
    print(f"{moment} is left out" if minutes is None else f"{moment} after {minutes} minutes")
