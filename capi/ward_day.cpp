// A ward's day in C++17: built with the helpers of span_records.h, solved, judged, and printed.
//
//     c++ -std=c++17 ward_day.cpp $(pkg-config --cflags --libs span) -o ward_day && ./ward_day
#include <cstdint>
#include <iostream>
#include <vector>
#include "span_records.h"

enum { DECISION, CLEANED, READY, ARRIVAL }; // the anchor, then moments 1 to 3
static const char *const names[] = {"decision", "cleaned", "ready", "arrival"};

int main() {
    std::vector<std::uint8_t> record(SPAN_PROBLEM_SIZE), answer(SPAN_ANSWER_SIZE);
    span_problem day = span_problem_begin(record.data(), record.size(), SPAN_KIND_PROBLEM, 3, 3, 1);
    span_pair(&day, DECISION, 70, CLEANED, 0); // decision + 70 <= cleaned
    span_pair(&day, READY, 0, DECISION, 50);   // ready <= decision + 50
    span_pair(&day, CLEANED, 0, ARRIVAL, 0);   // later of cleaned, ready + 15 <= arrival
    span_left(&day, READY, 15);
    span_pair(&day, ARRIVAL, 0, READY, 0); // the question: from ready to arrival
    record.resize(span_problem_end(&day));
    std::uint64_t judged = span_solve(record.data(), record.size(), answer.data(), answer.size());
    const span_answer plan = span_answer_at(answer.data(), answer.size());
    if (span_refusal(judged) == 0) judged = span_check(record.data(), record.size(), answer.data(), plan.size);
    if (span_refusal(judged) != 0) {
        std::cerr << "refused: " << span_refusal_reason(span_refusal(judged)) << "; fault in row " << day.fault_row << '\n';
        return 1;
    }
    std::cout << "accepted " << span_class_name(span_class(judged));
    if (span_class(judged) == SPAN_LEAST) std::cout << ' ' << span_minutes(judged) << " minutes from ready to arrival";
    std::cout << '\n';
    for (unsigned moment = CLEANED; span_class(judged) == SPAN_LEAST && moment <= ARRIVAL; moment++) {
        const span_minute at = span_stamp(&plan, moment);
        std::cout << names[moment];
        if (at.blank) std::cout << " is left out\n";
        else std::cout << " after " << at.minutes << " minutes\n";
    }
}
