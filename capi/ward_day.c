/* A ward's day: built with the helpers of span_records.h, solved, judged, and printed.
 *
 *     cc ward_day.c $(pkg-config --cflags --libs span) -o ward_day && ./ward_day
 *
 * prints
 *
 *     accepted least 20 minutes from ready to arrival
 *     cleaned after 70 minutes
 *     ready after 50 minutes
 *     arrival after 70 minutes
 */
#include <inttypes.h>
#include <stdio.h>
#include "span_records.h"

enum { DECISION, CLEANED, READY, ARRIVAL }; /* the anchor, then moments 1 to 3 */
static const char *names[] = {"decision", "cleaned", "ready", "arrival"};

int main(void) {
    uint8_t record[SPAN_PROBLEM_SIZE], answer[SPAN_ANSWER_SIZE] = {0};
    span_problem day = span_problem_begin(record, sizeof record, SPAN_KIND_PROBLEM, 3, 3, 1);
    span_pair(&day, DECISION, 70, CLEANED, 0); /* decision + 70 <= cleaned */
    span_pair(&day, READY, 0, DECISION, 50);   /* ready <= decision + 50 */
    span_pair(&day, CLEANED, 0, ARRIVAL, 0);   /* later of cleaned, ready + 15 <= arrival */
    span_left(&day, READY, 15);
    span_pair(&day, ARRIVAL, 0, READY, 0); /* the question: from ready to arrival */
    size_t size = span_problem_end(&day);
    uint64_t solved = span_solve(record, size, answer, sizeof answer);
    span_answer plan = span_answer_at(answer, sizeof answer);
    uint64_t judged = span_refusal(solved) != 0 ? solved : span_check(record, size, answer, plan.size);
    if (span_refusal(judged) != 0)
        return printf("refused: %s; fault %u in row %u\n", span_refusal_reason(span_refusal(judged)), day.fault, day.fault_row), 1;
    if (span_class(judged) != SPAN_LEAST) return printf("accepted %s\n", span_class_name(span_class(judged))), 0;
    printf("accepted least %" PRId32 " minutes from ready to arrival\n", span_minutes(judged));
    for (unsigned moment = CLEANED; moment <= ARRIVAL; moment++) {
        span_minute at = span_stamp(&plan, moment);
        at.blank ? printf("%s is left out\n", names[moment]) : printf("%s after %" PRId32 " minutes\n", names[moment], at.minutes);
    }
}
