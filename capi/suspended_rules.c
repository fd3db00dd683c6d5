/* A rule that is lifted at the weekend: the same rules with other states, as problems of kind 5.
 *
 *     cc -I capi capi/suspended_rules.c crates/capi/out/libcapi.a -o target/suspended_rules && target/suspended_rules
 *
 * prints
 *
 *     in the week: none
 *     at the weekend: least 30
 */
#include <inttypes.h>
#include <stdio.h>

#include "span_records.h"

/* n = 1 and m = 2. Rule 1: anchor + 30 <= moment 1. Rule 2: moment 1 <= anchor + 20. The span is moment 1 - anchor. */
static size_t build(uint8_t *record, size_t room, int weekend) {
    span_problem problem = span_problem_begin(record, room, SPAN_KIND_STATES, 1, 2, 1);
    span_pair(&problem, 0, 30, 1, 0);
    span_pair(&problem, 1, 0, 0, 20);
    if (weekend) {
        span_suspend(&problem);
    }
    span_pair(&problem, 1, 0, 0, 0);
    return span_problem_end(&problem);
}

static int show(const char *when, int weekend) {
    uint8_t record[SPAN_STATES_SIZE], answer[SPAN_ANSWER_SIZE] = {0};
    size_t size = build(record, sizeof record, weekend);
    uint64_t solved = span_solve(record, size, answer, sizeof answer);
    span_answer found = span_answer_at(answer, sizeof answer);
    uint64_t judged = span_refusal(solved) != 0 ? solved : span_check(record, size, answer, found.size);
    if (span_refusal(judged) != 0) {
        printf("%s: refused: %s\n", when, span_refusal_reason(span_refusal(judged)));
        return 1;
    }
    printf("%s: %s", when, span_class_name(span_class(judged)));
    if (span_class(judged) == SPAN_LEAST) {
        printf(" %" PRId32, span_minutes(judged));
    }
    printf("\n");
    return 0;
}

int main(void) { return show("in the week", 0) | show("at the weekend", 1); }
