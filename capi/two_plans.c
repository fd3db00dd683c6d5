/* Two planners' plans merged into one.
 *
 *     cc -I capi capi/two_plans.c crates/capi/out/libcapi.a -o target/two_plans && target/two_plans
 *
 * prints
 *
 *     moment 1 at 35
 *     moment 2 at 20
 *     shift 1: refused 24: the shift is above 0
 *     a plan that breaks the rule: refused 25: a plan breaks a rule
 */
#include <inttypes.h>
#include <stdio.h>

#include "span_records.h"

enum { STAMPS = 3, PLAN = STAMPS * SPAN_MINUTES_SIZE };

static void put(uint8_t *plan, int32_t first, int32_t second) {
    span_put_minutes(plan, 0); /* the anchor */
    span_put_minutes(plan + SPAN_MINUTES_SIZE, first);
    span_put_minutes(plan + 2 * SPAN_MINUTES_SIZE, second);
}

static void show(const uint8_t *plan) {
    for (unsigned moment = 1; moment < STAMPS; moment++) {
        span_minute at = span_minute_at(plan + SPAN_MINUTES_SIZE * moment);
        if (at.blank) {
            printf("moment %u is left out\n", moment);
        } else {
            printf("moment %u at %" PRId32 "\n", moment, at.minutes);
        }
    }
}

int main(void) {
    uint8_t record[SPAN_PROBLEM_SIZE], short_plan[PLAN], long_plan[PLAN], broken[PLAN], merged[SPAN_PLAN_SIZE];
    span_problem problem = span_problem_begin(record, sizeof record, SPAN_KIND_PROBLEM, 2, 1, 1);
    span_pair(&problem, 0, 30, 1, 0); /* anchor + 30 is at most moment 1 */
    span_pair(&problem, 1, 0, 0, 0);  /* the span is moment 1 - anchor */
    size_t size = span_problem_end(&problem);
    put(short_plan, 30, SPAN_BLANK);
    put(long_plan, 50, 35);
    put(broken, 29, SPAN_BLANK);
    uint64_t result = span_merge(record, size, short_plan, PLAN, long_plan, PLAN, -15, merged, sizeof merged);
    if (span_refusal(result) != 0) {
        printf("refused: %s\n", span_refusal_reason(span_refusal(result)));
        return 1;
    }
    show(merged);
    result = span_merge(record, size, short_plan, PLAN, long_plan, PLAN, 1, merged, sizeof merged);
    printf("shift 1: refused %u: %s\n", span_refusal(result), span_refusal_reason(span_refusal(result)));
    result = span_merge(record, size, short_plan, PLAN, broken, PLAN, -15, merged, sizeof merged);
    printf("a plan that breaks the rule: refused %u: %s\n", span_refusal(result), span_refusal_reason(span_refusal(result)));
    return 0;
}
