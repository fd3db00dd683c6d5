/* What holds a span up: the rules behind an answer, and its binding round.
 *
 *     cc -I capi capi/reasons.c crates/capi/out/libcapi.a -o target/reasons_example && target/reasons_example
 *
 * prints
 *
 *     least 30
 *     rules 1
 *     round 0 1
 */
#include <inttypes.h>
#include <stdio.h>

#include "span_records.h"

static void show(const char *word, const uint64_t *numbers, unsigned count) {
    printf("%s", word);
    for (unsigned place = 0; place < count; place++) {
        printf(" %" PRIu64, numbers[place]);
    }
    printf("\n");
}

int main(void) {
    uint8_t record[SPAN_PROBLEM_SIZE], answer[SPAN_ANSWER_SIZE] = {0};
    span_problem problem = span_problem_begin(record, sizeof record, SPAN_KIND_PROBLEM, 1, 1, 1);
    span_pair(&problem, 0, 30, 1, 0); /* the anchor + 30 is at most moment 1 */
    span_pair(&problem, 1, 0, 0, 0);  /* the span is moment 1 - anchor */
    size_t size = span_problem_end(&problem);
    uint64_t solved = span_solve(record, size, answer, sizeof answer);
    if (span_refusal(solved) != 0) {
        printf("refused: %s\n", span_refusal_reason(span_refusal(solved)));
        return 1;
    }
    span_answer found = span_answer_at(answer, sizeof answer);
    printf("%s", span_class_name(found.class_number));
    if (!found.span.blank) {
        printf(" %" PRId32, found.span.minutes);
    }
    printf("\n");
    uint64_t rules[SPAN_RULES], round[SPAN_ROUND];
    uint64_t reasons = span_reasons(record, size, answer, found.size, rules, SPAN_RULES, round, SPAN_ROUND);
    if (span_refusal(reasons) != 0) {
        printf("no reasons: %s\n", span_refusal_reason(span_refusal(reasons)));
        return 0;
    }
    show("rules", rules, span_rules(reasons));
    if (span_round(reasons) != 0) { /* none has no round */
        show("round", round, span_round(reasons));
    }
    return 0;
}
