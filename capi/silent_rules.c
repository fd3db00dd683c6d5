/* A stored problem with a rule that says nothing: turned away, converted, answered.
 *
 *     cc -I capi capi/silent_rules.c crates/capi/out/libcapi.a -o target/silent_rules && target/silent_rules
 *
 * prints
 *
 *     as stored: refused 17: a rule has an all-blank left list
 *     converted: 18 of 26 bytes
 *     answered: least 3
 */
#include <inttypes.h>
#include <stdio.h>

#include "span_records.h"

int main(void) {
    /* n = 0 and m = 1. The helper finds the silent rule too (fault 17), but its bytes are whole: such problems were stored once. */
    uint8_t stored[26], record[sizeof stored], answer[SPAN_ANSWER_SIZE] = {0};
    span_problem problem = span_problem_begin(stored, sizeof stored, SPAN_KIND_PROBLEM, 0, 1, 1);
    span_pair(&problem, 0, SPAN_BLANK, 0, 7);
    span_pair(&problem, 0, 5, 0, 2);
    uint64_t solved = span_solve(stored, sizeof stored, answer, sizeof answer);
    printf("as stored: refused %u: %s\n", span_refusal(solved), span_refusal_reason(span_refusal(solved)));
    uint64_t converted = span_convert(stored, sizeof stored, record, sizeof record);
    if (span_refusal(converted) != 0) {
        printf("refused: %s\n", span_refusal_reason(span_refusal(converted)));
        return 1;
    }
    printf("converted: %zu of %zu bytes\n", span_size(converted), sizeof stored);
    solved = span_solve(record, span_size(converted), answer, sizeof answer);
    if (span_refusal(solved) != 0) {
        printf("refused: %s\n", span_refusal_reason(span_refusal(solved)));
        return 1;
    }
    span_answer found = span_answer_at(answer, sizeof answer);
    printf("answered: %s", span_class_name(found.class_number));
    if (!found.span.blank) {
        printf(" %" PRId32, found.span.minutes);
    }
    printf("\n");
    return 0;
}
