/* Answers document 01's example A from C, has the checker judge the answer, and reads it; then shows hours and minutes.
 *
 *     cc -I capi capi/example.c crates/capi/out/libcapi.a -o target/example && target/example
 *
 * prints
 *
 *     release 4.2.0
 *     accepted least 3 after 23 trials; start 0, pick of the anchor 1
 *     on the sheet: 0:03; 7:05 is 425 minutes
 */
#include <inttypes.h>
#include <stdio.h>

#include "span_records.h"

/* Prints text of the archive, which ends without a 0. */
static void print(const uint8_t *text, size_t size) { fwrite(text, 1, size, stdout); }

static int refused(uint64_t result) {
    if (span_refusal(result) != 0) {
        printf("refused: %s\n", span_refusal_reason(span_refusal(result)));
    }
    return span_refusal(result) != 0;
}

/* The span on a ward's sheet, and a text from there. */
static int sheet(int32_t span) {
    const uint8_t told[] = {'7', ':', '0', '5'};
    uint8_t text[SPAN_TEXT_SIZE];
    uint64_t shown = span_hours_write(span_offset(span), text, sizeof text);
    uint64_t minutes = span_hours_read(told, sizeof told);
    if (refused(shown) || refused(minutes) || span_blank(minutes)) {
        return 1;
    }
    printf("on the sheet: ");
    print(text, span_size(shown));
    printf("; 7:05 is %" PRId32 " minutes\n", span_minutes(minutes));
    return 0;
}

int main(void) {
    uint8_t record[SPAN_PROBLEM_SIZE], answer[SPAN_ANSWER_SIZE] = {0};
    printf("release %" PRIu64 ".%" PRIu64 ".%" PRIu64 "\n", span_version() / 10000, span_version() / 100 % 100, span_version() % 100);
    span_problem problem = span_problem_begin(record, sizeof record, SPAN_KIND_PROBLEM, 0, 0, 1);
    span_pair(&problem, 0, 5, 0, 2); /* the span is anchor + 5 less anchor + 2 */
    size_t size = span_problem_end(&problem);
    uint64_t solved = span_solve(record, size, answer, sizeof answer);
    span_answer found = span_answer_at(answer, sizeof answer);
    if (refused(solved) || refused(span_check(record, size, answer, found.size))) {
        return 1;
    }
    if (found.span.blank) {
        printf("accepted %s\n", span_class_name(found.class_number));
        return 0;
    }
    printf("accepted %s %" PRId32 " after %u trials; start %u, pick of the anchor %u\n", span_class_name(found.class_number),
           found.span.minutes, span_trials(solved), found.start, span_pick(&found, 0));
    return sheet(found.span.minutes);
}
