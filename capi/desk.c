/* A desk with two problems: which is answered first?
 *
 *     cc -I capi capi/desk.c crates/capi/out/libcapi.a -o target/desk && target/desk
 *
 * prints
 *
 *     ticket 1: 5 - 2
 *     ticket 2: nothing - 2
 *     ticket 1 still waits
 *     step 4: ticket 2 is answered
 *     step 25: ticket 1 is answered
 *     ticket 1: least 3 after 23 trials of its own
 *     ticket 2: bottomless after 2 trials of its own
 *     ticket 2: refused 22: the desk holds no such ticket
 */
#include <inttypes.h>
#include <stdio.h>

#include "span_records.h"

static uint8_t memory[SPAN_DESK_MEMORY], answer[SPAN_ANSWER_SIZE];
static uint64_t state[SPAN_DESK_WORDS];

/* Takes in a problem of the anchor alone. The ticket, or 0 where it was refused: tickets count from 1. */
static uint64_t taken(int32_t first, int32_t second) {
    uint8_t record[18];
    span_problem problem = span_problem_begin(record, sizeof record, SPAN_KIND_PROBLEM, 0, 0, 1);
    span_pair(&problem, 0, first, 0, second);
    uint64_t refused = span_desk_take(memory, sizeof memory, state, SPAN_DESK_WORDS, record, span_problem_end(&problem));
    return refused != 0 ? 0 : state[SPAN_DESK_TICKET];
}

static uint64_t collected(uint64_t ticket) {
    return span_desk_collect(memory, sizeof memory, state, SPAN_DESK_WORDS, ticket, answer, sizeof answer);
}

static void show(uint64_t ticket) {
    uint64_t result = collected(ticket);
    if (span_refusal(result) != 0) {
        printf("ticket %" PRIu64 ": refused %u: %s\n", ticket, span_refusal(result), span_refusal_reason(span_refusal(result)));
        return;
    }
    if (result == SPAN_STILL_WAITS) {
        printf("ticket %" PRIu64 " still waits\n", ticket);
        return;
    }
    span_answer found = span_answer_at(answer, sizeof answer);
    printf("ticket %" PRIu64 ": %s", ticket, span_class_name(span_class(result)));
    if (!found.span.blank) {
        printf(" %" PRId32, found.span.minutes);
    }
    printf(" after %u trials of its own\n", span_own_trials(result));
}

int main(void) {
    if (span_desk_open(memory, sizeof memory, state, SPAN_DESK_WORDS) != 0) {
        return 1;
    }
    printf("ticket %" PRIu64 ": 5 - 2\n", taken(5, 2));
    printf("ticket %" PRIu64 ": nothing - 2\n", taken(SPAN_BLANK, 2));
    show(1);
    for (int step = 1;; step++) {
        uint64_t result = span_desk_step(memory, sizeof memory, state, SPAN_DESK_WORDS);
        if (result == SPAN_NONE_WAITS) {
            break;
        }
        if (result == SPAN_DONE) {
            printf("step %d: ticket %" PRIu64 " is answered\n", step, state[SPAN_DESK_TICKET]);
        }
    }
    show(1);
    show(2);
    show(2);
    return 0;
}
