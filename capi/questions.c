/* Puts three questions to one day's rules: a problem of kind 3, whose answers stand one after another in one buffer.
 *
 *     cc -I capi capi/questions.c crates/capi/out/libcapi.a -o target/questions && target/questions
 *
 * prints
 *
 *     from decision to ready: least 65
 *     from cleaned to ready: least 5
 *     from ready to decision: bottomless
 *     48 trials, 90 bytes of answers
 */
#include <inttypes.h>
#include <stdio.h>

#include "span_records.h"

enum { DECISION, CLEANED, READY, COUNT = 3 }; /* the anchor, moments 1 and 2; how many questions there are */
static const char *names[COUNT] = {"from decision to ready", "from cleaned to ready", "from ready to decision"};

static void show(const char *name, const span_answer *answer) {
    printf("%s: %s", name, span_class_name(answer->class_number));
    if (!answer->span.blank) {
        printf(" %" PRId32, answer->span.minutes);
    }
    printf("\n");
}

int main(void) {
    uint8_t record[SPAN_QUESTIONS_SIZE], answers[COUNT * SPAN_ANSWER_SIZE] = {0};
    span_problem day = span_problem_begin(record, sizeof record, SPAN_KIND_QUESTIONS, 2, 2, COUNT);
    span_pair(&day, DECISION, 60, CLEANED, 0); /* decision + 60 <= cleaned */
    span_pair(&day, CLEANED, 5, READY, 0);     /* cleaned + 5 <= ready */
    span_pair(&day, READY, 0, DECISION, 0);    /* of a question the group that its span leads to, then where it starts */
    span_pair(&day, READY, 0, CLEANED, 0);
    span_pair(&day, DECISION, 0, READY, 0);
    uint64_t solved = span_solve(record, span_problem_end(&day), answers, sizeof answers);
    if (span_refusal(solved) != 0) {
        printf("refused: %s; fault %u in row %u\n", span_refusal_reason(span_refusal(solved)), day.fault, day.fault_row);
        return 1;
    }
    size_t at = 0;
    for (size_t question = 0; question < COUNT; question++) {
        span_answer answer = span_answer_at(answers + at, sizeof answers - at);
        show(names[question], &answer);
        at += answer.size;
    }
    printf("%u trials, %zu bytes of answers\n", span_trials(solved), at);
    return 0;
}
