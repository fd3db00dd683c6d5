/* Without words: the problems of docs/RECORDS.md, a name and its bytes a line, built with span_records.h. With answers in hexadecimal: the
 * fields of each, as the helpers read them. records.rs compares both. */
#include <inttypes.h>
#include <stdio.h>

#include "span_records.h"

enum { DECISION, CLEANED, READY, ARRIVAL };

static void show(const char *name, span_problem *problem) {
    size_t size = span_problem_end(problem);
    printf("%s: ", name);
    for (size_t place = 0; place < size; place++) {
        printf("%02X", problem->bytes[place]);
    }
    printf("\n");
}

static void day(const char *name, unsigned kind, unsigned count, unsigned suspended) {
    uint8_t bytes[172];
    span_problem problem = span_problem_begin(bytes, sizeof bytes, kind, 3, 3, count);
    span_pair(&problem, DECISION, 70, CLEANED, 0);
    span_pair(&problem, READY, 0, DECISION, 50);
    if (suspended) {
        span_suspend(&problem);
    }
    span_pair(&problem, CLEANED, 0, ARRIVAL, 0);
    span_left(&problem, READY, 15);
    span_pair(&problem, ARRIVAL, 0, READY, 0);
    if (count == 2) {
        span_pair(&problem, ARRIVAL, 0, DECISION, 0);
    }
    show(name, &problem);
}

/* One rule and a question over moments 0 and 1, with something wrong: a lead, a moment, a left list, a row too few or too many. */
static void faulty(const char *name, int32_t lead, unsigned moment, int rows) {
    uint8_t bytes[42] = {0xAB};
    span_problem problem = span_problem_begin(bytes, sizeof bytes, SPAN_KIND_PROBLEM, 1, 1, 1);
    for (int row = 0; row < rows; row++) {
        span_pair(&problem, 0, lead, moment, 0);
    }
    span_problem_end(&problem);
    printf("%s: fault %u row %u moment %u\n", name, problem.fault, problem.fault_row, problem.fault_moment);
}

static void faults(void) {
    uint8_t bytes[41];
    const unsigned headers[6][4] = {{2, 1, 1, 1}, {1, 32, 1, 1}, {1, 1, 64, 1}, {1, 1, 1, 2}, {3, 0, 0, 9}, {1, 1, 1, 1}};
    for (int i = 0; i < 6; i++) {
        const unsigned *h = headers[i];
        printf("header %d: fault %u\n", i, span_problem_begin(bytes, sizeof bytes, h[0], h[1], h[2], h[3]).fault);
    }
    faulty("no fault", SPAN_MOST_LEAD, 1, 2);
    faulty("lead", SPAN_MOST_LEAD + 1, 1, 2);
    faulty("moment", 0, 2, 2);
    faulty("left list", SPAN_BLANK, 1, 2);
    faulty("row missing", 0, 1, 1);
    faulty("row too many", 0, 1, 3);
}

static void minute(span_minute shown) {
    if (shown.blank) {
        printf(" blank");
    } else {
        printf(" %" PRId32, shown.minutes);
    }
}

static unsigned digit(char c) { return SPAN_CAST(unsigned, c <= '9' ? c - '0' : c - 'A' + 10); }

static int answers(const char *hex) {
    uint8_t bytes[8 * SPAN_ANSWER_SIZE];
    size_t size = 0, at = 0;
    while (hex[2 * size] != 0 && size < sizeof bytes) {
        bytes[size] = SPAN_CAST(uint8_t, 16 * digit(hex[2 * size]) + digit(hex[2 * size + 1]));
        size++;
    }
    while (at < size) {
        span_answer answer = span_answer_at(bytes + at, size - at);
        if (answer.size == 0) {
            return 1;
        }
        printf("size %zu class %u span", answer.size, answer.class_number);
        minute(answer.span);
        printf(" start %u stamps", answer.start);
        for (unsigned moment = 0; answer.class_number == SPAN_LEAST && moment <= answer.n; moment++) {
            minute(span_stamp(&answer, moment));
        }
        printf(" picks");
        for (unsigned place = 0; place < answer.picks; place++) {
            printf(" %u", span_pick(&answer, place));
        }
        printf("\n");
        at += answer.size;
    }
    return 0;
}

int main(int count, char **words) {
    if (count > 1) {
        return answers(words[1]);
    }
    uint8_t bytes[58];
    span_problem smallest = span_problem_begin(bytes, 18, SPAN_KIND_PROBLEM, 0, 0, 1);
    span_pair(&smallest, 0, 5, 0, 2);
    show("The smallest problem", &smallest);
    day("The day", SPAN_KIND_PROBLEM, 1, 0);
    span_problem quarrel = span_problem_begin(bytes, sizeof bytes, SPAN_KIND_PROBLEM, 1, 2, 1);
    span_pair(&quarrel, 0, 30, 1, 0);
    span_pair(&quarrel, 1, 0, 0, 20);
    span_pair(&quarrel, 1, 0, 0, 0);
    show("The quarrel", &quarrel);
    day("Two questions", SPAN_KIND_QUESTIONS, 2, 0);
    day("The weekend", SPAN_KIND_STATES, 1, 1);
    faults();
    return 0;
}
