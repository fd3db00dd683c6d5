/* What span.h says of its own: the release, NULL with nothing behind it, a desk that moves, and the words of refusals. boundary.rs runs it; it prints
 * what does not hold. With the word `reasons` it prints the words of refusals 0 to 28 and 255, one a line. */
#include <inttypes.h>
#include <stdio.h>
#include <stdlib.h>
#include <string.h>

#include "span_records.h"

static int faults;

static void holds(int it, const char *what) {
    if (!it) {
        printf("does not hold: %s\n", what);
        faults++;
    }
}

#define HOLDS(it) holds(it, #it)

/* Every call with NULL and 0 gives the refusal of no bytes or of no room, and touches nothing. */
static void nothing_handed(void) {
    uint8_t answer[SPAN_ANSWER_SIZE] = {0};
    HOLDS(span_trials(span_solve(NULL, 0, answer, sizeof answer)) == 23);
    HOLDS(span_solve(NULL, 0, NULL, 0) == 7);
    HOLDS(span_check(NULL, 0, NULL, 0) == 8);
    HOLDS(span_class(span_check(NULL, 0, answer, span_record_end(answer, 0))) == SPAN_LEAST);
    HOLDS(span_reasons(NULL, 0, answer, span_record_end(answer, 0), NULL, 0, NULL, 0) == SPAN_TOO_FEW_PLACES);
    HOLDS(span_read(NULL, 0, 0, 0, NULL, 0, NULL, 0) == 8);
    HOLDS(span_read(answer, span_record_end(answer, 0), 0, 0, NULL, 0, NULL, 0) == SPAN_TOO_FEW_PLACES);
    HOLDS(span_write(SPAN_LEAST, span_offset(0), 0, NULL, 0, NULL, 0, 0, 0, NULL, 0) == 7);
    HOLDS(span_write(SPAN_LEAST, span_offset(0), 0, NULL, 0, NULL, 0, 0, 0, answer, sizeof answer) == 11);
    HOLDS(span_convert(NULL, 0, NULL, 0) == 1);
    HOLDS(span_merge(NULL, 0, NULL, 0, NULL, 0, 0, NULL, 0) == 7);
    HOLDS(span_merge(NULL, 0, NULL, 0, NULL, 0, 0, answer, sizeof answer) == 12);
    HOLDS(span_hours_read(NULL, 0) == SPAN_NO_TEXT);
    HOLDS(span_hours_write(0, NULL, 0) == SPAN_NO_TEXT);
    HOLDS(span_first_open(NULL, 0, span_offset(0)) == SPAN_NEVER);
    HOLDS(span_marks_differ(NULL, 0, NULL, 0, 0) == 0);
    HOLDS(span_marks_differ(NULL, 0, NULL, 0, 1) == SPAN_TOO_FEW_PLACES);
    HOLDS(span_census(0, 0, 1, NULL, 0) == SPAN_TOO_FEW_PLACES);
    HOLDS(span_desk_open(NULL, 0, NULL, 0) == SPAN_DESK_SHORT);
    HOLDS(span_desk_take(NULL, 0, NULL, 0, NULL, 0) == SPAN_DESK_SHORT);
    HOLDS(span_desk_step(NULL, 0, NULL, 0) == SPAN_DESK_SHORT);
    HOLDS(span_desk_collect(NULL, 0, NULL, 0, 1, NULL, 0) == SPAN_DESK_SHORT);
}

/* A desk in memory of its own, with more room behind it than it needs. */
typedef struct lent {
    size_t bytes, words;
    uint8_t *memory;
    uint64_t *state;
} lent;

static lent lend(size_t more) {
    lent made = {SPAN_DESK_MEMORY + more, SPAN_DESK_WORDS + more, NULL, NULL};
    made.memory = SPAN_CAST(uint8_t *, malloc(made.bytes));
    made.state = SPAN_CAST(uint64_t *, malloc(made.words * sizeof *made.state));
    if (made.memory == NULL || made.state == NULL) {
        exit(1);
    }
    memset(made.memory, 0xA5, made.bytes);
    memset(made.state, 0xA5, made.words * sizeof *made.state);
    return made;
}

/* Copies a desk to other addresses, where more is lent, and gives the old ones back. */
static lent moved(lent from, size_t more) {
    lent to = lend(more);
    memcpy(to.memory, from.memory, SPAN_DESK_MEMORY);
    memcpy(to.state, from.state, SPAN_DESK_WORDS * sizeof *to.state);
    memset(from.memory, 0x5A, from.bytes);
    memset(from.state, 0x5A, from.words * sizeof *from.state);
    free(from.memory);
    free(from.state);
    return to;
}

/* A desk with 16 problems that moves after every call answers as one that stays. */
static void a_desk_moves(void) {
    uint8_t record[18], answer[SPAN_ANSWER_SIZE], same[SPAN_ANSWER_SIZE];
    lent stays = lend(0), moves = lend(7);
    HOLDS(span_desk_open(stays.memory, stays.bytes, stays.state, stays.words) == 0);
    HOLDS(span_desk_open(moves.memory, moves.bytes, moves.state, moves.words) == 0);
    for (int32_t place = 0; place < SPAN_DESK_PLACES; place++) {
        span_problem problem = span_problem_begin(record, sizeof record, SPAN_KIND_PROBLEM, 0, 0, 1);
        span_pair(&problem, 0, 100 * place, 0, 7);
        size_t size = span_problem_end(&problem);
        moves = moved(moves, SPAN_CAST(size_t, 3 * place));
        HOLDS(span_desk_take(stays.memory, stays.bytes, stays.state, stays.words, record, size) == 0);
        HOLDS(span_desk_take(moves.memory, moves.bytes, moves.state, moves.words, record, size) == 0);
    }
    uint64_t told = SPAN_GOES_ON;
    for (size_t step = 0; told != SPAN_NONE_WAITS; step++) {
        moves = moved(moves, step % 50);
        told = span_desk_step(stays.memory, stays.bytes, stays.state, stays.words);
        HOLDS(told == span_desk_step(moves.memory, moves.bytes, moves.state, moves.words));
    }
    for (uint64_t ticket = 1; ticket <= SPAN_DESK_PLACES; ticket++) {
        moves = moved(moves, 1);
        memset(answer, 0, sizeof answer);
        memset(same, 0, sizeof same);
        told = span_desk_collect(stays.memory, stays.bytes, stays.state, stays.words, ticket, answer, sizeof answer);
        HOLDS(span_refusal(told) == 0 && told == span_desk_collect(moves.memory, moves.bytes, moves.state, moves.words, ticket, same, sizeof same));
        HOLDS(memcmp(answer, same, sizeof answer) == 0);
    }
    free(stays.memory);
    free(stays.state);
    free(moves.memory);
    free(moves.state);
}

int main(int count, char **words) {
    if (count > 1 && strcmp(words[1], "reasons") == 0) {
        for (unsigned refusal = 0; refusal <= 28; refusal++) {
            printf("%s\n", span_refusal_reason(refusal));
        }
        printf("%s\n", span_refusal_reason(SPAN_TOO_FEW_PLACES));
        return 0;
    }
    HOLDS(span_version() == SPAN_VERSION);
    HOLDS(span_release_4_2() == SPAN_VERSION);
    HOLDS(strcmp(SPAN_VERSION_TEXT, "4.2.0") == 0);
    nothing_handed();
    a_desk_moves();
    return faults != 0;
}
