/* The span engine, release 4.2: its records, for programs in C and C++.
 *
 * docs/RECORDS.md tells every record byte by byte. Here are its places, sizes and limits as constants, and helpers that build a
 * problem row by row and take an answer apart. They touch lent bytes alone and call nothing: the functions of span.h judge every
 * record for themselves.
 */
#ifndef SPAN_RECORDS_H
#define SPAN_RECORDS_H

#include "span.h"

#ifdef __cplusplus
extern "C" {
#endif

#define SPAN_BLANK (-2147483647 - 1) /* a lead, stamp or span that is blank, minus infinity */

/* Kinds of records. */
#define SPAN_KIND_PROBLEM 1       /* one question */
#define SPAN_KIND_QUESTIONS 3     /* up to SPAN_QUESTIONS questions over the same rules */
#define SPAN_KIND_ANSWER 4
#define SPAN_KIND_STATES 5        /* one question, and a state a rule: 1 in force, 0 suspended */

/* Limits. */
#define SPAN_MOST_N 31            /* moments beside the anchor */
#define SPAN_MOST_M 63            /* rules */
#define SPAN_MOST_LEAD 20160      /* a lead is blank or within this of 0 */
#define SPAN_MOST_SPAN 1290240    /* a least span is within this of 0 */
#define SPAN_MOST_STAMP 6000000   /* a stamp is blank or within this of 0 */

/* Sizes of fields. */
#define SPAN_SHORT_SIZE 2         /* kind, n, m, count, state, class, start, pick */
#define SPAN_MINUTES_SIZE 4       /* length, lead, span, stamp */

/* Places of fields, from the record's start. */
#define SPAN_AT_LENGTH 0          /* 4 bytes: the bytes after this field */
#define SPAN_AT_KIND 4            /* 2 bytes */
#define SPAN_AT_N 6               /* 2 bytes */
#define SPAN_AT_M 8               /* 2 bytes, of a problem */
#define SPAN_AT_COUNT 10          /* 2 bytes, of kind 3 */
#define SPAN_AT_STATES 10         /* 2 bytes a rule, of kind 5; its rows follow */
#define SPAN_AT_ROWS 10           /* of kind 1; 2 later in kind 3, behind the states in kind 5 */
#define SPAN_AT_CLASS 8           /* 2 bytes, of an answer */
#define SPAN_AT_SPAN 10           /* 4 bytes */
#define SPAN_AT_START 14          /* 2 bytes */
#define SPAN_AT_STAMPS 16         /* 4 bytes a moment in class 1, then the picks, of 2 bytes; in classes 2 and 3 the picks */

/* Fields, lowest byte first. */
static inline void span_put_short(uint8_t *at, unsigned value) {
    at[0] = SPAN_CAST(uint8_t, value & 255);
    at[1] = SPAN_CAST(uint8_t, (value >> 8) & 255);
}

static inline void span_put_minutes(uint8_t *at, int32_t value) {
    uint32_t bits = SPAN_CAST(uint32_t, value);
    span_put_short(at, bits & 65535);
    span_put_short(at + 2, bits >> 16);
}

static inline unsigned span_get_short(const uint8_t *at) { return at[0] + 256U * at[1]; }

static inline int32_t span_get_minutes(const uint8_t *at) {
    int64_t bits = INT64_C(65536) * span_get_short(at + 2) + span_get_short(at);
    return SPAN_CAST(int32_t, at[3] > 127 ? bits - INT64_C(4294967296) : bits);
}

/* Where the rows of a problem start, and its size. `count` is its questions, 1 but for kind 3. */
static inline size_t span_rows_place(unsigned kind, size_t m) {
    return SPAN_AT_ROWS + SPAN_SHORT_SIZE * (kind == SPAN_KIND_QUESTIONS ? 1 : kind == SPAN_KIND_STATES ? m : 0);
}

static inline size_t span_problem_size(unsigned kind, size_t n, size_t m, size_t count) {
    return span_rows_place(kind, m) + 2 * SPAN_MINUTES_SIZE * (n + 1) * (m + count);
}

/* The bytes of the stamps of an answer, and its size; 0 for a class that is none. */
static inline size_t span_stamps_size(unsigned class_number, size_t n) {
    return class_number == SPAN_LEAST ? SPAN_MINUTES_SIZE * (n + 1) : 0;
}

static inline size_t span_answer_size(unsigned class_number, size_t n, size_t m) {
    size_t picks = SPAN_SHORT_SIZE * (class_number == SPAN_BOTTOMLESS ? m + 1 : n + 1);
    return class_number < SPAN_LEAST || class_number > SPAN_NONE ? 0 : SPAN_AT_STAMPS + span_stamps_size(class_number, n) + picks;
}

/* A problem that is being built. The first fault stays: the number of the refusal nearest to it, with its row (rules from 1 on,
 * then the questions; 0 is the header) and, for a lead, its moment. */
typedef struct span_problem {
    uint8_t *bytes;
    unsigned kind, n, m, count;
    unsigned rows; /* begun so far */
    unsigned fault, fault_row, fault_moment;
} span_problem;

static inline void span_fault(span_problem *problem, unsigned refusal, unsigned row, unsigned moment) {
    if (problem->fault == 0) {
        problem->fault = refusal;
        problem->fault_row = row;
        problem->fault_moment = moment;
    }
}

/* Begins a problem in `room` lent bytes; SPAN_QUESTIONS_SIZE are enough for every one. Faults: 3, 4, 15, 5 for a
 * count in another kind, 7 for too little room. */
static inline span_problem span_problem_begin(uint8_t *bytes, size_t room, unsigned kind, unsigned n, unsigned m, unsigned count) {
    span_problem problem = {bytes, kind, n, m, count, 0, 0, 0, 0};
    if (kind != SPAN_KIND_PROBLEM && kind != SPAN_KIND_QUESTIONS && kind != SPAN_KIND_STATES) {
        span_fault(&problem, 3, 0, 0);
    } else if (n > SPAN_MOST_N || m > SPAN_MOST_M) {
        span_fault(&problem, 4, 0, 0);
    } else if (kind == SPAN_KIND_QUESTIONS ? count == 0 || count > SPAN_QUESTIONS : count != 1) {
        span_fault(&problem, kind == SPAN_KIND_QUESTIONS ? SPAN_WRONG_COUNT : 5, 0, 0);
    } else if (room < span_problem_size(kind, n, m, count)) {
        span_fault(&problem, 7, 0, 0);
    } else {
        span_put_minutes(bytes + SPAN_AT_LENGTH, SPAN_CAST(int32_t, span_problem_size(kind, n, m, count) - 4));
        span_put_short(bytes + SPAN_AT_KIND, kind);
        span_put_short(bytes + SPAN_AT_N, n);
        span_put_short(bytes + SPAN_AT_M, m);
        if (kind == SPAN_KIND_QUESTIONS) {
            span_put_short(bytes + SPAN_AT_COUNT, count);
        }
    }
    return problem;
}

/* The field of a lead in a row, counted from 0; `side` is 0 for left (a question's first list), 1 for right (its second). */
static inline uint8_t *span_lead_field(const span_problem *problem, unsigned row, unsigned side, unsigned moment) {
    size_t moments = problem->n + 1;
    return problem->bytes + span_rows_place(problem->kind, problem->m) + SPAN_MINUTES_SIZE * ((2 * row + side) * moments + moment);
}

/* Begins the next row, with all leads blank: rules 1 to m, then the questions. In kind 5 the rule is in force. Fault 5: no row is left. */
static inline void span_row(span_problem *problem) {
    unsigned row = problem->rows++;
    if (row >= problem->m + problem->count) {
        span_fault(problem, 5, row + 1, 0);
    }
    if (problem->fault != 0) {
        return;
    }
    for (unsigned place = 0; place < 2 * (problem->n + 1); place++) {
        span_put_minutes(span_lead_field(problem, row, 0, place), SPAN_BLANK);
    }
    if (problem->kind == SPAN_KIND_STATES && row < problem->m) {
        span_put_short(problem->bytes + SPAN_AT_STATES + SPAN_SHORT_SIZE * row, 1);
    }
}

static inline void span_lead(span_problem *problem, unsigned side, unsigned moment, int32_t lead) {
    if (problem->rows == 0 || moment > problem->n) {
        span_fault(problem, 5, problem->rows, moment);
    } else if (lead != SPAN_BLANK && (lead < -SPAN_MOST_LEAD || lead > SPAN_MOST_LEAD)) {
        span_fault(problem, 6, problem->rows, moment);
    }
    if (problem->fault == 0) {
        span_put_minutes(span_lead_field(problem, problem->rows - 1, side, moment), lead);
    }
}

/* A lead of the row begun last. Faults: 5, there is no such moment, or no row yet; 6, the lead is beyond SPAN_MOST_LEAD. */
static inline void span_left(span_problem *problem, unsigned moment, int32_t lead) { span_lead(problem, 0, moment, lead); }
static inline void span_right(span_problem *problem, unsigned moment, int32_t lead) { span_lead(problem, 1, moment, lead); }

/* A row with one lead a side. A rule: moment `left` + lead <= moment `right` + lead; the question: the span from `right` to `left`. */
static inline void span_pair(span_problem *problem, unsigned left, int32_t left_lead, unsigned right, int32_t right_lead) {
    span_row(problem);
    span_left(problem, left, left_lead);
    span_right(problem, right, right_lead);
}

/* Suspends the rule begun last. Fault 3: the kind is not 5; 5: no rule was begun, or it is the question. */
static inline void span_suspend(span_problem *problem) {
    if (problem->kind != SPAN_KIND_STATES) {
        span_fault(problem, 3, problem->rows, 0);
    } else if (problem->rows == 0 || problem->rows > problem->m) {
        span_fault(problem, 5, problem->rows, 0);
    }
    if (problem->fault == 0) {
        span_put_short(problem->bytes + SPAN_AT_STATES + SPAN_SHORT_SIZE * (problem->rows - 1), 0);
    }
}

/* The size of the finished record; where there is a fault 1, which every function refuses by 1, as no bytes are an idle day. Faults: 5,
 * a row is missing; 17, a rule's left list is all blank. */
static inline size_t span_problem_end(span_problem *problem) {
    if (problem->rows < problem->m + problem->count) {
        span_fault(problem, 5, problem->rows + 1, 0);
    }
    for (unsigned rule = 0; problem->fault == 0 && rule < problem->m; rule++) {
        unsigned moment = 0;
        while (moment <= problem->n && span_get_minutes(span_lead_field(problem, rule, 0, moment)) == SPAN_BLANK) {
            moment++;
        }
        if (moment > problem->n) {
            span_fault(problem, SPAN_SILENT_RULE, rule + 1, 0);
        }
    }
    return problem->fault != 0 ? 1 : span_problem_size(problem->kind, problem->n, problem->m, problem->count);
}

/* A stamp or span. Where it is blank, `minutes` is 0. */
typedef struct span_minute {
    int32_t minutes;
    int blank;
} span_minute;

static inline span_minute span_minute_at(const uint8_t *at) {
    span_minute minute = {span_get_minutes(at), 0};
    if (minute.minutes == SPAN_BLANK) {
        minute.minutes = 0;
        minute.blank = 1;
    }
    return minute;
}

/* An answer in its bytes. `size` is 0 where no whole answer of kind 4 stands there. */
typedef struct span_answer {
    const uint8_t *bytes;
    size_t size;
    unsigned n, class_number, start, picks; /* picks: how many there are */
    span_minute span;                       /* blank but in class 1 */
} span_answer;

/* Takes the answer apart that starts at `bytes`, of which `room` can be read; the next one starts `size` bytes later. This reads the
 * fields alone: span_check judges. */
static inline span_answer span_answer_at(const uint8_t *bytes, size_t room) {
    span_answer none = {bytes, 0, 0, 0, 0, 0, {0, 1}};
    if (room < SPAN_AT_STAMPS || span_get_short(bytes + SPAN_AT_KIND) != SPAN_KIND_ANSWER) {
        return none;
    }
    span_answer answer = {bytes, span_record_end(bytes, 0), span_get_short(bytes + SPAN_AT_N), span_get_short(bytes + SPAN_AT_CLASS),
                          span_get_short(bytes + SPAN_AT_START), 0, span_minute_at(bytes + SPAN_AT_SPAN)};
    size_t wanted = span_answer_size(answer.class_number, answer.n, 0); /* m is not told: bottomless may have more picks */
    int fits = answer.class_number == SPAN_BOTTOMLESS ? answer.size >= wanted && answer.size % 2 == 0 : answer.size == wanted;
    if (wanted == 0 || !fits || answer.size > room || answer.size > SPAN_ANSWER_SIZE) {
        return none;
    }
    size_t picks = (answer.size - SPAN_AT_STAMPS - span_stamps_size(answer.class_number, answer.n)) / SPAN_SHORT_SIZE;
    answer.picks = SPAN_CAST(unsigned, picks);
    return answer;
}

/* A moment's stamp: blank too where the class has no stamps, or there is no such moment. */
static inline span_minute span_stamp(const span_answer *answer, unsigned moment) {
    span_minute blank = {0, 1};
    int there = answer->size != 0 && answer->class_number == SPAN_LEAST && moment <= answer->n;
    return there ? span_minute_at(answer->bytes + SPAN_AT_STAMPS + SPAN_MINUTES_SIZE * moment) : blank;
}

/* A pick, counted from 0: of a moment in classes 1 and 3, of a row in class 2. 0 too where there is no such place. */
static inline unsigned span_pick(const span_answer *answer, unsigned place) {
    size_t picks = SPAN_AT_STAMPS + span_stamps_size(answer->class_number, answer->n);
    return place < answer->picks ? span_get_short(answer->bytes + picks + SPAN_SHORT_SIZE * place) : 0;
}

#ifdef __cplusplus
}
#endif

#endif
