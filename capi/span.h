/* The span engine, release 4.2: its boundary to C.
 *
 * Link with libspan (`pkg-config --cflags --libs span`, where it was installed), or with crates/capi/out/libcapi.a, which
 * `tools/build archive` writes. Machines: x86-64, Linux. docs/RECORDS.md tells every record byte by byte, with the refusals and their order;
 * span_records.h builds problems and takes answers apart.
 *
 * The words are those of documents 01 and 02. Records are bytes, little-endian. A function is handed a pointer and then a
 * number of bytes or places, and reads and writes only there. Where that number is 0 the pointer may be NULL.
 * Every string of bytes is taken; no function relies on the caller having looked at it beforehand.
 *
 * ASSUMED. What is proved of the functions rests on this, which nothing looks at:
 * - a pointer is good for as many bytes or places as are told, and aligned for its type;
 * - BUFFERS DO NOT OVERLAP: what a function writes shares no byte with what it reads, and nobody else writes either during the call;
 * - a desk's memory and state come as the call before left them (below);
 * - the stack: a call has SPAN_STACK bytes of it left. No theorem is about the stack. Measured, in units of 1,024 bytes (benches/stack.c):
 *     span_reasons 87, span_check 60, span_desk_step 44, span_solve 43, span_census 43, span_merge 35, span_desk_take 33,
 *     span_read 4, span_convert 4, span_desk_collect 4, span_write 1, span_hours_read 1, span_hours_write 1, span_first_open 1,
 *     span_marks_differ 1, span_desk_open 1, span_version 1, span_release_4_2 1.
 *   A test runs each of them on a thread whose whole stack has SPAN_STACK bytes.
 *
 * Nothing is kept between calls but a desk's memory and state, which the caller lends. Calls from several threads are fine, each with
 * buffers of its own. No function takes a lock, allocates, reads a file, or ends the program; each may be called in a signal handler.
 *
 * NOT CLAIMED: how long a call takes, and a way for exceptions or debuggers through a call: the functions have no unwind information. They call
 * nothing back, so that no exception can start in them.
 *
 * An offset number stands for a stamp or a span: 0 is blank, and v + 2147483648 is the minute v.
 *
 * A problem of kind 1 has one question. One of kind 3 has up to eight over the same rules: after m a count of two bytes, then
 * the rules, then that many question rows. One of kind 5 has, after m, a state of two bytes a rule: 1 in force, 0 suspended; its
 * rules keep their numbers, and the suspended ones are kept by every plan. span_solve takes all three; span_check, span_reasons and
 * span_merge kinds 1 and 5. A problem of 0 bytes is an idle day: n and m are 0, and so are both leads of the anchor; its answer is
 * least 0. (span_convert gives it 1.)
 *
 * A plan counts only if its second list is not blank, and classes and spans are about the plans that count. An answer has kind 4
 * and a start, which says where reach begins: in classes 1 and 3, 0 is the anchor and 1 all moments with a non-blank lead in the
 * second list; in class 2 it is 1 + the number of one such moment, and reach begins there and at the anchor.
 *
 * Refusals: 1 the problem has 1 to 9 bytes (in span_convert also none); 2 its length field is not its size - 4; 3 its kind is not one
 * that the call takes; 4 n is above 31 or m above 63; 5 its size does not fit its kind, n and m, and for kind 3 the count; 6 a lead is
 * neither blank nor within 20,160 of 0; 7 the answer buffer is shorter than 208 bytes a question; 8 the answer has fewer
 * than 16 bytes; 9 its length field is not its size - 4; 10 its kind is not 4, its class not 1 to 3, or its start above 1
 * (in class 2: 0, or above the problem's n + 1); 11 its n is not the problem's, or its size does not fit its class; 12 its
 * span or a stamp is outside the form of its class; 13 a pick is above its highest value; 14 not certified; 15 the count of
 * questions is 0 or above 8; 16 (span_reasons) the answer is bottomless; 17 a rule, not the question, has an all-blank left
 * list (span_convert drops such rules); 18 (hours and minutes) the text is not of this form, a value is beyond 6,000,000 of
 * 0, or the writer's buffer is shorter than 10 bytes; 19 a week list or a minute to be looked up is not of its form
 * (span_first_open); 20 a state of kind 5 is neither 0 nor 1; 21 to 23 (a desk) no place or no ticket is left, no such ticket is held,
 * the memory is too short; 24 to 26 two plans cannot be merged (span_merge); 27 (span_census) w is 0 or above 20,160, n is above 31 or
 * m above 63, or there are more than 65,536 problems. The first that applies is returned, in this order, but 15 is looked at after 4 and
 * before 5, 16 after 14, 20 after 5 and before 6, and 17 after 6 and before 7; a desk's calls have their own order, told there. 6 and 17
 * look at suspended rules too; a record of kind 3 that ends before its count gets 5. span_convert takes kinds 1 and 3 alone, a desk
 * kind 1. A refusal writes nothing.
 */
#ifndef SPAN_H
#define SPAN_H

#include <stddef.h>
#include <stdint.h>

/* A cast that both languages take without a warning. */
#ifdef __cplusplus
#define SPAN_CAST(type, value) static_cast<type>(value)
#else
#define SPAN_CAST(type, value) ((type)(value))
#endif

#ifdef __cplusplus
extern "C" {
#endif

#define SPAN_VERSION 40200        /* release 4.2.0: 10000 * 4 + 100 * 2 + 0 */
#define SPAN_VERSION_TEXT "4.2.0"

#define SPAN_STACK 131072         /* bytes of stack that are enough for every call */

#define SPAN_ANSWER_SIZE 208      /* an answer buffer of this many bytes, a question, is long enough for every answer */
#define SPAN_PROBLEM_SIZE 16394   /* the longest problem of one question, kind 1 */
#define SPAN_STATES_SIZE 16520    /* the longest problem with states of its rules, kind 5 */
#define SPAN_QUESTIONS 8          /* the most questions of a problem of kind 3 */
#define SPAN_QUESTIONS_SIZE 18188 /* the longest problem of several questions, kind 3 */
#define SPAN_STAMPS 32            /* places to lend to span_read for stamps */
#define SPAN_PICKS 64             /* places to lend to span_read for picks */

#define SPAN_RULES 64             /* places to lend to span_reasons for rules */
#define SPAN_ROUND 32             /* places to lend to span_reasons for the round */

#define SPAN_TEXT_SIZE 10         /* a buffer of this many bytes is long enough for every text of hours and minutes */

#define SPAN_LEAST 1
#define SPAN_BOTTOMLESS 2
#define SPAN_NONE 3
#define SPAN_NOT_CERTIFIED 14
#define SPAN_WRONG_COUNT 15       /* span_solve, span_convert only: the count of questions is 0 or above SPAN_QUESTIONS */
#define SPAN_NO_REASONS 16        /* span_reasons only: the answer is bottomless */
#define SPAN_SILENT_RULE 17       /* the calls that take a problem, but span_convert: a rule has an all-blank left list */
#define SPAN_NO_TEXT 18           /* span_hours_read, span_hours_write only */
#define SPAN_WRONG_STATE 20       /* span_solve, span_check, span_reasons, span_merge only: a state is neither 0 nor 1 */
#define SPAN_TOO_FEW_PLACES 255   /* span_read, span_reasons, span_marks_differ, span_census, a desk only */

#define SPAN_WINDOWS 14           /* the most windows of a week list, with two minutes each */
#define SPAN_NEVER 0              /* span_first_open only: the week list is empty */

#define SPAN_PLAN_SIZE 128        /* a buffer of this many bytes is long enough for the stamps of every plan */
#define SPAN_FORWARD 24           /* span_merge only: the shift is above 0 */
#define SPAN_RULE_BROKEN 25       /* span_merge only: a plan breaks a rule */
#define SPAN_TOO_EARLY 26         /* span_merge only: a merged stamp would be below its limit */

#define SPAN_COUNTS 4             /* places to lend to span_census */
#define SPAN_NO_CENSUS 27         /* span_census only */

#define SPAN_DIFFER 256           /* span_marks_differ only */

#define SPAN_DESK_PLACES 16       /* the problems that a desk holds at most */
#define SPAN_DESK_MEMORY 262304   /* bytes of memory to lend to a desk: 16 problems of SPAN_PROBLEM_SIZE */
#define SPAN_DESK_WORDS 692       /* words to lend to a desk for its state */
#define SPAN_DESK_TICKET 3        /* the word of the state in which the ticket stands that a call tells */
#define SPAN_DESK_FULL 21         /* span_desk_take only */
#define SPAN_NO_TICKET 22         /* span_desk_collect only */
#define SPAN_DESK_SHORT 23        /* all calls of a desk */
#define SPAN_STILL_WAITS 0        /* span_desk_collect only */
#define SPAN_NONE_WAITS 0         /* span_desk_step only */
#define SPAN_GOES_ON 256          /* span_desk_step only */
#define SPAN_DONE 512             /* span_desk_step only */

/* The release that the library was built as: SPAN_VERSION of the header that belongs to it. */
uint64_t span_version(void);

/* The same number. Its name is that of releases with this header's records and functions: each file that includes the header refers to it,
 * so that an archive of another release fails to link, and a shared library of another release fails to load. */
uint64_t span_release_4_2(void);
static uint64_t (*const span_release_of_header)(void) __attribute__((used)) = span_release_4_2;

/* Answers a problem of kind 1, 3 or 5: writes the answer record of its question, or of each of its questions one after another,
 * at the start of `answers`. Each record starts where the one before ended, which span_record_end tells, and is the answer to
 * the problem of kind 1 with that question alone. The bytes after the last stay. Lend SPAN_ANSWER_SIZE bytes a question.
 * Result: 256 * trials + refusal. Answered: refusal 0, trials 1 to 24 a question, summed. Refused: 1 to 7, 15, 17 or 20, trials 0. */
uint64_t span_solve(const uint8_t *problem, size_t problem_size, uint8_t *answers, size_t answers_size);

/* Judges an answer to a problem of kind 1 or 5.
 * Result: accepted: 256 * class + 4294967296 * the span's offset number (0 where blank), so the low byte is 0;
 * else the refusal, 1 to 6, 8 to 14, 17 or 20, where 14 is 'not certified'. */
uint64_t span_check(const uint8_t *problem, size_t problem_size, const uint8_t *answer, size_t answer_size);

/* Names the rules behind an accepted answer of class least or none to a problem of kind 1 or 5, or an idle day: those that reached moments pick, ascending,
 * from 1 on. The problem with only these rules and the question has the same class and span. For least also the binding round,
 * moments in turn, which is a reached cycle of the answer's picks that uses the question once and weighs 0 at the least span: from
 * the start (the anchor, or the first planned moment of the second list) a moment yields to its pick and a rule to its first latest
 * right moment until a moment comes again; the round starts there. Lend at least 64 places for rules and 32 for the round.
 * Result: 256 * the number of rules + 65536 * the number of the round's moments, which is 0 for none alone; rules and round stand in
 * the first places, and what follows stays. Else the refusal: those of span_check, then 16 where the answer is bottomless; or, where
 * no refusal applies, SPAN_TOO_FEW_PLACES for fewer places lent. Nothing is then written. */
uint64_t span_reasons(const uint8_t *problem, size_t problem_size, const uint8_t *answer, size_t answer_size,
                      uint64_t *rules, size_t rules_count, uint64_t *round, size_t round_count);

/* Reads an answer record for a problem of n and m. Lend at least 32 stamps and 64 picks.
 * Result: read: 256 * class + 65536 * start + 4294967296 * the span's offset number (0 where blank), and the first places hold
 * class 1: n + 1 stamps as offset numbers, and n + 1 picks; class 2: m + 1 picks; class 3: n + 1 picks; the rest of the
 * first 32 and 64 places is 0. Else the refusal: 4 (n or m above its limit), 8 to 13; or, where no refusal applies,
 * SPAN_TOO_FEW_PLACES for fewer than 32 stamps or 64 picks lent. Nothing is then written. */
uint64_t span_read(const uint8_t *record, size_t record_size, uint64_t n, uint64_t m,
                   uint64_t *stamps, size_t stamps_count, uint64_t *picks, size_t picks_count);

/* Writes an answer record for a problem of n and m at the start of `buffer`; the bytes after it stay.
 * `span` and `stamps` are offset numbers, `start` is the record's own. Class 1: n + 1 stamps and n + 1 picks; class 2: no stamps,
 * m + 1 picks; class 3: no stamps, n + 1 picks.
 * Result: written: 256 * the record's size. Else the refusal: 4, 7, 10 to 13; stamps or picks in another count: 11. */
uint64_t span_write(uint64_t class_number, uint64_t span, uint64_t start, const uint64_t *stamps, size_t stamps_count,
                    const uint64_t *picks, size_t picks_count, uint64_t n, uint64_t m,
                    uint8_t *buffer, size_t buffer_size);

/* Converts a stored problem of kind 1 or 3: writes it at the start of `buffer` without the rules whose left list is all blank, and
 * with the numbers closed up. Kind, n, the other rows and their order stay; a question may have a blank first list. The class and
 * the least span of each question are the same before and after. The bytes after the record stay. Lend as many bytes as the
 * stored record has, SPAN_QUESTIONS_SIZE at most.
 * Result: converted: 256 * the record's size. Else the refusal: 1 (here also for no bytes), 2, 3, 4, 15, 5, 6, then 7 where the buffer is
 * shorter than the record to be written. */
uint64_t span_convert(const uint8_t *stored, size_t stored_size, uint8_t *buffer, size_t buffer_size);

/* Merges two plans of a problem of kind 1 or 5, or of an idle day: each moment is the later of the first plan's and the second plan's plus
 * `shift`, which is 0 or less. A plan is n + 1 stamps of 4 bytes, as in an answer record: -2147483648 is blank, the anchor's is 0, and
 * the others lie within the limit of stamps. The merged stamps are written the same way at the start of `buffer`; the bytes after them
 * stay. They keep the rules, and where both plans have a second list that is not blank, so has the merged one, and its span is at most
 * the greater of the two. Lend SPAN_PLAN_SIZE bytes, whatever n is.
 * Result: merged: 256 * the bytes written, 4 * (n + 1). Else the refusal: 1 to 6, 17 or 20 as span_check gives them; 7 the buffer is shorter
 * than 128 bytes; 12 a plan is not n + 1 such stamps; 24 the shift is above 0; 25 a plan breaks a rule; 26 a merged stamp would be
 * below the limit of stamps. Nothing is then written. */
uint64_t span_merge(const uint8_t *problem, size_t problem_size, const uint8_t *first, size_t first_size,
                    const uint8_t *second, size_t second_size, int64_t shift, uint8_t *buffer, size_t buffer_size);

/* Reads a span or stamp in hours and minutes: an optional minus, hours without leading zeros, a colon, two digits of minutes
 * below 60, as in 7:05, -0:05 or 0:00; two hyphens are blank. There is one text for each value within 6,000,000 of 0, and for
 * blank; only these are taken.
 * Result: read: 4294967296 * the value's offset number (0 where blank), so the low byte is 0; else SPAN_NO_TEXT. */
uint64_t span_hours_read(const uint8_t *text, size_t text_size);

/* Writes a span or stamp, an offset number, in hours and minutes at the start of `buffer`; the bytes after the text stay.
 * Result: written: 256 * the size of the text, 2 to 10. Else SPAN_NO_TEXT: the value is beyond 6,000,000 of 0, or the buffer is
 * shorter than 10 bytes, whatever the value. */
uint64_t span_hours_write(uint64_t value, uint8_t *buffer, size_t buffer_size);

/* The first open minute of a ward at or after a minute, which is within 6,000,000 of a Monday 0:00, minute 0. The week list
 * holds, in turn, the opening minute (0 to 10,079) and the closing minute (1 to 10,080) of each window, counted from Monday
 * 0:00, for every week before or after. A window runs to the minute before its closing minute; windows ascend, and one
 * may start where the last one closes. `minute` is an offset number.
 * Result: 4294967296 * the first open minute's offset number, less than 10,080 away; SPAN_NEVER for an empty list; or the
 * refusal 19: an odd list, more than 14 windows, a closing not after its opening, an opening or closing outside its range,
 * a window that starts before the last one closes, or a minute beyond 6,000,000. */
uint64_t span_first_open(const uint64_t *week, size_t week_count, uint64_t minute);

/* Whether two lists of mark bytes differ in some byte of their first `count`, whatever stands behind these: the test that tells
 * whether a round of reach, in the engine and in the checker, has found a new moment. It compares eight bytes at a time; any
 * count will do, 0 too.
 * Result: SPAN_DIFFER, or 0 where they are the same; SPAN_TOO_FEW_PLACES where a list has fewer than `count` bytes. */
uint64_t span_marks_differ(const uint8_t *before, size_t before_size, const uint8_t *after, size_t after_size,
                           uint64_t count);

/* Counts by class all problems of kind 1 with this n and m whose leads are blank or -w to w: the first four places of `counts` become the
 * numbers of problems that are least, bottomless, none, and under refusal 17. They add up to (2w + 2) to the power 2 (n + 1)(m + 1).
 * Result: counted: 0. Else the refusal 27 (SPAN_NO_CENSUS); or, where it does not apply, SPAN_TOO_FEW_PLACES for fewer than SPAN_COUNTS
 * places. Nothing is then written. The longest census, 65,536 problems, takes up to half a second. */
uint64_t span_census(uint64_t n, uint64_t m, uint64_t w, uint64_t *counts, size_t counts_count);

/* A desk answers up to sixteen problems in turn, a trial at a time (document 02, 2.11). Lend SPAN_DESK_MEMORY bytes and SPAN_DESK_WORDS
 * words; both may hold anything before span_desk_open, and AFTERWARDS EACH CALL MUST GET THEM AS THE CALL BEFORE LEFT THEM. That is said of
 * what they hold, not of where they lie: between calls a desk may be copied to other addresses, or to a file and back, and a later call may be
 * lent more bytes and words than an earlier one; what lies behind the first SPAN_DESK_MEMORY and SPAN_DESK_WORDS plays no part. All four
 * calls look first at the memory, SPAN_DESK_SHORT, then at the words, SPAN_TOO_FEW_PLACES, and read nothing where one is too short. A
 * refusal, SPAN_STILL_WAITS and SPAN_NONE_WAITS change nothing: state[SPAN_DESK_TICKET] holds then what an earlier call told. With memory or
 * words that another hand changed a call's behaviour is undefined. What was collected may stand in both until it is overwritten.
 *
 * Opens a desk with nothing on it. The memory is not written yet, but the calls that follow write it, so that it is not const here.
 * Result: 0, or the refusal. */
uint64_t span_desk_open(uint8_t *memory, size_t memory_size, uint64_t *state, size_t state_count);

/* Takes a problem of kind 1 in, or an idle day, at the end of the line. Result: 0, and its ticket stands in state[SPAN_DESK_TICKET];
 * tickets count up from 1. Else the refusal: 1 to 6 or 17, then 21: all places hold a waiting or uncollected problem, or the tickets are
 * used up. */
uint64_t span_desk_take(uint8_t *memory, size_t memory_size, uint64_t *state, size_t state_count, const uint8_t *problem,
                        size_t problem_size);

/* Makes one trial for the problem at the head of the line. Result: SPAN_NONE_WAITS; or, with the ticket in state[SPAN_DESK_TICKET],
 * SPAN_GOES_ON where it goes to the end of the line, SPAN_DONE where it is answered now. A problem is answered after at most 24 trials of its
 * own, and at most 384 steps after it was taken in. */
uint64_t span_desk_step(const uint8_t *memory, size_t memory_size, uint64_t *state, size_t state_count);

/* Writes the answer of a ticket at the start of `buffer` and frees its place; the bytes after the record stay. Lend SPAN_ANSWER_SIZE bytes.
 * Result: 256 * class + 65536 * own trials; or SPAN_STILL_WAITS, which is 0 and no refusal either; else the refusal. After the memory and the words, in this order: 22, no such ticket
 * is held; SPAN_STILL_WAITS; 7, after which the answer can still be collected. */
uint64_t span_desk_collect(const uint8_t *memory, size_t memory_size, uint64_t *state, size_t state_count, uint64_t ticket,
                           uint8_t *buffer, size_t buffer_size);

/* The size of a problem record of kind 1, 3 or 5, with that many rules and questions (kinds 1 and 5 have one); 0 for another kind. */
static inline size_t span_record_size(unsigned kind, size_t n, size_t m, size_t count) {
    return kind == 1 ? 10 + 8 * (n + 1) * (m + 1) : kind == 3 ? 12 + 8 * (n + 1) * (m + count)
         : kind == 5 ? 10 + 2 * m + 8 * (n + 1) * (m + 1) : 0;
}

/* Where a record that starts at `at` ends, by its length field: of the answers of span_solve, where the next one starts. */
static inline size_t span_record_end(const uint8_t *records, size_t at) {
    size_t length = 0;
    for (size_t byte = 4; byte > 0; byte--) {
        length = length * 256 + records[at + byte - 1];
    }
    return at + 4 + length;
}

/* What a result holds. */
static inline unsigned span_refusal(uint64_t result) { return SPAN_CAST(unsigned, result & 255); }
static inline unsigned span_trials(uint64_t result) { return SPAN_CAST(unsigned, result >> 8); }           /* span_solve */
static inline unsigned span_class(uint64_t result) { return SPAN_CAST(unsigned, (result >> 8) & 255); }    /* span_check, span_read, span_desk_collect */
static inline unsigned span_own_trials(uint64_t result) { return SPAN_CAST(unsigned, result >> 16); }      /* span_desk_collect */
static inline unsigned span_start(uint64_t result) { return SPAN_CAST(unsigned, (result >> 16) & 65535); } /* span_read */
static inline unsigned span_rules(uint64_t result) { return SPAN_CAST(unsigned, (result >> 8) & 255); }    /* span_reasons */
static inline unsigned span_round(uint64_t result) { return SPAN_CAST(unsigned, (result >> 16) & 255); }   /* span_reasons */
static inline size_t span_size(uint64_t result) { return SPAN_CAST(size_t, result >> 8); } /* span_write, span_convert, span_merge, span_hours_write */
static inline int span_blank(uint64_t result) { return (result >> 32) == 0; } /* span_check, span_read, span_hours_read, where the low byte is 0 */

/* The minutes of a result that is not blank: look at the class (span_check, span_read) or at span_blank (span_hours_read) first.
 * span_first_open: where it is not SPAN_NEVER. */
static inline int32_t span_minutes(uint64_t result) {
    return SPAN_CAST(int32_t, SPAN_CAST(int64_t, result >> 32) - INT64_C(2147483648));
}

/* The offset number of a minute, as span_write, span_hours_write and span_first_open take it; 0 is blank. */
static inline uint64_t span_offset(int32_t minutes) {
    return SPAN_CAST(uint64_t, SPAN_CAST(int64_t, minutes) + INT64_C(2147483648));
}

/* A class in one word. */
static inline const char *span_class_name(unsigned class_number) {
    return class_number == SPAN_LEAST ? "least" : class_number == SPAN_BOTTOMLESS ? "bottomless"
         : class_number == SPAN_NONE ? "none" : "no class";
}

/* A refusal in words, for a message or a log: what is wrong, in one line without a full stop. */
static inline const char *span_refusal_reason(unsigned refusal) {
    switch (refusal) {
    case 0: return "no refusal";
    case 1: return "the problem has fewer than 10 bytes";
    case 2: return "the problem's length field is not its size - 4";
    case 3: return "the problem's kind is not one that this call takes";
    case 4: return "n is above 31 or m above 63";
    case 5: return "the problem's size does not fit its kind, n and m, and for kind 3 the count of questions";
    case 6: return "a lead is neither blank nor within 20,160 of 0";
    case 7: return "the buffer is too short: 208 bytes an answer, 128 a merged plan, or the converted record";
    case 8: return "the answer has fewer than 16 bytes";
    case 9: return "the answer's length field is not its size - 4";
    case 10: return "the answer's kind is not 4, its class not 1 to 3, or its start none of its class";
    case 11: return "the answer's n is not the problem's, or its size does not fit its class";
    case 12: return "the span or a stamp is outside its form";
    case 13: return "a pick is above its highest value";
    case 14: return "the form is right and the answer is not accepted";
    case 15: return "the count of questions is 0 or above 8";
    case 16: return "the answer is bottomless";
    case 17: return "a rule has an all-blank left list";
    case 18: return "the text is not of its form, the value is beyond 6,000,000 of 0, or the buffer is under 10 bytes";
    case 19: return "the week list is not of its form, or the minute is beyond 6,000,000 of 0";
    case 20: return "a state is neither 0 nor 1";
    case 21: return "all 16 places of the desk hold a problem, or its tickets are used up";
    case 22: return "the desk holds no such ticket";
    case 23: return "the desk's memory is shorter than 16 problems";
    case 24: return "the shift is above 0";
    case 25: return "a plan breaks a rule";
    case 26: return "a merged stamp would be below -6,000,000";
    case 27: return "w is 0 or above 20,160, n or m is beyond its limit, or there are more than 65,536 problems";
    case 255: return "too few places were lent";
    default: return "no refusal has this number";
    }
}

#ifdef __cplusplus
}
#endif

#endif
