/* How much stack each entry of the archive takes: it is called on a stack of its own that was painted before, and what is no longer
 * paint was used. Problems are the largest ones (n = 31, m = 63), of every kind that the entry takes, with rules from each moment to the
 * next and the span from the last to the anchor. Then each is called again on a thread whose whole stack has SPAN_STACK bytes.
 *
 *     tools/build archive
 *     cc -O1 -I capi benches/stack.c crates/capi/out/libcapi.a -pthread -o target/stack && target/stack
 */
#define _GNU_SOURCE
#include <inttypes.h>
#include <pthread.h>
#include <stdio.h>
#include <stdlib.h>
#include <string.h>
#include <ucontext.h>
#include "span_records.h"

enum { ROOM = 1 << 20, PAINT = 0xA5, MOMENTS = 31, RULES = 63 };

static uint8_t problem[SPAN_QUESTIONS_SIZE], converted[SPAN_QUESTIONS_SIZE], answers[SPAN_QUESTIONS * SPAN_ANSWER_SIZE];
static uint8_t plan[SPAN_PLAN_SIZE], merged[SPAN_PLAN_SIZE], memory[SPAN_DESK_MEMORY], marks[32], text[SPAN_TEXT_SIZE];
static uint64_t stamps[SPAN_STAMPS], picks[SPAN_PICKS], rules[SPAN_RULES], round_of[SPAN_ROUND], counts[SPAN_COUNTS];
static uint64_t words[SPAN_DESK_WORDS], week[2] = {420, 1080}, result;
static size_t size, answer_size;
static ucontext_t home, away;

/* The problem of a kind, with one rule suspended in kind 5 and eight questions in kind 3. */
static void build(unsigned kind) {
    unsigned count = kind == SPAN_KIND_QUESTIONS ? SPAN_QUESTIONS : 1;
    span_problem made = span_problem_begin(problem, sizeof problem, kind, MOMENTS, RULES, count);
    for (unsigned rule = 0; rule < RULES; rule++) {
        span_pair(&made, rule % MOMENTS, SPAN_CAST(int32_t, 30 + rule), rule % MOMENTS + 1, 0);
        if (kind == SPAN_KIND_STATES && rule == RULES - 1) {
            span_suspend(&made);
        }
    }
    for (unsigned question = 0; question < count; question++) {
        span_pair(&made, MOMENTS, 0, 0, 0);
    }
    size = span_problem_end(&made);
}

static void solve(void) { result = span_solve(problem, size, answers, sizeof answers); }
static void check(void) { result = span_check(problem, size, answers, answer_size); }
static void reasons(void) { result = span_reasons(problem, size, answers, answer_size, rules, SPAN_RULES, round_of, SPAN_ROUND); }
static void read_back(void) { result = span_read(answers, answer_size, MOMENTS, RULES, stamps, SPAN_STAMPS, picks, SPAN_PICKS); }
static void write_again(void) {
    uint64_t span = span_offset(span_answer_at(answers, sizeof answers).span.minutes);
    result = span_write(SPAN_LEAST, span, 0, stamps, MOMENTS + 1, picks, MOMENTS + 1, MOMENTS, RULES, answers, sizeof answers);
}
static void convert(void) { result = span_convert(problem, size, converted, sizeof converted); }
static void merge(void) { result = span_merge(problem, size, plan, sizeof plan, plan, sizeof plan, -1, merged, sizeof merged); }
static void hours_write(void) { result = span_hours_write(span_offset(-6000000), text, sizeof text); }
static void hours_read(void) { result = span_hours_read(text, sizeof text); }
static void first_open(void) { result = span_first_open(week, 2, span_offset(0)); }
static void census(void) { result = span_census(0, 1, 3, counts, SPAN_COUNTS); }
static void differ(void) { result = span_marks_differ(marks, sizeof marks, marks, sizeof marks, sizeof marks); }
static void version(void) { result = span_version() == SPAN_VERSION ? 0 : 1; }
static void release(void) { result = span_release_4_2() == SPAN_VERSION ? 0 : 1; }
static void desk_open(void) { result = span_desk_open(memory, sizeof memory, words, SPAN_DESK_WORDS); }
static void desk_take(void) { result = span_desk_take(memory, sizeof memory, words, SPAN_DESK_WORDS, problem, size); }
static void desk_step(void) { result = span_desk_step(memory, sizeof memory, words, SPAN_DESK_WORDS); }
static void desk_collect(void) {
    result = span_desk_collect(memory, sizeof memory, words, SPAN_DESK_WORDS, 1, answers, sizeof answers);
}

/* The bytes of stack that an entry took. */
static size_t used(void (*entry)(void)) {
    uint8_t *stack = SPAN_CAST(uint8_t *, malloc(ROOM));
    if (stack == NULL) {
        exit(1);
    }
    memset(stack, PAINT, ROOM);
    getcontext(&away);
    away.uc_stack.ss_sp = stack;
    away.uc_stack.ss_size = ROOM;
    away.uc_link = &home;
    makecontext(&away, entry, 0);
    swapcontext(&home, &away);
    size_t clean = 0;
    while (clean < ROOM && stack[clean] == PAINT) {
        clean++;
    }
    free(stack);
    return ROOM - clean;
}

static void *on_thread(void *entry) {
    (*SPAN_CAST(void (**)(void), entry))();
    return NULL;
}

/* Calls an entry on a thread with a stack of SPAN_STACK bytes. */
static void run_small(void (*entry)(void)) {
    pthread_attr_t attributes;
    pthread_t thread;
    if (pthread_attr_init(&attributes) != 0 || pthread_attr_setstacksize(&attributes, SPAN_STACK) != 0
        || pthread_create(&thread, &attributes, on_thread, &entry) != 0 || pthread_join(thread, NULL) != 0) {
        exit(1);
    }
    pthread_attr_destroy(&attributes);
}

static int small; /* whether calls run on the small thread, and nothing is measured */

static void tell(const char *name, void (*entry)(void)) {
    if (small) {
        run_small(entry);
    } else {
        printf("%-18s %7zu\n", name, used(entry));
    }
    if (span_refusal(result) != 0) {
        printf("%s: %s\n", name, span_refusal_reason(span_refusal(result)));
        exit(1);
    }
}

/* Every entry on every kind that it takes. */
static void all(void) {
    build(SPAN_KIND_QUESTIONS);
    tell("span_solve", solve);
    tell("span_convert", convert);
    const unsigned kinds[] = {SPAN_KIND_STATES, SPAN_KIND_PROBLEM};
    for (unsigned place = 0; place < 2; place++) {
        build(kinds[place]);
        tell("span_solve", solve);
        answer_size = span_record_end(answers, 0);
        tell("span_check", check);
        tell("span_reasons", reasons);
        memcpy(plan, answers + SPAN_AT_STAMPS, sizeof plan);
        tell("span_merge", merge);
    }
    tell("span_read", read_back);
    tell("span_write", write_again);
    tell("span_convert", convert);
    tell("span_hours_write", hours_write);
    tell("span_hours_read", hours_read);
    tell("span_first_open", first_open);
    tell("span_census", census);
    tell("span_marks_differ", differ);
    tell("span_version", version);
    tell("span_release_4_2", release);
    tell("span_desk_open", desk_open);
    tell("span_desk_take", desk_take);
    for (int step = 0; step < 24; step++) {
        tell("span_desk_step", desk_step);
    }
    tell("span_desk_collect", desk_collect);
}

int main(void) {
    all();
    small = 1;
    all();
    printf("each ran on a thread of %d\n", SPAN_STACK);
    return 0;
}
