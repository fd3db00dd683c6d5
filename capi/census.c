/* How often does each class occur among small problems?
 *
 *     cc -I capi capi/census.c crates/capi/out/libcapi.a -o target/census_example && target/census_example
 *
 * prints
 *
 *     n 0, m 0, leads blank or -1 to 1: 9 least, 3 bottomless, 4 none, 0 refused
 *     n 0, m 0, leads blank or -128 to 128: refused 27: w is 0 or above 20,160, n or m is beyond its limit, or there are more than 65,536 problems
 */
#include <inttypes.h>
#include <stdio.h>

#include "span.h"

static void show(uint64_t n, uint64_t m, uint64_t w) {
    uint64_t counts[SPAN_COUNTS];
    uint64_t result = span_census(n, m, w, counts, SPAN_COUNTS);
    printf("n %" PRIu64 ", m %" PRIu64 ", leads blank or -%" PRIu64 " to %" PRIu64 ": ", n, m, w, w);
    if (span_refusal(result) != 0) {
        printf("refused %u: %s\n", span_refusal(result), span_refusal_reason(span_refusal(result)));
        return;
    }
    printf("%" PRIu64 " least, %" PRIu64 " bottomless, %" PRIu64 " none, %" PRIu64 " refused\n", counts[0], counts[1], counts[2],
           counts[3]);
}

int main(void) {
    show(0, 0, 1);
    show(0, 0, 128);
    return 0;
}
