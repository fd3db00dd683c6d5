/* When does a day ward, open Monday to Friday from 7:00 to 18:00, admit next?
 *
 *     cc -I capi capi/opening_hours.c crates/capi/out/libcapi.a -o target/opening_hours && target/opening_hours
 *
 * prints
 *
 *     Friday 17:59: open at minute 6839
 *     Friday 18:00: open at minute 10500
 *     the Sunday before, 23:59: open at minute 420
 */
#include <inttypes.h>
#include <stdio.h>

#include "span.h"

static int show(const char *when, const uint64_t *week, size_t count, int32_t minute) {
    uint64_t result = span_first_open(week, count, span_offset(minute));
    if (span_refusal(result) != 0) {
        printf("refused: %s\n", span_refusal_reason(span_refusal(result)));
        return 1;
    }
    if (result == SPAN_NEVER) {
        printf("%s: never open\n", when);
    } else {
        printf("%s: open at minute %" PRId32 "\n", when, span_minutes(result));
    }
    return 0;
}

int main(void) {
    uint64_t week[10];
    for (size_t day = 0; day < 5; day++) {
        week[2 * day] = 1440 * day + 420;
        week[2 * day + 1] = 1440 * day + 1080;
    }
    return show("Friday 17:59", week, 10, 4 * 1440 + 1079) | show("Friday 18:00", week, 10, 4 * 1440 + 1080)
           | show("the Sunday before, 23:59", week, 10, -1);
}
