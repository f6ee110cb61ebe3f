/* A house and its year for limit.c and stack.c: the bytes that `bench/run bytes ELEMENTS RATE` writes, a head and then
 * the conditions of 8,760 hours, so that the houses stand in one place only (src/houses.rs). */
#include <stdio.h>
#include <stdlib.h>

#include "hem_zone.h"

/* Entries have version 1, whose hours are those of the original. It looks at no limits. */
enum { HOURS = 8760, VERSION = 1 };
#define UNUSED_LIMIT 0.0

struct year {
    size_t elements, head_len, hour_len;
    const uint8_t *head, *hours;
};

static void accepted(uint32_t answer) {
    if (answer == 0) return;
    fprintf(stderr, "refused with %u, index %u\n", (unsigned)HEM_NUMBER(answer), (unsigned)HEM_INDEX(answer));
    exit(1);
}

static struct year read_year(void) {
    static uint8_t bytes[HEM_HEAD_MOST + HOURS * HEM_CONDITIONS(HEM_ELEMENTS)];
    const size_t len = fread(bytes, 1, sizeof bytes, stdin);
    accepted(hem_head(bytes, len));
    struct year y = {.elements = bytes[HEM_HEAD_AT_COUNT], .head = bytes};
    y.head_len = 4 + ((size_t)bytes[2] << 8 | bytes[3]);
    y.hour_len = HEM_CONDITIONS(y.elements);
    y.hours = bytes + y.head_len;
    if (len == y.head_len + HOURS * y.hour_len) return y;
    fprintf(stderr, "%zu bytes are not those of a head and a year\n", len);
    exit(1);
}

static const uint8_t *hour_of(const struct year *y, size_t hour) { return y->hours + hour * y->hour_len; }
