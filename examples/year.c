/* A year of a house through libhem_zone: reads the head and the hours' conditions, keeps the book, prints
   what was asked for. hem-year makes the two files (house, hours) and reads the book (report).
       cc year.c $(pkg-config --cflags --libs hem_zone) -o year && ./year HEAD CONDITIONS BOOK */
#include <hem_zone.h>
#include <stdio.h>
#include <stdlib.h>
#include <string.h>

/* Entries of version 2, as in new books of hem-year: power that cools is shared by the fraction of cooling. */
#define VERSION 2
/* The greatest heating and cooling of the plant, W. They count in version 3 only; the greatest that there are limit
   nothing, and 0 would deliver nothing. */
#define HEATING_LIMIT HEM_LIMIT_MOST
#define COOLING_LIMIT HEM_LIMIT_MOST
/* When did it get warm? The operative temperature, deg C, above which the first hour is asked for. */
#define WARM 26

static void fail(const char *what, const char *why) {
    fprintf(stderr, "year: %s: %s\n", what, why);
    exit(2);
}

/* The bytes of a file; they are freed with the process. */
static uint8_t *bytes_of(const char *path, size_t *len) {
    FILE *file = fopen(path, "rb");
    size_t room = (size_t)HEM_ENTRIES * HEM_CONDITIONS(HEM_ELEMENTS) + 1; /* one too many is seen */
    uint8_t *bytes = malloc(room);
    if (!file || !bytes) fail(path, "cannot be read");
    *len = fread(bytes, 1, room, file);
    if (ferror(file)) fail(path, "cannot be read");
    fclose(file);
    return bytes;
}

static double float_at(const uint8_t *at) {
    uint64_t bits = 0;
    double value;
    for (int i = 0; i < 8; i++) bits = bits << 8 | at[i];
    memcpy(&value, &bits, sizeof value);
    return value;
}

int main(int argc, char **argv) {
    if (argc != 4) fail("usage", "year HEAD CONDITIONS BOOK");
    size_t head_len, year_len, room = HEM_HEAD_MOST;
    uint8_t *head = bytes_of(argv[1], &head_len), *year = bytes_of(argv[2], &year_len);
    double temps[HEM_TEMPS] = {0}, heating = 0, cooling = 0, highest = 0;
    uint64_t nodes = 0, count = 0, used = 0, last_version = 0, hour = 0, warm = 0;

    uint8_t *book = calloc(room, 1);
    if (!book) fail(argv[3], "no memory");
    uint32_t answer = hem_begin(head, head_len, book, room, temps, &nodes, &count, &used, &last_version);
    if (answer) return fprintf(stderr, "year: %s: refusal %u\n", argv[1], HEM_NUMBER(answer)), 1;

    const size_t n = head[HEM_HEAD_AT_COUNT], size = HEM_CONDITIONS(n), entry = HEM_ENTRY_OF(VERSION, n, nodes);
    if (year_len % size) fail(argv[2], "is not a whole number of hours");
    room = used + year_len / size * entry;
    book = realloc(book, room);
    if (!book) fail(argv[3], "no memory");
    memset(book + used, 0, room - used); /* everything lent has been initialised */

    for (size_t at = 0; at < year_len; at += size) {
        const uint8_t *results = book + used + HEM_LIMITS_OF(VERSION); /* their places begin here */
        answer = hem_append(head, head_len, book, room, temps, &nodes, &count, &used, &last_version, year + at, size,
                            VERSION, HEATING_LIMIT, COOLING_LIMIT);
        if (answer)
            return fprintf(stderr, "year: hour %zu: refusal %u, element %u\n", at / size + 1, HEM_NUMBER(answer), HEM_INDEX(answer)), 1;
        double need = float_at(results + HEM_ENTRY_AT_HEATING(n)), length = float_at(year + at);
        if (need / length > highest) highest = need / length, hour = count;
        heating += need;
        cooling += float_at(results + HEM_ENTRY_AT_COOLING(n));
    }
    printf("%llu hours: heating %.1f kWh, cooling %.1f kWh\n", (unsigned long long)count, heating, 0 - cooling);
    if (hour) printf("highest heating load: %.2f kW in hour %llu\n", highest, (unsigned long long)hour);

    answer = hem_first_above(book, used, WARM, &warm); /* from 0 */
    if (answer) return fprintf(stderr, "year: %s: refusal %u\n", argv[3], HEM_NUMBER(answer)), 1;
    printf("first hour that goes above %d deg C: ", WARM);
    if (warm == HEM_NONE) printf("none\n");
    else printf("%llu\n", (unsigned long long)warm + 1);

    FILE *out = fopen(argv[3], "wbx"); /* x: an existing file stays as it is */
    if (!out || fwrite(book, 1, used, out) != used || fclose(out)) fail(argv[3], "cannot be written");
    free(book), free(head), free(year);
    return 0;
}
