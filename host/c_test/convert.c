/* The fixed rate, code 0, and the converter: a house of three elements, whose book has hours of versions 2 and 3 with one
   rate and with windows. Books with code 0 are made from it, for no call writes one. */
#include "hem_zone.h"
#include "test.h"

#include <math.h>
#include <stdio.h>
#include <stdlib.h>
#include <string.h>

enum { ELEMENTS = 3, NODES = 5 + 5 + 2 + 1, HOURS = 5, MARK = 99 };

/* Versions and rates of the hours; in the third and the last windows may be opened. */
static const uint64_t versions[HOURS] = {2, 2, 2, 3, 3};
static const double rates[HOURS][2] = {{0.5, 0.5}, {-0.0, -0.0}, {0.5, 4}, {1000, 1000}, {0, 4}};

typedef struct {
    uint8_t *bytes;
    size_t len;
    size_t entries[HOURS + 1]; /* where they begin, and where the last ends */
} Book;

static void put_rates(uint8_t *hour, const double both[2]) {
    hour[HEM_CONDITIONS_AT_RATE_CODE] = 1;
    put_doubles(hour + HEM_CONDITIONS_AT_RATES, both, 2);
}

/* The hour with a fixed rate, if it has one rate. */
static void put_fixed(uint8_t *hour) {
    if (memcmp(hour + HEM_CONDITIONS_AT_RATES, hour + HEM_CONDITIONS_AT_RATES + 8, 8) != 0) return;
    hour[HEM_CONDITIONS_AT_RATE_CODE] = 0;
    memset(hour + HEM_CONDITIONS_AT_RATES + 8, 0, 8);
}

/* A book of the house, in memory of just its size, whose hours have these versions. */
static Book book_of(const House *h, const uint64_t *version) {
    Book book = {NULL, h->head_len, {0}};
    double *temps = lent(HEM_TEMPS * sizeof *temps);
    uint64_t nodes = 0, count = 0, used = 0, last = 0;
    uint32_t answers = 0;
    for (int i = 0; i < HOURS; i++) {
        book.entries[i] = book.len;
        book.len += HEM_ENTRY_OF(version[i], ELEMENTS, NODES);
    }
    book.entries[HOURS] = book.len;
    book.bytes = lent(book.len);
    answers |= hem_begin(h->head, h->head_len, book.bytes, book.len, temps, &nodes, &count, &used, &last);
    for (int i = 0; i < HOURS; i++) {
        put_rates(h->hour, rates[i]);
        answers |= hem_append(h->head, h->head_len, book.bytes, book.len, temps, &nodes, &count, &used, &last, h->hour, h->hour_len,
                              version[i], 300, 0);
    }
    expect("convert: the book", answers == 0 && count == HOURS && used == book.len);
    free(temps);
    return book;
}

/* The same book with code 0 where an hour has one rate. */
static Book old_of(const Book *book) {
    Book old = *book;
    old.bytes = lent(old.len);
    memcpy(old.bytes, book->bytes, old.len);
    for (int i = 0; i < HOURS; i++) put_fixed(old.bytes + old.entries[i] + HEM_ENTRY_AT_CONDITIONS);
    return old;
}

/* ---- what is converted ---- */

/* Converted in memory of `room` bytes, to `used` bytes of the book; what is behind them stays. */
static int makes(const uint8_t *bytes, size_t len, size_t room, const Book *book, size_t used, uint64_t hours) {
    uint8_t *given = lent(len), *out = lent(room), *untouched = lent(room);
    uint64_t *count = lent(sizeof *count), *length = lent(sizeof *length);
    memcpy(given, bytes, len);
    int good = hem_convert(given, len, out, room, count, length) == 0 && *count == hours && *length == used;
    good = good && memcmp(given, bytes, len) == 0 && memcmp(out, book->bytes, used) == 0;
    good = good && memcmp(out + used, untouched, room - used) == 0;
    free(length);
    free(count);
    free(untouched);
    free(out);
    free(given);
    return good;
}

static void test_converted(const Book *book, const Book *old) {
    expect("convert: code 0 with the rate twice", makes(old->bytes, old->len, old->len, book, book->len, HOURS));
    expect("convert: bytes behind the book stay", makes(old->bytes, old->len, old->len + 77, book, book->len, HOURS));
    expect("convert: again, nothing is changed", makes(book->bytes, book->len, book->len, book, book->len, HOURS));
    expect("convert: a rest is left out", makes(old->bytes, old->len - 1, old->entries[4], book, old->entries[4], 4) &&
                                              makes(old->bytes, old->len - 1, old->len, book, old->entries[4], 4));
    expect("convert: a book of no hours", makes(old->bytes, old->entries[0], old->entries[0], book, old->entries[0], 0));
    size_t changed = 0;
    for (size_t i = 0; i < book->len; i++) changed += book->bytes[i] != old->bytes[i];
    /* Three codes, and of the second rates the bytes that are not 0: 0.5 has 2, -0.0 1 and 1000 3. */
    expect("convert: nothing else is changed", changed == 3 + 2 + 1 + 3);
}

/* ---- what is refused ---- */

/* Refused with this answer, and with nothing written. */
static void refuses(const char *what, const uint8_t *bytes, size_t len, size_t room, uint32_t answer) {
    uint8_t *given = lent(len), *out = lent(room), *untouched = lent(room);
    uint64_t *count = lent(sizeof *count), *length = lent(sizeof *length);
    char text[120];
    memcpy(given, bytes, len);
    *count = *length = MARK;
    snprintf(text, sizeof text, "convert refused: %d, %s", (int)HEM_NUMBER(answer), what);
    expect(text, hem_convert(given, len, out, room, count, length) == answer && *count == MARK && *length == MARK &&
                     memcmp(out, untouched, room) == 0);
    free(length);
    free(count);
    free(untouched);
    free(out);
    free(given);
}

static void test_refused(const House *h, const Book *old) {
    static const uint64_t from_1[HOURS] = {1, 1, 2, 3, 3};
    Book first = book_of(h, from_1), old_first = old_of(&first);
    refuses("a byte too short", old->bytes, old->len, old->len - 1, HEM_BUFFER_SHORT);
    refuses("no room", old->bytes, old->len, 0, HEM_BUFFER_SHORT);
    refuses("a head that has no room", old->bytes, old->entries[0], old->entries[0] - 1, HEM_BUFFER_SHORT);
    refuses("entries of version 1", first.bytes, first.len, first.len, HEM_VERSION_1_ENTRY);
    refuses("entries of version 1 with code 0", old_first.bytes, old_first.len, old_first.len, HEM_VERSION_1_ENTRY);
    refuses("before the room", old_first.bytes, old_first.len, 0, HEM_VERSION_1_ENTRY);
    old_first.bytes[old_first.entries[1] + HEM_ENTRY_AT_HEATING(ELEMENTS) + 7] ^= 1;
    refuses("a false entry, before the version", old_first.bytes, old_first.len, 0, HEM_FALSE_ENTRY + 256);
    refuses("a head that ends early", old->bytes, old->entries[0] - 1, old->len, HEM_HEAD_SHORT);
    old->bytes[old->entries[3] + HEM_ENTRY_AT_CONDITIONS + HEM_CONDITIONS_AT_RATES + 15] = 1;
    refuses("a second rate of code 0", old->bytes, old->len, old->len, HEM_FALSE_ENTRY + 3 * 256);
    free(old_first.bytes);
    free(first.bytes);
}

/* ---- code 0 ---- */

/* The calls that refuse it, all with the same answer; nothing is written. */
static int all_refuse(const House *h, uint32_t answer) {
    double *temps = lent(HEM_TEMPS * sizeof *temps), *out = lent(HEM_OUT * sizeof *out);
    double *balance = lent(HEM_BALANCE * sizeof *balance);
    uint64_t nodes = NODES, count = 0, used = h->head_len, last = 1;
    const size_t room = h->head_len + HEM_ENTRY_OF(3, ELEMENTS, NODES);
    uint8_t *buf = lent(room), *untouched = lent(room);
    int good = 1;
    for (int i = 0; i < NODES; i++) temps[i] = 20;
    good &= hem_demand(h->head, h->head_len, temps, nodes, h->hour, h->hour_len, out) == answer;
    good &= hem_update(h->head, h->head_len, temps, nodes, h->hour, h->hour_len, NAN, 2, -1, balance) == answer;
    for (uint64_t version = 1; version <= HEM_NEWEST_ENTRY_VERSION; version++) {
        good &= hem_hour_step(h->head, h->head_len, temps, nodes, h->hour, h->hour_len, version, NAN, -1, out, balance) == answer;
        good &= hem_append(h->head, h->head_len, buf, room, temps, &nodes, &count, &used, &last, h->hour, h->hour_len, version, NAN,
                           -1) == answer;
    }
    good &= memcmp(buf, untouched, room) == 0 && memcmp(out, untouched, HEM_OUT * sizeof *out) == 0;
    good &= memcmp(balance, untouched, HEM_BALANCE * sizeof *balance) == 0;
    for (int i = 0; i < NODES; i++) good &= temps[i] == 20;
    good &= nodes == NODES && count == 0 && used == h->head_len && last == 1;
    free(untouched);
    free(buf);
    free(balance);
    free(out);
    free(temps);
    return good;
}

static void test_code_0(const House *h) {
    for (int i = 0; i < 2; i++) {
        put_rates(h->hour, rates[i]);
        put_fixed(h->hour);
        expect("code 0 refused: 8, by demand, update, hour step and append", all_refuse(h, HEM_CONDITIONS_CODE));
    }
    put_double(h->hour + HEM_CONDITIONS_AT_RATES, NAN);
    expect("code 0 refused: 8, before 9", all_refuse(h, HEM_CONDITIONS_CODE));
}

/* Taken up with code 0 and with the rate twice, a book is the same, of every version. */
static void test_taken_up(const Book *book, const Book *old) {
    double *temps = lent(HEM_TEMPS * sizeof *temps), *same = lent(HEM_TEMPS * sizeof *same);
    uint64_t nodes[2] = {0, 0}, count[2] = {0, 0}, used[2] = {0, 0}, last[2] = {0, 0};
    uint32_t answers = hem_take_up(book->bytes, book->len, temps, &nodes[0], &count[0], &used[0], &last[0]);
    answers |= hem_take_up(old->bytes, old->len, same, &nodes[1], &count[1], &used[1], &last[1]);
    expect("code 0 is taken up", answers == 0 && memcmp(temps, same, HEM_TEMPS * sizeof *temps) == 0 && nodes[0] == nodes[1] &&
                                     count[1] == HOURS && used[1] == old->len && last[0] == last[1]);
    free(same);
    free(temps);
}

void test_convert(void) {
    static const uint64_t of_each[HOURS] = {1, 1, 2, 2, 3};
    House h = house(2, 1, 1);
    Book book = book_of(&h, versions), old = old_of(&book), each = book_of(&h, of_each), old_each = old_of(&each);
    test_converted(&book, &old);
    test_taken_up(&book, &old);
    test_taken_up(&each, &old_each);
    test_refused(&h, &old);
    test_code_0(&h);
    free(old_each.bytes);
    free(each.bytes);
    free(old.bytes);
    free(book.bytes);
    give_back(h);
}
