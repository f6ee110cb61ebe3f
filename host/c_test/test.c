/* Calls each function of hem_zone.h from C, accepted and refused. Every array is allocated with exactly
   the size that the interface asks for, so that valgrind sees a byte read or written beyond it.
   test DIR also writes a house, two hours and their book to DIR, for the example year.c. */
#include "hem_zone.h"
#include "test.h"

#include <math.h>
#include <stdio.h>
#include <stdlib.h>
#include <string.h>

/* ---- House P of docs/SPECIFICATION.md ---- */

enum { HEAD = 180, HOUR = 154, ENTRY = 216, ENTRY_3 = 232, NODES = 3 };

static uint8_t *put_element_hour(uint8_t *at) {
    const double values[] = {20, 0, 0, 1, 1};
    at = put_doubles(at, values, 5);
    *at = 0;
    return at + 1;
}

static uint8_t *house_p(void) {
    const uint8_t start[] = {0, 0, 0, HEAD - 4, 1, 0, 1, 0, 10};
    const double zone[] = {36, 100, 43.0625, 20, 20, 1.4e32};
    const double element[] = {1, 90, 1, 0, 0, 0, 0, 0, 3600, 1};
    uint8_t *head = lent(HEAD), *at = head;
    memcpy(at, start, sizeof start);
    at = put_doubles(at + sizeof start, zone, 6);
    *at++ = 4;
    *at++ = 0;
    put_element_hour(put_doubles(at, element, 10));
    return head;
}

static uint8_t *hour_p(double heating, double cooling) {
    const double values[] = {1, 20, 0, 0, 1, 1, heating, cooling, 1.4e32, 20, 0, 0};
    uint8_t *hour = lent(HOUR), *at = put_doubles(hour, values, 12);
    *at = 1;
    memset(at + 1, 0, 16);
    put_element_hour(at + 17);
    return hour;
}

static double *twenty(void) {
    double *temps = lent(HEM_TEMPS * sizeof *temps);
    for (int i = 0; i < NODES; i++) temps[i] = 20;
    return temps;
}

/* ---- the functions ---- */

static void test_head(const uint8_t *p) {
    expect("head accepted", hem_head(p, HEAD) == 0);
    expect("head of 179 bytes: 1", hem_head(p, HEAD - 1) == 1);
    uint8_t *none = lent(0);
    expect("head of no bytes: 1", hem_head(none, 0) == 1);
    free(none);
}

static void test_start_up(const uint8_t *p) {
    double *temps = lent(HEM_TEMPS * sizeof *temps);
    uint64_t nodes = 99;
    expect("start-up refused: 1", hem_start_up(p, 100, temps, &nodes) == 1 && nodes == 99);
    expect("start-up accepted", hem_start_up(p, HEAD, temps, &nodes) == 0);
    expect("start-up: 20, 20, 20", nodes == NODES && temps[0] == 20 && temps[1] == 20 && temps[2] == 20);
    free(temps);
}

static void test_demand(const uint8_t *p, const uint8_t *warm, const uint8_t *crossed) {
    double *temps = twenty(), *out = lent(HEM_OUT * sizeof *out);
    out[0] = -1;
    expect("demand refused: 10", hem_demand(p, HEAD, temps, NODES, crossed, HOUR, out) == 10 && out[0] == -1);
    expect("demand refused: 7", hem_demand(p, HEAD, temps, NODES, warm, HOUR - 1, out) == 7 && out[0] == -1);
    expect("demand accepted", hem_demand(p, HEAD, temps, NODES, warm, HOUR, out) == 0);
    expect("demand: heating 0.144", out[0] == 0.144 && out[1] == 0 && out[2] == 0 && out[3] == 0 && out[4] == 0);
    free(temps);
    free(out);
}

static void test_update(const uint8_t *p, const uint8_t *warm) {
    double *temps = twenty(), *balance = lent(HEM_BALANCE * sizeof *balance);
    balance[0] = -1;
    expect("update refused: 9",
           hem_update(p, HEAD, temps, NODES, warm, HOUR, 144, 1, -1, balance) == 9 && balance[0] == -1 && temps[2] == 20);
    expect("update accepted", hem_update(p, HEAD, temps, NODES, warm, HOUR, 144, 1, 0, balance) == 0);
    expect("update: air 21, gains 144", temps[2] == 21 && balance[2] == 144);
    free(temps);
    free(balance);
}

static void test_hour_step(const uint8_t *p, const uint8_t *warm) {
    double *temps = twenty(), *out = lent(HEM_OUT * sizeof *out), *balance = lent(HEM_BALANCE * sizeof *balance);
    out[0] = balance[0] = -1;
    expect("hour step refused: 6",
           hem_hour_step(p, HEAD, temps, NODES + 1, warm, HOUR, 2, NAN, NAN, out, balance) == 6 && out[0] == -1 && balance[0] == -1);
    expect("hour step of version 257 refused: 18",
           hem_hour_step(p, HEAD, temps, NODES + 1, warm, HOUR, 257, NAN, NAN, out, balance) == 18 && out[0] == -1 && temps[2] == 20);
    expect("hour step accepted", hem_hour_step(p, HEAD, temps, NODES, warm, HOUR, 2, NAN, NAN, out, balance) == 0);
    expect("hour step: 0.144 kWh, air 21", out[0] == 0.144 && temps[2] == 21 && balance[2] == 144);
    free(temps);
    temps = twenty();
    out[0] = -1;
    expect("hour step with limits refused: 19",
           hem_hour_step(p, HEAD, temps, NODES, warm, HOUR, 3, 72, NAN, out, balance) == 19 && out[0] == -1 && temps[2] == 20);
    expect("hour step with limits accepted", hem_hour_step(p, HEAD, temps, NODES, warm, HOUR, 3, 72, 0, out, balance) == 0);
    expect("hour step with limits: 0.144 kWh asked for, 72 W delivered", out[0] == 0.144 && balance[2] == 72 && temps[2] == 20.5);
    free(temps);
    free(out);
    free(balance);
}

/* A conductance whose reciprocal is beyond all floats: 1e-310, which is in range. Floating-point exceptions are masked, as at
   the start of a program. Nothing passes through the window then. */
static void test_least_conductance(const uint8_t *p) {
    uint8_t *head = lent(HEAD), *even = hour_p(20, 24), *warm = hour_p(21, 24);
    double *temps = lent(HEM_TEMPS * sizeof *temps), *out = lent(HEM_OUT * sizeof *out), *balance = lent(HEM_BALANCE * sizeof *balance);
    uint64_t nodes = 99;
    memcpy(head, p, HEAD);
    put_double(head + HEM_HEAD_AT_ELEMENTS + HEM_TRANSPARENT_AT_H_PLI, 1e-310);
    expect("h_pli 1e-310: start-up accepted", hem_start_up(head, HEAD, temps, &nodes) == 0);
    expect("h_pli 1e-310: 20, 20, 20", nodes == NODES && temps[0] == 20 && temps[1] == 20 && temps[2] == 20);
    expect("h_pli 1e-310: hour step accepted",
           hem_hour_step(head, HEAD, temps, nodes, even, HOUR, 2, NAN, NAN, out, balance) == 0);
    expect("h_pli 1e-310: no demand, 20, 20, 20", out[0] == 0 && out[1] == 0 && temps[0] == 20 && temps[1] == 20 && temps[2] == 20);
    expect("h_pli 1e-310: an hour that is heated accepted",
           hem_hour_step(head, HEAD, temps, nodes, warm, HOUR, 2, NAN, NAN, out, balance) == 0 && 0 < out[0] && temps[0] == 20 && temps[2] == 21);
    put_double(head + HEM_HEAD_AT_ELEMENTS + HEM_TRANSPARENT_AT_H_PLI, 0);
    expect("h_pli 0 refused: 5 at element 1", hem_start_up(head, HEAD, temps, &nodes) == 5 + 256);
    free(head);
    free(even);
    free(warm);
    free(temps);
    free(out);
    free(balance);
}

static void test_operative(const uint8_t *p) {
    double *temps = twenty(), *operative = lent(sizeof *operative);
    *operative = -1;
    expect("operative refused: 6", hem_operative(p, HEAD, temps, NODES - 1, operative) == 6 && *operative == -1);
    expect("operative refused: 1", hem_operative(p, HEAD - 1, temps, NODES, operative) == 1 && *operative == -1);
    temps[1] = 10;
    expect("operative accepted", hem_operative(p, HEAD, temps, NODES, operative) == 0);
    expect("operative: 15 of air 20, surface 10", *operative == 15 && temps[2] == 20);
    free(temps);
    free(operative);
}

static void test_book(const uint8_t *p, const uint8_t *warm) {
    double *temps = lent(HEM_TEMPS * sizeof *temps);
    uint64_t nodes = 0, count = 99, used = 99, last = 99;
    uint8_t *book = lent(HEAD + ENTRY);
    expect("begin refused: 16", hem_begin(p, HEAD, book, HEAD - 1, temps, &nodes, &count, &used, &last) == 16);
    expect("begin refused: nothing written", nodes == 0 && count == 99 && used == 99 && last == 99 && book[0] == 0xA5);
    expect("begin accepted", hem_begin(p, HEAD, book, HEAD + ENTRY, temps, &nodes, &count, &used, &last) == 0);
    expect("begin: the head", nodes == NODES && count == 0 && used == HEAD && last == 1 && memcmp(book, p, HEAD) == 0);
    expect("append of version 4 refused: 18",
           hem_append(p, HEAD, book, HEAD + ENTRY, temps, &nodes, &count, &used, &last, warm, HOUR, 4, 72, 0) == 18 && last == 1);
    expect("append of version 3 refused: 19",
           hem_append(p, HEAD, book, HEAD + ENTRY, temps, &nodes, &count, &used, &last, warm, HOUR, 3, -1, 0) == 19 && last == 1);
    expect("append of version 3 refused: 16",
           hem_append(p, HEAD, book, HEAD + ENTRY, temps, &nodes, &count, &used, &last, warm, HOUR, 3, 72, 0) == 16 && last == 1);
    expect("append accepted",
           hem_append(p, HEAD, book, HEAD + ENTRY, temps, &nodes, &count, &used, &last, warm, HOUR, 2, NAN, NAN) == 0);
    expect("append: one entry", count == 1 && used == HEAD + ENTRY && last == 2 && temps[2] == 21 && book[HEAD + 3] == ENTRY - 4);
    expect("append of version 1 after 2 refused: 18 at entry 1",
           hem_append(p, HEAD, book, HEAD + ENTRY, temps, &nodes, &count, &used, &last, warm, HOUR, 1, NAN, NAN) == 18 + 256);
    expect("append refused: 16",
           hem_append(p, HEAD, book, HEAD + ENTRY, temps, &nodes, &count, &used, &last, warm, HOUR, 2, NAN, NAN) == 16);
    expect("append refused: nothing written", count == 1 && used == HEAD + ENTRY && last == 2 && temps[2] == 21);

    uint8_t *cut = lent(HEAD + ENTRY - 1);
    memcpy(cut, book, HEAD + ENTRY - 1);
    expect("take-up at 395 bytes", hem_take_up(cut, HEAD + ENTRY - 1, temps, &nodes, &count, &used, &last) == 0);
    expect("take-up: no entry", count == 0 && used == HEAD && last == 1 && temps[2] == 20);
    expect("take-up at 396 bytes", hem_take_up(book, HEAD + ENTRY, temps, &nodes, &count, &used, &last) == 0);
    expect("take-up: one entry", count == 1 && used == HEAD + ENTRY && last == 2 && temps[2] == 21);
    book[HEAD + 4] = 4;
    uint32_t answer = hem_take_up(book, HEAD + ENTRY, temps, &nodes, &count, &used, &last);
    expect("take-up refused: 18 at entry 0", HEM_NUMBER(answer) == 18 && HEM_INDEX(answer) == 0 && count == 1 && last == 2);
    free(cut);
    free(book);
    free(temps);
}

/* An hour of version 2, then one of version 3 with limits, in a buffer that ends with it. */
static void test_limits(const uint8_t *p, const uint8_t *warm) {
    const size_t room = HEAD + ENTRY + ENTRY_3;
    double *temps = lent(HEM_TEMPS * sizeof *temps);
    uint64_t nodes = 0, count = 0, used = 0, last = 0;
    uint8_t *book = lent(room);
    hem_begin(p, HEAD, book, room, temps, &nodes, &count, &used, &last);
    hem_append(p, HEAD, book, room, temps, &nodes, &count, &used, &last, warm, HOUR, 2, NAN, NAN);
    expect("append of version 3 refused: 16, one byte short",
           hem_append(p, HEAD, book, room - 1, temps, &nodes, &count, &used, &last, warm, HOUR, 3, 5, 0) == 16 && last == 2);
    expect("append of version 3 accepted",
           hem_append(p, HEAD, book, room, temps, &nodes, &count, &used, &last, warm, HOUR, 3, 5, 0) == 0);
    expect("append: two entries", count == 2 && used == room && last == 3 && book[HEAD + ENTRY + 3] == ENTRY_3 - 4);
    expect("append of version 2 after 3 refused: 18 at entry 2",
           hem_append(p, HEAD, book, room, temps, &nodes, &count, &used, &last, warm, HOUR, 2, 5, 0) == 18 + 2 * 256);
    expect("take-up of both", hem_take_up(book, room, temps, &nodes, &count, &used, &last) == 0 && count == 2 && last == 3);
    expect("take-up one byte short",
           hem_take_up(book, room - 1, temps, &nodes, &count, &used, &last) == 0 && count == 1 && used == HEAD + ENTRY && last == 2);
    book[HEAD + 4] = 3; /* the bytes of version 2 are too few for it */
    expect("take-up of a version 3 that is not whole",
           hem_take_up(book, HEAD + ENTRY, temps, &nodes, &count, &used, &last) == 0 && count == 0 && used == HEAD && last == 1);
    free(book);
    free(temps);
}

/* Whether all three questions refuse these bytes and this value with this answer, and write nothing. */
static int all_refuse(const uint8_t *bytes, size_t len, double value, uint32_t answer) {
    uint64_t *hour = lent(sizeof *hour);
    *hour = 99;
    int refused = hem_first_above(bytes, len, value, hour) == answer && *hour == 99;
    refused &= hem_hours_within(bytes, len, value, 30, hour) == answer && *hour == 99;
    refused &= hem_hours_within(bytes, len, 10, value, hour) == answer && *hour == 99;
    refused &= hem_nearest_hour(bytes, len, value, hour) == answer && *hour == 99;
    free(hour);
    return refused;
}

/* An hour of each version, at first warmer and then, with 5 W of heating, colder. */
static void test_questions(const uint8_t *p, const uint8_t *warm) {
    const size_t room = HEAD + 2 * ENTRY + ENTRY_3;
    double *temps = lent(HEM_TEMPS * sizeof *temps), after[3] = {0, 0, 0};
    uint64_t nodes = 0, count = 0, used = 0, last = 0, *hour = lent(sizeof *hour);
    uint8_t *book = lent(room);
    hem_begin(p, HEAD, book, room, temps, &nodes, &count, &used, &last);
    for (uint64_t version = 1; version <= 3; version++) {
        hem_append(p, HEAD, book, room, temps, &nodes, &count, &used, &last, warm, HOUR, version, 5, 0);
        hem_operative(p, HEAD, temps, nodes, &after[version - 1]);
    }
    expect("a book of three versions", count == 3 && used == room && 20 < after[2] && after[2] < after[0] && after[0] < after[1]);

    expect("first above start-up's temperature: hour 0", hem_first_above(book, room, 20, hour) == 0 && *hour == 0);
    expect("first above the temperature of hour 0: hour 1", hem_first_above(book, room, after[0], hour) == 0 && *hour == 1);
    expect("first above the warmest: none", hem_first_above(book, room, after[1], hour) == 0 && *hour == HEM_NONE);
    *hour = 99;
    expect("always above: none", hem_first_above(book, room, 19, hour) == 0 && *hour == HEM_NONE);
    expect("within the temperatures of two hours, ends included",
           hem_hours_within(book, room, after[0], after[1], hour) == 0 && *hour == 2);
    expect("within one temperature", hem_hours_within(book, room, after[2], after[2], hour) == 0 && *hour == 1);
    expect("within 0.0 to -0.0: no hour", hem_hours_within(book, room, 0.0, -0.0, hour) == 0 && *hour == 0);
    expect("within all: three hours", hem_hours_within(book, room, -1e6, 1e6, hour) == 0 && *hour == 3);
    expect("nearest to the temperature of an hour", hem_nearest_hour(book, room, after[0], hour) == 0 && *hour == 0);
    const double middle = (after[0] + after[1]) / 2;
    expect("equally near: the earlier hour",
           middle - after[0] == after[1] - middle && hem_nearest_hour(book, room, middle, hour) == 0 && *hour == 0);
    expect("nearest to 20: hour 2", hem_nearest_hour(book, room, 20, hour) == 0 && *hour == 2);
    expect("one byte short: hour 2 is no part of the book",
           hem_nearest_hour(book, room - 1, 20, hour) == 0 && *hour == 0 &&
               hem_hours_within(book, room - 1, -1e6, 1e6, hour) == 0 && *hour == 2);
    *hour = 99;
    expect("no hours: none is first above", hem_first_above(p, HEAD, 20, hour) == 0 && *hour == HEM_NONE);
    *hour = 99;
    expect("no hours: 0 within", hem_hours_within(p, HEAD, 10, 30, hour) == 0 && *hour == 0);
    *hour = 99;
    expect("no hours: none is nearest", hem_nearest_hour(p, HEAD, 20, hour) == 0 && *hour == HEM_NONE);

    expect("questions refused: 20, not finite", all_refuse(book, room, NAN, 20) && all_refuse(book, room, INFINITY, 20));
    expect("questions refused: 20, beyond 1e6", all_refuse(book, room, 1e7, 20) && all_refuse(book, room, -1000001, 20));
    expect("questions refused: 20, of no hours too", all_refuse(p, HEAD, NAN, 20));
    *hour = 99;
    expect("a band refused: 20, lower end above upper", hem_hours_within(book, room, 21, 20, hour) == 20 && *hour == 99);
    expect("questions refused: 1, before 20", all_refuse(book, HEAD - 1, NAN, 1));
    book[HEAD + ENTRY + 4] = 9;
    expect("questions refused: 18 at entry 1, before 20",
           all_refuse(book, room, NAN, 18 + 256) && all_refuse(book, room, 20, 18 + 256));
    free(book);
    free(hour);
    free(temps);
}

static void test_index(uint8_t *p) {
    p[9 + 48 + 2] = 0xFF; /* the area of the first element: a NaN or beyond */
    uint32_t answer = hem_head(p, HEAD);
    expect("head refused: 5 at element 1", HEM_NUMBER(answer) == 5 && HEM_INDEX(answer) == 1);
}

/* ---- files for year.c ---- */

static void write_file(const char *dir, const char *name, const uint8_t *bytes, size_t size) {
    char path[4096];
    snprintf(path, sizeof path, "%s/%s", dir, name);
    FILE *file = fopen(path, "wb");
    if (!file || fwrite(bytes, 1, size, file) != size || fclose(file)) abort();
}

static void write_year(const char *dir, const uint8_t *p, const uint8_t *warm) {
    uint8_t *year = lent(2 * HOUR), *book = lent(HEAD + 2 * ENTRY);
    double *temps = lent(HEM_TEMPS * sizeof *temps);
    uint64_t nodes = 0, count = 0, used = 0, last = 0;
    memcpy(year, warm, HOUR);
    memcpy(year + HOUR, warm, HOUR);
    hem_begin(p, HEAD, book, HEAD + 2 * ENTRY, temps, &nodes, &count, &used, &last);
    for (int i = 0; i < 2; i++)
        hem_append(p, HEAD, book, HEAD + 2 * ENTRY, temps, &nodes, &count, &used, &last, warm, HOUR, VERSION, 0, 0);
    expect("a book of two hours", count == 2 && used == HEAD + 2 * ENTRY);
    write_file(dir, "house.head", p, HEAD);
    write_file(dir, "house.year", year, 2 * HOUR);
    write_file(dir, "house.book", book, HEAD + 2 * ENTRY);
    free(year);
    free(book);
    free(temps);
}

int main(int argc, char **argv) {
    uint8_t *p = house_p(), *warm = hour_p(21, 24), *crossed = hour_p(22, 21);
    test_head(p);
    test_start_up(p);
    test_demand(p, warm, crossed);
    test_update(p, warm);
    test_hour_step(p, warm);
    test_least_conductance(p);
    test_operative(p);
    test_book(p, warm);
    test_limits(p, warm);
    test_questions(p, warm);
    test_sizes();
    test_places();
    test_stack();
    test_convection();
    test_why();
    test_weather();
    test_convert();
    if (argc > 1) write_year(argv[1], p, warm);
    test_index(p);
    free(p);
    free(warm);
    free(crossed);
    printf("%s\n", failures ? "FAILED" : "all good");
    return failures != 0;
}
