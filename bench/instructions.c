/* Hour steps of a house of five-node elements in one winter hour, for counting instructions:
 *     instructions ELEMENTS STEPS WINDOWS      (WINDOWS 0: one rate, 1: target and another rate with windows open)
 * The house is that of bench/src/houses.rs; each step has entry version 1 and starts from the temperatures that the one
 * before left. */
#include <stdio.h>
#include <stdlib.h>
#include <string.h>

#include "hem_zone.h"

enum { MOST_ELEMENTS = 24 };

static int elements;
static unsigned char head[4 + 53 + 171 * MOST_ELEMENTS];
static unsigned char conditions[113 + 41 * MOST_ELEMENTS];
static unsigned char *at;

static size_t head_size(void) { return 4 + 53 + 171 * (size_t)elements; }
static size_t conditions_size(void) { return 113 + 41 * (size_t)elements; }

static void put_byte(unsigned value) { *at++ = (unsigned char)value; }

static void put_number(unsigned long long value, int bytes) {
    while (bytes-- > 0) put_byte((unsigned)(value >> (8 * bytes)) & 255u);
}

static void put_float(double value) {
    unsigned long long bits;
    memcpy(&bits, &value, sizeof bits);
    put_number(bits, 8);
}

static void put_floats(const double *values, int count) {
    for (int i = 0; i < count; i++) put_float(values[i]);
}

static void put_part(double external, double sun) {
    const double part[5] = {external, sun, 0.5 * sun, 0.8, 0.9};
    put_floats(part, 5);
    put_byte(0);
}

static void make_head(void) {
    static const unsigned kinds[6] = {0, 5, 3, 0, 2, 0};
    static const double pitches[6] = {90, 90, 180, 30, 90, 0};
    static const double front[6] = {80, 200, 10, 5, 20, 1.4e32};
    static const double k_pli[5] = {10000, 20000, 20000, 20000, 10000};
    static const double h_pli[4] = {12, 6, 6, 12};
    at = head;
    put_number(head_size() - 4, 4);
    put_byte(1);
    put_byte(1);
    put_byte((unsigned)elements);
    put_number(10000, 2);
    put_floats(front, 6);
    for (int i = 0; i < elements; i++) {
        const double own[7] = {10.0 + i, pitches[i % 6], 20, 4.14, 5.13, 0.6, 20};
        put_byte(kinds[i % 6]);
        put_byte(0);
        put_floats(own, 7);
        put_floats(k_pli, 5);
        put_floats(h_pli, 4);
        put_part(5, 0);
    }
}

static void make_conditions(int windows) {
    const double values[12] = {1, 2, 300, 100, 0.7, 0.9, 20, 25, 22, 2, 0, 0};
    at = conditions;
    put_floats(values, 12);
    put_byte(1);
    put_float(0.5);
    put_float(windows ? 4.0 : 0.5);
    for (int i = 0; i < elements; i++) put_part(2, 50);
}

int main(int count, char **words) {
    if (count != 4) return 2;
    elements = atoi(words[1]);
    if (elements < 1 || elements > MOST_ELEMENTS) return 2;
    double temps[HEM_TEMPS], out[HEM_OUT], balance[HEM_BALANCE];
    uint64_t nodes = 0;
    make_head();
    make_conditions(atoi(words[3]));
    uint32_t answer = hem_start_up(head, head_size(), temps, &nodes);
    for (int i = atoi(words[2]); answer == 0 && i > 0; i--)
        answer = hem_hour_step(head, head_size(), temps, nodes, conditions, conditions_size(), 1, 0.0, 0.0, out, balance);
    if (answer != 0) fprintf(stderr, "refused: %u\n", (unsigned)answer);
    return answer != 0;
}
