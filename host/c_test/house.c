/* What the parts of the C test share: memory, floats, and houses that are made by the macros and enums of
   hem_zone.h alone. */
#include "hem_zone.h"
#include "test.h"

#include <stdio.h>
#include <stdlib.h>
#include <string.h>

int failures = 0;

void expect(const char *what, int holds) {
    printf("%s %s\n", holds ? "ok  " : "FAIL", what);
    failures += !holds;
}

void *lent(size_t size) {
    void *p = malloc(size ? size : 1);
    if (!p) abort();
    memset(p, 0xA5, size);
    return p;
}

uint8_t *put_double(uint8_t *at, double value) {
    uint64_t bits;
    memcpy(&bits, &value, sizeof bits);
    for (int i = 0; i < 8; i++) at[i] = (uint8_t)(bits >> (56 - 8 * i));
    return at + 8;
}

uint8_t *put_doubles(uint8_t *at, const double *values, size_t count) {
    for (size_t i = 0; i < count; i++) at = put_double(at, values[i]);
    return at;
}

double get_double(const uint8_t *at) {
    uint64_t bits = 0;
    double value;
    for (int i = 0; i < 8; i++) bits = bits << 8 | at[i];
    memcpy(&value, &bits, sizeof value);
    return value;
}

/* ---- a house of walls, then one window with treatments, and an hour of it ---- */

static void put_element_hour(uint8_t *at) {
    put_double(at + HEM_ELEMENT_HOUR_AT_TEMP_EXT, 5);
    put_double(at + HEM_ELEMENT_HOUR_AT_I_SOL_DIR, 100);
    put_double(at + HEM_ELEMENT_HOUR_AT_I_SOL_DIF, 50);
    put_double(at + HEM_ELEMENT_HOUR_AT_F_SH_DIR, 1);
    put_double(at + HEM_ELEMENT_HOUR_AT_F_SH_DIF, 1);
    at[HEM_ELEMENT_HOUR_AT_OPEN] = 0;
}

static void put_coefficients(uint8_t *at, int kind, size_t treatments) {
    at[HEM_ELEMENT_AT_KIND] = (uint8_t)kind;
    at[HEM_ELEMENT_AT_TREATMENTS] = (uint8_t)treatments;
    put_double(at + HEM_ELEMENT_AT_AREA, 10);
    put_double(at + HEM_ELEMENT_AT_PITCH, 90);
    put_double(at + HEM_ELEMENT_AT_H_CE, 20);
    put_double(at + HEM_ELEMENT_AT_H_RE, 4.14);
    put_double(at + HEM_ELEMENT_AT_H_RI, 5.13);
    put_double(at + HEM_ELEMENT_AT_SOLAR_ABSORPTION_COEFF, 0.6);
    put_double(at + HEM_ELEMENT_AT_THERM_RAD_TO_SKY, 40);
}

static void put_wall(uint8_t *at) {
    put_coefficients(at, HEM_OPAQUE, 0);
    for (int i = 0; i < 5; i++) put_double(at + HEM_ELEMENT_AT_K_PLI + 8 * i, 20000);
    for (int i = 0; i < 4; i++) put_double(at + HEM_ELEMENT_AT_H_PLI + 8 * i, 3);
    put_element_hour(at + HEM_ELEMENT_AT_FIRST_HOUR);
}

static void put_window(uint8_t *at, size_t treatments) {
    put_coefficients(at, HEM_TRANSPARENT, treatments);
    for (int i = 0; i < 2; i++) put_double(at + HEM_ELEMENT_AT_K_PLI + 8 * i, 0);
    put_double(at + HEM_TRANSPARENT_AT_H_PLI, 2);
    for (size_t i = 0; i < treatments; i++) put_double(at + HEM_TRANSPARENT_AT_DELTA_R + 8 * i, 0.2);
    put_element_hour(at + HEM_TRANSPARENT_AT_FIRST_HOUR(treatments));
}

static void put_head(House *h, size_t count) {
    const size_t length = h->head_len - 4;
    memset(h->head, 0, HEM_HEAD_AT_ELEMENTS);
    h->head[HEM_HEAD_AT_LENGTH + 2] = (uint8_t)(length >> 8);
    h->head[HEM_HEAD_AT_LENGTH + 3] = (uint8_t)length;
    h->head[HEM_HEAD_AT_VERSION] = HEM_FORMAT;
    h->head[HEM_HEAD_AT_BASIS] = 1;
    h->head[HEM_HEAD_AT_COUNT] = (uint8_t)count;
    h->head[HEM_HEAD_AT_LIMIT] = 10000 >> 8;
    h->head[HEM_HEAD_AT_LIMIT + 1] = 10000 & 255;
    put_double(h->head + HEM_HEAD_AT_USEFUL_AREA, 80);
    put_double(h->head + HEM_HEAD_AT_VOLUME, 200);
    put_double(h->head + HEM_HEAD_AT_TB_HEAT_TRANS_COEFF, 4);
    put_double(h->head + HEM_HEAD_AT_TEMP_EXT_AIR_INIT, 5);
    put_double(h->head + HEM_HEAD_AT_TEMP_SETPNT_INIT, 20);
    put_double(h->head + HEM_HEAD_AT_TEMP_SETPNT_VENT_INIT, 1.4e32);
}

static void put_hour(House *h, size_t count) {
    const double values[] = {1, 5, 300, 100, 0.5, 0.9, 20, 26, 1.4e32, 12, 0, 0};
    put_doubles(h->hour + HEM_CONDITIONS_AT_DELTA_T_H, values, 12);
    h->hour[HEM_CONDITIONS_AT_RATE_CODE] = 1;
    put_double(h->hour + HEM_CONDITIONS_AT_RATES, 0.5);
    put_double(h->hour + HEM_CONDITIONS_AT_RATES + 8, 4);
    for (size_t i = 0; i < count; i++) put_element_hour(h->hour + HEM_CONDITIONS_AT_ELEMENTS + HEM_ELEMENT_HOUR * i);
}

static size_t wall_at(size_t i) { return HEM_HEAD_AT_ELEMENTS + HEM_HEAD_ELEMENT * i; }

House house(size_t walls, int window, size_t treatments) {
    const size_t count = walls + (window ? 1 : 0);
    House h = {walls, treatments, wall_at(walls) + (window ? HEM_HEAD_TRANSPARENT(treatments) : 0), HEM_CONDITIONS(count), NULL, NULL};
    h.head = lent(h.head_len);
    h.hour = lent(h.hour_len);
    put_head(&h, count);
    for (size_t i = 0; i < walls; i++) put_wall(h.head + wall_at(i));
    if (window) put_window(h.head + wall_at(walls), treatments);
    put_hour(&h, count);
    return h;
}

void give_back(House h) {
    free(h.head);
    free(h.hour);
}
