/* The places of hem_zone.h: a value at each is accepted at the end of its range and refused just beyond. */
#include "hem_zone.h"
#include "test.h"

#include <math.h>
#include <stdio.h>
#include <string.h>

typedef struct {
    const char *name;
    size_t at;
    double most;
    uint32_t element;
} Place;

#define HEAD_PLACE(name, most) {#name, HEM_HEAD_AT_##name, most, 0}
#define WALL_PLACE(name, most) {#name, HEM_HEAD_AT_ELEMENTS + HEM_ELEMENT_AT_##name, most, 1}
#define WINDOW (HEM_HEAD_AT_ELEMENTS + HEM_HEAD_ELEMENT)
#define CONDITIONS_PLACE(name, most) {#name, HEM_CONDITIONS_AT_##name, most, 0}
#define ELEMENT_HOURS(at) \
    {"TEMP_EXT", (at) + HEM_ELEMENT_HOUR_AT_TEMP_EXT, 100, 2}, {"I_SOL_DIR", (at) + HEM_ELEMENT_HOUR_AT_I_SOL_DIR, 2000, 2}, \
        {"I_SOL_DIF", (at) + HEM_ELEMENT_HOUR_AT_I_SOL_DIF, 2000, 2}, {"F_SH_DIR", (at) + HEM_ELEMENT_HOUR_AT_F_SH_DIR, 1, 2}, \
        {"F_SH_DIF", (at) + HEM_ELEMENT_HOUR_AT_F_SH_DIF, 1, 2}

static const Place head_places[] = {
    HEAD_PLACE(USEFUL_AREA, 1e5),
    HEAD_PLACE(VOLUME, 1e5),
    HEAD_PLACE(TB_HEAT_TRANS_COEFF, 1e6),
    HEAD_PLACE(TEMP_EXT_AIR_INIT, 100),
    HEAD_PLACE(TEMP_SETPNT_INIT, 100),
    HEAD_PLACE(TEMP_SETPNT_VENT_INIT, 1.4e32),
    WALL_PLACE(AREA, 1e5),
    WALL_PLACE(PITCH, 180),
    WALL_PLACE(H_CE, 1e6),
    WALL_PLACE(H_RE, 1e6),
    WALL_PLACE(H_RI, 1e6),
    WALL_PLACE(SOLAR_ABSORPTION_COEFF, 1),
    WALL_PLACE(THERM_RAD_TO_SKY, 1e4),
    WALL_PLACE(K_PLI, 1e7),
    WALL_PLACE(H_PLI, 1e6),
    {"first TEMP_EXT of a wall", HEM_HEAD_AT_ELEMENTS + HEM_ELEMENT_AT_FIRST_HOUR, 100, 1},
    {"H_PLI of a window", WINDOW + HEM_TRANSPARENT_AT_H_PLI, 1e6, 2},
    {"DELTA_R", WINDOW + HEM_TRANSPARENT_AT_DELTA_R, 1000, 2},
    ELEMENT_HOURS(WINDOW + HEM_TRANSPARENT_AT_FIRST_HOUR(2)),
};

static const Place hour_places[] = {
    CONDITIONS_PLACE(DELTA_T_H, 8760),
    CONDITIONS_PLACE(TEMP_EXT_AIR, 100),
    CONDITIONS_PLACE(GAINS_INTERNAL, 1e7),
    CONDITIONS_PLACE(GAINS_SOLAR, 1e7),
    CONDITIONS_PLACE(FRAC_CONVECTIVE_HEAT, 1),
    CONDITIONS_PLACE(FRAC_CONVECTIVE_COOL, 1),
    CONDITIONS_PLACE(TEMP_SETPNT_HEAT, 100),
    CONDITIONS_PLACE(TEMP_SETPNT_COOL, 1.4e32),
    CONDITIONS_PLACE(TEMP_SETPNT_COOL_VENT, 1.4e32),
    CONDITIONS_PLACE(AVG_AIR_SUPPLY_TEMP, 100),
    CONDITIONS_PLACE(GAINS_HEAT_COOL_CONVECTIVE, 1e7),
    CONDITIONS_PLACE(GAINS_HEAT_COOL_RADIATIVE, 1e7),
    CONDITIONS_PLACE(RATES, 1000),
    ELEMENT_HOURS(HEM_CONDITIONS_AT_ELEMENTS + HEM_ELEMENT_HOUR),
};

/* The answer of a call that reads the head or the hour. */
static uint32_t ask(const House *h, int hour) {
    double temps[HEM_TEMPS], out[HEM_OUT];
    if (!hour) return hem_head(h->head, h->head_len);
    for (int i = 0; i < HEM_TEMPS; i++) temps[i] = 20;
    memset(out, 0, sizeof out);
    return hem_demand(h->head, h->head_len, temps, 8, h->hour, h->hour_len, out);
}

static void test_place(House *h, int hour, const Place *place) {
    const uint32_t number = hour ? HEM_CONDITIONS_VALUE : HEM_ZONE_VALUE;
    uint8_t *at = (hour ? h->hour : h->head) + place->at, kept[8];
    char what[80];
    memcpy(kept, at, 8);
    put_double(at, place->most);
    int good = HEM_NUMBER(ask(h, hour)) != number;
    put_double(at, nextafter(place->most, INFINITY));
    good = good && ask(h, hour) == number + 256 * place->element;
    memcpy(at, kept, 8);
    snprintf(what, sizeof what, "%s: %s", hour ? "hour" : "head", place->name);
    expect(what, good);
}

/* The answer of an hour step with these limits. */
static uint32_t ask_limits(const House *h, double heating, double cooling) {
    double temps[HEM_TEMPS], out[HEM_OUT], balance[HEM_BALANCE];
    for (int i = 0; i < HEM_TEMPS; i++) temps[i] = 20;
    memset(out, 0, sizeof out);
    memset(balance, 0, sizeof balance);
    return hem_hour_step(h->head, h->head_len, temps, 8, h->hour, h->hour_len, HEM_LIMITS_ENTRY_VERSION, heating, cooling, out,
                         balance);
}

static void test_limits(const House *h) {
    const double most = HEM_LIMIT_MOST, beyond = nextafter(most, INFINITY);
    expect("limits: from 0 to HEM_LIMIT_MOST", ask_limits(h, 0, most) == 0 && ask_limits(h, most, -0.0) == 0);
    expect("limits: heating beyond HEM_LIMIT_MOST: 19", ask_limits(h, beyond, 0) == HEM_LIMIT_VALUE);
    expect("limits: cooling beyond HEM_LIMIT_MOST: 19", ask_limits(h, 0, beyond) == HEM_LIMIT_VALUE);
}

void test_places(void) {
    House h = house(1, 1, 2);
    test_limits(&h);
    for (size_t i = 0; i < sizeof head_places / sizeof *head_places; i++) test_place(&h, 0, &head_places[i]);
    for (size_t i = 0; i < sizeof hour_places / sizeof *hour_places; i++) test_place(&h, 1, &hour_places[i]);
    h.head[HEM_HEAD_AT_BASIS] = 2;
    expect("head: BASIS", hem_head(h.head, h.head_len) == HEM_STRUCTURE);
    h.head[HEM_HEAD_AT_BASIS] = 1;
    h.head[WINDOW + HEM_TRANSPARENT_AT_FIRST_HOUR(2) + HEM_ELEMENT_HOUR_AT_OPEN] = 4;
    expect("head: OPEN", hem_head(h.head, h.head_len) == HEM_ZONE_VALUE + 256 * 2);
    h.hour[HEM_CONDITIONS_AT_RATE_CODE] = 2;
    h.head[WINDOW + HEM_TRANSPARENT_AT_FIRST_HOUR(2) + HEM_ELEMENT_HOUR_AT_OPEN] = 3;
    expect("hour: RATE_CODE", ask(&h, 1) == HEM_CONDITIONS_CODE);
    give_back(h);
}
