/* For limit.c: head, conditions and state are read, and tested as the engine tests them (docs/SPECIFICATION.md has the
 * ranges). A struct's floats stand in the order of the bytes, and each number of the elements has an array of its own,
 * so that a loop over the elements can take two of them at once. */
#include <float.h>
#include <string.h>

#include "hem_zone.h"

enum { MOST = HEM_ELEMENTS, NODES = 5, INNER = NODES - 1 };

struct zone {
    size_t n;
    int operative; /* setpoints are of the operative temperature, not of the air */
    uint8_t kind[MOST];
    struct {
        double useful_area, volume, tb_heat_trans_coeff, temp_ext_air_init, temp_setpnt_init, temp_setpnt_vent_init;
    } front;
    struct {
        double area[MOST], pitch[MOST], h_ce[MOST], h_re[MOST], h_ri[MOST], solar_absorption_coeff[MOST];
        double therm_rad_to_sky[MOST], k_pli[NODES][MOST], h_pli[NODES - 1][MOST], first_hour[5][MOST];
    } el;
};

struct conditions {
    double ach_target, ach_windows_open;
    struct {
        double delta_t_h, temp_ext_air, gains_internal, gains_solar, frac_convective_heat, frac_convective_cool;
        double temp_setpnt_heat, temp_setpnt_cool, temp_setpnt_cool_vent, avg_air_supply_temp;
        double gains_heat_cool_convective, gains_heat_cool_radiative;
    } front;
    struct {
        double temp_ext[MOST], i_sol_dir[MOST], i_sol_dif[MOST], f_sh_dir[MOST], f_sh_dif[MOST];
    } el;
};

struct temps {
    double node[NODES][MOST], air;
};

struct range {
    double low, high;
};

#define ABOVE_ZERO DBL_TRUE_MIN /* the least float above zero */

static const struct range front_ranges[6] = {
    {ABOVE_ZERO, 1e5}, {ABOVE_ZERO, 1e5}, {0, 1e6}, {-100, 100}, {-273.15, 100}, {-273.15, 1.4e32}};
static const struct range element_ranges[21] = {
    {ABOVE_ZERO, 1e5}, {0, 180}, {0, 1e6}, {0, 1e6}, {0, 1e6}, {0, 1}, {-1e4, 1e4},  /* area to therm_rad_to_sky */
    {0, 1e7}, {0, 1e7}, {0, 1e7}, {0, 1e7}, {0, 1e7},                                /* k_pli */
    {ABOVE_ZERO, 1e6}, {ABOVE_ZERO, 1e6}, {ABOVE_ZERO, 1e6}, {ABOVE_ZERO, 1e6},      /* h_pli */
    {-100, 100}, {0, 2000}, {0, 2000}, {0, 1}, {0, 1}};                              /* first_hour */
static const struct range *const element_hour_ranges = element_ranges + 16;
static const struct range conditions_ranges[12] = {
    {0.001, 8760}, {-100, 100}, {-1e7, 1e7}, {-1e7, 1e7}, {0, 1}, {0, 1},            /* to frac_convective_cool */
    {-273.15, 100}, {-273.15, 1.4e32}, {-273.15, 1.4e32}, {-100, 100}, {-1e7, 1e7}, {-1e7, 1e7}};

static int within(double low, double x, double high) { return low <= x && x <= high; }
static int within_state_bound(double x) { return within(-1e6, x, 1e6); }

static uint64_t read_u64_be(const uint8_t *at) {
    uint64_t x;
    memcpy(&x, at, sizeof x);
    return __builtin_bswap64(x);
}

static double read_f64(const uint8_t *at) {
    const uint64_t bits = read_u64_be(at);
    double x;
    memcpy(&x, &bits, sizeof x);
    return x;
}

/* Floats to places `stride` apart, and whether all are in their ranges. */
static inline int read_floats(const uint8_t *at, size_t count, const struct range *ranges, size_t stride, void *to) {
    for (size_t i = 0; i < count; i++) {
        const double x = read_f64(at + 8 * i);
        memcpy((char *)to + i * stride * sizeof x, &x, sizeof x);
        if (!within(ranges[i].low, x, ranges[i].high)) return 0;
    }
    return 1;
}

/* Elements of five nodes all have the same size, and no window treatment that could be open. */
static uint32_t read_structure(const uint8_t *head, size_t len, struct zone *z) {
    if (len < HEM_HEAD_LEAST) return HEM_HEAD_SHORT;
    const size_t end = 4 + (size_t)(read_u64_be(head) >> 32);
    if (end < HEM_HEAD_LEAST || HEM_HEAD_MOST < end) return HEM_HEAD_LENGTH;
    if (len < end) return HEM_HEAD_SHORT;
    if (head[HEM_HEAD_AT_VERSION] != HEM_FORMAT) return HEM_HEAD_VERSION;
    z->operative = head[HEM_HEAD_AT_BASIS];
    z->n = head[HEM_HEAD_AT_COUNT];
    if (1 < z->operative || z->n < 1 || MOST < z->n) return HEM_STRUCTURE;
    if (end != HEM_HEAD_AT_ELEMENTS + HEM_HEAD_ELEMENT * z->n) return HEM_HEAD_LENGTH;
    for (size_t e = 0; e < z->n; e++) {
        const uint8_t *at = head + HEM_HEAD_AT_ELEMENTS + HEM_HEAD_ELEMENT * e;
        z->kind[e] = at[HEM_ELEMENT_AT_KIND];
        if (HEM_PARTY_WALL < z->kind[e] || z->kind[e] == HEM_TRANSPARENT || at[HEM_ELEMENT_AT_TREATMENTS] != 0)
            return HEM_STRUCTURE;
    }
    return 0;
}

static uint32_t read_head(const uint8_t *head, size_t len, struct zone *z) {
    const uint32_t number = read_structure(head, len, z);
    if (number != 0) return number;
    const unsigned limit = head[HEM_HEAD_AT_LIMIT] * 256u + head[HEM_HEAD_AT_LIMIT + 1];
    int valid = 1 <= limit && limit <= 10000;
    valid &= read_floats(head + HEM_HEAD_AT_USEFUL_AREA, 6, front_ranges, 1, &z->front);
    for (size_t e = 0; e < z->n; e++) {
        const uint8_t *at = head + HEM_HEAD_AT_ELEMENTS + HEM_HEAD_ELEMENT * e;
        valid &= read_floats(at + HEM_ELEMENT_AT_AREA, 21, element_ranges, MOST, (double *)&z->el + e);
        valid &= at[HEM_ELEMENT_AT_FIRST_HOUR + HEM_ELEMENT_HOUR_AT_OPEN] == 0;
    }
    return valid ? 0 : HEM_ZONE_VALUE;
}

static uint32_t read_conditions(const uint8_t *bytes, size_t len, size_t n, struct conditions *c) {
    if (len != HEM_CONDITIONS(n)) return HEM_CONDITIONS_SIZE;
    const uint8_t *rates = bytes + HEM_CONDITIONS_AT_RATES;
    c->ach_target = read_f64(rates);
    c->ach_windows_open = read_f64(rates + 8);
    int coded = bytes[HEM_CONDITIONS_AT_RATE_CODE] == 1;
    int valid = read_floats(bytes, 12, conditions_ranges, 1, &c->front);
    valid &= within(0, c->ach_target, 1000) & within(0, c->ach_windows_open, 1000);
    for (size_t e = 0; e < n; e++) {
        const uint8_t *at = bytes + HEM_CONDITIONS_AT_ELEMENTS + HEM_ELEMENT_HOUR * e;
        coded &= at[HEM_ELEMENT_HOUR_AT_OPEN] == 0;
        valid &= read_floats(at, 5, element_hour_ranges, MOST, (double *)&c->el + e);
    }
    return !coded ? HEM_CONDITIONS_CODE : valid ? 0 : HEM_CONDITIONS_VALUE;
}

/* From outer to inner surface, element by element, then the air. */
static uint32_t read_state(const double *temps, uint64_t nodes, size_t n, struct temps *t) {
    if (nodes != NODES * n + 1) return HEM_STATE_INVALID;
    int valid = within_state_bound(t->air = temps[NODES * n]);
    for (size_t e = 0; e < n; e++)
        for (size_t j = 0; j < NODES; j++) valid &= within_state_bound(t->node[j][e] = temps[NODES * e + j]);
    return valid ? 0 : HEM_STATE_INVALID;
}

static void write_state(const struct temps *t, size_t n, double temps[HEM_TEMPS]) {
    for (size_t e = 0; e < n; e++)
        for (size_t j = 0; j < NODES; j++) temps[NODES * e + j] = t->node[j][e];
    temps[NODES * n] = t->air;
    for (size_t i = NODES * n + 1; i < HEM_TEMPS; i++) temps[i] = 0.0;
}
