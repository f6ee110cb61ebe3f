/* The convective heat from the air to the inner surfaces by direction, as a heat balance has it: worked out here once
   more, from the bytes of the head and the node temperatures before and after a step, and held to the bit. */
#include "hem_zone.h"
#include "test.h"

#include <math.h>
#include <stdio.h>
#include <stdlib.h>
#include <string.h>

enum { HORIZONTAL, UPWARDS, DOWNWARDS, DIRECTIONS };
enum { ELEMENTS = 13, UPDATE = 0 /* in the place of an entry version */ };

/* Limits that heated and cooled hours of the house below are beyond. */
static const double heating_limit = 12.5, cooling_limit = 0.25;

/* What was met with: ceilings and floors by direction, elements whose direction by the temperatures after the step is
   another, hours that a limit held. */
typedef struct {
    int ceilings[DIRECTIONS], floors[DIRECTIONS], turned, held;
} Met;

/* Nodes and bytes of the element at this place of a head. */
static uint64_t nodes_of(const uint8_t *at) { return at[HEM_ELEMENT_AT_KIND] == HEM_TRANSPARENT ? 2 : 5; }
static size_t size_of(const uint8_t *at) {
    return at[HEM_ELEMENT_AT_KIND] == HEM_TRANSPARENT ? HEM_HEAD_TRANSPARENT(at[HEM_ELEMENT_AT_TREATMENTS]) : HEM_HEAD_ELEMENT;
}

/* ---- the sums ---- */

typedef struct {
    double total, by_direction[DIRECTIONS];
} Sums;

static int direction_of(double pitch, double air, double surface) {
    if (60 <= pitch && pitch <= 120) return HORIZONTAL;
    if (pitch < 60) return air < surface ? DOWNWARDS : UPWARDS;
    return air < surface ? UPWARDS : DOWNWARDS;
}

static void meet(Met *met, double pitch, int direction, int direction_after) {
    if (pitch < 60) met->ceilings[direction]++;
    if (pitch > 120) met->floors[direction]++;
    met->turned += direction != direction_after;
}

/* The terms of the elements, each to the total and to the sum of its direction. */
static Sums sums_of(const uint8_t *head, const double *before, const double *after, uint64_t nodes, Met *met) {
    static const double h_ci[DIRECTIONS] = {2.5, 5.0, 0.7};
    const uint64_t air = nodes - 1;
    const uint8_t *at = head + HEM_HEAD_AT_ELEMENTS;
    Sums sums = {0.0, {0.0, 0.0, 0.0}};
    for (uint64_t node = 0; node < air; node += nodes_of(at), at += size_of(at)) {
        const uint64_t inner = node + nodes_of(at) - 1;
        const double area = get_double(at + HEM_ELEMENT_AT_AREA), pitch = get_double(at + HEM_ELEMENT_AT_PITCH);
        const int direction = direction_of(pitch, before[air], before[inner]);
        const double term = area * (h_ci[direction] * (after[air] - after[inner]));
        sums.total = sums.total + term;
        sums.by_direction[direction] = sums.by_direction[direction] + term;
        meet(met, pitch, direction, direction_of(pitch, after[air], after[inner]));
    }
    return sums;
}

/* Whether the places of a balance have the bits of the sums. */
static int balance_has(const double *balance, const Sums *sums) {
    return memcmp(&balance[HEM_INT_FABRIC_INT_AIR_CONVECTIVE], &sums->total, sizeof sums->total) == 0 &&
           memcmp(&balance[HEM_INT_FABRIC_INT_AIR_CONVECTIVE_HORIZONTAL], &sums->by_direction[HORIZONTAL], sizeof(double)) == 0 &&
           memcmp(&balance[HEM_INT_FABRIC_INT_AIR_CONVECTIVE_UPWARDS], &sums->by_direction[UPWARDS], sizeof(double)) == 0 &&
           memcmp(&balance[HEM_INT_FABRIC_INT_AIR_CONVECTIVE_DOWNWARDS], &sums->by_direction[DOWNWARDS], sizeof(double)) == 0;
}

/* ---- a house of walls, ceilings and floors, and states of it ---- */

/* The window of a house comes to stand behind so many walls. */
static void move_window(House *h, size_t walls) {
    const size_t size = HEM_HEAD_TRANSPARENT(h->treatments), from = h->head_len - size;
    const size_t to = HEM_HEAD_AT_ELEMENTS + HEM_HEAD_ELEMENT * walls;
    uint8_t *window = lent(size);
    memcpy(window, h->head + from, size);
    memmove(h->head + to + size, h->head + to, from - to);
    memcpy(h->head + to, window, size);
    free(window);
}

/* Elements of all kinds, a rooflight in their midst, no two of one area. The pitches go to 60 and 120 and beyond. */
static House house_with_pitches(void) {
    static const int kinds[5] = {HEM_OPAQUE, HEM_GROUND, HEM_PARTY_WALL, HEM_ADJACENT_CONDITIONED, HEM_ADJACENT_UNCONDITIONED};
    const double pitches[ELEMENTS] = {90, 0, 180, 60, 30, nextafter(60, 0), 120, nextafter(120, 180), 45, 150, 110, 59, 121};
    House h = house(ELEMENTS - 1, 1, 2);
    move_window(&h, 4);
    uint8_t *at = h.head + HEM_HEAD_AT_ELEMENTS;
    for (int e = 0; e < ELEMENTS; e++, at += size_of(at)) {
        if (at[HEM_ELEMENT_AT_KIND] != HEM_TRANSPARENT) at[HEM_ELEMENT_AT_KIND] = (uint8_t)kinds[e % 5];
        put_double(at + HEM_ELEMENT_AT_AREA, 3.7 + 1.9 * e);
        put_double(at + HEM_ELEMENT_AT_PITCH, pitches[e]);
    }
    return h;
}

/* Air at 20 deg C; of three nodes one after the other each has one of these differences from it. */
static double *state(uint64_t nodes, const double differences[3]) {
    double *temps = lent(HEM_TEMPS * sizeof *temps);
    for (uint64_t i = 0; i < nodes; i++) temps[i] = 20 + differences[i % 3];
    temps[nodes - 1] = 20;
    return temps;
}

/* ---- steps ---- */

static uint32_t step(const House *h, uint64_t version, double *temps, uint64_t nodes, double *out, double *balance) {
    if (version == UPDATE) return hem_update(h->head, h->head_len, temps, nodes, h->hour, h->hour_len, 700, 0.3, 0.8, balance);
    return hem_hour_step(h->head, h->head_len, temps, nodes, h->hour, h->hour_len, version, heating_limit, cooling_limit, out,
                         balance);
}

static int step_agrees(const House *h, uint64_t version, const double *before, uint64_t nodes, Met *met) {
    double *temps = lent(HEM_TEMPS * sizeof *temps), *out = lent(HEM_OUT * sizeof *out);
    double *balance = lent(HEM_BALANCE * sizeof *balance);
    memcpy(temps, before, HEM_TEMPS * sizeof *temps);
    int good = step(h, version, temps, nodes, out, balance) == 0;
    const Sums sums = sums_of(h->head, before, temps, nodes, met);
    good = good && balance_has(balance, &sums);
    const double gains = balance[HEM_EXT_HEATING_OR_COOLING_SYSTEM_GAINS];
    met->held += version == HEM_LIMITS_ENTRY_VERSION && (gains == heating_limit || gains == -cooling_limit);
    free(balance);
    free(out);
    free(temps);
    return good;
}

/* The hour by its setpoints: heated, cooled, or neither. */
static void set_hour(House *h, double heat, double cool) {
    put_double(h->hour + HEM_CONDITIONS_AT_TEMP_SETPNT_HEAT, heat);
    put_double(h->hour + HEM_CONDITIONS_AT_TEMP_SETPNT_COOL, cool);
}

static void test_steps(House *h, uint64_t nodes, Met *met) {
    static const double setpoints[3][2] = {{22, 26}, {5, 10}, {-20, 90}};
    static const double differences[5][3] = {{0, 0, 0}, {3, 1, 7}, {-3, -1, -7}, {4, -0.5, 0.25}, {-6, 0.01, -0.01}};
    char what[100];
    for (uint64_t version = UPDATE; version <= HEM_NEWEST_ENTRY_VERSION; version++)
        for (int s = 0; s < 3; s++) {
            int good = 1;
            set_hour(h, setpoints[s][0], setpoints[s][1]);
            for (int d = 0; d < 5; d++) {
                double *before = state(nodes, differences[d]);
                good = step_agrees(h, version, before, nodes, met) && good;
                free(before);
            }
            snprintf(what, sizeof what, "convection by direction: entry version %d (0: update), setpoints %g, %g", (int)version,
                     setpoints[s][0], setpoints[s][1]);
            expect(what, good);
        }
}

/* Where all elements are upright, the other two directions have +0.0. */
static void test_upright(Met *met) {
    static const double differences[3] = {3, -2, 1};
    House h = house(1, 1, 2);
    double *before = state(8, differences);
    expect("convection by direction: +0.0 where there is none", step_agrees(&h, VERSION, before, 8, met));
    free(before);
    give_back(h);
}

/* ---- refusals ---- */

/* Whether a step from 20 deg C is refused with this number, and all places of its balance stay. */
static int leaves_balance(const House *h, uint64_t version, uint64_t nodes, uint32_t number) {
    static const double none[3] = {0, 0, 0};
    double *temps = state(HEM_TEMPS, none), *out = lent(HEM_OUT * sizeof *out);
    double *balance = lent(HEM_BALANCE * sizeof *balance), marks[HEM_BALANCE];
    for (int i = 0; i < HEM_BALANCE; i++) balance[i] = marks[i] = -1000 - i;
    const int refused = HEM_NUMBER(step(h, version, temps, nodes, out, balance)) == number;
    const int left = memcmp(balance, marks, sizeof marks) == 0;
    free(balance);
    free(out);
    free(temps);
    return refused && left;
}

static int all_leave_balance(const House *h, uint64_t nodes, uint32_t number) {
    int good = 1;
    for (uint64_t version = UPDATE; version <= HEM_NEWEST_ENTRY_VERSION; version++)
        good = leaves_balance(h, version, nodes, number) && good;
    return good;
}

static void test_refusals(House *h, uint64_t nodes) {
    expect("a refused step leaves the balance: 6", all_leave_balance(h, nodes + 1, HEM_STATE_INVALID));
    expect("a refused step leaves the balance: 18", leaves_balance(h, 4, nodes, HEM_FALSE_ENTRY));
    set_hour(h, 22, 21);
    for (uint64_t version = 1; version <= HEM_NEWEST_ENTRY_VERSION; version++)
        expect("a refused step leaves the balance: 10", leaves_balance(h, version, nodes, HEM_COOLING_BELOW_HEATING));
    set_hour(h, 20, 26);
    put_double(h->hour + HEM_CONDITIONS_AT_GAINS_INTERNAL, 1e7); /* the equations are solved, and too hot */
    put_double(h->hour + HEM_CONDITIONS_AT_DELTA_T_H, 8760);
    put_double(h->head + HEM_HEAD_AT_TB_HEAT_TRANS_COEFF, 0);
    for (uint8_t *at = h->head + HEM_HEAD_AT_ELEMENTS; at < h->head + h->head_len; at += size_of(at))
        put_double(at + HEM_ELEMENT_AT_AREA, 1e-3);
    expect("a refused step leaves the balance: 13", all_leave_balance(h, nodes, HEM_TEMPERATURE));
}

void test_convection(void) {
    const uint64_t nodes = 5 * (ELEMENTS - 1) + 2 + 1;
    House h = house_with_pitches();
    Met met = {{0}, {0}, 0, 0};
    expect("convection by direction: the house", hem_head(h.head, h.head_len) == 0);
    test_steps(&h, nodes, &met);
    test_upright(&met);
    expect("convection by direction: ceilings of both", met.ceilings[UPWARDS] && met.ceilings[DOWNWARDS]);
    expect("convection by direction: floors of both", met.floors[UPWARDS] && met.floors[DOWNWARDS]);
    expect("convection by direction: some turn in the step", met.turned);
    expect("convection by direction: a limit held", met.held);
    test_refusals(&h, nodes);
    give_back(h);
}
