/* Why an hour has its rate and its load: a house with all nodes at 24 deg C and hours whose setpoints, supplied air and
   rates lie on both sides of each test, beside the reason and the load that this must give. The house's setpoints are
   operative temperatures. What an hour brings about without demand is found by hem_update. */
#include "hem_zone.h"
#include "test.h"

#include <math.h>
#include <stdio.h>
#include <stdlib.h>
#include <string.h>

enum { NODES = 5 + 5 + 2 + 1, MARK = 99 };

static double *at_24(void) {
    double *temps = lent(HEM_TEMPS * sizeof *temps);
    for (int i = 0; i < NODES; i++) temps[i] = 24;
    return temps;
}

/* ---- what the tests look at ---- */

typedef struct {
    double operative, air;
} Free;

/* The temperatures at the end of the hour without demand, at this rate. */
static Free free_at(const House *h, double rate) {
    double *temps = at_24(), *balance = lent(HEM_BALANCE * sizeof *balance);
    Free free_at_end = {NAN, NAN};
    if (hem_update(h->head, h->head_len, temps, NODES, h->hour, h->hour_len, 0, 0, rate, balance) == 0 &&
        hem_operative(h->head, h->head_len, temps, NODES, &free_at_end.operative) == 0)
        free_at_end.air = temps[NODES - 1];
    free(balance);
    free(temps);
    return free_at_end;
}

static void set(const House *h, size_t at, double value) { put_double(h->hour + at, value); }

/* Rates of the two kinds. */
static void windows(const House *h, double target, double open) {
    h->hour[HEM_CONDITIONS_AT_RATE_CODE] = 1;
    set(h, HEM_CONDITIONS_AT_RATES, target);
    set(h, HEM_CONDITIONS_AT_RATES + 8, open);
}

static void fixed(const House *h, double rate) {
    h->hour[HEM_CONDITIONS_AT_RATE_CODE] = 0;
    set(h, HEM_CONDITIONS_AT_RATES, rate);
    memset(h->hour + HEM_CONDITIONS_AT_RATES + 8, 0, 8);
}

static void setpoints(const House *h, double heat, double cool, double vent) {
    set(h, HEM_CONDITIONS_AT_TEMP_SETPNT_HEAT, heat);
    set(h, HEM_CONDITIONS_AT_TEMP_SETPNT_COOL, cool);
    set(h, HEM_CONDITIONS_AT_TEMP_SETPNT_COOL_VENT, vent);
}

/* ---- answers ---- */

/* The answer is accepted, has this reason and load, and leaves the temperatures. */
static void says(const char *what, const House *h, uint64_t reason, uint64_t load) {
    double *temps = at_24(), *before = at_24();
    uint64_t *why = lent(sizeof *why), *is = lent(sizeof *is);
    char text[120];
    *why = *is = MARK;
    const uint32_t answer = hem_why(h->head, h->head_len, temps, NODES, h->hour, h->hour_len, why, is);
    snprintf(text, sizeof text, "why: %s: reason %d, load %d", what, (int)reason, (int)load);
    expect(text, answer == 0 && *why == reason && *is == load && memcmp(temps, before, HEM_TEMPS * sizeof *temps) == 0);
    free(is);
    free(why);
    free(before);
    free(temps);
}

/* The three loads beside a reason that leaves the target rate, where the free temperature is this. The ventilation
   setpoint is not below that of heating: beside heating it is above the free temperature. */
static void test_no_choice(const House *h, double free_temp) {
    setpoints(h, free_temp - 2, free_temp + 2, 1.4e32);
    says("no choice", h, HEM_WHY_NO_CHOICE, HEM_LOAD_NEITHER);
    setpoints(h, free_temp + 1, free_temp + 2, 1.4e32);
    says("no choice, too cold", h, HEM_WHY_NO_CHOICE, HEM_LOAD_HEATING);
    setpoints(h, free_temp - 2, free_temp - 1, free_temp - 2);
    says("no choice, too warm", h, HEM_WHY_NO_CHOICE, HEM_LOAD_COOLING);
}

/* Code 0, which the demand refuses; its second rate must be 8 zero bytes. */
static void test_fixed(const House *h) {
    double *temps = at_24(), *out = lent(HEM_OUT * sizeof *out);
    uint64_t *why = lent(sizeof *why), *is = lent(sizeof *is);
    *why = *is = MARK;
    expect("demand refused: 8, code 0",
           hem_demand(h->head, h->head_len, temps, NODES, h->hour, h->hour_len, out) == HEM_CONDITIONS_CODE);
    set(h, HEM_CONDITIONS_AT_RATES + 8, -0.0);
    const uint32_t answer = hem_why(h->head, h->head_len, temps, NODES, h->hour, h->hour_len, why, is);
    expect("why refused: 8, the second rate of code 0", answer == HEM_CONDITIONS_CODE && *why == MARK && *is == MARK);
    free(is);
    free(why);
    free(out);
    free(temps);
}

static void test_not_above_setpoint(const House *h) {
    const double warm = free_at(h, 0.5).operative;
    setpoints(h, warm - 2, warm + 2, warm);
    says("at the ventilation setpoint", h, HEM_WHY_NOT_ABOVE_VENTILATION_SETPOINT, HEM_LOAD_NEITHER);
    setpoints(h, warm + 1, warm + 2, warm + 1);
    says("below the ventilation setpoint, too cold", h, HEM_WHY_NOT_ABOVE_VENTILATION_SETPOINT, HEM_LOAD_HEATING);
    setpoints(h, warm - 2, warm - 1, warm);
    says("at the ventilation setpoint, too warm", h, HEM_WHY_NOT_ABOVE_VENTILATION_SETPOINT, HEM_LOAD_COOLING);
    setpoints(h, warm - 2, warm + 2, nextafter(warm, -1));
    says("just above the ventilation setpoint", h, HEM_WHY_WINDOWS_ENOUGH, HEM_LOAD_NEITHER);
}

/* At a target rate of 0 the supplied air does not move the free temperature. */
static void test_not_above_supply(const House *h) {
    windows(h, 0, 4);
    const Free closed = free_at(h, 0);
    expect("why: the air is not the operative temperature", closed.air != closed.operative);
    setpoints(h, closed.operative - 2, closed.operative + 2, closed.operative - 1);
    set(h, HEM_CONDITIONS_AT_AVG_AIR_SUPPLY_TEMP, closed.air);
    says("as warm as the supplied air", h, HEM_WHY_NOT_ABOVE_SUPPLY, HEM_LOAD_NEITHER);
    set(h, HEM_CONDITIONS_AT_TEMP_SETPNT_COOL, closed.operative - 1.5);
    says("as warm as the supplied air, too warm", h, HEM_WHY_NOT_ABOVE_SUPPLY, HEM_LOAD_COOLING);
    set(h, HEM_CONDITIONS_AT_AVG_AIR_SUPPLY_TEMP, closed.air - 0.1);
    says("just warmer than the supplied air", h, HEM_WHY_STILL_ABOVE_COOLING_SETPOINT, HEM_LOAD_COOLING);
    set(h, HEM_CONDITIONS_AT_AVG_AIR_SUPPLY_TEMP, 12);
}

/* The target rate is the higher one, so that windows open would make it warmer. */
static void test_windows_do_not_cool(const House *h) {
    windows(h, 4, 0.5);
    const double warm = free_at(h, 4).operative;
    setpoints(h, warm - 2, warm + 2, warm - 1);
    says("target above open", h, HEM_WHY_WINDOWS_DO_NOT_COOL, HEM_LOAD_NEITHER);
    set(h, HEM_CONDITIONS_AT_TEMP_SETPNT_COOL, warm - 1);
    says("target above open, too warm", h, HEM_WHY_WINDOWS_DO_NOT_COOL, HEM_LOAD_COOLING);
}

/* The rate found brings the zone to its ventilation setpoint, which the windows can. */
static void test_windows(const House *h) {
    windows(h, 0.5, 4);
    const double warm = free_at(h, 0.5).operative, open = free_at(h, 4).operative, vent = (warm + open) / 2;
    expect("why: windows cool", open < warm);
    setpoints(h, open - 2, vent + 1e-6, vent);
    says("the cooling setpoint is above what windows reach", h, HEM_WHY_WINDOWS_ENOUGH, HEM_LOAD_NEITHER);
    setpoints(h, open - 2, vent, vent);
    says("the cooling setpoint is what windows reach", h, HEM_WHY_WINDOWS_ENOUGH, HEM_LOAD_NEITHER);
    setpoints(h, open - 2, vent - 1e-6, vent);
    says("the cooling setpoint is below what windows reach", h, HEM_WHY_STILL_ABOVE_COOLING_SETPOINT, HEM_LOAD_COOLING);
    setpoints(h, open - 2, open + 1e-6, open - 1);
    says("the cooling setpoint is above what all windows reach", h, HEM_WHY_WINDOWS_ENOUGH, HEM_LOAD_NEITHER);
    setpoints(h, open - 2, open - 1e-6, open - 1);
    says("the cooling setpoint is below what all windows reach", h, HEM_WHY_STILL_ABOVE_COOLING_SETPOINT, HEM_LOAD_COOLING);
}

/* ---- refusals ---- */

/* Refused with the answer of the demand, which has this number, and with nothing written. */
static void refuses(const char *what, const House *h, size_t head_len, const double *temps, size_t hour_len, uint32_t number) {
    double *out = lent(HEM_OUT * sizeof *out);
    uint64_t *why = lent(sizeof *why), *is = lent(sizeof *is);
    char text[120];
    *why = *is = MARK;
    const uint32_t answer = hem_demand(h->head, head_len, temps, NODES, h->hour, hour_len, out);
    snprintf(text, sizeof text, "why refused as the demand: %d, %s", (int)number, what);
    expect(text, HEM_NUMBER(answer) == number &&
                     hem_why(h->head, head_len, temps, NODES, h->hour, hour_len, why, is) == answer && *why == MARK && *is == MARK);
    free(is);
    free(why);
    free(out);
}

static void test_refusals(const House *h) {
    double *temps = at_24();
    setpoints(h, 20, 26, 22);
    refuses("a head that ends early", h, h->head_len - 1, temps, h->hour_len, HEM_HEAD_SHORT);
    temps[3] = NAN;
    refuses("a temperature", h, h->head_len, temps, h->hour_len, HEM_STATE_INVALID);
    temps[3] = 24;
    refuses("an hour that ends early", h, h->head_len, temps, h->hour_len - 1, HEM_CONDITIONS_SIZE);
    setpoints(h, 20, 19, 22);
    refuses("a cooling setpoint", h, h->head_len, temps, h->hour_len, HEM_COOLING_BELOW_HEATING);
    setpoints(h, 20, 26, 19);
    refuses("a ventilation setpoint", h, h->head_len, temps, h->hour_len, HEM_VENTILATION_BELOW_HEATING);
    setpoints(h, 0, 1, 22); /* the rate is known, and the load has no effect */
    put_double(h->head + HEM_HEAD_AT_USEFUL_AREA, 1e-12);
    refuses("no effect", h, h->head_len, temps, h->hour_len, HEM_NO_EFFECT);
    put_double(h->hour + HEM_CONDITIONS_AT_ELEMENTS + HEM_ELEMENT_HOUR, 101);
    refuses("a value of element 2", h, h->head_len, temps, h->hour_len, HEM_CONDITIONS_VALUE);
    free(temps);
}

void test_why(void) {
    House h = house(2, 1, 1);
    windows(&h, 0.5, 0.5);
    const double at_half = free_at(&h, 0.5).operative;
    test_no_choice(&h, at_half);
    fixed(&h, 0.5);
    test_no_choice(&h, at_half);
    test_fixed(&h);
    windows(&h, 0.0, -0.0);
    test_no_choice(&h, free_at(&h, 0.0).operative);
    windows(&h, 0.5, 4);
    test_not_above_setpoint(&h);
    test_not_above_supply(&h);
    test_windows_do_not_cool(&h);
    test_windows(&h);
    test_refusals(&h);
    give_back(h);
}
