/* The limit of an hour step, written by hand in C for the purpose: every number is found by the engine's operations in
 * the engine's order, and once only. It shows how much of the engine's time the result does not need.
 *     limit RATE REPETITIONS < what `bench/run bytes ELEMENTS RATE` writes
 * The year is first run by both, and every temperature, demand, rate and heat balance must have the same bits. Then
 *     limit 24 one-rate 4951
 * is printed: nanoseconds for an hour step, the least of the repetitions. As in the engine, each step reads and tests
 * the bytes of head and hour. Hours have entry version 1. All elements have five nodes, as in the houses of
 * src/houses.rs; a Transparent is refused. Compiled with -ffp-contract=off: a fused multiplication would round once
 * where the engine rounds twice. */
#define _POSIX_C_SOURCE 199309L
#include <time.h>

#include "limit_system.h"
#include "year.h"

/* ---- the choice of a rate, the demand ---- */

/* The rate that brings the control temperature to `target`, from the temperatures at the least and the most rate. */
static double ach_to_reach(const struct conditions *c, double target, struct zone_temperatures min,
                           struct zone_temperatures max) {
    const double supply = c->front.avg_air_supply_temp, ach_min = c->ach_target, ach_max = c->ach_windows_open;
    if (min.temp_control <= max.temp_control || min.temp_int_air <= max.temp_int_air || min.temp_int_air <= supply)
        return ach_min;
    const double frac_interp = (target - min.temp_control) / (max.temp_control - min.temp_control);
    const double temp_int_air = min.temp_int_air + frac_interp * (max.temp_int_air - min.temp_int_air);
    if (temp_int_air <= supply) return ach_max;
    double ach = (ach_max * frac_interp * ((max.temp_int_air - supply) / (min.temp_int_air - supply)) +
                  ach_min * (1.0 - frac_interp)) /
                 ((temp_int_air - supply) / (min.temp_int_air - supply));
    if (ach != ach || ach < ach_min) ach = ach_min;
    return ach_max < ach ? ach_max : ach;
}

/* Where windows can be opened: the rate that triggers heating, and windows opened as far as cooling needs. */
static uint32_t cool_by_windows(const struct hour *h, struct rate *r, struct zone_temperatures *free, double *out) {
    const struct conditions *c = &h->c;
    struct rate open;
    struct zone_temperatures vent_max, extra;
    uint32_t number = free_temperatures(h, c->ach_windows_open, &open, &vent_max);
    if (number != 0) return number;
    out[HEM_OUT_TRIGGER] = 1.0;
    out[HEM_OUT_TRIGGER_RATE] = ach_to_reach(c, c->front.temp_setpnt_heat, *free, vent_max);
    if (!(vent_max.temp_control < free->temp_control && c->front.temp_setpnt_cool_vent < free->temp_control &&
          c->front.avg_air_supply_temp < free->temp_int_air))
        return 0;
    number = free_temperatures(h, ach_to_reach(c, c->front.temp_setpnt_cool_vent, *free, vent_max), &open, &extra);
    if (number != 0) return number;
    /* Where it is too warm even so, the cooling system is used at the target rate. */
    if (c->front.temp_setpnt_cool < extra.temp_control &&
        !close_in_windows_test(extra.temp_control, c->front.temp_setpnt_cool))
        return 0;
    *r = open;
    *free = extra;
    return 0;
}

/* In kWh, by interpolation between the free temperature and that with a load of ten watts for each square metre. */
static uint32_t demand(const struct hour *h, const struct rate *r, double temp_free, double *kwh) {
    const struct conditions *c = &h->c;
    const int close = close_in_demand(temp_free, c->front.temp_setpnt_cool);
    const int cooling = c->front.temp_setpnt_cool < temp_free && !close;
    const int heating = temp_free < c->front.temp_setpnt_heat && !close;
    if (!cooling && !heating) return 0;
    const double setpoint = cooling ? c->front.temp_setpnt_cool : c->front.temp_setpnt_heat;
    const double load = (cooling ? -10.0 : 10.0) * h->z.front.useful_area;
    const double fraction = cooling ? c->front.frac_convective_cool : c->front.frac_convective_heat;
    const double gains = gains_heat_cool(c), frac_conv = frac_conv_gains_heat_cool(c);
    struct temps t;
    const uint32_t number = solve_load(h, r, gains + load, (gains * frac_conv + load * fraction) / (gains + load), &t);
    if (number != 0) return number;
    const double temp_upper = control_temperature(h, &t);
    if (close_in_demand(temp_upper - temp_free, 0.0)) return HEM_NO_EFFECT;
    if (!close_in_demand(setpoint, temp_free))
        *kwh = load * (setpoint - temp_free) / (temp_upper - temp_free) / 1000.0 * c->front.delta_t_h;
    return 0;
}

/* ---- the heat balance ---- */

static void add_element(const struct hour *h, const struct temps *t, size_t e, double *balance) {
    static const int by_direction[3] = {[HORIZONTAL] = HEM_INT_FABRIC_INT_AIR_CONVECTIVE_HORIZONTAL,
                                        [UPWARDS] = HEM_INT_FABRIC_INT_AIR_CONVECTIVE_UPWARDS,
                                        [DOWNWARDS] = HEM_INT_FABRIC_INT_AIR_CONVECTIVE_DOWNWARDS};
    static const int by_kind[6] = {HEM_EXT_OPAQUE_FABRIC_EXT, HEM_EXT_ZTC_FABRIC_EXT,         HEM_EXT_ZTU_FABRIC_EXT,
                                   HEM_EXT_GROUND_FABRIC_EXT, HEM_EXT_TRANSPARENT_FABRIC_EXT, HEM_EXT_ZTU_FABRIC_EXT};
    const double area = h->z.el.area[e], h_ce = h->z.el.h_ce[e], difference = h->c.el.temp_ext[e] - t->node[0][e];
    const double radiative = area * h->z.el.h_re[e] * difference, sky = area * -h->z.el.therm_rad_to_sky[e];
    const double sol = area * h->z.el.solar_absorption_coeff[e] * i_sol(&h->c, e);
    const double convective = area * (h->s.h_ci[e] * (t->air - t->node[INNER][e]));
    balance[HEM_INT_FABRIC_INT_AIR_CONVECTIVE] += convective;
    balance[by_direction[h->s.direction[e]]] += convective;
    balance[HEM_EXT_FABRIC_EXT_AIR_CONVECTIVE] += area * h_ce * difference;
    balance[HEM_EXT_FABRIC_EXT_AIR_RADIATIVE] += radiative;
    balance[HEM_EXT_FABRIC_EXT_SOL] += sol;
    balance[HEM_EXT_FABRIC_EXT_SKY] += sky;
    balance[by_kind[h->z.kind[e]]] += area * (h_ce * difference) + radiative + sol + sky;
}

static void heat_balance(const struct hour *h, double h_ve, double gains, double fraction, const struct temps *t,
                         double *balance) {
    const double gains_solar = h->c.front.gains_solar, gains_internal = h->c.front.gains_internal;
    const double solar = 0.1 * gains_solar, internal = 0.4 * gains_internal, system = fraction * gains;
    const double change = -h->s.c_int_per_delta_t * (t->air - h->before.air);
    const double bridges = h->z.front.tb_heat_trans_coeff * (t->air - h->c.front.temp_ext_air);
    const double ventilation = h_ve * (t->air - h->c.front.avg_air_supply_temp);
    const double fabric = (solar + internal + system + change) - (bridges + ventilation);
    const double front[19] = {
        solar, internal, system, change, -bridges, -ventilation, -fabric,                                /* air node */
        0.0, (1.0 - 0.1) * gains_solar, (1.0 - 0.4) * gains_internal, (1.0 - fraction) * gains,          /* internal */
        0.0, 0.0, 0.0, /* internal, by direction of heat flow */
        gains_solar, gains_internal, gains, -bridges, -ventilation};                                     /* external */
    memset(balance, 0, HEM_BALANCE * sizeof *balance);
    memcpy(balance, front, sizeof front);
    for (size_t e = 0; e < h->z.n; e++) add_element(h, t, e, balance);
}

/* ---- the step ---- */

static uint32_t prepare(struct hour *h) {
    if (h->c.front.temp_setpnt_cool < h->c.front.temp_setpnt_heat) return HEM_COOLING_BELOW_HEATING;
    if (h->c.front.temp_setpnt_cool_vent < h->c.front.temp_setpnt_heat) return HEM_VENTILATION_BELOW_HEATING;
    assemble(h);
    int valid = eliminate_chains(&h->z, &h->s);
    valid &= factor_columns(&h->s, h->z.n);
    reduce_right_sides(&h->z, &h->s);
    return valid ? 0 : HEM_DIVISOR;
}

/* The demand and the rate to `out`; then the temperatures with the demand met, and their balance. */
static uint32_t calculate(struct hour *h, struct temps *after, double *out, double *balance) {
    const struct conditions *c = &h->c;
    struct rate r;
    struct zone_temperatures free;
    double kwh = 0.0;
    uint32_t number = prepare(h);
    if (number == 0) number = free_temperatures(h, c->ach_target, &r, &free);
    out[HEM_OUT_TRIGGER] = out[HEM_OUT_TRIGGER_RATE] = 0.0;
    if (number == 0 && c->ach_windows_open != c->ach_target) number = cool_by_windows(h, &r, &free, out);
    if (number == 0) number = demand(h, &r, free.temp_control, &kwh);
    if (number != 0) return number;
    out[HEM_OUT_HEATING] = 0.0 < kwh ? kwh : 0.0;
    out[HEM_OUT_COOLING] = kwh < 0.0 ? kwh : 0.0;
    out[HEM_OUT_RATE] = r.ach;
    const double delivered = (out[HEM_OUT_HEATING] + out[HEM_OUT_COOLING]) * 1000.0 / c->front.delta_t_h;
    const double gains = gains_heat_cool(c) + delivered;
    const double convective = c->front.gains_heat_cool_convective + delivered * c->front.frac_convective_heat;
    const double fraction = close_in_demand(gains, 0.0) ? 0.0 : convective / gains;
    number = solve_load(h, &r, gains, fraction, after);
    if (number == 0) heat_balance(h, r.h_ve, gains, fraction, after, balance);
    return number;
}

/* Called as hem_hour_step is; of the versions it has only the first, which looks at no limits. */
static uint32_t hour_step(const uint8_t *head, size_t head_len, double *temps, uint64_t nodes,
                          const uint8_t *conditions, size_t conditions_len, uint64_t version, double heating_limit,
                          double cooling_limit, double *out, double *balance) {
    (void)heating_limit, (void)cooling_limit;
    struct hour h;
    struct temps after;
    uint32_t number = read_head(head, head_len, &h.z);
    if (number == 0 && version != VERSION) number = HEM_FALSE_ENTRY;
    if (number == 0) number = read_state(temps, nodes, h.z.n, &h.before);
    if (number == 0) number = read_conditions(conditions, conditions_len, h.z.n, &h.c);
    if (number == 0) number = calculate(&h, &after, out, balance);
    if (number == 0) write_state(&after, h.z.n, temps);
    return number;
}

/* ---- comparison and time ---- */

typedef uint32_t step(const uint8_t *, size_t, double *, uint64_t, const uint8_t *, size_t, uint64_t, double, double,
                      double *, double *);

/* The compiler cannot know where it leads, and so leaves out nothing of a step whose results are not looked at. */
static step *volatile model_step = hour_step;

struct results {
    double temps[HEM_TEMPS], out[HEM_OUT], balance[HEM_BALANCE];
};

static void run(step *step, const struct year *y, size_t hour, uint64_t nodes, struct results *r) {
    accepted(step(y->head, y->head_len, r->temps, nodes, hour_of(y, hour), y->hour_len, VERSION, UNUSED_LIMIT,
                  UNUSED_LIMIT, r->out, r->balance));
}

static void compare(const struct year *y, struct results start, uint64_t nodes, const char *rate) {
    struct results model = start, engine = start;
    for (size_t hour = 0; hour < HOURS; hour++) {
        run(model_step, y, hour, nodes, &model);
        run(hem_hour_step, y, hour, nodes, &engine);
        if (memcmp(&model, &engine, sizeof model) == 0) continue;
        const int temps = memcmp(model.temps, engine.temps, sizeof model.temps) != 0;
        fprintf(stderr, "limit %zu %s: in hour %zu (from 0) the engine's %s has other bits\n", y->elements, rate, hour,
                temps ? "temperature" : "demand, rate or balance");
        exit(1);
    }
}

static double nanoseconds(void) {
    struct timespec t;
    clock_gettime(CLOCK_MONOTONIC, &t);
    return 1e9 * (double)t.tv_sec + (double)t.tv_nsec;
}

int main(int count, char **words) {
    const int repetitions = count == 3 ? atoi(words[2]) : 0;
    if (repetitions < 1) return 2;
    const struct year y = read_year();
    struct results start = {{0.0}, {0.0}, {0.0}};
    uint64_t nodes = 0;
    double least = INFINITY;
    accepted(hem_start_up(y.head, y.head_len, start.temps, &nodes));
    compare(&y, start, nodes, words[1]);
    for (int i = 0; i < repetitions; i++) {
        struct results r = start;
        const double begun = nanoseconds();
        for (size_t hour = 0; hour < HOURS; hour++) run(model_step, &y, hour, nodes, &r);
        const double taken = nanoseconds() - begun;
        if (taken < least) least = taken;
    }
    printf("limit %zu %s %.0f\n", y.elements, words[1], least / HOURS);
    return 0;
}
