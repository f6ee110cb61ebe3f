/* For limit.c: the equations of an hour (BS EN ISO 52016-1, 6.5.6), factored once, and the temperatures of each rate
 * and load. */
#include <math.h>

#include "limit_read.h"

enum { ROWS = MOST + 1 };

/* In which direction heat flows at an inner surface. */
enum direction { HORIZONTAL, UPWARDS, DOWNWARDS };

/* The equations of an hour. Neighbouring nodes are coupled by -h_pli either way; that sign is taken into the sums
   below, which changes no bit. `dense` has the equations of the inner surfaces and of the air by columns, but for the
   air's own column, in which alone the rate is. */
struct system {
    double area_el_total, convective, c_int_per_delta_t;
    enum direction direction[MOST];
    double h_ci[MOST], diag[NODES][MOST], b[NODES][MOST];
    double inner[MOST]; /* what the last step of each chain adds to the inner surface's right side */
    double dense[MOST][ROWS];
    size_t interchanges[MOST];
};

struct hour {
    struct zone z;
    struct conditions c;
    struct temps before;
    struct system s;
};

/* An air change rate, its heat transfer coefficient, and the air's column for it, factored. */
struct rate {
    double ach, h_ve, last[ROWS];
};

/* Of a calculation's temperatures, what the choice of a rate looks at. */
struct zone_temperatures {
    double temp_control, temp_int_air;
};

/* ---- sums and closeness ---- */

/* A compensated sum: what each addition rounds away is added up apart. */
struct sum2 {
    double s, c;
};

static struct sum2 sum2_add(struct sum2 a, double t) {
    const double u = a.s + t, z = u - a.s;
    return (struct sum2){u, a.c + ((a.s - (u - z)) + (t - z))};
}

static int relative_eq(double a, double b, double epsilon, double max_relative) {
    if (a == b) return 1;
    if (!isfinite(a) || !isfinite(b)) return 0;
    const double difference = fabs(a - b);
    return difference <= epsilon || difference <= max_relative * (fabs(a) < fabs(b) ? fabs(b) : fabs(a));
}

static int close_in_demand(double a, double b) { return relative_eq(a, b, 1e-10, 1e-9); }
static int close_in_windows_test(double a, double b) { return relative_eq(a, b, 1e-8, 1e-10); }
static int valid_divisor(double x) { return (x != 0.0) & (fabs(x) < INFINITY); }

/* ---- the system of an hour ---- */

static enum direction direction_of(double pitch, double temp_int_air, double temp_int_surface) {
    if (60.0 <= pitch && pitch <= 120.0) return HORIZONTAL;
    const int inwards = temp_int_air < temp_int_surface;
    return ((120.0 < pitch) & inwards) | ((pitch < 60.0) & !inwards) ? UPWARDS : DOWNWARDS;
}

/* The coefficient of each direction: BS EN ISO 13789, Table 8. */
static const double h_ci_of[3] = {[HORIZONTAL] = 2.5, [UPWARDS] = 5.0, [DOWNWARDS] = 0.7};

static void sum_surfaces(struct hour *h) {
    struct sum2 area = {0.0, 0.0}, convective = {0.0, 0.0};
    for (size_t e = 0; e < h->z.n; e++) {
        h->s.direction[e] = direction_of(h->z.el.pitch[e], h->before.air, h->before.node[INNER][e]);
        h->s.h_ci[e] = h_ci_of[h->s.direction[e]];
        area = sum2_add(area, h->z.el.area[e]);
        convective = sum2_add(convective, h->z.el.area[e] * h->s.h_ci[e]);
    }
    h->s.area_el_total = area.s + area.c;
    h->s.convective = convective.s + convective.c;
}

static double i_sol(const struct conditions *c, size_t e) {
    return c->el.i_sol_dif[e] * c->el.f_sh_dif[e] + c->el.i_sol_dir[e] * c->el.f_sh_dir[e];
}

/* The nodes' own coefficients and their right sides without the gains: BS EN ISO 52016-1, (39) to (41). */
static void assemble_chains(struct hour *h, double delta_t, const double *share) {
    const struct zone *z = &h->z;
    const struct temps *before = &h->before;
    const double(*k_pli)[MOST] = z->el.k_pli, (*h_pli)[MOST] = z->el.h_pli, (*t)[MOST] = before->node;
    const double *h_ce = z->el.h_ce, *h_re = z->el.h_re, *h_ri = z->el.h_ri;
    struct system *s = &h->s;
    const size_t n = z->n;
    for (size_t e = 0; e < n; e++) {
        const double k = k_pli[0][e] / delta_t;
        s->diag[0][e] = k + h_ce[e] + h_re[e] + h_pli[0][e];
        s->b[0][e] = k * t[0][e] + (h_ce[e] + h_re[e]) * h->c.el.temp_ext[e] +
                     z->el.solar_absorption_coeff[e] * i_sol(&h->c, e) - z->el.therm_rad_to_sky[e];
    }
    for (size_t j = 1; j < INNER; j++)
        for (size_t e = 0; e < n; e++) {
            const double k = k_pli[j][e] / delta_t;
            s->diag[j][e] = k + h_pli[j][e] + h_pli[j - 1][e];
            s->b[j][e] = k * t[j][e];
        }
    for (size_t e = 0; e < n; e++) {
        const double k = k_pli[INNER][e] / delta_t;
        s->diag[INNER][e] = k + s->h_ci[e] + h_ri[e] + h_pli[INNER - 1][e] - share[e] * h_ri[e];
        s->b[INNER][e] = k * t[INNER][e];
    }
}

static void assemble(struct hour *h) {
    const double delta_t = h->c.front.delta_t_h * 3600.0, *area = h->z.el.area;
    const size_t n = h->z.n;
    double share[MOST];
    sum_surfaces(h);
    h->s.c_int_per_delta_t = 10000.0 * h->z.front.useful_area / delta_t;
    for (size_t e = 0; e < n; e++) share[e] = area[e] / h->s.area_el_total;
    assemble_chains(h, delta_t, share);
    for (size_t k = 0; k < n; k++) {
        for (size_t i = 0; i < n; i++) h->s.dense[k][i] = 0.0 - share[k] * h->z.el.h_ri[i];
        h->s.dense[k][n] = -area[k] * h->s.h_ci[k];
    }
}

/* Each element's nodes are eliminated from the outer surface on. (The test has a loop of its own here and below, since
   with it a loop would not take two at once.) */
static int eliminate_chains(const struct zone *z, struct system *s) {
    const double(*h_pli)[MOST] = z->el.h_pli;
    const size_t n = z->n;
    int valid = 1;
    for (size_t j = 0; j < INNER; j++)
        for (size_t e = 0; e < n; e++)
            s->diag[j + 1][e] = s->diag[j + 1][e] - h_pli[j][e] * h_pli[j][e] / s->diag[j][e];
    for (size_t j = 0; j < INNER; j++)
        for (size_t e = 0; e < n; e++) valid &= valid_divisor(s->diag[j][e]);
    for (size_t e = 0; e < n; e++) s->dense[e][e] = s->diag[INNER][e];
    return valid;
}

/* The same on the right sides, but for the last step: before it, each load's gains are added to the inner surface. */
static void reduce_right_sides(const struct zone *z, struct system *s) {
    const double(*h_pli)[MOST] = z->el.h_pli;
    const size_t n = z->n;
    for (size_t j = 0; j + 1 < INNER; j++)
        for (size_t e = 0; e < n; e++) s->b[j + 1][e] = s->b[j + 1][e] + s->b[j][e] * h_pli[j][e] / s->diag[j][e];
    for (size_t e = 0; e < n; e++) s->inner[e] = s->b[INNER - 1][e] * h_pli[INNER - 1][e] / s->diag[INNER - 1][e];
}

static size_t pivot_row(const double *column, size_t k, size_t n) {
    size_t found = k;
    double largest = fabs(column[k]);
    for (size_t i = k + 1; i <= n; i++) {
        const double x = fabs(column[i]);
        if (largest < x) {
            found = i;
            largest = x;
        }
    }
    return found;
}

/* The columns of the inner surfaces, once an hour. */
static int factor_columns(struct system *s, size_t n) {
    int valid = 1;
    for (size_t k = 0; k < n; k++) {
        double *column = s->dense[k], factor[ROWS];
        const size_t q = s->interchanges[k] = pivot_row(column, k, n);
        for (size_t j = 0; q != k && j < n; j++) {
            const double x = s->dense[j][k];
            s->dense[j][k] = s->dense[j][q];
            s->dense[j][q] = x;
        }
        const double reciprocal = 1.0 / column[k];
        valid &= valid_divisor(column[k]);
        for (size_t i = k + 1; i <= n; i++) factor[i] = column[i] = column[i] * reciprocal;
        for (size_t j = k + 1; j < n; j++) {
            const double pivot = s->dense[j][k];
            for (size_t i = k + 1; i <= n; i++) s->dense[j][i] = s->dense[j][i] - pivot * factor[i];
        }
    }
    return valid;
}

/* ---- a rate, a load ---- */

/* The factorisation's exchanges and eliminations, made on the air's column or on a right side. */
static void forward(const struct system *s, size_t n, double *restrict v) {
    for (size_t k = 0; k < n; k++) {
        const double x = v[k];
        v[k] = v[s->interchanges[k]];
        v[s->interchanges[k]] = x;
    }
    for (size_t k = 0; k < n; k++) {
        const double x = v[k], *column = s->dense[k];
        for (size_t i = k + 1; i <= n; i++) v[i] = v[i] - column[i] * x;
    }
}

static void backward(const struct system *s, const struct rate *r, size_t n, double *restrict v) {
    const double air = v[n] / r->last[n];
    v[n] = air;
    for (size_t i = 0; i < n; i++) v[i] = v[i] - r->last[i] * air;
    for (size_t k = n; k-- > 0;) {
        const double *column = s->dense[k], x = v[k] / column[k];
        v[k] = x;
        if (k == 0) return;
        v[k - 1] = v[k - 1] - column[k - 1] * x; /* the next unknown waits for this */
        for (size_t i = 0; i + 1 < k; i++) v[i] = v[i] - column[i] * x;
    }
}

static uint32_t factor_rate(const struct hour *h, double ach, struct rate *r) {
    const size_t n = h->z.n;
    r->ach = ach;
    r->h_ve = 0.001204 * 1000.0 * 1006.0 * (ach * h->z.front.volume / 3600.0);
    for (size_t e = 0; e < n; e++) r->last[e] = -h->s.h_ci[e];
    r->last[n] = h->s.c_int_per_delta_t + h->s.convective + r->h_ve + h->z.front.tb_heat_trans_coeff;
    forward(&h->s, n, r->last);
    return valid_divisor(r->last[n]) ? 0 : HEM_DIVISOR;
}

/* The right side of the zone's own equation, (38). */
static double zone_right_side(const struct hour *h, double h_ve, double gains, double fraction) {
    return h->s.c_int_per_delta_t * h->before.air + h_ve * h->c.front.avg_air_supply_temp +
           h->z.front.tb_heat_trans_coeff * h->c.front.temp_ext_air + 0.4 * h->c.front.gains_internal +
           0.1 * h->c.front.gains_solar + fraction * gains;
}

static uint32_t solve_load(const struct hour *h, const struct rate *r, double gains, double fraction, struct temps *t) {
    const struct system *s = &h->s;
    const size_t n = h->z.n;
    const double radiant =
        (1.0 - 0.4) * h->c.front.gains_internal + (1.0 - 0.1) * h->c.front.gains_solar + (1.0 - fraction) * gains;
    const double gains_per_area = radiant / s->area_el_total;
    double v[ROWS];
    for (size_t e = 0; e < n; e++) v[e] = (s->b[INNER][e] + gains_per_area) + s->inner[e];
    v[n] = zone_right_side(h, r->h_ve, gains, fraction);
    forward(s, n, v);
    backward(s, r, n, v);
    t->air = v[n];
    memcpy(t->node[INNER], v, n * sizeof *v);
    for (size_t j = INNER; j-- > 0;)
        for (size_t e = 0; e < n; e++)
            t->node[j][e] = (s->b[j][e] + h->z.el.h_pli[j][e] * t->node[j + 1][e]) / s->diag[j][e];
    int valid = within_state_bound(t->air);
    for (size_t j = 0; j < NODES; j++)
        for (size_t e = 0; e < n; e++) valid &= within_state_bound(t->node[j][e]);
    return valid ? 0 : HEM_TEMPERATURE;
}

/* The temperature that the setpoints are held against. */
static double control_temperature(const struct hour *h, const struct temps *t) {
    struct sum2 radiant = {0.0, 0.0};
    if (!h->z.operative) return t->air;
    for (size_t e = 0; e < h->z.n; e++) radiant = sum2_add(radiant, h->z.el.area[e] * t->node[INNER][e]);
    return (t->air + (radiant.s + radiant.c) / h->s.area_el_total) / 2.0;
}

static double gains_heat_cool(const struct conditions *c) {
    return c->front.gains_heat_cool_convective + c->front.gains_heat_cool_radiative;
}

static double frac_conv_gains_heat_cool(const struct conditions *c) {
    const double gains = gains_heat_cool(c);
    return close_in_demand(gains, 0.0) ? 0.0 : c->front.gains_heat_cool_convective / gains;
}

static uint32_t free_temperatures(const struct hour *h, double ach, struct rate *r, struct zone_temperatures *free) {
    struct temps t;
    uint32_t number = factor_rate(h, ach, r);
    if (number == 0) number = solve_load(h, r, gains_heat_cool(&h->c), frac_conv_gains_heat_cool(&h->c), &t);
    if (number == 0) *free = (struct zone_temperatures){control_temperature(h, &t), t.air};
    return number;
}
