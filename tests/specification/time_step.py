"""Building element, and one time step: equations, solve, operative temperature and heat balance."""
from floats import DIVISOR, TEMPERATURE, Refused, divided, plain_sum, sum2, valid_divisor, within_state_bound
from records import CONDITIONED, GROUND, OPAQUE, PARTY_WALL, TRANSPARENT, UNCONDITIONED, node_count_of

# Specification, Constants and capacity
F_INT_C, F_SOL_C, K_M_INT = 0.4, 0.1, 10000.0


def capacity(zone):
    return K_M_INT * zone.useful_area


# Specification, Node order
def by_element(zone, temps):
    """The temperatures of each element's nodes, from its outer surface on, and the air's."""
    place, nodes = 0, []
    for e in zone.elements[:zone.count]:
        nodes.append(temps[place:place + node_count_of(e.kind)])
        place += node_count_of(e.kind)
    return nodes, temps[place]


# Specification, Window treatments and h_pli
def conductances(e, open_byte):
    if e.kind != TRANSPARENT:
        return e.h_pli
    r = divided(1.0, e.h_pli[0])
    for j in range(e.treatments):
        if not (open_byte >> j) & 1:
            r = r + e.delta_r[j]
    return [divided(1.0, r)]


# Specification, Direction of heat flow and h_ci
HORIZONTAL, UPWARDS, DOWNWARDS = range(3)
H_CI = {HORIZONTAL: 2.5, UPWARDS: 5.0, DOWNWARDS: 0.7}


def direction(e, air, surface):
    if 60 <= e.pitch <= 120:
        return HORIZONTAL
    if e.pitch < 60:
        return DOWNWARDS if air < surface else UPWARDS
    return UPWARDS if air < surface else DOWNWARDS


# Specification, Ventilation coefficient
def ventilation_coefficient(zone, ach):
    q_ve = ach * zone.volume / 3600
    return 0.001204 * 1000 * 1006 * q_ve


def sun_on(part):
    return part.i_sol_dif * part.f_sh_dif + part.i_sol_dir * part.f_sh_dir


class Chain:
    """The rows of one element's nodes."""

    def __init__(self, zone, i, c, T, h_ci, share, delta_t, gains_per_area):
        e, part = zone.elements[i], c.parts[i]
        h, m, k = conductances(e, part.open), node_count_of(e.kind) - 1, e.k_pli
        self.diag, self.next, self.prev, self.b = ([0.0] * (m + 1) for _ in range(4))
        # Specification, Outer surface, equation (41)
        self.diag[0] = k[0] / delta_t + e.h_ce + e.h_re + h[0]
        self.next[0] = -h[0]
        self.b[0] = k[0] / delta_t * T[0] + (e.h_ce + e.h_re) * part.temp_ext + e.solar_absorption_coeff * sun_on(part) - e.therm_rad_to_sky
        # Specification, Inside node, equation (40)
        for j in range(1, m):
            self.prev[j] = -h[j - 1]
            self.diag[j] = k[j] / delta_t + h[j] + h[j - 1]
            self.next[j] = -h[j]
            self.b[j] = k[j] / delta_t * T[j]
        # Specification, Inner surface, equation (39): what stands in the chain
        self.prev[m] = -h[m - 1]
        self.diag[m] = k[m] / delta_t + h_ci + e.h_ri * 1.0 + h[m - 1] - share * e.h_ri
        self.b[m] = k[m] / delta_t * T[m] + gains_per_area

    # Specification, Elimination of the chains
    def eliminate(self):
        """Whether all divisors were valid."""
        good = True
        for s in range(len(self.diag) - 1):
            good = valid_divisor(self.diag[s]) and good
            self.diag[s + 1] = self.diag[s + 1] - divided(self.next[s] * self.prev[s + 1], self.diag[s])
            self.b[s + 1] = self.b[s + 1] - divided(self.b[s] * self.prev[s + 1], self.diag[s])
        return good

    # Specification, Back substitution
    def temperatures(self, surface):
        T = [0.0] * len(self.diag)
        T[-1] = surface
        for s in range(len(T) - 2, -1, -1):
            T[s] = divided(self.b[s] - self.next[s] * T[s + 1], self.diag[s])
        return T


# Specification, Dense solve
def eliminate(D, v):
    w = len(D)
    for k in range(w):
        q = k
        for i in range(k + 1, w):
            if abs(D[q][k]) < abs(D[i][k]):
                q = i
        D[k], D[q] = D[q], D[k]
        v[k], v[q] = v[q], v[k]
        pivot_row, reciprocal = D[k], divided(1.0, D[k][k])
        for row in D[k + 1:]:
            factor = row[k] * reciprocal
            row[k] = factor
            for j in range(k + 1, w):
                row[j] = row[j] + -pivot_row[j] * factor


def substitute(D, v):
    w = len(D)
    for k in range(w):
        for i in range(k + 1, w):
            v[i] = v[i] - D[i][k] * v[k]
    for k in range(w - 1, -1, -1):
        v[k] = divided(v[k], D[k][k])
        for i in range(k):
            v[i] = v[i] - D[i][k] * v[k]


# Specification, What a step is given; Specification, Which coefficients are kept
def time_step(zone, temps, c, delta_t, gains_heat_cool, f_hc_c, ach):
    T, air = by_element(zone, temps)
    n, elements = zone.count, zone.elements[:zone.count]
    total_area = sum2([e.area for e in elements])
    share = [divided(e.area, total_area) for e in elements]
    h_ci = [H_CI[direction(e, air, T[i][-1])] for i, e in enumerate(elements)]
    gains_per_area = divided((1.0 - F_INT_C) * c.gains_internal + (1.0 - F_SOL_C) * c.gains_solar + (1.0 - f_hc_c) * gains_heat_cool, total_area)
    chains = [Chain(zone, i, c, T[i], h_ci[i], share[i], delta_t, gains_per_area) for i in range(n)]
    good = all([chain.eliminate() for chain in chains])
    # Specification, Inner surface, equation (39): what couples it with the others
    D = [[0.0 - share[k] * e.h_ri for k in range(n)] + [-h_ci[i]] for i, e in enumerate(elements)]
    for i, chain in enumerate(chains):
        D[i][i] = chain.diag[-1]
    v = [chain.b[-1] for chain in chains]
    # Specification, Zone, equation (38)
    h_ve, c_int, bridges = ventilation_coefficient(zone, ach), capacity(zone), zone.tb_heat_trans_coeff
    D.append([-e.area * h_ci[i] for i, e in enumerate(elements)]
             + [c_int / delta_t + sum2([e.area * h_ci[i] for i, e in enumerate(elements)]) + h_ve + bridges])
    v.append(c_int / delta_t * air + h_ve * c.avg_air_supply_temp + bridges * c.temp_ext_air + F_INT_C * c.gains_internal + F_SOL_C * c.gains_solar
             + f_hc_c * gains_heat_cool)
    eliminate(D, v)
    # Specification, Refusals of a solve
    if not good or not all(valid_divisor(D[k][k]) for k in range(n + 1)):
        raise Refused(DIVISOR)
    substitute(D, v)
    after = [t for i, chain in enumerate(chains) for t in chain.temperatures(v[i])] + [v[n]]
    if not all(within_state_bound(t) for t in after):
        raise Refused(TEMPERATURE)
    return after


# Specification, Operative temperature
def operative(zone, temps):
    T, air = by_element(zone, temps)
    elements = zone.elements[:zone.count]
    return (air + sum2([e.area * T[i][-1] for i, e in enumerate(elements)]) / sum2([e.area for e in elements])) / 2


# Specification, Heat balance
def heat_balance(zone, before, after, c, delta_t, gains_heat_cool, f_hc_c, ach):
    T, air = by_element(zone, before)
    T_after, air_after = by_element(zone, after)
    elements = list(enumerate(zone.elements[:zone.count]))
    bridges = zone.tb_heat_trans_coeff * (air_after - c.temp_ext_air)
    ventilation = ventilation_coefficient(zone, ach) * (air_after - c.avg_air_supply_temp)
    at = [F_SOL_C * c.gains_solar, F_INT_C * c.gains_internal, f_hc_c * gains_heat_cool, -(capacity(zone) / delta_t) * (air_after - air), -bridges, -ventilation]
    at.append(-((((at[0] + at[1]) + at[2]) + at[3]) - (bridges + ventilation)))
    directions = [direction(e, air, T[i][-1]) for i, e in elements]
    terms = [e.area * (H_CI[directions[i]] * (air_after - T_after[i][-1])) for i, e in elements]
    at += [plain_sum(terms), (1.0 - F_SOL_C) * c.gains_solar, (1.0 - F_INT_C) * c.gains_internal, (1.0 - f_hc_c) * gains_heat_cool]
    at += [plain_sum(term for term, d in zip(terms, directions) if d == wanted) for wanted in (HORIZONTAL, UPWARDS, DOWNWARDS)]
    at += [c.gains_solar, c.gains_internal, gains_heat_cool, at[4], at[5]]
    outside = [c.parts[i].temp_ext - T_after[i][0] for i, _ in elements]
    sun = [sun_on(part) for part in c.parts]
    at.append(plain_sum(e.area * e.h_ce * outside[i] for i, e in elements))
    at.append(plain_sum(e.area * e.h_re * outside[i] for i, e in elements))
    at.append(plain_sum(e.area * e.solar_absorption_coeff * sun[i] for i, e in elements))
    at.append(plain_sum(e.area * -e.therm_rad_to_sky for _, e in elements))
    X = [e.area * (e.h_ce * outside[i]) + e.area * e.h_re * outside[i] + e.area * e.solar_absorption_coeff * sun[i] + e.area * -e.therm_rad_to_sky
         for i, e in elements]
    for kinds in ((OPAQUE,), (TRANSPARENT,), (GROUND,), (CONDITIONED,), (UNCONDITIONED, PARTY_WALL)):
        at.append(plain_sum(X[i] for i, e in elements if e.kind in kinds))
    return at
