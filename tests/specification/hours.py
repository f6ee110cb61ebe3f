"""Demand, start-up, update, hour step, and why an hour has its rate and its load. Each call tests in the order of Specification, Order of tests."""
from floats import (CONDITIONS_VALUE, COOLING_BELOW_HEATING, FALSE_ENTRY, LIMIT_VALUE, NOT_SETTLED, NO_EFFECT, STATE_INVALID, VENTILATION_BELOW_HEATING,
                    Refused, close_in_demand, close_in_windows_test, divided, isclose, within_state_bound)
from records import Conditions, fractions, gains, limits, node_count, rates, read_conditions, zone_test
from time_step import heat_balance, operative, time_step

NO_CHOICE, NOT_ABOVE_VENTILATION_SETPOINT, NOT_ABOVE_SUPPLY, WINDOWS_DO_NOT_COOL, STILL_ABOVE_COOLING_SETPOINT, WINDOWS_ENOUGH = range(1, 7)
NEITHER, HEATING, COOLING = range(3)
LIMITS_VERSION = 3


class Demand:
    """What a demand answers, and the reason and the load beside it."""


# Specification, Control temperature
def control(zone, temps):
    return temps[-1] if zone.basis == 0 else operative(zone, temps)


# Specification, Gains that are there already
def share_or_zero(part, whole):
    return 0.0 if close_in_demand(whole, 0.0) else divided(part, whole)


# Specification, Rate that reaches a temperature
def ach_req_to_reach_temperature(temp_target, ach_min, ach_max, temp_ach_min, temp_ach_max, temp_int_air_min, temp_int_air_max, supply):
    if temp_ach_max >= temp_ach_min or temp_int_air_max >= temp_int_air_min or supply >= temp_int_air_min:
        return ach_min
    frac_interp = divided(temp_target - temp_ach_min, temp_ach_max - temp_ach_min)
    temp_int_air_req = temp_int_air_min + frac_interp * (temp_int_air_max - temp_int_air_min)
    if temp_int_air_req <= supply:
        return ach_max
    ach = divided(ach_max * frac_interp * divided(temp_int_air_max - supply, temp_int_air_min - supply) + ach_min * (1.0 - frac_interp),
                  divided(temp_int_air_req - supply, temp_int_air_min - supply))
    if ach != ach:
        ach = ach_min
    if ach < ach_min:
        ach = ach_min
    if ach_max < ach:
        ach = ach_max
    return ach


def demand_of(zone, temps, c):
    """The demand of tested conditions, from the temperatures of all nodes."""
    # Specification, Setpoints
    if c.temp_setpnt_cool < c.temp_setpnt_heat:
        raise Refused(COOLING_BELOW_HEATING)
    if c.temp_setpnt_cool_vent < c.temp_setpnt_heat:
        raise Refused(VENTILATION_BELOW_HEATING)
    delta_t = c.delta_t_h * 3600
    there = c.gains_heat_cool_convective + c.gains_heat_cool_radiative
    frac = share_or_zero(c.gains_heat_cool_convective, there)

    # Specification, Free temperature
    def free(ach):
        return time_step(zone, temps, c, delta_t, there, frac, ach)

    d = Demand()
    d.ach, d.trigger, d.reason = c.first_rate, None, NO_CHOICE
    freely = free(d.ach)
    temp_free = control(zone, freely)
    # Specification, Windows; Specification, Why this rate, why this load
    if c.code == 1 and c.second_rate != c.first_rate:
        vent_max = free(c.second_rate)
        at_target, ventilated = temp_free, control(zone, vent_max)

        def reach(target):
            return ach_req_to_reach_temperature(target, c.first_rate, c.second_rate, at_target, ventilated, freely[-1], vent_max[-1], c.avg_air_supply_temp)

        d.trigger = reach(c.temp_setpnt_heat)
        above_setpoint, above_supply = c.temp_setpnt_cool_vent < temp_free, c.avg_air_supply_temp < freely[-1]
        if ventilated < temp_free and above_setpoint and above_supply:
            found = reach(c.temp_setpnt_cool_vent)
            temp_extra = control(zone, free(found))
            d.reason = STILL_ABOVE_COOLING_SETPOINT
            if not (c.temp_setpnt_cool < temp_extra and not close_in_windows_test(temp_extra, c.temp_setpnt_cool)):
                d.ach, temp_free, d.reason = found, temp_extra, WINDOWS_ENOUGH
        else:
            d.reason = NOT_ABOVE_VENTILATION_SETPOINT if not above_setpoint else NOT_ABOVE_SUPPLY if not above_supply else WINDOWS_DO_NOT_COOL
    # Specification, Load
    setpoint = None
    if c.temp_setpnt_cool < temp_free and not close_in_demand(temp_free, c.temp_setpnt_cool):
        setpoint, load, fraction = c.temp_setpnt_cool, -10 * zone.useful_area, c.frac_convective_cool
    elif temp_free < c.temp_setpnt_heat and not close_in_demand(temp_free, c.temp_setpnt_cool):
        setpoint, load, fraction = c.temp_setpnt_heat, 10 * zone.useful_area, c.frac_convective_heat
    # Specification, Interpolation
    kwh = 0.0
    if setpoint is not None:
        upper = there + load
        temp_upper = control(zone, time_step(zone, temps, c, delta_t, upper, divided(there * frac + load * fraction, upper), d.ach))
        if close_in_demand(temp_upper - temp_free, 0.0):
            raise Refused(NO_EFFECT)
        if not close_in_demand(setpoint, temp_free):
            kwh = divided(load * (setpoint - temp_free), temp_upper - temp_free) / 1000 * c.delta_t_h
    # Specification, What a demand answers
    d.heating, d.cooling = kwh if kwh > 0 else 0.0, kwh if kwh < 0 else 0.0
    d.load = HEATING if d.heating > 0 else COOLING if d.cooling < 0 else NEITHER
    return d


# Specification, Start-up conditions
def start_up_conditions(zone):
    c = Conditions()
    c.delta_t_h = 8760.0
    c.temp_ext_air = c.avg_air_supply_temp = zone.temp_ext_air_init
    c.gains_internal = c.gains_solar = c.gains_heat_cool_convective = c.gains_heat_cool_radiative = 0.0
    c.frac_convective_heat = c.frac_convective_cool = 0.4
    c.temp_setpnt_heat = c.temp_setpnt_cool = zone.temp_setpnt_init
    c.temp_setpnt_cool_vent = zone.temp_setpnt_cool_vent_init
    c.code, c.first_rate, c.second_rate = 0, 0.0, 0.0
    c.parts = [e.first_hour for e in zone.elements[:zone.count]]
    return c


# Specification, Passes
def start_up(zone):
    zone_test(zone)
    c = start_up_conditions(zone)
    temps = [(zone.temp_ext_air_init + zone.temp_setpnt_init) / 2] * node_count(zone)
    for _ in range(zone.start_up_limit):
        d = demand_of(zone, temps, c)
        w = (d.heating + d.cooling) * 1000 / 8760
        after = time_step(zone, temps, c, c.delta_t_h * 3600, w, 0.4, 0.0)
        if all(isclose(a, b) for a, b in zip(after, temps)):
            return temps
        temps = after
    raise Refused(NOT_SETTLED)


def state_test(zone, nodes, temps):
    if nodes != node_count(zone) or not all(within_state_bound(t) for t in temps[:nodes]):
        raise Refused(STATE_INVALID)


def operative_temperature(zone, nodes, temps):
    zone_test(zone)
    state_test(zone, nodes, temps)
    return operative(zone, temps[:nodes])


def demand(zone, nodes, temps, conditions):
    zone_test(zone)
    state_test(zone, nodes, temps)
    return demand_of(zone, temps[:nodes], read_conditions(zone, conditions, fixed_is_taken=False))


def why(zone, nodes, temps, conditions):
    zone_test(zone)
    state_test(zone, nodes, temps)
    d = demand_of(zone, temps[:nodes], read_conditions(zone, conditions, fixed_is_taken=True))
    return d.reason, d.load


# Specification, Update
def update(zone, nodes, temps, conditions, gains_heat_cool, f_hc_c, ach):
    zone_test(zone)
    state_test(zone, nodes, temps)
    c = read_conditions(zone, conditions, fixed_is_taken=False)
    if not (gains(gains_heat_cool) and fractions(f_hc_c) and rates(ach)):
        raise Refused(CONDITIONS_VALUE, 0)
    return stepped(zone, temps[:nodes], c, gains_heat_cool, f_hc_c, ach)


def stepped(zone, temps, c, gains_heat_cool, f_hc_c, ach):
    given = c, c.delta_t_h * 3600, gains_heat_cool, f_hc_c, ach
    after = time_step(zone, temps, *given)
    return after, heat_balance(zone, temps, after, *given)


# Specification, Entry versions
def known_version(version):
    return version in (1, 2, LIMITS_VERSION)


# Specification, Limits of the plant
def limited(delivered, greatest_heating, greatest_cooling):
    if greatest_heating < delivered:
        return greatest_heating
    return -greatest_cooling if delivered < -greatest_cooling else delivered


# Specification, Hour step
def hour_step(zone, nodes, temps, conditions, version, greatest_heating, greatest_cooling):
    zone_test(zone)
    if not known_version(version):
        raise Refused(FALSE_ENTRY, 0)
    return known_hour_step(zone, nodes, temps, conditions, version, greatest_heating, greatest_cooling, fixed_is_taken=False)


def known_hour_step(zone, nodes, temps, conditions, version, greatest_heating, greatest_cooling, fixed_is_taken):
    state_test(zone, nodes, temps)
    c = read_conditions(zone, conditions, fixed_is_taken)
    if version == LIMITS_VERSION and not limits(greatest_heating, greatest_cooling):
        raise Refused(LIMIT_VALUE)
    d = demand_of(zone, temps[:nodes], c)
    w = (d.heating + d.cooling) * 1000 / c.delta_t_h
    if version == LIMITS_VERSION:
        w = limited(w, greatest_heating, greatest_cooling)
    f = c.frac_convective_cool if version >= 2 and w < 0 else c.frac_convective_heat
    g = c.gains_heat_cool_convective + c.gains_heat_cool_radiative + w
    after, balance = stepped(zone, temps[:nodes], c, g, share_or_zero(c.gains_heat_cool_convective + w * f, g), d.ach)
    return d, after, balance
