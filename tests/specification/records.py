"""Heads and conditions: their bytes, their ranges, and the order of their tests."""
from floats import (CONDITIONS_CODE, CONDITIONS_SIZE, CONDITIONS_VALUE, HEAD_LENGTH, HEAD_SHORT, HEAD_VERSION, STRUCTURE, ZONE_VALUE, Refused, float_at)

MOST_ELEMENTS = 24
FIRST_ELEMENT = 57
FIRST_PART = 113
PART_SIZE = 41
RATE_CODE, FIRST_RATE, SECOND_RATE = 96, 97, 105


class Zone:
    pass


class Element:
    pass


class Conditions:
    pass


class Part:
    """What an hour gives to one element."""

    def __init__(self, data, place):
        self.temp_ext, self.i_sol_dir, self.i_sol_dif, self.f_sh_dir, self.f_sh_dif = (float_at(data, place + 8 * i) for i in range(5))
        self.open = data[place + 40]


# Specification, Kinds and nodes
OPAQUE, CONDITIONED, UNCONDITIONED, GROUND, TRANSPARENT, PARTY_WALL = range(6)


def node_count_of(kind):
    return 2 if kind == TRANSPARENT else 5


def most_treatments(kind):
    return 4 if kind == TRANSPARENT else 0


def node_count(zone):
    return sum(node_count_of(e.kind) for e in zone.elements[:zone.count]) + 1


# Specification, Coefficients of an element
def element_at(data, place, kind, treatments):
    e = Element()
    e.kind, e.treatments = kind, treatments
    nodes = node_count_of(kind)
    floats = iter(range(place + 2, place + 2 + 8 * (7 + nodes + nodes - 1 + treatments), 8))
    read = lambda count: [float_at(data, next(floats)) for _ in range(count)]
    e.area, e.pitch, e.h_ce, e.h_re, e.h_ri, e.solar_absorption_coeff, e.therm_rad_to_sky = read(7)
    e.k_pli, e.h_pli, e.delta_r = read(nodes), read(nodes - 1), read(treatments)
    e.first_hour = Part(data, place + 2 + 8 * (7 + 2 * nodes - 1 + treatments))
    return e


# Specification, Head; Specification, Order in a head: all but the values
def head_structure(data):
    if len(data) < 4:
        raise Refused(HEAD_SHORT)
    length = int.from_bytes(data[:4], 'big')
    if not 176 <= length <= 4157:
        raise Refused(HEAD_LENGTH)
    end = 4 + length
    if len(data) < end:
        raise Refused(HEAD_SHORT)
    if data[4] != 1:
        raise Refused(HEAD_VERSION)
    zone = Zone()
    zone.basis, zone.count = data[5], data[6]
    if zone.basis > 1 or not 1 <= zone.count <= MOST_ELEMENTS:
        raise Refused(STRUCTURE, 0)
    zone.start_up_limit = int.from_bytes(data[7:9], 'big')
    (zone.useful_area, zone.volume, zone.tb_heat_trans_coeff, zone.temp_ext_air_init, zone.temp_setpnt_init,
     zone.temp_setpnt_cool_vent_init) = (float_at(data, 9 + 8 * i) for i in range(6))
    zone.elements, place = [], FIRST_ELEMENT
    for i in range(1, zone.count + 1):
        if place + 2 > end:
            raise Refused(HEAD_LENGTH)
        kind, treatments = data[place], data[place + 1]
        if kind > PARTY_WALL or treatments > most_treatments(kind):
            raise Refused(STRUCTURE, i)
        size = 123 + 8 * treatments if kind == TRANSPARENT else 171
        if place + size > end:
            raise Refused(HEAD_LENGTH)
        zone.elements.append(element_at(data, place, kind, treatments))
        place += size
    if place != end:
        raise Refused(HEAD_LENGTH)
    return zone, end


# Specification, Ranges
def within(low, high, *values):
    return all(low <= x and x <= high for x in values)


def above(low, high, *values):
    return all(low < x and x <= high for x in values)


def outside(*values):
    """An external or a supply temperature."""
    return within(-100, 100, *values)


def cooling_setpoint(*values):
    return within(-273.15, 1.4e32, *values)


def heating_setpoint(*values):
    return within(-273.15, 100, *values)


def gains(*values):
    return within(-1e7, 1e7, *values)


def limits(*values):
    return within(0, 1e7, *values)


def rates(*values):
    return within(0, 1000, *values)


def fractions(*values):
    return within(0, 1, *values)


def part_in_range(part):
    return outside(part.temp_ext) and within(0, 2000, part.i_sol_dir, part.i_sol_dif) and fractions(part.f_sh_dir, part.f_sh_dif)


def element_in_range(e):
    return (above(0, 1e5, e.area) and within(0, 180, e.pitch) and within(0, 1e6, e.h_ce, e.h_re, e.h_ri) and fractions(e.solar_absorption_coeff)
            and within(-1e4, 1e4, e.therm_rad_to_sky) and within(0, 1e7, *e.k_pli) and above(0, 1e6, *e.h_pli)
            and within(0, 1000, *e.delta_r[:e.treatments]) and part_in_range(e.first_hour) and e.first_hour.open < 2 ** e.treatments)


def zone_values(zone):
    if not (1 <= zone.start_up_limit <= 10000 and above(0, 1e5, zone.useful_area, zone.volume) and within(0, 1e6, zone.tb_heat_trans_coeff)
            and outside(zone.temp_ext_air_init) and heating_setpoint(zone.temp_setpnt_init) and cooling_setpoint(zone.temp_setpnt_cool_vent_init)):
        raise Refused(ZONE_VALUE, 0)
    for i, e in enumerate(zone.elements[:zone.count], 1):
        if not element_in_range(e):
            raise Refused(ZONE_VALUE, i)


def read_head(data):
    zone, end = head_structure(data)
    zone_values(zone)
    return zone, end


# Specification, A zone as a record
def zone_test(zone):
    if not 1 <= zone.count <= MOST_ELEMENTS:
        raise Refused(STRUCTURE, 0)
    for i, e in enumerate(zone.elements[:zone.count], 1):
        if e.treatments > most_treatments(e.kind):
            raise Refused(STRUCTURE, i)
    zone_values(zone)


# Specification, Conditions; Specification, Order in conditions
def conditions_size(n):
    return FIRST_PART + PART_SIZE * n


def read_conditions(zone, data, fixed_is_taken):
    n = zone.count
    if n > MOST_ELEMENTS or len(data) != conditions_size(n):
        raise Refused(CONDITIONS_SIZE)
    c = Conditions()
    c.code = data[RATE_CODE]
    # Specification, Fixed rate
    code_good = c.code == 1 or (c.code == 0 and fixed_is_taken and data[SECOND_RATE:FIRST_PART] == bytes(8))
    if not code_good or not all(data[FIRST_PART + PART_SIZE * i + 40] < 2 ** zone.elements[i].treatments for i in range(n)):
        raise Refused(CONDITIONS_CODE)
    (c.delta_t_h, c.temp_ext_air, c.gains_internal, c.gains_solar, c.frac_convective_heat, c.frac_convective_cool, c.temp_setpnt_heat, c.temp_setpnt_cool,
     c.temp_setpnt_cool_vent, c.avg_air_supply_temp, c.gains_heat_cool_convective, c.gains_heat_cool_radiative) = (float_at(data, 8 * i) for i in range(12))
    c.first_rate, c.second_rate = float_at(data, FIRST_RATE), float_at(data, SECOND_RATE)
    c.parts = [Part(data, FIRST_PART + PART_SIZE * i) for i in range(n)]
    if not (within(0.001, 8760, c.delta_t_h) and outside(c.temp_ext_air, c.avg_air_supply_temp)
            and gains(c.gains_internal, c.gains_solar, c.gains_heat_cool_convective, c.gains_heat_cool_radiative)
            and fractions(c.frac_convective_heat, c.frac_convective_cool) and heating_setpoint(c.temp_setpnt_heat)
            and cooling_setpoint(c.temp_setpnt_cool, c.temp_setpnt_cool_vent) and rates(c.first_rate) and (c.code == 0 or rates(c.second_rate))):
        raise Refused(CONDITIONS_VALUE, 0)
    for i, part in enumerate(c.parts, 1):
        if not part_in_range(part):
            raise Refused(CONDITIONS_VALUE, i)
    return c
