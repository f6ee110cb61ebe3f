"""Demands at which the reasons of an hour (Specification, Why this rate, why this load) turn: setpoints next to the Rust's own temperatures, and a room in which
the rate found misses its setpoint. The samples of gen_cases.py have none of them, or few."""
import collections
import itertools
import math

from making.houses import PART, element, head_of
from making.layout import NO_CONTROL, RATES, SETPOINTS, TRANSPARENT, f64, put
from making.oracle import case_bytes
from making.order import conditions_answer

# how many kinds of demands there are near a turn, and how many demands of each
KINDS, NEAR = 10, 12


def close_setpoints(free, opened):
    """(heating, cooling, ventilation) by kind, for hours whose windows lower the temperature from `free` to `opened`"""
    midway, low = (free + opened) / 2.0, opened - 8.0
    of_all = {
        "at the setpoint": (low, free + 1.0, free),
        "just above the setpoint": (low, free + 1.0, math.nextafter(free, -math.inf)),
        "found enough at the trigger rate alone": (midway - 0.25, midway - 0.125, midway),
    }
    # of these temperatures the demand's closeness is the wider one, or the windows test's
    far_from_zero = {
        "free close to the cooling setpoint": (low, free - 0.9e-9 * abs(free), free - 0.1e-9 * abs(free)),
        "found close by the demand alone": (low, midway - 1.2e-8, midway),
        "found close by both": (low, midway - 2e-9, midway),
    }
    near_zero = {"found close by the windows test alone": (low, midway - 6e-9, midway)}
    return {**of_all, **(far_from_zero if abs(midway) > 14.0 else {}), **(near_zero if abs(midway) < 4.0 else {})}


def hours_near(a):
    """conditions by kind, of a demand with its temperatures"""
    free, opened, hour = a.free, a.opened, a.hour
    made = {kind: put(a.conditions, SETPOINTS, f64(*setpoints))
            for kind, setpoints in close_setpoints(free.control, opened.control).items()}
    quiet = opened.control - 8.0, free.control + 1.0, opened.control - 1.0
    made["target above open"] = put(put(a.conditions, SETPOINTS, f64(*quiet)), RATES, f64(hour.windows_open, hour.target))
    # at a rate of 0 the supply has no part in the free temperature
    if hour.target == 0.0 and abs(free.air - free.control) > 0.1:
        supply = (free.air + free.control) / 2.0
        kind = "supply above the air alone" if free.air < supply else "supply below the air alone"
        made[kind] = put(a.conditions, SETPOINTS, f64(*quiet, supply))
    return made


def near_setpoints(demands):
    """from demands with their temperatures, NEAR of each kind: the setpoints have no part in the temperatures"""
    made = collections.defaultdict(list)
    for a in demands:
        if a.free and a.opened.control + 0.5 < a.free.control and a.free.air > a.hour.supply:
            for kind, conditions in hours_near(a).items():
                if conditions_answer(a.head, conditions) == (0, 0):
                    made[kind].append(case_bytes(1, a.head, a.temps, conditions))
    assert len(made) == KINDS and all(NEAR <= len(of_kind) for of_kind in made.values())
    return [case for of_kind in made.values() for case in of_kind[:NEAR]]


# A room with one huge surface that holds no heat and lets none through. The air's own coefficient is the surface's 163840
# W/K and some UNITs more; a sum with 163840 is a whole number of them. So the air's temperature is by whole UNITs.
UNIT = 2.0 ** -35
HUGE = 65536.0
SURFACE = element(TRANSPARENT, area=HUGE, h=(0.0, 0.0, 0.0), k=(0.0, 0.0))
HEAT_CAPACITY = 10000.0  # of the air and what stands in the room, J/(m2.K)
AIR = 1.204 * 1006.0  # of air, J/(m3.K)


def coarse_room(basis):
    """its capacity over the hour is one UNIT, and so is one air change an hour"""
    return head_of([SURFACE], basis, values=(
        UNIT * 3600.0 / HEAT_CAPACITY, UNIT * 3600.0 / AIR, 0.0, 20.0, 20.0, NO_CONTROL))


def coarse_demands():
    """the rate found is no whole number: it is rounded up, and the room is left below its heating setpoint, which is the
    ventilation setpoint"""
    for basis, warm, opened in itertools.product((0, 1), (32.0, 36.0, 40.0), (2.75, 3.0)):
        setpoint = 0.625 * warm
        v = (1.0, 0.0, 0.0, 0.0, 1.0, 1.0, setpoint, warm, setpoint, 0.0, 0.0, 0.0)
        conditions = f64(*v) + b"\1" + f64(0.0, opened) + f64(*PART) + b"\0"
        yield case_bytes(1, coarse_room(basis), f64(*(warm,) * 3), conditions)
