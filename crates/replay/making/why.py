"""Why this rate, why this load: the tests of that section of docs/SPECIFICATION.md in their order, on temperatures that the Rust
gave. The Rust names no reason; its `ach_req_to_reach_temperature` is written again here."""
import collections
import math

from making.layout import GAINS_CONVECTIVE, RATES, RATE_CODE, SETPOINTS, floats_at
from making.limited_cases import close_to_zero
from making.operative import operative

REASONS = NO_CHOICE, NOT_ABOVE_SETPOINT, NOT_ABOVE_SUPPLY, WINDOWS_DO_NOT_COOL, STILL_ABOVE, WINDOWS_ENOUGH = range(1, 7)
LOADS = NEITHER, HEATING, COOLING = range(3)
REASON_NAMES = dict(zip(REASONS, (
    "no choice", "not above setpoint", "not above supply", "windows do not cool", "still above", "windows enough")))
LOAD_NAMES = dict(zip(LOADS, ("neither", "heating", "cooling")))

OPERATIVE = 1
# setpoints, the supply's temperature, and the rates: `windows_open` is None with a fixed rate
Hour = collections.namedtuple("Hour", "heat cool vent supply target windows_open")
# of a calculation: the temperature that setpoints are held against, and the air's
Temperatures = collections.namedtuple("Temperatures", "control air")


def hour_of(conditions):
    target, windows_open = floats_at(conditions, RATES, 2)
    return Hour(*floats_at(conditions, SETPOINTS, 4), target, windows_open if conditions[RATE_CODE] else None)


def has_choice(hour):
    return hour.windows_open is not None and hour.target != hour.windows_open


def gains_of(conditions):
    """gains from heating or cooling before any demand, and their convective share"""
    convective, radiative = floats_at(conditions, GAINS_CONVECTIVE, 2)
    g = convective + radiative
    return g, 0.0 if close_to_zero(g) else convective / g


def temperatures_of(head, nodes):
    """by the zone's basis, from node temperatures"""
    air = nodes[-1]
    return Temperatures(operative(head, nodes) if head[5] == OPERATIVE else air, air)


def quotient(a, b):
    """Python refuses to divide by zero; `b` is not negative here"""
    return a / b if b else math.nan if a == 0.0 else math.copysign(math.inf, a)


def rate_to_reach(hour, free, opened, temperature):
    """the Rust's `ach_req_to_reach_temperature`, in its order; its `max` takes the other of a NaN"""
    if opened.control >= free.control or opened.air >= free.air or free.air <= hour.supply:
        return hour.target
    part = (temperature - free.control) / (opened.control - free.control)
    air = free.air + part * (opened.air - free.air)
    if air <= hour.supply:
        return hour.windows_open
    rate = quotient(
        hour.windows_open * part * ((opened.air - hour.supply) / (free.air - hour.supply)) + hour.target * (1.0 - part),
        (air - hour.supply) / (free.air - hour.supply))
    raised = rate if rate >= hour.target else hour.target
    return min(raised, hour.windows_open)


def close_in_windows_test(a, b):
    return a == b or abs(a - b) <= 1e-8 or abs(a - b) <= 1e-10 * max(abs(a), abs(b))


def close_in_demand(a, b):
    return a == b or abs(a - b) <= 1e-10 or abs(a - b) <= 1e-9 * max(abs(a), abs(b))


def above_cooling_setpoint(hour, found):
    return found.control > hour.cool and not close_in_windows_test(found.control, hour.cool)


def tests_of(hour, free, opened, found):
    """the reasons from the second to the fifth that hold, of an hour with a choice of rates"""
    held = {
        NOT_ABOVE_SETPOINT: not free.control > hour.vent,
        NOT_ABOVE_SUPPLY: not free.air > hour.supply,
        WINDOWS_DO_NOT_COOL: not opened.control < free.control,
        STILL_ABOVE: above_cooling_setpoint(hour, found),
    }
    return [reason for reason in REASONS if held.get(reason)]


def reason_before_found(hour, free, opened):
    """the first of the first four that holds, or None"""
    if not has_choice(hour):
        return NO_CHOICE
    if not free.control > hour.vent:
        return NOT_ABOVE_SETPOINT
    if not free.air > hour.supply:
        return NOT_ABOVE_SUPPLY
    if not opened.control < free.control:
        return WINDOWS_DO_NOT_COOL
    return None


def reason_with_found(hour, found):
    """where none of the first four holds"""
    return STILL_ABOVE if above_cooling_setpoint(hour, found) else WINDOWS_ENOUGH


def load_of(heating, cooling):
    """by the demand's numbers"""
    return HEATING if heating > 0.0 else COOLING if cooling < 0.0 else NEITHER
