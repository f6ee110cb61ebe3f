"""Hours of version 3 with limits, answered by the oracle's update."""
import itertools
import math
import struct

from making.layout import COOLING_FRACTION, GAINS_CONVECTIVE, HEATING_FRACTION, MOST_LIMIT, f64, floats_at
from making.oracle import answered, case_bytes, number_of


def close_to_zero(g):
    """the demand's closeness of total gains and 0: beside 0 its relative part adds nothing"""
    return abs(g) <= 1e-10


def limited(w, heating, cooling):
    """delivered power strictly beyond a limit becomes the limit, for cooling its negation"""
    if w > heating:
        return heating
    return -cooling if w < -cooling else w


def delivered_of(conditions, line):
    """W that a demand delivers, with no limit"""
    heating, cooling = (struct.unpack(">d", bytes.fromhex(x))[0] for x in line.split()[:2])
    return (heating + cooling) * 1000.0 / floats_at(conditions, 0, 1)[0]


def gains_and_share(conditions, w):
    """total gains with the power w, and their convective share: version 1's, with version 2's fraction"""
    convective, radiative = floats_at(conditions, GAINS_CONVECTIVE, 2)
    fraction, = floats_at(conditions, COOLING_FRACTION if w < 0.0 else HEATING_FRACTION, 1)
    g = convective + radiative + w
    return g, 0.0 if close_to_zero(g) else (convective + w * fraction) / g


# what the limits of a case do, and how many cases there are of each at least
LIMIT_KINDS = ("half", "a tenth", "just below", "met exactly", "just above", "zero", "far above")
LIMIT_CASES = 10


def limits_for(kind, w):
    """(greatest heating, greatest cooling) of a kind for the power w; the other side is 0 or the greatest"""
    power = min(abs(w), MOST_LIMIT)
    acting, other = {
        "half": (power / 2.0, 0.0),
        "a tenth": (power * 0.1, MOST_LIMIT),
        "just below": (math.nextafter(power, 0.0), 0.0),
        "met exactly": (power, 0.0),
        "just above": (min(math.nextafter(power, math.inf), MOST_LIMIT), 0.0),
        "zero": (0.0, 0.0),
        "far above": (MOST_LIMIT, MOST_LIMIT),
        "none delivered": (-0.0, 0.0),
    }[kind]
    return (other, acting) if w < 0.0 else (acting, other)


def kinds_of_limits(hours):
    """each hour with a kind: of the hours with power one after the other, of those without every fourth"""
    turn, quiet = itertools.cycle(LIMIT_KINDS), itertools.cycle((True, False, False, False))
    for hour in hours:
        (_, _, _, conditions, _), line = hour
        if delivered_of(conditions, line) != 0.0:
            yield hour, next(turn)
        elif next(quiet):
            yield hour, "none delivered"


def in_version_3(program, cases, answers, pairs, seen):
    """hours that the Rust answers with values in version 2 (as `in_version_2` gives them), and their answers with
    limits: the demand as it was, and the Rust's update with the power that the limits leave"""
    hours = [(case, line) for case, line in pairs if case[0] == 5 and number_of(line) == 0]
    chosen = []
    with open(cases, "wb") as f:
        for ((_, head, temps, conditions, _), line), kind in kinds_of_limits(hours):
            w = delivered_of(conditions, line)
            limits = limits_for(kind, w)
            after = limited(w, *limits)
            seen["limits " + kind] += 1
            if abs(after) < abs(w):
                seen["limits that hold, " + ("cooling" if w < 0.0 else "heating")] += 1
            rate = bytes.fromhex(line.split()[2])
            f.write(case_bytes(2, head, temps, conditions, f64(*gains_and_share(conditions, after)) + rate))
            chosen.append(((6, head, temps, conditions, f64(*limits, 0.0)), line, after == w))
    again = answered(program, cases, answers)
    assert len(again) == len(chosen)
    for (case, line, uncut), (_, updated) in zip(chosen, again):
        words = line.split()
        line_3 = updated if number_of(updated) else " ".join(words[:4] + updated.split())
        assert not uncut or line_3 == line
        yield case, line_3
