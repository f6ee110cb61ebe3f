"""The tests of each call, in their order (Specification, Order of tests)."""
from making.layout import (
    LIMITS_VERSION, MILLION, MOST_LIMIT, NO_CONTROL, TRANSPARENT, elements_of, floats_at, node_count)


def inside(lo, hi, x, above=False):
    return (lo < x if above else lo <= x) and x <= hi


def part_good(b, at):
    t, direct, diffuse, s1, s2 = floats_at(b, at, 5)
    return (inside(-100, 100, t) and inside(0, 2000, direct) and inside(0, 2000, diffuse)
            and inside(0, 1, s1) and inside(0, 1, s2))


def element_good(b, p):
    kind, t = b[p], b[p + 1]
    nk, nh = (2, 1) if kind == TRANSPARENT else (5, 4)
    v = floats_at(b, p + 2, 7 + nk + nh + t)
    area, pitch, h_ce, h_re, h_ri, absorption, sky = v[:7]
    end = p + 2 + 8 * len(v)
    return (inside(0, 1e5, area, True) and inside(0, 180, pitch)
            and all(inside(0, 1e6, h) for h in (h_ce, h_re, h_ri))
            and inside(0, 1, absorption) and inside(-1e4, 1e4, sky)
            and all(inside(0, 1e7, k) for k in v[7:7 + nk])
            and all(inside(0, 1e6, h, True) for h in v[7 + nk:7 + nk + nh])
            and all(inside(0, 1000, r) for r in v[7 + nk + nh:])
            and part_good(b, end) and b[end + 40] < 1 << t)


def head_answer(b):
    """(number, index) of a byte string as a head"""
    if len(b) < 4:
        return 1, 0
    length = int.from_bytes(b[:4], "big")
    if not 176 <= length <= 4157:
        return 2, 0
    end = 4 + length
    if len(b) < end:
        return 1, 0
    if b[4] != 1:
        return 3, 0
    if b[5] > 1 or not 1 <= b[6] <= 24:
        return 4, 0
    p, places = 57, []
    for i in range(b[6]):
        if p + 2 > end:
            return 2, 0
        kind, t = b[p], b[p + 1]
        if kind > 5 or t > (4 if kind == TRANSPARENT else 0):
            return 4, i + 1
        size = 123 + 8 * t if kind == TRANSPARENT else 171
        if p + size > end:
            return 2, 0
        places.append(p)
        p += size
    if p != end:
        return 2, 0
    limit = int.from_bytes(b[7:9], "big")
    useful, volume, bridges, external, first_set, vent = floats_at(b, 9, 6)
    if not (1 <= limit <= 10000 and inside(0, 1e5, useful, True) and inside(0, 1e5, volume, True)
            and inside(0, 1e6, bridges) and inside(-100, 100, external) and inside(-273.15, 100, first_set)
            and inside(-273.15, NO_CONTROL, vent)):
        return 5, 0
    for i, p in enumerate(places):
        if not element_good(b, p):
            return 5, i + 1
    return 0, 0


def state_answer(head, nodes, temps):
    good = nodes == node_count(head) and all(abs(t) <= MILLION for t in temps[:nodes])
    return (0, 0) if good else (6, 0)


def rate_code_good(c, fixed_taken):
    """code 1; code 0, with a second float of all zero bits, where it is still taken: by `why`, and in stored entries"""
    return c[96] == 1 or (fixed_taken and c[96] == 0 and c[105:113] == bytes(8))


def conditions_answer(head, c, fixed_taken=False):
    n = head[6]
    if len(c) != 113 + 41 * n:
        return 7, 0
    if not rate_code_good(c, fixed_taken):
        return 8, 0
    for i, (_, t, _) in enumerate(elements_of(head)):
        if c[113 + 41 * i + 40] >= 1 << t:
            return 8, 0
    hours, external, gi, gs, fh, fc, heat, cool, vent, supply, gc, gr = floats_at(c, 0, 12)
    rates = floats_at(c, 97, 2 if c[96] else 1)
    if not (inside(0.001, 8760, hours) and all(inside(-100, 100, t) for t in (external, supply))
            and all(inside(-1e7, 1e7, g) for g in (gi, gs, gc, gr)) and inside(0, 1, fh) and inside(0, 1, fc)
            and inside(-273.15, 100, heat) and inside(-273.15, NO_CONTROL, cool)
            and inside(-273.15, NO_CONTROL, vent) and all(inside(0, 1000, r) for r in rates)):
        return 9, 0
    for i in range(n):
        if not part_good(c, 113 + 41 * i):
            return 9, i + 1
    return 0, 0


def limits_answer(version, limits):
    """greatest heating and greatest cooling 0 to 1e7, from version 3 on; no earlier version has them"""
    good = version < LIMITS_VERSION or all(inside(0, MOST_LIMIT, x) for x in limits)
    return (0, 0) if good else (19, 0)


def setpoints_answer(c):
    heat, cool, vent = floats_at(c, 48, 3)
    if cool < heat:
        return 10, 0
    if vent < heat:
        return 11, 0
    return 0, 0


def own_answer(own):
    gains, fraction, rate = own
    good = inside(-1e7, 1e7, gains) and inside(0, 1, fraction) and inside(0, 1000, rate)
    return (0, 0) if good else (9, 0)


def first(*answers):
    """the first refusal in the order of the tests"""
    for a in answers:
        if a[0]:
            return a
    return 0, 0
