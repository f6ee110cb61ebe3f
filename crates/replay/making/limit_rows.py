"""Rows of hours that are heated and cooled, and of limits."""
import itertools
import math

from making.layout import MOST_LIMIT, VERSIONS, f64, node_count, put
from making.order import limits_answer
from making.houses import (
    BALANCE, COOLED_BY_ALL, COOLED_BY_HALF, COOLED_TO, ENTRY, HALF_COOLED_BY_HALF, HEAD, HEATED, HEATED_TO,
    HOUSE_P, HOUSE_Q, LIGHT, LIMITS_PLACE, P_COOLED, P_HEATED, SINGULAR, WEAK, conditions_of, entry_p, entry_size)
from making.rows import GIVEN, NAN, ONE_ENTRY


def make_powered(rows):
    """House P heated, and cooled with heating fraction 0.5 and cooling fraction 1: version 1 shares that out by 0.5,
    versions 2 and 3 by 1"""
    p, t = HOUSE_P, list(BALANCE)
    cooled_temps = {1: COOLED_BY_HALF, 2: COOLED_BY_ALL, 3: COOLED_BY_ALL}
    heating, cooling = {"demand": (0.144, 0.0)}, {"demand": (0.0, -0.144)}
    for version in VERSIONS:
        # limits that do not hold in version 3, and are not looked at before it
        for limits in ((MOST_LIMIT, MOST_LIMIT), *((NAN, NAN), (-1.0, -1.0), (0.0, 0.0))[:4 * (version < 3)]):
            given = {"version": version, "limits": limits, **ONE_ENTRY}
            rows.add(6, (0, 0), p, (0, 0), 3, t, P_HEATED, after=HEATED, **heating, **given)
            rows.add(6, (0, 0), p, (0, 0), 3, t, P_COOLED, after=cooled_temps[version], **cooling, **given)
        book = p + entry_p() + entry_p(version, P_HEATED, 0.144, 0.0, HEATED)
        rows.add(7, (0, 0), book, after=HEATED, **GIVEN)
        for temps in (COOLED_BY_HALF, COOLED_BY_ALL):
            book = p + entry_p() + entry_p(version, P_COOLED, 0.0, -0.144, temps, (0.0, MOST_LIMIT))
            answer = (0, 0) if temps == cooled_temps[version] else (18, 1)
            rows.add(7, answer, book, after=temps, **GIVEN)


def make_limited(rows):
    """House P heated and cooled as before, in version 3 with limits: the demand in answer and entry stays 144 W, the
    temperatures are those of the power after the limit, the fraction of cooling that of its sign"""
    p, t = HOUSE_P, list(BALANCE)
    for conditions, heating, cooling, side, ends in ((P_HEATED, 0.144, 0.0, 0, HEATED_TO),
                                                     (P_COOLED, 0.0, -0.144, 1, COOLED_TO)):
        for limit, temps in ends:
            for other in (0.0, 36.0, MOST_LIMIT):
                limits = (other, limit) if side else (limit, other)
                rows.add(6, (0, 0), p, (0, 0), 3, t, conditions, version=3, limits=limits, demand=(heating, cooling),
                         after=temps, **ONE_ENTRY)
                book = p + entry_p(1) + entry_p(2) + entry_p(3, conditions, heating, cooling, temps, limits)
                rows.add(7, (0, 0), book, after=temps, **GIVEN)
            limits = (0.0, limit) if side else (limit, 0.0)
            good = entry_p(3, conditions, heating, cooling, temps, limits)
            false = [entry_p(3, conditions, heating, cooling, x, limits) for _, x in ends if x != temps]
            # the demand cut, the limits the other way round, negated or the temperatures of another share
            cut = (heating * limit / 144.0, cooling * limit / 144.0)
            false += [entry_p(3, conditions, *cut, temps, limits)] if limit < 144.0 else []
            false += [entry_p(3, conditions, heating, cooling, temps, limits[::-1])] if limit else []
            false += [put(good, LIMITS_PLACE + 8 * side, f64(x)) for x in (-limit, MOST_LIMIT * 2, NAN) if x]
            false += [entry_p(3, conditions, heating, cooling, HALF_COOLED_BY_HALF, limits)]
            for e in false:
                rows.add(7, (18, 2), p + entry_p(1) + entry_p(2) + e, **GIVEN)


def make_limit_values(rows):
    """19, and its place: behind 9, before 10 and all that follows"""
    good = [(0.0, 0.0), (-0.0, -0.0), (MOST_LIMIT, MOST_LIMIT), (5e-324, 0.0), (0.0, 5e-324)]
    far = math.nextafter(MOST_LIMIT, math.inf)
    values = (-1.0, -5e-324, far, 1e300, math.inf, -math.inf, NAN)
    bad = [(x, 1.0) for x in values] + [(1.0, x) for x in values] + [(NAN, -1.0)]
    p, t = HOUSE_P, list(BALANCE)
    c = conditions_of(p)
    for limits in good + bad:
        answer = limits_answer(3, limits)
        rows.add(4, answer, p, (0, 0), 3, t, c, version=3, limits=limits)
        rows.add(6, answer, p, (0, 0), 3, t, c, version=3, limits=limits, **ONE_ENTRY)
        # a stored entry with such limits is judged by them
        rows.add(7, (18, 2) if answer[0] else (0, 0), p + entry_p(1) + entry_p(3) + entry_p(3, limits=limits), **GIVEN)
        for version in (1, 2):
            rows.add(4, (0, 0), p, (0, 0), 3, t, c, version=version, limits=limits)
            rows.add(6, (0, 0), p, (0, 0), 3, t, c, version=version, limits=limits, **ONE_ENTRY)
    turn = itertools.cycle(bad)
    for head in (HOUSE_P, HOUSE_Q):
        make_limit_order(rows, head, turn)


def make_limit_order(rows, head, turn):
    """a limit out of range together with each other fault"""
    n, c = node_count(head), conditions_of(head)
    t = [20.0] * n
    crossed = put(put(c, 48, f64(22.0)), 56, f64(21.0))
    before = [(7, 0, c[:-1]), (7, 0, b""), (8, 0, put(c, 96, b"\2")), (8, 0, put(c, 153, b"\x80"))]
    before += [(8, 0, put(c, 96, b"\0"))]
    before += [(9, 0, put(c, 0, f64(0.0))), (9, 0, put(c, 32, f64(1.5))), (9, 0, put(c, 97, f64(NAN)))]
    before += [(9, i + 1, put(c, 113 + 41 * i, f64(101.0))) for i in range(head[6])]
    behind = [(head, crossed), (head, put(c, 64, f64(19.0))), (head, put(crossed, 64, f64(19.0)))]
    behind += [(SINGULAR, conditions_of(SINGULAR)), (LIGHT, put(conditions_of(LIGHT), 16, f64(1e7))),
               (WEAK, put(conditions_of(WEAK), 48, f64(21.0)))]
    for call in (4, 6):
        named = {"version": 3, "count": 5, "used": HEAD}
        for room in (0, 1000):
            for number, index, b in before:
                rows.add(call, (number, index), head, (0, 0), n, t, b, room=room, limits=next(turn), **named)
            rows.add(call, (6, 0), head, (0, 0), n + 1, t, c, room=room, limits=next(turn), **named)
            rows.add(call, (6, 0), head, (0, 0), n, [NAN] * n, c[:-1], room=room, limits=next(turn), **named)
            rows.add(call, (19, 0), head, (0, 0), n, t, c, room=room, limits=next(turn), **named)
            for h, b in behind:
                k = node_count(h)
                rows.add(call, (19, 0), h, (0, 0), k, [20.0] * k, b, room=room, limits=next(turn), **named)
        rows.add(call, (4, 0), head, (1, 0), n, t, c, limits=next(turn), **named)
        rows.add(call, (5, 0), head, (3, 0), n, t, c, limits=next(turn), **named)
        rows.add(call, (18, 0 if call == 4 else 5), head, (0, 0), n, t, c, limits=next(turn), **dict(named, version=4))
    rows.add(6, (17, 0), head, (0, 0), n, t, c, count=8784, used=HEAD, version=3, limits=next(turn))
    rows.add(6, (18, 5), head, (0, 0), n, t, c, count=5, used=HEAD, version=3, last=4, limits=next(turn))


def make_limit_rooms(rows):
    """16: the entry of version 3 is longer by its limits"""
    p, c, t = HOUSE_P, conditions_of(HOUSE_P), list(BALANCE)
    for version in VERSIONS:
        size = entry_size(version)
        for used, room, answer in ((HEAD, HEAD + size, 0), (HEAD, HEAD + size - 1, 16), (HEAD, HEAD + ENTRY - 1, 16),
                                   (HEAD + 1, HEAD + size, 16), (HEAD + 1, HEAD + size + 1, 0), (396, 396 + size, 0)):
            rows.add(6, (answer, 0), p, (0, 0), 3, t, c, count=5, used=used, room=room, version=version)
