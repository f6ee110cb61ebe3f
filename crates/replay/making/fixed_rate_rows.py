"""Rows of hours with the fixed rate, code 0, which is retired (Specification, Fixed rate): calls refuse them where 8 stands, `why` and
take-ups take them as before."""
import itertools

from making.layout import (
    HEATING_FRACTION, MOST_LIMIT, NO_VERSIONS, RATES, RATE_CODE, SECOND_RATE, VERSIONS, f64, node_count, put,
    with_fixed_rate)
from making.houses import (
    BALANCE, COOLED_BY_ALL, COOLED_BY_HALF, FRONT, HEATED, HEATED_TO, HOUSE_P, HOUSE_Q, LIGHT, LIMITS, P_COOLED,
    P_HEATED, SINGULAR, WEAK, conditions_of, entry_p)
from making.order import conditions_answer, first, setpoints_answer, state_answer
from making.rows import GIVEN, NAN, ONE_ENTRY, WHY, why_values
from making.version_rows import book_answer

# at each of them House P stays at 20, to the bit (at 0.25 the air ends a rounding above it)
FIXED_RATES = (0.0, -0.0, 5e-324, 0.5, 1000.0)
# in an entry of version 1: the chosen rate and the trigger behind it
CHOSEN, TRIGGER = 175, 183


def hour_of(head, rate=0.0):
    return with_fixed_rate(conditions_of(head, rates=(rate, rate)))


def entry_of(version=1, conditions=None, **given):
    """of House P; a rate takes nothing in or out while supply and air are equally warm"""
    return entry_p(version, with_fixed_rate(conditions or conditions_of(HOUSE_P)), **given)


def entry_at(version, rate):
    return entry_p(version, hour_of(HOUSE_P, rate), rate=rate)


def place_in(version, place):
    """of what stands behind the conditions"""
    return place + (LIMITS if version == 3 else 0)


def hours(head):
    """hours with the fixed rate: good ones, and each with another fault"""
    c = hour_of(head, 0.5)
    crossed, low_vent = put(c, 48, f64(22.0, 21.0)), put(c, 64, f64(19.0))
    yield from (hour_of(head, rate) for rate in FIXED_RATES)
    yield from (c[:-1], c + b"\0", crossed, low_vent, put(crossed, 64, f64(19.0)))
    yield from (put(c, SECOND_RATE, f64(x)) for x in (-0.0, 0.5, 5e-324, NAN))
    yield from (put(c, 0, f64(0.0)), put(c, HEATING_FRACTION, f64(1.5)), put(c, RATES, f64(1000.5)))
    yield from (put(c, RATES, f64(NAN)), put(c, 113, f64(101.0)), put(c, 153, b"\x80"))
    yield put(put(c, 113, f64(101.0)), 153, b"\x80")


def make_fixed_calls(rows):
    """8 behind the zone's 4 and 5, the version's 18, 6 and 7, and before all else"""
    for head, step in ((HOUSE_P, 1), (HOUSE_Q, 3)):
        n = node_count(head)
        good, bad = (n, [20.0] * n), (n + 1, [20.0] * (n + 1))
        c = hour_of(head, 0.5)
        for state, b in [(good, b) for b in list(hours(head))[::step]] + [(bad, c), (bad, c[:-1])]:
            answer = first(state_answer(head, *state), conditions_answer(head, b))
            rows.add(1, answer, head, (0, 0), *state, b)
            rows.add_each(4, answer, head, (0, 0), *state, b)
            for own in ((0.0, 0.5, 0.5), (NAN, -1.0, 1000.5)):
                rows.add(2, answer, head, (0, 0), *state, b, own)
            rows.add(4, answer, head, (0, 0), *state, b, version=3, limits=(NAN, -1.0))
    for call in (1, 2, 4, 6):
        for head in (SINGULAR, LIGHT, WEAK):
            b = put(put(hour_of(head), 16, f64(1e7)), 48, f64(21.0))
            rows.add_each(call, (8, 0), head, (0, 0), 3, list(BALANCE), b, count=5, used=180)
        for change, answer in (((1, 0), (4, 0)), ((4, 0), (5, 2))):
            rows.add_each(call, answer, HOUSE_Q, change, None, [20.0] * node_count(HOUSE_Q), hour_of(HOUSE_Q))
    for version in NO_VERSIONS:
        rows.add(4, (18, 0), HOUSE_P, (0, 0), 3, list(BALANCE), hour_of(HOUSE_P), version=version)


def make_fixed_appends(rows):
    """8 behind 17 and 18 too, and before 19, 10 and 16"""
    p, t = HOUSE_P, list(BALANCE)
    turn = itertools.cycle(VERSIONS)
    for b in hours(p):
        answer = conditions_answer(p, b)
        rows.add_each(6, answer, p, (0, 0), 3, t, b, **ONE_ENTRY)
        rows.add(6, answer, p, (0, 0), 3, t, b, version=next(turn), **dict(ONE_ENTRY, room=0))
        rows.add(6, answer, p, (0, 0), 3, t, b, version=3, limits=(NAN, -1.0), **ONE_ENTRY)
    for b in (hour_of(p), hour_of(p)[:-1]):
        rows.add_each(6, (17, 0), p, (0, 0), 3, t, b, **dict(ONE_ENTRY, count=8784))
        rows.add(6, (18, 5), p, (0, 0), 3, t, b, version=1, last=2, **ONE_ENTRY)
        rows.add_each(6, (6, 0), p, (0, 0), 2, t, b, **ONE_ENTRY)


def make_fixed_whys(rows):
    """`why` answers as before: no choice of rates, and the load by the demand; and it refuses what it refused"""
    p, t = HOUSE_P, list(BALANCE)
    for head in (HOUSE_P, HOUSE_Q):
        n = node_count(head)
        for b in hours(head):
            answer = first(conditions_answer(head, b, fixed_taken=True), setpoints_answer(b) if len(b) > 113 else (0, 0))
            if answer[0] or head is HOUSE_P:
                rows.add(WHY, answer, head, (0, 0), n, [20.0] * n, b, values=why_values(answer))
        rows.add(WHY, (6, 0), head, (0, 0), n + 1, [20.0] * n, hour_of(head))
        rows.add(WHY, (4, 0), head, (1, 0), n, [20.0] * n, hour_of(head))
    for conditions, load in ((P_HEATED, 1), (P_COOLED, 2)):
        for b in (conditions, with_fixed_rate(conditions)):
            rows.add(WHY, (0, 0), p, (0, 0), 3, t, b, values=why_values((0, 0), load))
    rows.add(WHY, (12, 0), SINGULAR, (0, 0), 3, t, hour_of(SINGULAR))
    rows.add(WHY, (13, 0), LIGHT, (0, 0), 3, t, put(hour_of(LIGHT), 16, f64(1e7)))
    rows.add(WHY, (14, 0), WEAK, (0, 0), 3, t, put(hour_of(WEAK), 48, f64(21.0)))


def make_fixed_entries(rows):
    """take-up: a stored hour with code 0 is what the hour step would write without its refusal, and no other bytes are"""
    for version in VERSIONS:
        book = HOUSE_P + entry_p(1)
        for rate in FIXED_RATES:
            good = entry_at(version, rate)
            rows.add(7, (0, 0), book + good, **GIVEN)
            rows.add(7, (0, 0), book + good[:-1], **GIVEN)
        for rate in (-0.0, 0.5):
            good, chosen, trigger = entry_at(version, rate), place_in(version, CHOSEN), place_in(version, TRIGGER)
            false = [put(good, FRONT + SECOND_RATE, f64(x)) for x in (-0.0, 5e-324, 0.5, NAN)]
            false += [put(good, chosen, f64(-rate)), put(good, trigger, b"\1"), put(good, trigger, b"\1" + f64(rate))]
            false += [put(good, FRONT + RATE_CODE, b"\2"), put(good, FRONT + RATES, f64(1000.5))]
            for e in false:
                rows.add(7, (18, 1), book + e, **GIVEN)
        for at, new in ((0, f64(0.0)), (48, f64(22.0, 21.0)), (64, f64(19.0)), (153, b"\1")):
            rows.add(7, (18, 1), book + put(entry_at(version, 0.5), FRONT + at, new), **GIVEN)


def make_fixed_orders(rows):
    """take-up: hours of every version, with code 0 and with the rate twice, one behind the other"""
    for versions in itertools.product(VERSIONS, repeat=2):
        for make in itertools.product((entry_of, entry_p), repeat=2):
            book = HOUSE_P + b"".join(entry(version) for entry, version in zip(make, versions))
            rows.add(7, book_answer(versions), book, **GIVEN)


def make_fixed_powered(rows):
    """take-up: House P heated, cooled by the rule of each version, and heated to a limit"""
    cooled_temps = {1: COOLED_BY_HALF, 2: COOLED_BY_ALL, 3: COOLED_BY_ALL}
    limits = {"limits": (MOST_LIMIT, MOST_LIMIT)}
    for version in VERSIONS:
        book = HOUSE_P + entry_of(version)
        e = entry_of(version, P_HEATED, heating=0.144, temps=HEATED, **limits)
        rows.add(7, (0, 0), book + e, after=HEATED, **GIVEN)
        for temps in (COOLED_BY_HALF, COOLED_BY_ALL):
            e = entry_of(version, P_COOLED, cooling=-0.144, temps=temps, **limits)
            rows.add(7, (0, 0) if temps == cooled_temps[version] else (18, 1), book + e, after=temps, **GIVEN)
    for limit, temps in HEATED_TO:
        e = entry_of(3, P_HEATED, heating=0.144, temps=temps, limits=(limit, 0.0))
        rows.add(7, (0, 0), HOUSE_P + entry_p(2) + e, after=temps, **GIVEN)
    e = entry_of(3, limits=(NAN, 0.0))
    rows.add(7, (18, 1), HOUSE_P + entry_p(2) + e, **GIVEN)


def make_fixed_rates(rows):
    make_fixed_calls(rows)
    make_fixed_appends(rows)
    make_fixed_whys(rows)
    make_fixed_entries(rows)
    make_fixed_orders(rows)
    make_fixed_powered(rows)
