"""Rows of the three questions over a book (Specification, Questions over a book): hours worked out by hand, and their answers."""
import math
from fractions import Fraction

from making.layout import (
    GAINS_CONVECTIVE, LIMITS_VERSION, MILLION, MOST_LIMIT, NO_CONTROL, VERSIONS, f64, floats_at,
    node_count, put, record, u64, with_fixed_rate)
from making.operative import operative
from making.order import head_answer
from making.houses import (
    BALANCE, COOLED_BY_HALF, ENTRY, HEAD, HEATED, HEATED_TO, HOT_START, HOUSE_P, LIMITS, P_COOLED, P_HEATED, SINGULAR,
    SLOW, VENT, WEAK_START, conditions_of, element, entry_p, head_of)
from making.rows import NAN

FIRST_ABOVE, HOURS_WITHIN, NEAREST_HOUR = 10, 11, 12
TOO_MUCH = math.nextafter(MILLION, math.inf)
# House P and a second element that lies flat, 1.5 m2; either basis. No coefficient in the row of the air is above the
# pivots of the surfaces, 4 and 8, so that the solve divides by powers of two, and at last by 144
HOUSES_R = [head_of([element(), element(area=1.5, pitch=0.0, k=(0.0, 9000.0))], basis,
                    values=(36.0, 100.0, 40.25, 20.0, 20.0, NO_CONTROL)) for basis in (0, 1)]
# of each element its area, its h_ci (5 upwards, while the air is not colder than it), what its inner surface holds over
# an hour
SURFACES = {1: [(1, Fraction(5, 2), 1)], 2: [(1, Fraction(5, 2), 1), (Fraction(3, 2), 5, Fraction(5, 2))]}


def exact(x):
    """a float, and nothing is lost"""
    assert Fraction(float(x)) == x
    return float(x)


def hours_of(head, airs):
    """gains to the air, and the temperatures that they lead to: above 20, with y for the air and x for an inner surface,
    (h + held + 0.5) x = h y + held x0 and (100 + bridges) y + the sum of area h (y - x) = 100 y0 + gains"""
    surfaces = SURFACES[head[6]]
    bridges = Fraction(floats_at(head, 25, 1)[0])
    y0, xs0, found = 0, [0] * len(surfaces), []
    for air in airs:
        y = Fraction(air) - 20
        xs = [(h * y + held * x0) / (h + held + Fraction(1, 2)) for (_, h, held), x0 in zip(surfaces, xs0)]
        gains = (100 + bridges) * y + sum(a * h * (y - x) for (a, h, _), x in zip(surfaces, xs)) - 100 * y0
        temps = [exact(20 + t) for x in xs for t in (x / 2, x)] + [exact(20 + y)]
        found.append((exact(gains), temps))
        y0, xs0 = y, xs
    return found


def entry(head, version, gains, temps, fixed=False):
    """an hour with neither heating nor cooling, with code 1 or with the fixed rate"""
    c = put(put(conditions_of(head), 48, f64(-100.0, 100.0)), GAINS_CONVECTIVE, f64(gains))
    c = with_fixed_rate(c) if fixed else c
    limits = f64(MOST_LIMIT, 0.0) if version == LIMITS_VERSION else b""
    return record(bytes([version]) + c + limits + f64(0.0, 0.0, 0.0) + b"\0" + f64(0.0) + f64(*temps))


def first_above(start, ts, v):
    return next((i for i, (before, t) in enumerate(zip([start] + ts, ts)) if before <= v < t), None)


def nearest_hour(ts, v):
    return min(range(len(ts)), key=lambda i: abs(ts[i] - v), default=None)


def value_good(*values):
    return all(abs(v) <= MILLION for v in values)


def ask(rows, book, refusal, start, ts, values, bands):
    """a book whose take-up answers `refusal`, else with these operative temperatures"""
    def add(call, good, own, answer):
        expected = refusal if refusal[0] else (0, 0) if good else (20, 0)
        rows.add(call, expected, book, own=own, values=[] if answer is None or expected[0] else [u64(answer)])
    for v in values:
        add(FIRST_ABOVE, value_good(v), (v, 0.0, 0.0), first_above(start, ts, v))
        add(NEAREST_HOUR, value_good(v), (v, 0.0, 0.0), nearest_hour(ts, v))
    for lower, upper in bands:
        good = value_good(lower, upper) and not upper < lower
        add(HOURS_WITHIN, good, (lower, upper, 0.0), sum(lower <= t <= upper for t in ts))


def ask_accepted(rows, head, book, states):
    """by the book's own temperatures, halfway between two of them, and by the ends of what may be asked"""
    start, *ts = [operative(head, s) for s in ([20.0] * node_count(head), *states)]
    halfway = [(a + b) / 2 for a, b in zip([start] + ts, ts)]
    low, high = min(ts, default=start), max(ts, default=start)
    values = list(dict.fromkeys([start, *ts, *halfway, low - 1.0, MILLION, -MILLION]))
    bands = [(low, high), (start, start), (start, MILLION), (-MILLION, start), (0.0, -0.0),
             (math.nextafter(low, high), high), (low, math.nextafter(high, low))]
    ask(rows, book, (0, 0), start, ts, values, list(dict.fromkeys(b for b in bands if b[0] <= b[1])))


def make_turned_away(rows):
    """20, also of an empty book"""
    far = [TOO_MUCH, -TOO_MUCH, math.inf, -math.inf, NAN]
    bands = [(20.0, x) for x in far] + [(x, 20.0) for x in far] + [(20.0, math.nextafter(20.0, 0.0)), (1.0, -1.0)]
    for book in (HOUSE_P, HOUSE_P + entry_p(2)):
        ask(rows, book, (0, 0), 20.0, [], far, bands)


def make_hours(rows):
    """books by what their hours bring the air to, every second hour with the fixed rate; a rest behind them, and the last
    byte of one lost"""
    rounded = (22.0, 19.5, 22.0 + 2.0 ** -36)
    for head, airs, versions in ((HOUSE_P, (), ()), (HOUSES_R[0], (), ()),
                                 (HOUSE_P, (21.0, 19.75, 21.0, 19.75, 22.0, 20.5), (1, 1, 2, 2, 3, 3)),
                                 (HOUSE_P, rounded, (2, 2, 2)), (HOUSE_P, (-28.0, 0.0), (1, 3)),
                                 (HOUSES_R[0], (21.0, 21.0, 22.5), (1, 2, 3)),
                                 (HOUSES_R[1], (20.5, 21.0, 21.0), (1, 1, 1))):
        hours = hours_of(head, airs)
        states = [temps for _, temps in hours]
        entries = [entry(head, version, *hour, fixed=i % 2 == 0) for i, (version, hour) in enumerate(zip(versions, hours))]
        book = head + b"".join(entries)
        ask_accepted(rows, head, book, states)
        if len(airs) == 3:
            ask_accepted(rows, head, book + b"\xff" * 4, states)
            ask_accepted(rows, head, book[:-1], states[:-1])


def make_powered_hours(rows):
    """House P heated and cooled, also with a limit"""
    limit, limited = HEATED_TO[0]
    for versions, e, temps in (((1,), entry_p(1, P_HEATED, 0.144, 0.0, HEATED), HEATED),
                               ((1,), entry_p(1, P_COOLED, 0.0, -0.144, COOLED_BY_HALF), COOLED_BY_HALF),
                               ((1, 2), entry_p(3, P_HEATED, 0.144, 0.0, limited, (limit, 0.0)), limited)):
        book = HOUSE_P + b"".join(entry_p(version) for version in versions) + e
        ask_accepted(rows, HOUSE_P, book, [BALANCE] * len(versions) + [temps])


def make_refused(rows):
    """each refusal of a take-up before 20"""
    book = HOUSE_P + b"".join(entry_p(version) for version in VERSIONS)
    ends = [HEAD + ENTRY * n for n in (1, 2)] + [HEAD + 3 * ENTRY + LIMITS]
    heads = [put(HOUSE_P, 4, b"\2"), put(HOUSE_P, 6, b"\0"), put(HOUSE_P, 59, f64(0.0)), put(HOUSE_P, 9, f64(0.0))]
    refused = [(b, head_answer(b)) for b in [book[:n] for n in (0, 3, HEAD - 1)] + [put(HOUSE_P, 0, b"\1")] + heads]
    refused += [(SLOW, (15, 0)), (SINGULAR, (12, 0)), (VENT, (11, 0)), (WEAK_START, (14, 0)), (HOT_START, (13, 0))]
    refused += [(put(book, end - 1, b"\1"), (18, i)) for i, end in enumerate(ends)]
    refused += [(book + entry_p(1), (18, 3)), (book + b"\xff" * 5, (18, 3))]
    for b, answer in refused:
        ask(rows, b, answer, 20.0, [], [19.0, NAN], [(19.0, 21.0), (21.0, 19.0)])


def make_questions(rows):
    make_hours(rows)
    make_powered_hours(rows)
    make_turned_away(rows)
    make_refused(rows)
