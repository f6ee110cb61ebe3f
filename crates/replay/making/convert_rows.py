"""Rows of the converter (Specification, Conversion): a book whose hours with code 0 get code 1 and the rate twice."""
import itertools

from making.fixed_rate_rows import FIXED_RATES, entry_at, entry_of
from making.houses import (
    COOLED_BY_ALL, FRONT, HEAD, HEATED, HEATED_TO, HOT_START, HOUSE_P, P_COOLED, P_HEATED, SINGULAR, SLOW, VENT,
    WEAK_START, conditions_of, entry_p)
from making.layout import (
    ELEMENT_HOURS, MOST_LIMIT, SECOND_RATE, f64, has_fixed_rate, put, u64, with_rate_twice)
from making.order import head_answer
from making.question_rows import HOUSES_R, entry, hours_of
from making.rows import CONVERT, NAN, words


def converted(e):
    """an entry whose conditions have the rate twice"""
    conditions = e[FRONT:FRONT + ELEMENT_HOURS]
    return put(e, FRONT, with_rate_twice(conditions)) if has_fixed_rate(conditions) else e


def convert(rows, head, entries, rest=b"", behind=0):
    """into an output of just the used length, or of so many bytes more, and into shorter ones"""
    book = head + b"".join(entries)
    out = head + b"".join(converted(e) for e in entries)
    assert len(out) == len(book)
    values = [u64(len(entries)), u64(len(book))] + words(out)
    rows.add(CONVERT, (0, 0), book + rest, room=len(book) + behind, values=values)
    for room in (0, len(book) - 1):
        rows.add(CONVERT, (16, 0), book + rest, room=room)
    return out


def windows(version):
    """an hour with a choice of rates: with supply and air equally warm no rate triggers heating but the target"""
    return entry_p(version, conditions_of(HOUSE_P, rates=(0.5, 4.0)), rate=0.5, trigger=b"\1" + f64(0.5))


def make_converted(rows):
    """no hours, hours of both versions with each rate, hours with code 1, which stay, and both; with rests, which are no
    part of the book; and what was converted, once more"""
    p = HOUSE_P
    for rest in (b"", b"\xff" * 4, entry_p(1)[:-1], entry_of(1)[:5]):
        convert(rows, p, [], rest, behind=len(rest))
    convert(rows, HOUSES_R[0], [], behind=1)
    for rate, version in itertools.product(FIXED_RATES, (2, 3)):
        convert(rows, p, [entry_at(version, rate)])
    for entries in ([entry_p(2)], [windows(2), windows(3)], [entry_at(2, 0.5), windows(2), entry_at(3, 2.0), windows(3)],
                    [windows(2), entry_at(3, -0.0)], [entry_p(2), entry_at(2, 1.0), entry_at(2, 2.0), entry_at(3, 4.0)]):
        out = convert(rows, p, entries, behind=7)
        values = [u64(len(entries)), u64(len(out))] + words(out)
        rows.add(CONVERT, (0, 0), out, room=len(out), values=values)
        convert(rows, p, entries, b"\xff" * 4)
        convert(rows, p, entries[:-1], entries[-1][:-1], behind=300)


def make_converted_powered(rows):
    """hours that are heated, cooled and limited, and a house of two elements, in whose books an entry ends at any byte"""
    limit, temps = HEATED_TO[0]
    for version in (2, 3):
        most = {"limits": (MOST_LIMIT, MOST_LIMIT)}
        convert(rows, HOUSE_P, [entry_of(version, P_HEATED, heating=0.144, temps=HEATED, **most)])
        convert(rows, HOUSE_P, [entry_of(version, P_COOLED, cooling=-0.144, temps=COOLED_BY_ALL, **most)])
    convert(rows, HOUSE_P, [entry_of(2), entry_of(3, P_HEATED, heating=0.144, temps=temps, limits=(limit, 0.0))])
    for head, fixed in itertools.product(HOUSES_R, ((True, True), (False, True))):
        hours = hours_of(head, (21.0, 22.5))
        convert(rows, head, [entry(head, 2, *hour, fixed=f) for hour, f in zip(hours, fixed)], behind=5)


def make_version_1(rows):
    """24, whatever the codes, before 16; no entry that is whole, none of version 1"""
    for first in (entry_p(1), entry_of(1), entry_at(1, 0.5), windows(1)):
        for others in ([], [entry_of(2)], [entry_p(1), entry_of(3)]):
            book = HOUSE_P + first + b"".join(others)
            for room in (0, len(book) - 1, len(book), len(book) + 9):
                rows.add(CONVERT, (24, 0), book, room=room)
            rows.add(CONVERT, (24, 0), book + b"\xff" * 4, room=len(book))


def make_convert_refused(rows):
    """each refusal of a take-up before 24 and 16, which both would follow"""
    book = HOUSE_P + entry_of(1) + entry_of(2) + entry_of(3)
    starts = ((SLOW, 15), (SINGULAR, 12), (VENT, 11), (WEAK_START, 14), (HOT_START, 13))
    heads = [book[:n] for n in (0, 3, HEAD - 1)]
    heads += [put(book, at, new) for at, new in ((0, b"\1"), (4, b"\2"), (6, b"\0"), (59, f64(0.0)), (9, f64(0.0)))]
    refused = [(b, head_answer(b)) for b in heads] + [(head + entry_of(1), (number, 0)) for head, number in starts]
    one = entry_at(2, 0.5)
    false = [put(one, FRONT + SECOND_RATE, f64(x)) for x in (-0.0, 0.5, NAN)]
    false += [put(one, len(one) - 1, b"\1"), put(one, 4, b"\0"), put(one, 4, b"\4")[:5], entry_of(1)]
    for i, before in enumerate(([entry_of(2)], [entry_of(1), entry_of(2)], [entry_p(1), entry_of(2), entry_p(2)]), 1):
        refused += [(HOUSE_P + b"".join(before) + e, (18, i)) for e in false]
    for b, answer in refused:
        for room in (0, len(b)):
            rows.add(CONVERT, answer, b, room=room)


def make_conversions(rows):
    make_converted(rows)
    make_converted_powered(rows)
    make_version_1(rows)
    make_convert_refused(rows)
