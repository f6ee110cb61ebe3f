"""Rows of entry versions, of rests behind a book and of the last version."""
import itertools

from making.layout import NO_VERSIONS, VERSIONS, f64, node_count, put
from making.houses import (
    ENTRY, FRONT, HEAD, HOUSE_P, HOUSE_Q, LIMITS, SINGULAR, SLOW, VERSION_PLACE, conditions_of, entry_p,
    entry_size, room_for_one)
from making.rows import GIVEN


def make_hour_versions(rows):
    """18 with index 0 at an hour step: after the zone, before the state"""
    c, t = conditions_of(HOUSE_Q), [20.0] * node_count(HOUSE_Q)
    crossed = put(put(c, 48, f64(22.0)), 56, f64(21.0))
    for version in VERSIONS:
        rows.add(4, (0, 0), HOUSE_P, (0, 0), 3, [20.0] * 3, conditions_of(HOUSE_P), version=version)
        rows.add(4, (6, 0), HOUSE_Q, (0, 0), len(t) - 1, t, c, version=version)
    for version in NO_VERSIONS:
        for b in (c, c[:-1], b"", put(c, 96, b"\2"), put(c, 96, b"\0"), put(c, 0, f64(0.0)), crossed):
            rows.add(4, (18, 0), HOUSE_Q, (0, 0), len(t), t, b, version=version)
            rows.add(4, (18, 0), HOUSE_Q, (0, 0), len(t) + 1, [1e7] * 3, b, version=version)
        rows.add(4, (18, 0), SINGULAR, (0, 0), 3, [20.0] * 3, conditions_of(SINGULAR), version=version)
        for change, answer in (((1, 0), (4, 0)), ((2, 1), (4, 1)), ((3, 0), (5, 0)), ((4, 0), (5, 2))):
            rows.add(4, answer, HOUSE_Q, change, None, t, c, version=version)


def make_append_versions(rows):
    """18 with the count held at an append: after 17, before the state"""
    p, c, t = HOUSE_P, conditions_of(HOUSE_P), [20.0] * 3
    room = {"used": 180, "room": room_for_one}
    # a last version that no book hands back is compared all the same
    for version, last in ((1, 0), (1, 1), (2, 0), (2, 1), (2, 2), (3, 0), (3, 1), (3, 2), (3, 3)):
        rows.add(6, (0, 0), p, (0, 0), 3, t, c, count=5, version=version, last=last, **room)
    falling = [(1, 2), (1, 3), (2, 3), (1, 4), (3, 4), (1, 2 ** 64 - 1), (2, 2 ** 64 - 1), (3, 2 ** 64 - 1)]
    unknown = [(version, last) for version in NO_VERSIONS for last in (0, 1, 3, 2 ** 64 - 1)]
    for version, last in falling + unknown:
        named = {"version": version, "last": last}
        for count in (0, 1, 5, 8783):
            rows.add(6, (18, count), p, (0, 0), 3, t, c, count=count, **named, **room)
        for count in (8784, 2 ** 32 - 1):
            rows.add(6, (17, 0), p, (0, 0), 3, t, c, count=count, **named, **room)
        rows.add(6, (18, 5), p, (0, 0), 2, t, c, count=5, **named, **room)
        rows.add(6, (18, 5), p, (0, 0), 3, [1e7] * 3, c[:-1], count=5, **named, **room)
        rows.add(6, (18, 5), p, (0, 0), 3, t, put(c, 48, f64(25.0)), count=5, **named, **room)
        rows.add(6, (18, 5), p, (0, 0), 3, t, c, count=5, used=180, room=0, **named)
        rows.add(6, (4, 0), p, (1, 0), 3, t, c, count=5, **named, **room)
        rows.add(6, (5, 0), p, (3, 0), 3, t, c, count=9000, **named, **room)


def book_answer(versions):
    """number and index of a book whose entries are true but for these versions"""
    last = 1
    for i, version in enumerate(versions):
        if version not in VERSIONS or version < last:
            return 18, i
        last = version
    return 0, 0


def make_book_versions(rows):
    """take-up: every order of versions over four entries, and versions that no hour has"""
    orders = list(itertools.product(VERSIONS, repeat=4))
    orders += [order[:i] + (version,) + order[i + 1:] for order in ((1, 1, 1, 1), (1, 2, 2, 3), (3, 3, 3, 3))
               for i in range(4) for version in (0, 4, 255)]
    for order in orders:
        book = HOUSE_P + b"".join(entry_p(version) for version in order)
        rows.add(7, book_answer(order), book, **GIVEN)
        # without its last byte the last entry is no entry, unless it has a version that no hour has
        rows.add(7, book_answer(order[:-1] if order[-1] in VERSIONS else order), book[:-1], **GIVEN)


def rest_answer(rest, last):
    """number and index of a rest behind two entries; a whole one is true but for its version"""
    if len(rest) < FRONT:
        return 0, 0
    version = rest[VERSION_PLACE]
    if version in VERSIONS and (len(rest) < entry_size(version) or last <= version):
        return 0, 0
    return 18, 2


def make_rests(rows):
    """take-up: a rest under 5 bytes, or shorter than its version byte calls for, is dropped, whatever it holds; one
    with a version that no hour has counts as a whole entry"""
    for last in VERSIONS:
        book = HOUSE_P + entry_p(1) + entry_p(last)
        rests = [b"\xff" * n for n in (1, 4, 5, 6, 100, ENTRY - 1, ENTRY, ENTRY + LIMITS)]
        for version in (0, 4, 5, 255):
            rests += [put(entry_p(3), VERSION_PLACE, bytes([version]))[:n] for n in (4, 5, 215, 216, 231, 232)]
        for version in VERSIONS:
            size = entry_size(version)
            rests += [entry_p(version)[:n] for n in (1, 3, 4, 5, 6, 100, ENTRY - 1, size - 1, size)]
            rests += [b"\xff" * 4 + bytes([version]) + b"\xff" * n for n in (0, 1, 100, size - FRONT - 1)]
        # of version 3, with the bytes of an entry without limits
        rests += [put(entry_p(1), VERSION_PLACE, b"\3")]
        for rest in rests:
            rows.add(7, rest_answer(rest, last), book + rest, **GIVEN)


def make_last_zero(rows):
    """a last version of 0, which no book hands back: refused calls hand it back, accepted ones their own"""
    p, c, t, given = HOUSE_P, conditions_of(HOUSE_P), [20.0] * 3, dict(GIVEN, last=0)
    rows.add(5, (0, 0), p, room=180, **given)
    rows.add(5, (16, 0), p, room=179, **given)
    rows.add(5, (15, 0), SLOW, room=500, **given)
    rows.add(5, (3, 0), put(p, 4, b"\2"), room=500, **given)
    append = {"used": 180, "last": 0}
    rows.add_each(6, (17, 0), p, (0, 0), 3, t, c, count=8784, room=396, **append)
    rows.add_each(6, (6, 0), p, (0, 0), 2, t, c, count=5, room=396, **append)
    rows.add_each(6, (7, 0), p, (0, 0), 3, t, c[1:], count=5, room=396, **append)
    rows.add_each(6, (16, 0), p, (0, 0), 3, t, c, count=5, room=395, **append)
    book = p + entry_p() * 5
    rows.add(7, (0, 0), book, **given)
    rows.add(7, (1, 0), p[:3], **given)
    rows.add(7, (15, 0), SLOW + entry_p(), **given)
    for i in range(5):
        rows.add(7, (18, i), put(book, HEAD + ENTRY * i + VERSION_PLACE, b"\0"), **given)
