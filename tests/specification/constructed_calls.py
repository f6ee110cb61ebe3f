"""A call for each number of a refusal, which random arguments may miss, made in each run: a small house whose head, state,
conditions, version, limits and book each refuse in one way."""
import struct

import books
import hours
from compared import append_call, held_left, lent_values, out, state
from library import MOST_NODES, Bytes, Floats, Number, float_list
from records import read_head
from weather import weather

NAN = float('nan')
NODES = 6
ROOM = 2000


def head(version=1, basis=0, length=None, limit=100, area=50.0, tb=5.0, h_ce=20.0, h_re=4.0, k_pli=1e4, h_pli=(5.0, 5.0, 5.0, 5.0)):
    """A house of one wall."""
    floats = [10.0, 90.0, h_ce, h_re, 5.0, 0.6, 10.0, *[k_pli] * 5, *h_pli]
    wall = bytes([0, 0]) + struct.pack(f'>{len(floats)}d', *floats) + bytes(41)
    after = bytes([version, basis, 1]) + limit.to_bytes(2, 'big') + struct.pack('>6d', area, 125.0, tb, 5.0, 20.0, 1.4e32) + wall
    return (len(after) if length is None else length).to_bytes(4, 'big') + after


def conditions(hours=1.0, outside=5.0, gains=0.0, heating=20.0, cooling=25.0, ventilation=1.4e32, supply=5.0, code=1, rates=(0.5, 0.5)):
    floats = hours, outside, gains, 0.0, 0.4, 0.4, heating, cooling, ventilation, supply, 0.0, 0.0
    return struct.pack('>12d', *floats) + bytes([code]) + struct.pack('>2d', *rates) + bytes(41)


HEADS = {
    1: b'', 2: head(length=175), 3: head(version=2), 4: head(basis=2), 5: head(limit=0),
}
HOURS = {
    6: {'count': NODES + 1},
    7: {'hour': conditions() + b'x'},
    8: {'hour': conditions(code=2)},
    9: {'hour': conditions(hours=NAN)},
    10: {'hour': conditions(cooling=19.0)},
    11: {'hour': conditions(ventilation=19.0)},
    # the first two nodes of a wall without a surface outside: the greater conductance takes the less one up, and nothing is left of the second
    12: {'house': head(h_ce=0.0, h_re=0.0, k_pli=0.0, h_pli=(1e6, 1e-11, 5.0, 5.0))},
    13: {'house': head(tb=0.0, h_pli=(1e-3,) * 4), 'hour': conditions(hours=8760.0, gains=1e7, rates=(0.0, 0.0))},
    14: {'house': head(area=1e-300)},
    18: {'version': 4},
    19: {'version': 3, 'limits': (NAN, 0.0)},
}
# a demand whose windows: have no choice; are not above the setpoint; are not above the supply; do not cool; do not cool enough; cool enough
WINDOWS = (
    conditions(),
    conditions(ventilation=100.0, rates=(0.5, 5.0)),
    conditions(outside=40.0, supply=40.0, ventilation=21.0, rates=(0.5, 5.0)),
    conditions(gains=2e4, ventilation=21.0, rates=(5.0, 0.5)),
    conditions(gains=3e4, ventilation=21.0, rates=(0.5, 1.0)),
    conditions(gains=1e3, ventilation=21.0, cooling=30.0, rates=(0.0, 50.0)),
)


def head_calls(calls):
    for data in (head(), *HEADS.values()):
        calls.compare('hem_head', [Bytes(data)], [], lambda: read_head(data) and [])


def hour_calls(calls, house=head(), count=NODES, temps=(20.0,) * NODES, hour=conditions(), version=2, limits=(0.0, 0.0)):
    """Why and the hour step, of a state of so many nodes."""
    temps, given = list(temps), [Bytes(house), Floats(list(temps), MOST_NODES), count, Bytes(hour)]
    reason, load = Number(7), Number(7)
    calls.compare('hem_why', [*given, reason, load], [reason, load], lambda: list(hours.why(read_head(house)[0], count, temps, hour)))
    after, demanded, balance = Floats(temps, MOST_NODES), Floats([], 5, 7.0), Floats([], 28, 7.0)

    def stepped():
        d, left, told = hours.hour_step(read_head(house)[0], count, temps, hour, version, *limits)
        return [state(left), out(d), float_list(told)]

    calls.compare('hem_hour_step', [Bytes(house), after, count, Bytes(hour), version, *limits, demanded, balance], [after, demanded, balance], stepped)


def begin_call(calls, house, room):
    """The page and the values that a begin leaves."""
    page, values = bytearray(room), lent_values(None)
    buffer, held = Bytes(page), []

    def begins():
        held.append(books.begin(house, page))
        return [bytes(page), *held_left(held[0])]

    calls.compare('hem_begin', [Bytes(house), buffer, *values], [buffer, *values], begins)
    return bytes(page), held[0] if held else None


def book_calls(calls):
    begin_call(calls, head(limit=1), ROOM)
    begin_call(calls, head(), 10)
    page, held = begin_call(calls, head(), ROOM)
    for count in (books.MOST_ENTRIES - 1, books.MOST_ENTRIES, 2 ** 64 - 1):
        append_call(calls, head(), page, books.Held(held.temps, count, held.used, 1), conditions(), 1, (0.0, 0.0))
    zone, end = read_head(head())
    d, after, _ = hours.known_hour_step(zone, NODES, held.temps, conditions(), 1, 0.0, 0.0, fixed_is_taken=True)
    book = page[:end] + books.entry(zone, 1, conditions(), b'', d, after)
    output, count, used = Bytes(bytes(len(book))), Number(7), Number(7)
    calls.compare('hem_convert', [Bytes(book), output, count, used], [output, count, used], lambda: books.convert(book, len(book)))
    hour = Number(7)
    calls.compare('hem_first_above', [Bytes(book), NAN, hour], [hour], lambda: [books.first_above(book, NAN)])


def weather_calls(calls):
    for field, line in ((b'20.5', 1), (b'20.5', 2), (b'x', 1), (b'99.9', 1)):
        file, found = b'h\n' * 8 + b','.join([b''] * 6 + [field] + [b''] * 7 + [b'0', b'0']), Floats([], 3, 7.0)
        calls.compare('hem_weather', [Bytes(file), line, found], [found], lambda: [float_list(weather(file, line))])


def constructed_calls(calls):
    head_calls(calls)
    for changed in ({}, *HOURS.values()):
        hour_calls(calls, **changed)
    for hour in WINDOWS:
        hour_calls(calls, temps=(25.0,) * NODES, hour=hour)
    book_calls(calls)
    weather_calls(calls)
