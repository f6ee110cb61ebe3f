#!/usr/bin/env python3
"""random_calls.py LIBRARY.so [--seed N] [--calls N]

Random calls of the fifteen C functions, laid beside the engine of this folder: each returned number, and every byte and float of what was lent, also where a
call refuses and is to leave all as it was. The seed is printed; with it, and as many calls, a run is made again."""
import argparse
import os
import sys

sys.dont_write_bytecode = True
import books
import hours
from compared import Calls, append_call, held_left, lent_values, out, state
from constructed_calls import constructed_calls
from floats import BOOK_FULL, Refused
from inputs import Inputs
from library import MOST_NODES, NONE, Bytes, Floats, Library, Number, float_list
from records import read_head
from weather import weather

# from so many calls on each function has accepted and refused some, and each number and reason has come
ENOUGH = 5000
FUNCTIONS, LAST_NUMBER = 15, 24


# ---- calls on a zone

def zone_calls(calls, inputs, head, elements):
    lent_head = Bytes(head)
    calls.compare('hem_head', [lent_head], [], lambda: read_head(head) and [])

    temps, nodes = Floats([], MOST_NODES, 7.0), Number(7)

    def started():
        found = hours.start_up(read_head(head)[0])
        return [state(found), len(found)]

    calls.compare('hem_start_up', [lent_head, temps, nodes], [temps, nodes], started)

    before = inputs.temperatures(elements)
    count = len(before)
    # nothing behind the nodes is read
    fresh = lambda: Floats(before, MOST_NODES, inputs.of(0.0, float('nan'), 1e7))
    conditions = inputs.changed(inputs.conditions(elements))
    hour = Bytes(conditions)

    demanded = Floats([], 5, 7.0)
    calls.compare('hem_demand', [lent_head, fresh(), count, hour, demanded], [demanded], lambda: [out(hours.demand(read_head(head)[0], count, before, conditions))])
    reason, load = Number(7), Number(7)
    calls.compare('hem_why', [lent_head, fresh(), count, hour, reason, load], [reason, load],
                  lambda: list(hours.why(read_head(head)[0], count, before, conditions)))

    own = inputs.of(0.0, inputs.between(-5e3, 5e3), 1e7, -1e7, 1.1e7), inputs.of(0.0, 1.0, 0.4, inputs.between(0, 1)), inputs.of(0.0, 0.5, inputs.between(0, 20), 1000.0)
    temps, balance = fresh(), Floats([], 28, 7.0)

    def updated():
        after, told = hours.update(read_head(head)[0], count, before, conditions, *own)
        return [state(after), float_list(told)]

    calls.compare('hem_update', [lent_head, temps, count, hour, *own, balance], [temps, balance], updated)

    version, limits = inputs.version(), inputs.power_limits()
    temps, demanded, balance = fresh(), Floats([], 5, 7.0), Floats([], 28, 7.0)

    def stepped():
        d, after, told = hours.hour_step(read_head(head)[0], count, before, conditions, version, *limits)
        return [state(after), out(d), float_list(told)]

    calls.compare('hem_hour_step', [lent_head, temps, count, hour, version, *limits, demanded, balance], [temps, demanded, balance], stepped)
    operative = Floats([7.0], 1)
    calls.compare('hem_operative', [lent_head, fresh(), count, operative], [operative],
                  lambda: [float_list([hours.operative_temperature(read_head(head)[0], count, before)])])


# ---- calls on a book

def begun(calls, inputs, head, elements):
    """The bytes of a book that calls have made, if its head is accepted; or one whose hours have the fixed rate."""
    try:
        zone, end = read_head(head)
    except Refused:
        zone, end = None, len(head)
    page = bytearray(inputs.of(max(0, end - 1), end, *[20000] * 6))
    buffer, values = Bytes(page), lent_values(None)
    held = None

    def begins():
        nonlocal held
        held = books.begin(head, page)
        return [bytes(page), *held_left(held)]

    if not calls.compare('hem_begin', [Bytes(head), buffer, *values], [buffer, *values], begins):
        return None
    for _ in range(inputs.random.randrange(0, 5)):
        conditions, version, limits = inputs.changed(inputs.conditions(elements), 0.08), inputs.version(held.last_version), inputs.power_limits()
        values = lent_values(held)

        def appends():
            nonlocal held
            held, _ = books.append(zone, page, len(held.temps), held, conditions, version, *limits)
            return [bytes(page), *held_left(held)]

        calls.compare('hem_append', [Bytes(head), buffer, *values, Bytes(conditions), version, *limits], [buffer, *values], appends)
    for _ in range(inputs.of(0, 1, 2)):
        made_up_append(calls, inputs, head, elements, bytes(page), held)
    return fixed_hours(inputs, zone, head[:end], elements) if inputs.chance(0.4) else bytes(page[:held.used])


def made_up_append(calls, inputs, head, elements, page, held):
    """An append to whatever a caller may hand in: another house's head, another state, count, used length and last version."""
    temps = held.temps
    if inputs.chance(0.3):
        head, elements = inputs.head()
        head = inputs.changed(head)
        temps = inputs.temperatures(elements) if inputs.chance(0.8) else temps
    given = books.Held(temps, *inputs.values_of(held.count, held.used, held.last_version, len(page)))
    append_call(calls, head, page, given, inputs.changed(inputs.conditions(elements), 0.08), inputs.version(held.last_version), inputs.power_limits())


def fixed_hours(inputs, zone, head, elements):
    """A book of hours with the fixed rate, which no append takes."""
    book, temps, version = head, hours.start_up(zone), 1
    for _ in range(inputs.random.randrange(1, 4)):
        version = max(version, inputs.of(1, 2, 3))
        conditions, limits = inputs.conditions(elements, code=0), (50.0, 60.0)
        try:
            d, after, _ = hours.known_hour_step(zone, len(temps), temps, conditions, version, *limits, fixed_is_taken=True)
        except Refused:
            continue
        book += books.entry(zone, version, conditions, b''.join(map(books.float_bytes, limits)), d, after)
        temps = after
    return book


def with_rest(inputs, book):
    """The book, changed, cut, or with bytes behind it."""
    k = inputs.random.random()
    if k < 0.25:
        return inputs.changed(book, 1)
    if k < 0.4:
        return book[:inputs.random.randrange(len(book) + 1)]
    if k < 0.5:
        return book + bytes([0, 0, 0, 9, inputs.of(0, 1, 2, 3, 4, 200)]) + bytes(inputs.random.randrange(0, 600))
    return book


def book_calls(calls, inputs, book):
    lent = Bytes(book)
    values = lent_values(None)
    calls.compare('hem_take_up', [lent, *values], values, lambda: held_left(books.take_up(book)))

    about = float(inputs.of(20, inputs.between(10, 30), values[0].array[0], 1e6, -1e6, 1000001, float('nan')))
    or_none = lambda hour: [NONE if hour is None else hour]
    hour = Number(7)
    calls.compare('hem_first_above', [lent, about, hour], [hour], lambda: or_none(books.first_above(book, about)))
    hour = Number(7)
    calls.compare('hem_nearest_hour', [lent, about, hour], [hour], lambda: or_none(books.nearest_hour(book, about)))
    upper, count = about + inputs.of(0, 1, 5, -1), Number(7)
    calls.compare('hem_hours_within', [lent, about, upper, count], [count], lambda: [books.hours_within(book, about, upper)])

    room = max(0, inputs.of(len(book), len(book) - 1, len(book) + 9, 0))
    output, count, used = Bytes(bytes([7]) * room), Number(7), Number(7)

    def converted():
        entries, length, written = books.convert(book, room)
        return [written + bytes([7]) * (room - length), entries, length]

    calls.compare('hem_convert', [lent, output, count, used], [output, count, used], converted)


def weather_call(calls, inputs):
    file, line = inputs.weather_file()
    found = Floats([], 3, 7.0)
    calls.compare('hem_weather', [Bytes(file), line, found], [found], lambda: [float_list(weather(file, line))])


def turn(calls, inputs):
    inputs.turn()
    head, elements = inputs.head()
    head = inputs.changed(head)
    zone_calls(calls, inputs, head, elements)
    book = begun(calls, inputs, head, elements)
    if book is not None:
        book_calls(calls, inputs, with_rest(inputs, book))
    weather_call(calls, inputs)


def counted(answers):
    return ', '.join(f'{number} {count}' for number, count in sorted(answers.items()))


def missed(calls):
    """What no call gave: of each function an acceptance and a refusal, each refusal's number, of an append also that of a full book, each reason and each load."""
    given = set().union(*calls.answers.values())
    yield from (f'{name} accepted' for name, answers in calls.answers.items() if not answers[0])
    yield from (f'{name} refused' for name, answers in calls.answers.items() if len(answers) < 2)
    if len(calls.answers) != FUNCTIONS:
        yield f'all {FUNCTIONS} functions'
    yield from (f'number {number}' for number in range(LAST_NUMBER + 1) if number not in given)
    if not calls.answers['hem_append'][BOOK_FULL]:
        yield f'number {BOOK_FULL} of hem_append'
    yield from (f'reason {reason}' for reason in range(hours.NO_CHOICE, hours.WINDOWS_ENOUGH + 1) if not calls.reasons[reason])
    yield from (f'load {load}' for load in range(hours.NEITHER, hours.COOLING + 1) if not calls.loads[load])


def main():
    words = argparse.ArgumentParser(usage=__doc__)
    words.add_argument('library')
    words.add_argument('--seed', type=int, default=int.from_bytes(os.urandom(4), 'big'))
    words.add_argument('--calls', type=int, default=20000)
    asked = words.parse_args()
    calls, inputs = Calls(Library(asked.library), asked.seed, asked.calls), Inputs(asked.seed)
    print(f'random calls: --seed {asked.seed} --calls {asked.calls}', flush=True)
    while not calls.done():
        turn(calls, inputs)
    constructed_calls(calls)
    for name, answers in sorted(calls.answers.items()):
        print(f'{name}: {counted(answers)}')
    print(f'reasons: {counted(calls.reasons)}; loads: {counted(calls.loads)}')
    missing = list(missed(calls)) if asked.calls >= ENOUGH else []
    if missing:
        sys.exit(f'random_calls.py: no call gave {", ".join(missing)}')
    print(f'random calls: {calls.made}, of these {calls.different} different')
    sys.exit(calls.different > 0)


if __name__ == '__main__':
    main()
