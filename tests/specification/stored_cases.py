#!/usr/bin/env python3
"""stored_cases.py

The stored cases and rows of refusals (crates/replay/data; crates/replay/make_data.py says what stands in them) by the engine of this folder. Each answer is
to be the stored one bit for bit, but that zeros of either sign are the same in rows of refusals, some of which were written by hand."""
import pathlib
import struct
import sys

sys.dont_write_bytecode = True
import books
import hours
from floats import Refused, float_bytes
from records import FIRST_PART, FIRST_RATE, RATE_CODE, SECOND_RATE, head_structure, read_head, zone_test

DATA = pathlib.Path(__file__).resolve().parents[2] / 'crates' / 'replay' / 'data'
ZEROS = (bytes(8), b'\x80' + bytes(7))
MOST_TOLD = 10


def records(name):
    data, place = (DATA / name).read_bytes(), 0
    while place < len(data):
        end = place + 4 + int.from_bytes(data[place:place + 4], 'big')
        yield Reader(data[place + 4:end])
        place = end


class Reader:
    def __init__(self, data):
        self.data, self.place = data, 0

    def bytes(self, count):
        self.place += count
        assert self.place <= len(self.data)
        return self.data[self.place - count:self.place]

    def number(self, count):
        return int.from_bytes(self.bytes(count), 'big')

    def floats(self, count):
        return list(struct.unpack(f'>{count}d', self.bytes(8 * count)))

    def values(self):
        return [self.bytes(8) for _ in range(self.number(2))]


def eight_bytes(value):
    return value if isinstance(value, bytes) else float_bytes(value) if isinstance(value, float) else value.to_bytes(8, 'big')


def words(data):
    return [int.from_bytes(data[i:i + 4].ljust(4, b'\0'), 'big') for i in range(0, len(data), 4)]


def demand_values(d):
    return [d.heating, d.cooling, d.ach] + ([0, bytes(8)] if d.trigger is None else [1, d.trigger])


def with_rate_twice(conditions):
    """Cases have some hours in the form with the fixed rate, which the calls refuse: the same hour in the other form."""
    if not conditions or conditions[RATE_CODE] == 1:
        return conditions
    return conditions[:RATE_CODE] + b'\1' + conditions[FIRST_RATE:SECOND_RATE] * 2 + conditions[FIRST_PART:]


# ---- cases

DEMAND, UPDATE, START_UP, HOUR_STEP = range(1, 5)


def case_values(operation, head, temps, conditions, own):
    zone, _ = read_head(head)
    if operation == DEMAND:
        d = hours.demand(zone, len(temps), temps, conditions)
        return demand_values(d) + [d.reason, d.load]
    if operation == UPDATE:
        after, balance = hours.update(zone, len(temps), temps, conditions, *own)
        return after + balance
    if operation == START_UP:
        return hours.start_up(zone)
    d, after, balance = hours.hour_step(zone, len(temps), temps, conditions, operation - HOUR_STEP + 1, *own[:2])
    return demand_values(d) + after + balance


def case(record):
    record.number(1)  # the profile that it was made by
    operation, number = record.number(1), record.number(1)
    head, temps, conditions = record.bytes(record.number(2)), record.floats(record.number(2)), record.bytes(record.number(2))
    own = record.floats(3)
    return (number, 0), record.values(), lambda: case_values(operation, head, temps, with_rate_twice(conditions), own)


# ---- rows of refusals

def changed(head, change, value):
    """The zone of a head's structure with one of its values changed."""
    zone, _ = head_structure(head)
    if change == 1:
        zone.count, zone.elements = value, zone.elements * 200
    elif change == 2:
        zone.elements[0].treatments = value
    elif change == 3:
        zone.useful_area = float(value)
    elif change == 4:
        zone.elements[1].area = float(value)
    return zone


def held_values(held):
    return [held.count, held.used, held.last_version] + held.temps


def row(record):
    call, number, index = record.number(1), record.number(1), record.number(2)
    head, change = record.bytes(record.number(4)), (record.number(1), record.number(2))
    nodes, temps, conditions, own = record.number(2), record.floats(record.number(2)), record.bytes(record.number(2)), record.floats(3)
    count, used, room, version, last_version = (record.number(size) for size in (4, 4, 4, 8, 8))

    def zone():
        return changed(head, *change)

    def update():
        after, balance = hours.update(zone(), nodes, temps, conditions, *own)
        return after + balance

    def hour_step():
        d, after, balance = hours.hour_step(zone(), nodes, temps, conditions, version, *own[:2])
        return demand_values(d) + after + balance

    def append():
        held, entry = books.append(zone(), bytearray(room), nodes, books.Held(temps, count, used, last_version), conditions, version, *own[:2])
        return held_values(held) + words(entry)

    def convert():
        entries, length, written = books.convert(head, room)
        return [entries, length] + words(written)

    def none_or(hour):
        return [] if hour is None else [hour]

    calls = {
        1: lambda: demand_values(hours.demand(zone(), nodes, temps, conditions)),
        2: update,
        3: lambda: hours.start_up(zone()),
        4: hour_step,
        5: lambda: held_values(books.begin(head, bytearray(room))),
        6: append,
        7: lambda: held_values(books.take_up(head)),
        8: lambda: read_head(head) and [],
        9: lambda: zone_test(zone()) or [],
        10: lambda: none_or(books.first_above(head, own[0])),
        11: lambda: [books.hours_within(head, *own[:2])],
        12: lambda: none_or(books.nearest_hour(head, own[0])),
        13: convert,
        14: lambda: list(hours.why(zone(), nodes, temps, conditions)),
    }
    return (number, index), record.values(), calls[call]


# ---- comparison

def difference(told, stored, answer, zeros_are_one):
    """What differs, if anything: number and index, and the values of what is accepted."""
    try:
        given, values = (0, 0), [eight_bytes(value) for value in answer()]
    except Refused as refused:
        given, values = (refused.number, refused.index), []
    if given != told:
        return f'number and index {given}, stored {told}'
    if given[0] == 0 and values != stored:
        apart = [i for i, (a, b) in enumerate(zip(values, stored)) if a != b and not (zeros_are_one and a in ZEROS and b in ZEROS)]
        if len(values) != len(stored):
            return f'{len(values)} values, stored {len(stored)}'
        if apart:
            return f'value {apart[0]} {values[apart[0]].hex()}, stored {stored[apart[0]].hex()}'
    return None


def compared(name, read, zeros_are_one):
    """How many there are, and how many differ."""
    count = different = 0
    for record in records(name):
        differs = difference(*read(record), zeros_are_one)
        if differs:
            different += 1
            if different <= MOST_TOLD:
                print(f'{name} {count}: {differs}')
        count += 1
    print(f'{name}: {count}, of these {different} not as stored')
    return count, different


if __name__ == '__main__':
    if sys.argv[1:]:
        sys.exit(__doc__)
    results = [compared('cases', case, False), compared('refusals', row, True)]
    sys.exit(any(different or not count for count, different in results))
