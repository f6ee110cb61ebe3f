"""Year books, the questions over them, and their conversion."""
from floats import BOOK_FULL, BUFFER_SHORT, FALSE_ENTRY, QUESTION_VALUE, VERSION_1_ENTRY, Refused, float_at, float_bytes, within_state_bound
from hours import LIMITS_VERSION, known_hour_step, known_version, start_up
from records import FIRST_RATE, RATE_CODE, SECOND_RATE, conditions_size, node_count, read_head, zone_test
from time_step import operative

MOST_ENTRIES = 8784
VERSION_AT, CONDITIONS_AT = 4, 5


class Held:
    """Specification, Values of a book: state, count, used length and last version."""

    def __init__(self, temps, count, used, last_version):
        self.temps, self.count, self.used, self.last_version = temps, count, used, last_version


class Hour:
    """What a take-up finds of an entry: where it stands, how long it is, its version, and the operative temperature after it."""

    def __init__(self, place, size, version, operative):
        self.place, self.size, self.version, self.operative = place, size, version, operative


# Specification, Entry
def entry_size(zone, version):
    return 4 + 147 + 41 * zone.count + 8 * node_count(zone) + (16 if version == LIMITS_VERSION else 0)


def entry(zone, version, conditions, limits, demand, temps):
    """Its bytes; the limits as they are to stand there."""
    trigger = bytes(9) if demand.trigger is None else b'\1' + float_bytes(demand.trigger)
    results = b''.join(float_bytes(x) for x in (demand.heating, demand.cooling, demand.ach))
    return ((entry_size(zone, version) - 4).to_bytes(4, 'big') + bytes([version]) + conditions + (limits if version == LIMITS_VERSION else b'') + results
            + trigger + b''.join(float_bytes(t) for t in temps))


# Specification, Begin
def begin(head, buffer):
    zone, end = read_head(head)
    temps = start_up(zone)
    if len(buffer) < end:
        raise Refused(BUFFER_SHORT)
    buffer[:end] = head[:end]
    return Held(temps, 0, end, 1)


# Specification, Append
def append(zone, buffer, nodes, held, conditions, version, greatest_heating, greatest_cooling):
    """The values after it, and the entry."""
    zone_test(zone)
    if held.count >= MOST_ENTRIES:
        raise Refused(BOOK_FULL)
    if not known_version(version) or version < held.last_version:
        raise Refused(FALSE_ENTRY, held.count)
    d, after, _ = known_hour_step(zone, nodes, held.temps, conditions, version, greatest_heating, greatest_cooling, fixed_is_taken=False)
    written = entry(zone, version, conditions, float_bytes(greatest_heating) + float_bytes(greatest_cooling), d, after)
    end = held.used + len(written)
    if end > len(buffer):
        raise Refused(BUFFER_SHORT)
    buffer[held.used:end] = written
    return Held(after, held.count + 1, end, version), written


# Specification, Where an entry ends
def whole_entry(zone, rest):
    """How long the entry is with which the rest of a book begins; None where the rest is dropped."""
    if len(rest) <= VERSION_AT:
        return None
    version = rest[VERSION_AT]
    if not known_version(version):
        return len(rest)
    size = entry_size(zone, version)
    return size if size <= len(rest) else None


# Specification, Take-up; Specification, Plain book
def contents(data):
    """The zone, the start-up's temperatures, the hours, and the values after them."""
    zone, place = read_head(data)
    started = start_up(zone)
    temps, last_version, hours = started, 1, []
    while True:
        rest = data[place:]
        size = whole_entry(zone, rest)
        if size is None:
            return zone, started, hours, Held(temps, len(hours), place, last_version)
        if len(hours) >= MOST_ENTRIES:
            raise Refused(BOOK_FULL)
        version = rest[VERSION_AT]
        temps = hour_of(zone, temps, last_version, rest[:size], len(hours))
        last_version = version
        hours.append(Hour(place, size, version, operative(zone, temps)))
        place += size


def hour_of(zone, temps, last_version, stored, index):
    """The temperatures after a true entry."""
    version = stored[VERSION_AT]
    if not known_version(version) or version < last_version:
        raise Refused(FALSE_ENTRY, index)
    limits_at = CONDITIONS_AT + conditions_size(zone.count)
    conditions, limits = stored[CONDITIONS_AT:limits_at], bytes(16)
    if version == LIMITS_VERSION:
        limits = stored[limits_at:limits_at + 16]
    try:
        d, after, _ = known_hour_step(zone, len(temps), temps, conditions, version, float_at(limits, 0), float_at(limits, 8), fixed_is_taken=True)
    except Refused:
        raise Refused(FALSE_ENTRY, index) from None
    if entry(zone, version, conditions, limits, d, after) != stored:
        raise Refused(FALSE_ENTRY, index)
    return after


def take_up(data):
    return contents(data)[3]


# Specification, Questions over a book
def first_above(data, value):
    zone, started, hours, _ = contents(data)
    if not within_state_bound(value):
        raise Refused(QUESTION_VALUE)
    before = operative(zone, started)
    for i, hour in enumerate(hours):
        if before <= value and hour.operative > value:
            return i
        before = hour.operative
    return None


def hours_within(data, lower, upper):
    _, _, hours, _ = contents(data)
    if not within_state_bound(lower) or not within_state_bound(upper) or upper < lower:
        raise Refused(QUESTION_VALUE)
    return sum(1 for hour in hours if lower <= hour.operative and hour.operative <= upper)


def nearest_hour(data, value):
    _, _, hours, _ = contents(data)
    if not within_state_bound(value):
        raise Refused(QUESTION_VALUE)
    nearest, least = None, None
    for i, hour in enumerate(hours):
        distance = abs(hour.operative - value)
        if nearest is None or distance < least:
            nearest, least = i, distance
    return nearest


# Specification, Conversion
def convert(data, room):
    """Count, used length, and the bytes that are written."""
    _, _, hours, held = contents(data)
    if any(hour.version == 1 for hour in hours):
        raise Refused(VERSION_1_ENTRY)
    if room < held.used:
        raise Refused(BUFFER_SHORT)
    written = bytearray(data[:held.used])
    for hour in hours:
        at = hour.place + CONDITIONS_AT
        if written[at + RATE_CODE] == 0:
            written[at + RATE_CODE] = 1
            written[at + SECOND_RATE:at + SECOND_RATE + 8] = written[at + FIRST_RATE:at + FIRST_RATE + 8]
    return held.count, held.used, bytes(written)
