"""A row: a call, its number and index, and what an accepted one gives."""
import collections

from making.layout import BALANCE_VALUES, MOST_LIMIT, VERSIONS, f64, record, u16, u32, u64
from making.houses import BALANCE, FRONT, HEAD, HOUSE_P, VERSION_PLACE, entry_p, entry_size, room_for_one

# the converter, and `why` for itself
CONVERT, WHY = 13, 14
# what a call is given that names no limits of its own: where they are neither tested nor used, limits out of range
NAN = float("nan")
USUAL_LIMITS = {1: (NAN, NAN), 2: (-1.0, -1.0), 3: (MOST_LIMIT, 0.0)}


def usual_limits(version):
    return USUAL_LIMITS.get(version, (NAN, NAN))


def hour_values():
    """demand, temperatures and heat balance of House P in balance"""
    return [f64(x) for x in (0.0,) * 5 + BALANCE + (0.0,) * BALANCE_VALUES]


def book_values(count, used, last, temps):
    """what a call on a book hands back"""
    return [u64(count), u64(used), u64(last)] + [f64(t) for t in temps]


def taken_up(book):
    """count, used length and last version of a book of House P whose whole entries are true"""
    count, used, last = 0, HEAD, 1
    while used + FRONT <= len(book):
        version = book[used + VERSION_PLACE]
        assert version in VERSIONS
        if len(book) < used + entry_size(version):
            break
        count, used, last = count + 1, used + entry_size(version), version
    return count, used, last


def words(b):
    """four bytes in each value: in so few no sign of a zero is lost; behind the last bytes zeros"""
    return [u64(int.from_bytes(b[i:i + 4].ljust(4, b"\0"), "big")) for i in range(0, len(b), 4)]


def why_values(answer, load=0):
    """of an hour that has no choice of rates: reason and load, where it is not refused"""
    return [] if answer[0] else [u64(1), u64(load)]


def values_after(call, head, conditions, count, used, version, limits, demand, after):
    """what an accepted call gives, on a book with this demand and these temperatures; but for a head alone, every
    accepted row is of House P"""
    if call == 8:
        return []
    assert head[:HEAD] == HOUSE_P
    if call == 4:
        return hour_values()
    if call == 5:
        return book_values(0, HEAD, 1, after)
    if call == 6:
        e = entry_p(version, conditions, *demand, after, limits)
        return book_values(count + 1, used + len(e), version, after) + words(e)
    assert call == 7
    return book_values(*taken_up(head), after)


class Rows:
    def __init__(self):
        self.rows, self.numbers, self.calls, self.versions = [], collections.Counter(), collections.Counter(), set()

    def add(self, call, expected, head=b"", change=(0, 0), nodes=None, temps=(), conditions=b"", own=(0.0, 0.0, 0.0),
            count=0, used=0, room=0, version=1, last=1, limits=None, demand=(0.0, 0.0), after=BALANCE,
            values=None):
        """`room` may go by the version; `own` are the floats of an update or a question, `limits` those of a call that
        names a version"""
        number, index = expected
        nodes = len(temps) if nodes is None else nodes
        room = room(version) if callable(room) else room
        limits = usual_limits(version) if limits is None else limits
        own = (*limits, 0.0) if call in (4, 6) else own
        if values is None:
            values = [] if number else values_after(call, head, conditions, count, used, version, limits, demand, after)
        b = bytes([call, number]) + u16(index) + u32(len(head)) + head + bytes([change[0]]) + u16(change[1])
        b += u16(nodes) + u16(len(temps)) + f64(*temps) + u16(len(conditions)) + conditions + f64(*own)
        b += u32(count) + u32(used) + u32(room) + u64(version) + u64(last)
        b += u16(len(values)) + b"".join(values)
        self.rows.append(record(b))
        self.numbers[number] += 1
        self.calls[call] += 1
        self.versions.add((call, version, number))

    def add_each(self, call, *row, **given):
        """a row; of an hour step or an append, which name a version, one for each"""
        for version in VERSIONS if call in (4, 6) else (1,):
            self.add(call, *row, version=version, **given)


# what a begin or a take-up is given, made up
GIVEN = {"nodes": 7, "temps": [1.5, 2.5, 3.5], "count": 77, "used": 1234, "last": 9}
# an append of one entry more, with just the room for it
ONE_ENTRY = {"count": 5, "used": HEAD, "room": room_for_one}
