"""Numbers, and what a refusal is."""
import math
import struct


class Refused(Exception):
    """Specification, What a refusal is."""

    def __init__(self, number, index=0):
        super().__init__(number, index)
        self.number, self.index = number, index


# Specification, Table of refusals: the names that the functions use
(HEAD_SHORT, HEAD_LENGTH, HEAD_VERSION, STRUCTURE, ZONE_VALUE, STATE_INVALID, CONDITIONS_SIZE, CONDITIONS_CODE, CONDITIONS_VALUE, COOLING_BELOW_HEATING,
 VENTILATION_BELOW_HEATING, DIVISOR, TEMPERATURE, NO_EFFECT, NOT_SETTLED, BUFFER_SHORT, BOOK_FULL, FALSE_ENTRY, LIMIT_VALUE, QUESTION_VALUE, ABSENT,
 INVALID, MISSING, VERSION_1_ENTRY) = range(1, 25)


def float_at(data, place):
    return struct.unpack_from('>d', data, place)[0]


def float_bytes(x):
    return struct.pack('>d', x)


def divided(a, b):
    """Specification, Floats: a / b, where Python would raise instead."""
    if a != a or b != b:
        return math.nan
    if b == 0:
        return math.nan if a == 0 else math.copysign(math.inf, a) * math.copysign(1.0, b)
    return a / b


def is_finite(x):
    return x - x == 0


# Specification, Magnitude and bounds; Specification, Zeros and NaN: Python compares so
def greater_of(x, y):
    return y if x < y else x


def within_state_bound(x):
    return -1e6 <= x and x <= 1e6


def valid_divisor(x):
    return is_finite(x) and x != 0


# Specification, Closeness
def close(a, b, e, r):
    return a == b or (is_finite(a) and is_finite(b) and (abs(a - b) <= e or abs(a - b) <= r * greater_of(abs(a), abs(b))))


def close_in_demand(a, b):
    return close(a, b, 1e-10, 1e-9)


def isclose(a, b):
    return close(a, b, 1e-8, 1e-8)


def close_in_windows_test(a, b):
    return close(a, b, 1e-8, 1e-10)


# Specification, Compensated sum
def sum2(terms):
    s, c = 0.0, 0.0
    for t in terms:
        u = s + t
        z = u - s
        c = c + ((s - (u - z)) + (t - z))
        s = u
    return s + c


# Specification, Plain sum
def plain_sum(terms):
    s = 0.0
    for t in terms:
        s = s + t
    return s
