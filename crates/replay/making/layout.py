"""Numbers into bytes, and the places in a head and in an hour's conditions."""
import struct

NO_CONTROL = 1.4e32
TRANSPARENT = 4
MILLION = 1e6
# places of the fractions in the conditions
HEATING_FRACTION, COOLING_FRACTION = 32, 40
GAINS_CONVECTIVE, GAINS_RADIATIVE = 80, 88
# of heating, cooling and ventilation setpoint, with the supply's temperature behind them; of the rate code and the rates
SETPOINTS, RATE_CODE, RATES, SECOND_RATE, ELEMENT_HOURS = 48, 96, 97, 105, 113
# entry versions that hours have, the first with limits, and some that no hour has
VERSIONS, LIMITS_VERSION, NO_VERSIONS = (1, 2, 3), 3, (0, 4, 257, 2 ** 64 - 1)
# greatest limit, W
MOST_LIMIT = 1e7
# values of a heat balance: of the air node, of the internal boundary, its sums by direction of heat flow, which the Rust
# does not have, and of the external boundary
AIR_NODE, INTERNAL, BY_DIRECTION, EXTERNAL = 7, 4, 3, 14
RUST_BALANCE_VALUES = AIR_NODE + INTERNAL + EXTERNAL
BALANCE_VALUES = RUST_BALANCE_VALUES + BY_DIRECTION


def u16(n):
    return struct.pack(">H", n)


def u32(n):
    return struct.pack(">I", n)


def u64(n):
    return struct.pack(">Q", n)


def f64(*values):
    return struct.pack(">%dd" % len(values), *values)


def record(b):
    return u32(len(b)) + b


def put(b, at, new):
    return b[:at] + new + b[at + len(new):]


def has_fixed_rate(conditions):
    """code 0: one rate, and a second float of all zero bits"""
    return conditions[RATE_CODE] == 0


def with_rate_twice(conditions):
    """of an hour with the fixed rate: code 1, and the rate's own bits in both floats"""
    assert has_fixed_rate(conditions)
    return put(conditions, RATE_CODE, b"\1" + 2 * conditions[RATES:SECOND_RATE])


def with_fixed_rate(conditions):
    """of an hour with code 1 and one rate in both floats"""
    rate = conditions[RATES:SECOND_RATE]
    assert conditions[RATE_CODE:ELEMENT_HOURS] == b"\1" + 2 * rate
    return put(conditions, RATE_CODE, b"\0" + rate + bytes(8))


def floats_at(b, at, n):
    return struct.unpack(">%dd" % n, b[at:at + 8 * n])


def elements_of(head):
    """kind, treatments and place of each element of a good head"""
    found, p = [], 57
    for _ in range(head[6]):
        kind, t = head[p], head[p + 1]
        found.append((kind, t, p))
        p += 123 + 8 * t if kind == TRANSPARENT else 171
    assert p == len(head)
    return found


def nodes_of(kind):
    """of an element"""
    return 2 if kind == TRANSPARENT else 5


def node_count(head):
    return 1 + sum(nodes_of(e[0]) for e in elements_of(head))
