"""Houses, and hours and entries of House P, worked out by hand."""
import math

from making.layout import HEATING_FRACTION, LIMITS_VERSION, MOST_LIMIT, NO_CONTROL, TRANSPARENT, f64, put, record, u16

PART = (20.0, 0.0, 0.0, 1.0, 1.0)


def element(kind=TRANSPARENT, delta_r=(), area=1.0, pitch=90.0, h=(1.0, 0.0, 0.0), absorption=0.0, sky=0.0,
            k=(0.0, 3600.0), h_pli=(1.0,), part=PART, bits=0):
    return (bytes([kind, len(delta_r)]) + f64(area, pitch, *h, absorption, sky, *k, *h_pli, *delta_r)
            + f64(*part) + bytes([bits]))


def head_of(elements, basis=0, limit=10, values=(36.0, 100.0, 43.0625, 20.0, 20.0, NO_CONTROL)):
    b = bytes([1, basis, len(elements)]) + u16(limit) + f64(*values) + b"".join(elements)
    return record(b)


def conditions_of(head, v=(1.0, 20.0, 0.0, 0.0, 1.0, 1.0, 20.0, 24.0, NO_CONTROL, 20.0, 0.0, 0.0), rates=(0.0, 0.0),
                  part=PART):
    """target and windows open, as in House P both 0 where it is not said otherwise"""
    return f64(*v) + b"\1" + f64(*rates) + (f64(*part) + b"\0") * head[6]


HOUSE_P = head_of([element()])
WALL = element(0, (), 12.0, 90.0, (20.0, 4.0, 5.0), 0.5, 10.0, (0.0, 0.0, 0.0, 0.0, 60000.0), (6.0, 3.0, 3.0, 6.0))
WINDOW = element(TRANSPARENT, (0.25, 0.5), 4.0, 90.0, (20.0, 4.0, 5.0), 0.0, 10.0, (0.0, 0.0), (2.0,), PART, 2)
HOUSE_Q = head_of([WALL, WINDOW, element()], 1, 300)
# no capacity, no loss, hardly any useful area: the dense pivot is zero
SINGULAR = head_of([element(k=(0.0, 0.0), h=(0.0, 0.0, 0.0))], values=(1e-20, 100.0, 0.0, 20.0, 20.0, NO_CONTROL))
# hardly any useful area: greatest heating does not move the temperature
WEAK = head_of([element()], values=(1e-12, 100.0, 43.0625, 20.0, 20.0, NO_CONTROL))
# the same, first set above the first external temperature: 14 in start-up
WEAK_START = head_of([element()], values=(1e-12, 100.0, 43.0625, 10.0, 20.0, NO_CONTROL))
# hardly any loss: gains carry the temperature beyond a million
LIGHT = head_of([element(area=1e-3, k=(0.0, 0.0))], values=(1e-3, 100.0, 0.0, 20.0, 20.0, NO_CONTROL))
# the first set temperature is far from the first external one
SLOW = head_of([element(k=(1e7, 1e7))], limit=1, values=(36.0, 100.0, 43.0625, 10.0, 20.0, NO_CONTROL))
# the first ventilation setpoint lies below the first set temperature
VENT = head_of([element()], values=(36.0, 100.0, 43.0625, 20.0, 20.0, 19.0))
# external 10 with next to no useful area and losses: greatest load far beyond a million degrees never arises, so 13
# in start-up comes from a loaded temperature: a large useful area on a house with next to no loss
HOT_START = head_of([element(area=1e-6, h=(1e-6, 0.0, 0.0), k=(0.0, 0.0))],
                    values=(1e5, 1e-3, 1e-9, 10.0, 20.0, NO_CONTROL))
# House P in balance: bytes of its head, of an entry and of the limits in one, and its temperatures
HEAD, ENTRY, LIMITS, BALANCE = 180, 216, 16, (20.0, 20.0, 20.0)
# in an entry: the version byte, and the end of the front that a rest needs to be looked at, where the conditions begin;
# the limits
VERSION_PLACE, FRONT, LIMITS_PLACE = 4, 5, 159


def entry_size(version):
    """of an entry of House P"""
    return ENTRY + LIMITS if version == LIMITS_VERSION else ENTRY


def room_for_one(version):
    """a buffer with just the room for House P's head and an entry"""
    return HEAD + entry_size(version)


def entry_p(version=1, conditions=None, heating=0.0, cooling=0.0, temps=BALANCE, limits=(MOST_LIMIT, 0.0), rate=0.0,
            trigger=b"\0" + bytes(8)):
    """an entry of House P; in balance no power is delivered, so it is the same under every version but for its byte and
    the limits, which stand behind the conditions from version 3 on"""
    b = bytes([version]) + (conditions or conditions_of(HOUSE_P))
    b += f64(*limits) if version == LIMITS_VERSION else b""
    b += f64(heating, cooling, rate) + trigger + f64(*temps)
    assert len(b) == entry_size(version) - 4
    return record(b)


# House P from balance, worked out by hand. The inner surface is x, the air y above 20, and of the power w the share f
# goes to the air: (100 + 43.0625) y + 2.5 (y - x) = f w, and 4 x = 2.5 y + (1 - f) w. So 144 W by the share 1 bring the
# air to 21, and -144 W to 19; in the last row -144 W by the share 0.5. The outer surface lies halfway from 20 to the
# inner one.
HEATED, COOLED_BY_ALL = (20.3125, 20.625, 21.0), (19.6875, 19.375, 19.0)
COOLED_BY_HALF = (10.74609375, 1.4921875, 19.1875)
# With a limit the same equations have its power: 72 W by the share 1 bring the air to 20.5, 36 W to 20.25, none leaves
# all at 20. At 144 W a limit does not hold.
HEATED_TO = ((72.0, (20.15625, 20.3125, 20.5)), (36.0, (20.078125, 20.15625, 20.25)), (144.0, HEATED),
             (math.nextafter(144.0, math.inf), HEATED), (0.0, BALANCE))
COOLED_TO = ((72.0, (19.84375, 19.6875, 19.5)), (36.0, (19.921875, 19.84375, 19.75)), (144.0, COOLED_BY_ALL),
             (math.nextafter(144.0, math.inf), COOLED_BY_ALL), (0.0, BALANCE))
# what -72 W by the share 0.5, the fraction of heating, would give
HALF_COOLED_BY_HALF = (15.373046875, 10.74609375, 19.59375)
# heated to 21, and cooled to 19 with heating fraction 0.5 and cooling fraction 1
P_HEATED = put(conditions_of(HOUSE_P), 48, f64(21.0))
P_COOLED = put(put(conditions_of(HOUSE_P), 48, f64(15.0, 19.0)), HEATING_FRACTION, f64(0.5))
