"""The weather of a line of an EnergyPlus weather file."""
from fractions import Fraction

from floats import ABSENT, INVALID, MISSING, Refused
from records import within

HEADER_LINES = 8
MOST_DIGITS = 12
# the field's place, the value that stands for a missing one, the range
DRY_BULB = 6, Fraction(999, 10), -100, 100
DIRECT_NORMAL = 14, Fraction(9999), 0, 2000
DIFFUSE_HORIZONTAL = 15, Fraction(9999), 0, 2000


# Specification, Weather of a line
def weather(file, line):
    *ended, last = file.split(b'\n')
    lines = [text[:-1] if text.endswith(b'\r') else text for text in ended] + [last]
    if line == 0 or HEADER_LINES + line > len(lines):
        raise Refused(ABSENT)
    fields = lines[HEADER_LINES + line - 1].split(b',')
    if len(fields) <= DIFFUSE_HORIZONTAL[0]:
        raise Refused(ABSENT)
    return [quantity(fields[place], missing, low, high) for place, missing, low, high in (DRY_BULB, DIRECT_NORMAL, DIFFUSE_HORIZONTAL)]


# Specification, Decimals of a weather file
def quantity(field, missing, low, high):
    minus = field.startswith(b'-')
    parts = field[1:].split(b'.') if minus else field.split(b'.')
    if len(parts) > 2 or any(not part or part.strip(b'0123456789') for part in parts):
        raise Refused(INVALID)
    digits = b''.join(parts)
    if len(digits) > MOST_DIGITS:
        raise Refused(INVALID)
    power = 10 ** (len(digits) - len(parts[0]))
    if not minus and Fraction(int(digits), power) == missing:
        raise Refused(MISSING)
    value = int(digits) / power  # of whole numbers, which Python rounds once
    value = -value if minus else value
    if not within(low, high, value):
        raise Refused(INVALID)
    return value
