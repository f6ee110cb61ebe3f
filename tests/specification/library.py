"""The compiled engine, called as C calls it (include/hem_zone.h). Each call gives the number that was returned and what it left in all that it was lent."""
import ctypes
import struct

MOST_NODES = 121
NONE = 2 ** 64 - 1
WORD = ctypes.c_uint64


class Floats:
    """Lent floats; places that are not given hold `behind`."""

    def __init__(self, values, count, behind=0.0):
        self.array = (ctypes.c_double * count)(*values, *[behind] * (count - len(values)))

    def left(self):
        return float_list(self.array)


class Number:
    def __init__(self, value):
        self.word = WORD(value)

    def left(self):
        return self.word.value


class Bytes:
    """Lent bytes, in memory of just their length."""

    def __init__(self, data):
        self.length = len(data)
        self.array = (ctypes.c_uint8 * max(1, len(data))).from_buffer_copy(bytes(data) or b'\0')

    def left(self):
        return bytes(self.array)[:self.length]


def float_list(values):
    """Their bits; of a NaN only that it is one."""
    return [struct.pack('>d', x) if x == x else b'nan' for x in values]


class Library:
    def __init__(self, path):
        self.loaded = ctypes.CDLL(path)

    def call(self, name, *arguments):
        """The number that a function returned; a float is handed over as a double, a whole number as 64 bits, bytes with their length."""
        given = []
        for argument in arguments:
            if isinstance(argument, Floats):
                given.append(argument.array)
            elif isinstance(argument, Number):
                given.append(ctypes.byref(argument.word))
            elif isinstance(argument, Bytes):
                given += [argument.array, ctypes.c_size_t(argument.length)]
            elif isinstance(argument, float):
                given.append(ctypes.c_double(argument))
            else:
                given.append(WORD(argument))
        function = getattr(self.loaded, name)
        function.restype = ctypes.c_uint32
        return function(*given)
