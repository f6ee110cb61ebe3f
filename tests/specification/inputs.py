"""Random arguments: houses as they may be built, values of the whole ranges with their ends, subnormals, NaNs and infinities; and bytes that are cut, longer
or changed."""
import random
import struct

NO_CONTROL = 1.4e32
SMALL = (0.0, -0.0, 5e-324, 1e-310, 1e-300, 1e-20, 1e-9, 1.0)
ODD = (float('nan'), float('inf'), -float('inf'), 1e308, -1e308, -0.0, 5e-324)


class Inputs:
    def __init__(self, seed):
        self.random = random.Random(seed)
        self.wide = False  # whether values come from their whole ranges

    def chance(self, p):
        return self.random.random() < p

    def of(self, *choices):
        return self.random.choice(choices)

    def between(self, low, high):
        return self.random.uniform(low, high)

    def turn(self):
        self.wide = self.chance(1 / 3)

    def in_range(self, low, high, above=False):
        """A value of a range whose low end may be left out."""
        k = self.random.random() if self.wide else 1
        if k < 0.15:
            return float(high)
        if k < 0.3:
            return float(low) if not above else self.of(5e-324, 1e-300, 1e-20, 1e-9)
        if k < 0.4 and low <= 0 <= high:
            x = self.of(*SMALL)
            return x if low <= x <= high and not (above and x <= 0) else float(high)
        if k < 0.6 and high > 1:
            return min(float(high), 10 ** self.between(-6, 0) * high)
        return self.between(low, high)

    def part(self, treatments):
        return struct.pack('>5d', self.in_range(-100, 100), self.in_range(0, 2000), self.in_range(0, 2000), self.in_range(0, 1), self.in_range(0, 1)) + bytes(
            [self.random.randrange(2 ** treatments)])

    def element(self, kind, treatments):
        nodes = 2 if kind == 4 else 5
        if self.wide:
            floats = [self.in_range(0, 1e5, True), self.of(0.0, 59.9, 60.0, 90.0, 120.0, 120.1, 180.0, self.between(0, 180)), self.in_range(0, 1e6),
                      self.in_range(0, 1e6), self.in_range(0, 1e6), self.in_range(0, 1), self.in_range(-1e4, 1e4)]
            floats += [self.in_range(0, 1e7) for _ in range(nodes)] + [self.in_range(0, 1e6, True) for _ in range(nodes - 1)]
            floats += [self.in_range(0, 1000) for _ in range(treatments)]
        else:
            floats = [self.between(0.5, 100), self.of(0.0, 30.0, 60.0, 90.0, 120.0, 180.0), self.between(0, 25), self.between(0, 5), self.between(0, 6),
                      self.between(0, 1), self.between(-50, 100)]
            floats += [self.of(0.0, self.between(1000, 2e5)) for _ in range(nodes)] + [self.between(0.1, 30) for _ in range(nodes - 1)]
            floats += [self.between(0, 1) for _ in range(treatments)]
        return bytes([kind, treatments]) + struct.pack(f'>{len(floats)}d', *floats) + self.part(treatments)

    def head(self):
        """Its bytes, and the treatments and nodes of each element."""
        count = self.of(1, 1, 2, 3, 4, 6) if self.chance(0.95) else self.random.randrange(7, 25)
        kinds = [self.random.randrange(6) for _ in range(count)]
        elements = [(kind, self.random.randrange(5) if kind == 4 else 0) for kind in kinds]
        if self.wide:
            front = [self.in_range(0, 1e5, True), self.in_range(0, 1e5, True), self.in_range(0, 1e6), self.in_range(-100, 100), self.in_range(-273.15, 100),
                     self.of(NO_CONTROL, self.in_range(-273.15, NO_CONTROL))]
        else:
            front = [self.between(5, 200), self.between(20, 500), self.between(0, 40), self.between(-10, 15), self.between(15, 22), self.of(NO_CONTROL, 24.0)]
        after = bytes([1, self.random.randrange(2), count]) + self.of(1, 2, 10, 50, 100, 100).to_bytes(2, 'big') + struct.pack('>6d', *front)
        after += b''.join(self.element(*element) for element in elements)
        return len(after).to_bytes(4, 'big') + after, [(treatments, 2 if kind == 4 else 5) for kind, treatments in elements]

    def setpoints(self):
        """Heating, cooling and ventilation."""
        if self.wide:
            heating = self.in_range(-273.15, 100)
            return heating, heating + self.of(0, 1e-10, 1e-9, 5, 50), self.of(NO_CONTROL, heating + self.of(0, 3))
        heating = self.between(5, 21)
        cooling = heating + self.of(0, 2, 5, 8)
        return heating, cooling, self.of(NO_CONTROL, heating + self.between(0, cooling - heating + 0.1))

    def conditions(self, elements, code=None):
        heating, cooling, ventilation = self.setpoints()
        if self.wide:
            floats = [self.of(1.0, 0.001, 8760.0, 0.5, self.in_range(0.001, 8760)), self.in_range(-100, 100), self.in_range(-1e7, 1e7), self.in_range(-1e7, 1e7),
                      self.in_range(0, 1), self.in_range(0, 1), heating, cooling, ventilation, self.in_range(-100, 100),
                      self.in_range(-1e7, 1e7) * self.of(0, 1), self.in_range(-1e7, 1e7) * self.of(0, 1)]
            rates = [self.in_range(0, 1000), self.in_range(0, 1000)]
        else:
            floats = [self.of(1.0, 1.0, 0.5), self.between(-10, 35), self.between(0, 800), self.between(0, 3000) * self.of(0, 1), self.between(0, 1),
                      self.between(0, 1), heating, cooling, ventilation, self.between(-5, 35), self.between(-200, 500) * self.of(0, 1),
                      self.between(-200, 500) * self.of(0, 1)]
            target = self.between(0, 2)
            rates = [target, self.of(target, target + self.between(0, 8), self.between(0, 2))]
        if code is None:
            code = 0 if self.chance(0.12) else 1
        if code == 0:
            rates[1] = 0.0
        return struct.pack('>12d', *floats) + bytes([code]) + struct.pack('>2d', *rates) + b''.join(self.part(treatments) for treatments, _ in elements)

    def temperatures(self, elements):
        """Of a state that may have another number of nodes, or a value that is not within the bound."""
        count = sum(nodes for _, nodes in elements) + 1 + (1 if self.chance(0.03) else 0)
        about = self.between(0, 30)
        if self.wide:
            temps = [self.of(self.in_range(-1e6, 1e6), about, about + self.between(-1, 1)) for _ in range(count)]
        else:
            temps = [self.of(about + self.between(-8, 8), about) for _ in range(count)]
        if self.chance(0.03):
            temps[self.random.randrange(count)] = self.of(float('nan'), 1e6 + 1, -float('inf'))
        return temps[:121]

    def version(self, least=1):
        return self.of(1, 2, 3, 0, 4, 9, 257, 2 ** 63) if self.chance(0.1) else max(least, self.of(1, 2, 3))

    def made_up(self, value, *others):
        """A value of a book as a caller may hand it in: mostly the book's own."""
        return self.of(*others, self.random.randrange(2 ** 64), value + 1, max(0, value - 1)) if self.chance(0.25) else value

    def values_of(self, count, used, last_version, room):
        """Made-up count, used length and last version of a book in so many bytes; a full book has 8784 hours."""
        return (self.made_up(count, 0, 8783, 8784, 8784, 8785, 2 ** 64 - 1), self.made_up(used, 0, room, room + 1, 2 ** 64 - 1, self.random.randrange(room + 1)),
                self.made_up(last_version, 0, 1, 2, 3, 4, 2 ** 64 - 1))

    def power_limits(self):
        greatest = self.of(0.0, 100.0, self.between(0, 5e3), 1e7, -1.0, float('nan')) if self.chance(0.2) else self.between(0, 3e3)
        return greatest, self.of(0.0, -0.0, 500.0, 1e7, self.between(0, 3e3))

    def changed(self, data, p=0.12):
        """The bytes, or with that chance others: a bit turned, cut, longer, or with an odd float."""
        if not data or not self.chance(p):
            return data
        data, k = bytearray(data), self.random.random()
        if k < 0.3:
            data[self.random.randrange(len(data))] ^= 1 << self.random.randrange(8)
        elif k < 0.5:
            del data[self.random.randrange(len(data)):]
        elif k < 0.7:
            data += self.random.randbytes(self.random.randrange(1, 9))
        else:
            place = self.random.randrange(0, max(1, len(data) - 8))
            data[place:place + 8] = struct.pack('>d', self.of(*ODD))
        return bytes(data)

    def field(self):
        k = self.random.random()
        if k < 0.1:
            return b'99.9'
        if k < 0.2:
            return b'9999'
        if k < 0.6:
            return bytes(self.of(*b'0123456789.-0123456789 0123456789') for _ in range(self.of(0, 1, 2, 3, 4, 12, 13, 14)))
        return b'%.*f' % (self.random.randrange(4), self.between(-120, 2100))

    def weather_file(self):
        """A file's bytes, and the number of a line."""
        fields = [self.of(b'', b'x', b'?9') for _ in range(self.of(15, *[16] * 12, 17, 20))]
        for place in (6, 14, 15):
            if place < len(fields):
                fields[place] = self.field() if self.chance(0.3) else b'%.2f' % self.between(0, 100)
        end = self.of(b'\n', b'\r\n')
        file = (b'h' + end) * self.of(7, *[8] * 12, 9) + b','.join(fields) + self.of(end, b'', b'\r') + self.of(b'', b'zz')
        return file, self.of(*[1] * 12, 2, 0)
