"""Calls of the compiled engine, each laid beside what the engine of this folder gives, and counted."""
import collections

import books
from floats import Refused
from library import MOST_NODES, Bytes, Floats, Number, float_list
from records import read_head

MOST_TOLD = 5


# Specification, Answers in C
def state(temps):
    """A state as a call writes it."""
    return float_list(temps + [0.0] * (MOST_NODES - len(temps)))


def out(d):
    return float_list([d.heating, d.cooling, d.ach] + ([0.0, 0.0] if d.trigger is None else [1.0, d.trigger]))


def held_left(held):
    return [state(held.temps), len(held.temps), held.count, held.used, held.last_version]


class Calls:
    def __init__(self, library, seed, wanted):
        self.library, self.seed, self.wanted = library, seed, wanted
        self.made = self.different = 0
        self.answers = collections.defaultdict(collections.Counter)
        self.reasons, self.loads = collections.Counter(), collections.Counter()

    def done(self):
        return self.made >= self.wanted

    def compare(self, name, arguments, lent, answer):
        """Makes a call; `lent` are those of its arguments that it may write, and `answer` gives what is to be left there. Whether it was accepted alike."""
        before = [argument.left() for argument in lent]
        given = [argument.left() if hasattr(argument, 'left') else argument for argument in arguments]
        returned = self.library.call(name, *arguments)
        left = [argument.left() for argument in lent]
        try:
            number, wanted = 0, answer()
        except Refused as refused:
            number, wanted = (refused.number + 256 * refused.index) % 2 ** 32, before
        self.made += 1
        self.answers[name][returned % 256] += 1
        if name == 'hem_why' and returned == 0:
            self.reasons[left[0]] += 1
            self.loads[left[1]] += 1
        if (returned, left) != (number, wanted):
            self.different += 1
            if self.different <= MOST_TOLD:
                self.tell(name, given, (returned, left), (number, wanted))
            return False
        return number == 0

    def tell(self, name, given, told, wanted):
        print(f'call {self.made}, {name}: the engine returned {told[0] % 256} with index {told[0] // 256}, the page says {wanted[0] % 256} with index '
              f'{wanted[0] // 256}; to be made again with --seed {self.seed} --calls {self.made}')
        for i, (a, b) in enumerate(zip(told[1], wanted[1])):
            if a != b:
                print(f'  lent {i}: the engine left {shown(a, b)}, the page says {shown(b, a)}')
        print(f'  given: {" ".join(shown(argument) for argument in given)}')


def shown(value, beside=None):
    """A value in short; of a list that differs from another the first place that does."""
    if isinstance(value, list):
        if beside is not None:
            place = next(i for i, (a, b) in enumerate(zip(value, beside)) if a != b)
            return f'at {place} {shown(value[place])}'
        return '[' + ' '.join(shown(x) for x in value) + ']'
    return value.hex() if isinstance(value, bytes) and value != b'nan' else str(value)


def lent_values(held):
    temps = [7.0] if held is None else held.temps
    numbers = [7] * 4 if held is None else [len(held.temps), held.count, held.used, held.last_version]
    return [Floats(temps, MOST_NODES), *(Number(n) for n in numbers)]


def append_call(calls, head, page, given, conditions, version, limits):
    buffer, values = Bytes(page), lent_values(given)

    def appends():
        changed = bytearray(page)
        after, _ = books.append(read_head(head)[0], changed, len(given.temps), given, conditions, version, *limits)
        return [bytes(changed), *held_left(after)]

    calls.compare('hem_append', [Bytes(head), buffer, *values, Bytes(conditions), version, *limits], [buffer, *values], appends)
