"""Reason and load of the demands among the cases, from the Rust's own temperatures, and what the
cases hold of them."""
import struct

from making.layout import f64, node_count
from making.oracle import answered, case_bytes, number_of
from making.why import (
    COOLING, HEATING, LOAD_NAMES, NEITHER, NO_CHOICE, OPERATIVE, REASON_NAMES, REASONS, STILL_ABOVE, WINDOWS_ENOUGH,
    close_in_demand, gains_of, has_choice, hour_of, load_of, rate_to_reach, reason_before_found, reason_with_found,
    temperatures_of, tests_of)


def float_in(word):
    return struct.unpack(">d", bytes.fromhex(word))[0]


class Asked:
    """a demand that the Rust answered with values, and its temperatures at the target rate, at the rate of open windows
    and at the rate found, as far as the tests look at them"""

    def __init__(self, case, line):
        _, self.head, self.temps, self.conditions, _ = case
        self.hour = hour_of(self.conditions)
        self.words = line.split()
        self.free = self.opened = self.rate = self.found = None

    def reason(self):
        """None before the temperatures that it needs are there"""
        early = reason_before_found(self.hour, self.free, self.opened)
        return early or (self.found and reason_with_found(self.hour, self.found))

    def load(self):
        return load_of(*map(float_in, self.words[:2]))

    def check(self):
        """the rates of the Rust's demand, the one that triggers heating and the chosen one, are those worked out here"""
        chosen, trigger = float_in(self.words[2]), self.words[3]
        if self.reason() == NO_CHOICE:
            assert trigger == "none"
        else:
            assert float_in(trigger) == rate_to_reach(self.hour, self.free, self.opened, self.hour.heat)
        assert chosen == (self.rate if self.reason() == WINDOWS_ENOUGH else self.hour.target)


def temperatures_at(program, cases, answers, asked):
    """of each (demand, rate), after the Rust's update with no demand"""
    with open(cases, "wb") as f:
        for a, rate in asked:
            f.write(case_bytes(2, a.head, a.temps, a.conditions, f64(*gains_of(a.conditions), rate)))
    pairs = answered(program, cases, answers)
    assert len(pairs) == len(asked)
    return [temperatures_of(head, [float_in(word) for word in line.split()[:node_count(head)]])
            for (_, head, *_), line in pairs]


def find_temperatures(program, cases, answers, demands):
    ask = lambda asked: temperatures_at(program, cases, answers, asked)
    choices = [a for a in demands if has_choice(a.hour)]
    for a, t in zip(choices, ask([(a, a.hour.target) for a in choices])):
        a.free = t
    for a, t in zip(choices, ask([(a, a.hour.windows_open) for a in choices])):
        a.opened = t
    cooled = [a for a in choices if not a.reason()]
    for a in cooled:
        a.rate = rate_to_reach(a.hour, a.free, a.opened, a.hour.vent)
    for a, t in zip(cooled, ask([(a, a.rate) for a in cooled])):
        a.found = t


def demands_in(program, cases, answers, pairs):
    """the demands that the Rust answers with values, with their temperatures, by the places of their pairs"""
    demands = {i: Asked(case, line) for i, (case, line) in enumerate(pairs) if case[0] == 1 and number_of(line) == 0}
    find_temperatures(program, cases, answers, list(demands.values()))
    return demands


# what demands may hold, and how many of them hold it at least: a reason beside a load; two reasons of which the earlier
# is named; the two closenesses, the bases of the tests and the rates, where another reading would name another reason
BESIDE = {(reason, load): 10 for reason in REASONS for load in (NEITHER, COOLING)}
BESIDE.update({(NO_CHOICE, HEATING): 10, (NO_CHOICE + 1, HEATING): 10, (WINDOWS_ENOUGH, HEATING): 10})
TARGET_ABOVE, AIR_AND_CONTROL = "why, target above open", "why, supply between air and operative"
CLOSE_BY_DEMAND, NOT_BY_DEMAND = "why, still above and close by the demand", "why, enough and not close by the demand"
SETPOINT_FREE = "why, ventilation setpoint is the free temperature"


def name_of(reason, load):
    return "why %s, %s" % (REASON_NAMES[reason], LOAD_NAMES[load])


def both(first, second):
    return "why %d and %d hold" % (first, second)


WHY_HELD = {**{name_of(*pair): least for pair, least in BESIDE.items()},
            **{both(*pair): 10 for pair in ((2, 3), (2, 4), (2, 5), (3, 4), (3, 5), (4, 5))},
            TARGET_ABOVE: 20, AIR_AND_CONTROL: 10, CLOSE_BY_DEMAND: 10, NOT_BY_DEMAND: 10, SETPOINT_FREE: 10}


def held_with_choice(a):
    """what of WHY_HELD a demand with a choice of rates holds"""
    hour, free = a.hour, a.free
    first, *others = tests_of(hour, free, a.opened, a.found or free) or (WINDOWS_ENOUGH,)
    yield from (both(first, other) for other in others)
    if hour.target > hour.windows_open:
        yield TARGET_ABOVE
    if hour.vent == free.control:
        yield SETPOINT_FREE
    if a.head[5] == OPERATIVE and free.control > hour.vent and (free.air > hour.supply) != (free.control > hour.supply):
        yield AIR_AND_CONTROL
    if a.found and a.found.control > hour.cool:
        close = close_in_demand(a.found.control, hour.cool)
        if close and a.reason() == STILL_ABOVE:
            yield CLOSE_BY_DEMAND
        if not close and a.reason() == WINDOWS_ENOUGH:
            yield NOT_BY_DEMAND


def why(program, cases, answers, pairs, seen):
    """reason and load of each demand that the Rust answers with values, by the place of its pair"""
    demands = demands_in(program, cases, answers, pairs)
    for a in demands.values():
        a.check()
        seen[name_of(a.reason(), a.load())] += 1
        if has_choice(a.hour):
            seen.update(held_with_choice(a))
    return {i: [a.reason(), a.load()] for i, a in demands.items()}
