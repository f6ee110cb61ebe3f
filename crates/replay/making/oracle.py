"""The oracle's cases and its lines of answers."""
import collections
import struct
import subprocess
import sys

from making.layout import COOLING_FRACTION, HEATING_FRACTION, has_fixed_rate, put, u16, u32, with_rate_twice

NUMBERS = [
    ("err Cooling setpoint is below", 10),
    ("err Setpoint for additional ventilation", 11),
    ("panic", 12),
    ("err Detected that temperature calculation", 13),
    ("err Divide-by-zero", 14),
    ("limit", 15),
]


class Reader:
    def __init__(self, b):
        self.b, self.at = b, 0

    def take(self, n):
        s = self.b[self.at:self.at + n]
        assert len(s) == n
        self.at += n
        return s

    def number(self, n):
        return int.from_bytes(self.take(n), "big")


def read_cases(b):
    r = Reader(b)
    while r.at < len(b):
        op = r.number(1)
        head = r.take(r.number(4))
        temps = r.take(8 * r.number(2))
        conditions = r.take(r.number(4))
        own = r.take(24) if op == 2 else bytes(24)
        yield op, head, temps, conditions, own


def case_bytes(op, head, temps, conditions, own=b""):
    return bytes([op]) + u32(len(head)) + head + u16(len(temps) // 8) + temps + u32(len(conditions)) + conditions + own


def number_of(line):
    for start, number in NUMBERS:
        if line.startswith(start):
            return number
    assert not line.startswith("err"), line
    return 0


# the cases with the fixed rate that were asked again with the rate twice, by operation
asked_twice = collections.Counter()


def lines_for(program, cases, answers):
    """the oracle's lines for the cases of a file"""
    subprocess.run([program, cases, answers], check=True)
    with open(answers) as a:
        return a.read().splitlines()


def check_rate_twice(program, answers, pairs):
    """the Rust gives an hour with the fixed rate (its `Cooling`) and the same hour with this rate as target and with
    windows open (its `TargetAndWindowsOpen`) the same line. Where it does not, that ends here, with the smallest case"""
    fixed = [(case, line) for case, line in pairs if case[3] and has_fixed_rate(case[3])]
    if not fixed:
        return
    cases = answers + ".twice"
    with open(cases, "wb") as f:
        for (op, head, temps, conditions, own), _ in fixed:
            f.write(case_bytes(op, head, temps, with_rate_twice(conditions), own if op == 2 else b""))
    lines = lines_for(program, cases, answers + ".lines")
    assert len(lines) == len(fixed)
    others = [(case_bytes(*case).hex(), line, other) for (case, line), other in zip(fixed, lines) if line != other]
    if others:
        sys.exit("with the rate twice the original answers otherwise: case, line, and line with the rate twice\n"
                 + "\n".join(min(others, key=lambda other: len(other[0]))))
    asked_twice.update(case[0] for case, _ in fixed)


def answered(program, cases, answers):
    """the cases of a file, each with the oracle's line"""
    lines = lines_for(program, cases, answers)
    with open(cases, "rb") as c:
        pairs = list(zip(read_cases(c.read()), lines))
    check_rate_twice(program, answers, pairs)
    return pairs


def is_cooled(line):
    return struct.unpack(">d", bytes.fromhex(line.split()[1]))[0] < 0.0


def in_version_2(program, cases, answers, pairs):
    """the hour steps that the Rust answers with values, and their answers by the rule of version 2. The Rust shares
    delivered power by the heating fraction. A cooled demand does not look at that fraction, so a cooled hour is asked
    again with the cooling fraction in its place; any other hour has the answer that it has."""
    hours = [(case, line) for case, line in pairs if case[0] == 4 and number_of(line) == 0]
    with open(cases, "wb") as f:
        for (op, head, temps, conditions, _), line in hours:
            if is_cooled(line):
                conditions = put(conditions, HEATING_FRACTION, conditions[COOLING_FRACTION:COOLING_FRACTION + 8])
            f.write(case_bytes(op, head, temps, conditions))
    again = answered(program, cases, answers)
    assert len(again) == len(hours)
    for ((_, *case), line), (_, line_2) in zip(hours, again):
        assert number_of(line_2) or line.split()[:4] == line_2.split()[:4]
        yield (5, *case), line_2
