"""data/cases: a sample of the oracle's cases, each with its answer."""
import collections
import itertools
import os
import struct
import subprocess
import sys
import tempfile

from making.layout import (
    COOLING_FRACTION, HEATING_FRACTION, MILLION, RUST_BALANCE_VALUES, elements_of, floats_at, node_count, record, u16)
from making.direction_cases import HELD, with_sums
from making.oracle import answered, asked_twice, in_version_2, number_of
from making.limited_cases import LIMIT_CASES, LIMIT_KINDS, in_version_3
from making.near_demands import coarse_demands, near_setpoints
from making.why_cases import WHY_HELD, demands_in, why

PROFILES = ["house", "mild", "edge", "tight"]
# seed, count, profile, operations, greatest number of elements, start-up limit
SAMPLES = [
    (1101, 130, "house", "1,2,3,4", 24, 1000),
    (1102, 320, "house", "1,2,3,4", 5, 1000),
    (1103, 30, "house", "3", 8, 3),
    (1201, 130, "mild", "1,2,3,4", 24, 1000),
    (1202, 320, "mild", "1,2,3,4", 5, 1000),
    (1203, 30, "mild", "3", 8, 4),
    (1301, 500, "edge", "1,2,3,4", 24, 1000),
    (1302, 40, "edge", "3", 24, 2),
    (1401, 250, "tight", "1,2,3,4", 24, 1000),
    (1104, 80, "house", "1", 6, 1000),
    (1204, 120, "mild", "1", 6, 1000),
    (1303, 240, "edge", "1", 24, 1000),
    (1402, 60, "tight", "1", 24, 1000),
]
# of the demands of which others are made (making/near_demands.py)
NEAR_SAMPLE = (1304, 1500, "mix", "1", 5, 1000)
# how many cases of each operation are asked with the fixed rate and with the rate twice, at least
RATE_TWICE = 100
# cases that the versions answer differently, and how many there are at least
COOLED_BY_TWO, COOLED = "op 5 cooled, fractions differ", 100


def values_of(op, line, nodes):
    """the values of the Rust's answer, as 64-bit numbers"""
    words = line.split()
    values = []
    if op in (1, 4, 5, 6):
        values = [int(w, 16) for w in words[:3]]
        values += [0, 0] if words[3] == "none" else [1, int(words[3], 16)]
        words = words[4:]
    values += [int(w, 16) for w in words]
    updated = nodes + RUST_BALANCE_VALUES
    assert len(values) == {1: 5, 2: updated, 3: nodes}.get(op, 5 + updated)
    return values


def parts_of(op, values, nodes):
    """demand, node temperatures and heat balance of an answer; what it does not have is empty"""
    start = 5 if op in (1, 4, 5, 6) else 0
    end = start if op == 1 else start + nodes
    return values[:start], values[start:end], values[end:]


def floats_of(values):
    return struct.unpack(">%dd" % len(values), struct.pack(">%dQ" % len(values), *values))


def bits_of(floats):
    return list(struct.unpack(">%dQ" % len(floats), struct.pack(">%dd" % len(floats), *floats)))


def beyond(temps):
    return any(not abs(t) <= MILLION for t in floats_of(temps))


def by_direction(head, temps, answer, seen):
    """an answer's values, with the sums by direction where it has a heat balance"""
    demand, after, balance = answer
    if balance:
        before = floats_at(temps, 0, len(temps) // 8)
        balance = bits_of(with_sums(head, before, floats_of(after), floats_of(balance), seen))
    return demand + after + balance


def fractions_differ(conditions):
    return floats_at(conditions, HEATING_FRACTION, 1) != floats_at(conditions, COOLING_FRACTION, 1)


def cover(seen, profile, op, head, conditions, number, values):
    seen["%s op %d" % (profile, op)] += 1
    seen["number %d" % number] += 1
    seen["basis %d" % head[5]] += 1
    seen["elements %2d" % head[6]] += 1
    for i, (kind, t, p) in enumerate(elements_of(head)):
        seen["kind %d" % kind] += 1
        if t and conditions:
            bits = conditions[113 + 41 * i + 40]
            seen["treatment open"] += bin(bits).count("1")
            seen["treatment closed"] += t - bin(bits).count("1")
    if op in (1, 4, 5, 6) and number == 0:
        seen["heating" if values[0] else "cooling" if values[1] % 2 ** 63 else "neither"] += 1
        if op == 5 and values[1] % 2 ** 63 and fractions_differ(conditions):
            seen[COOLED_BY_TWO] += 1
        if conditions[96] == 1:
            target = int.from_bytes(conditions[97:105], "big")
            seen["windows used" if values[2] != target else "windows not used"] += 1
        else:
            seen["fixed rate"] += 1


def sample(oracle, program, cases, answers, seed, count, profile, ops, most, limit):
    """cases of a line of SAMPLES, each with the oracle's line"""
    subprocess.run([sys.executable, os.path.join(oracle, "gen_cases.py"), str(seed), str(count), cases,
                    "--profile", profile, "--ops", ops, "--max-elements", str(most), "--limit", str(limit)], check=True)
    pairs = answered(program, cases, answers)
    assert len(pairs) == count
    return pairs


def sampled(oracle, program, cases, answers, seen):
    """profile and cases for each line of SAMPLES, the hour steps in each version"""
    for line in SAMPLES:
        pairs = sample(oracle, program, cases, answers, *line)
        pairs += in_version_2(program, cases, answers, pairs)
        pairs += in_version_3(program, cases, answers, pairs, seen)
        yield line[2], pairs


def constructed(oracle, program, cases, answers):
    """demands at which the reasons turn, with the profile that they are like"""
    pairs = sample(oracle, program, cases, answers, *NEAR_SAMPLE)
    demands = demands_in(program, cases, answers, pairs).values()
    for profile, made in (("edge", near_setpoints(demands)), ("tight", coarse_demands())):
        with open(cases, "wb") as f:
            f.write(b"".join(made))
        yield profile, answered(program, cases, answers)


def record_of(profile, case, number, values):
    op, head, temps, conditions, own = case
    b = bytes([PROFILES.index(profile), op, number])
    b += u16(len(head)) + head + u16(len(temps) // 8) + temps + u16(len(conditions)) + conditions + own
    b += u16(len(values)) + b"".join(struct.pack(">Q", v) for v in values)
    return record(b)


def make_cases(oracle, program, out):
    seen, left_out, kept, total = collections.Counter(), 0, 0, 0
    with tempfile.TemporaryDirectory() as d, open(out, "wb") as f:
        cases, answers = os.path.join(d, "cases.bin"), os.path.join(d, "answers.txt")
        given = oracle, program, cases, answers
        for profile, pairs in itertools.chain(sampled(*given, seen), constructed(*given)):
            reasons = why(program, cases, answers, pairs, seen)
            for i, (case, line) in enumerate(pairs):
                op, head, temps, conditions, _ = case
                number, nodes = number_of(line), node_count(head)
                answer = parts_of(op, values_of(op, line, nodes) if number == 0 else [], nodes)
                if beyond(answer[1]):
                    left_out += 1
                    continue
                values = by_direction(head, temps, answer, seen) + reasons.get(i, [])
                f.write(record_of(profile, case, number, values))
                kept += 1
                cover(seen, profile, op, head, conditions, number, values)
        total = f.tell()
    for name in sorted(seen):
        print("  %-50s %d" % (name, seen[name]))
    assert COOLED <= seen[COOLED_BY_TWO]
    assert all(LIMIT_CASES <= seen["limits " + kind] for kind in LIMIT_KINDS)
    assert all(least <= seen[name] for name, least in (HELD | WHY_HELD).items())
    print("cases: %d kept, %d left out (beyond a million), %d bytes" % (kept, left_out, total))
    print("  asked with the fixed rate and with the rate twice, by the oracle's operation:", dict(sorted(asked_twice.items())))
    assert all(RATE_TWICE <= asked_twice[op] for op in (1, 2, 4))
