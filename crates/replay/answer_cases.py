#!/usr/bin/env python3
"""answer_cases.py PROGRAM CASES ANSWERS

Has the oracle's binary PROGRAM answer the file CASES, as gen_cases.py writes it, and writes its lines to ANSWERS for
host/examples/replay.rs. Each hour with the fixed rate is asked with the rate twice too, and must have the same line
(`check_rate_twice`, making/oracle.py). Behind each demand that is answered with values stand its reason and its load, as
16 hexadecimal digits, worked out as for data/cases (making/why_cases.py). How many demands hold what of them is
printed.
"""
import collections
import os
import sys
import tempfile

sys.dont_write_bytecode = True  # before the modules are read: they leave nothing behind

from making.oracle import answered, asked_twice
from making.why_cases import why


def main():
    program, cases, answers = sys.argv[1:]
    seen = collections.Counter()
    with tempfile.TemporaryDirectory() as d:
        own = os.path.join(d, "cases.bin"), os.path.join(d, "answers.txt")
        pairs = answered(program, cases, own[1])
        reasons = why(program, *own, pairs, seen)
    with open(answers, "w") as f:
        for i, (_, line) in enumerate(pairs):
            f.write(" ".join([line, *("%016x" % n for n in reasons.get(i, []))]) + "\n")
    for name in sorted(seen):
        print("  %-50s %d" % (name, seen[name]))
    print("  asked with the fixed rate and with the rate twice, by operation:", dict(sorted(asked_twice.items())))


if __name__ == "__main__":
    main()
