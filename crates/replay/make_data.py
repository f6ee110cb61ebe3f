#!/usr/bin/env python3
"""make_data.py ORACLE PROGRAM

Writes data/cases and data/refusals beside this file, by the modules in making/. ORACLE is the folder oracle/rust (its
gen_cases.py makes the cases), PROGRAM the binary rust_oracle built there (it answers them: zone.rs itself, compiled
unchanged).

data/cases: for each line of SAMPLES, gen_cases.py is run with the seed, the count, the profile, the operations, the
greatest number of elements and the start-up limit that stand there. A case and the oracle's answer make a record:

    u32   length of what follows
    u8    profile (0 house, 1 mild, 2 edge, 3 tight), u8 operation (1 demand, 2 update, 3 start-up, 4, 5, 6 hour step
          of version 1, 2, 3)
    u8    0 where the answer is values, else the refusal's number
    u16   length, the head; u16 count, the node temperatures; u16 length, the conditions
    3 f64 own floats: update's gains, fraction and rate; of an hour step of version 3 greatest heating, greatest
          cooling and 0; of the other operations zeros
    u16   count, the values of the answer, each 8 bytes: of a demand heating, cooling, rate, trigger (0 or 1 as an
          integer), trigger rate, and as integers its reason (1 to 6) and its load (0 neither, 1 heating, 2 cooling);
          of an update the node temperatures and the 28 values of the heat balance (7 of the air node, 4 and 3 of the
          internal boundary, 14 of the external boundary); of start-up the node temperatures; of an hour step the
          first five of a demand and all of an update

Hours stand in a case as the Rust takes them, also those with one fixed rate, code 0 (its `Cooling`), which is
retired. Each of them is asked of the Rust a second time, with code 1 and this rate as target and with windows open (its
`TargetAndWindowsOpen`), and the two lines must be the same (`check_rate_twice`, making/oracle.py), so that one answer is
stored for both. The program asks for it with code 1, and lays beside it what a call, `why`, a book and the converter say
to code 0.

The Rust's hour is version 1's. Each hour step that it answers with values is also kept as one of version 2, with the
answer that `in_version_2` (making/oracle.py) gets from the Rust. At least COOLED of them are cooled with two
fractions that differ: only there do the versions part. Most of them are also kept as hours of version 3, with limits
that hold, are met exactly, or do not hold (making/limited_cases.py). The Rust knows no limit: the power that the
limits leave, the total gains with it and their share are calculated there, and the Rust's update with them gives the
temperatures and the balance; demand, rate and trigger are the Rust's own, uncut. Where no limit holds, the answer
must be that of version 2, which came another way. Numbers of the answers that are no values: see NUMBERS. Left out
are cases whose values lie beyond a million (13 here, a value in the Rust).

Of the 28 values of a heat balance 25 are the Rust's. The other three, the terms of its convective total summed by
direction of heat flow, are worked out by making/convection.py from the head and from the Rust's own
node temperatures before and after the step, with the operations in the order of docs/SPECIFICATION.md; all terms together must give the
Rust's total, bit for bit. How many cases hold each direction, all three, elements whose direction would be another by
the temperatures after the step, pitches of 60 and 120, and sums that another order of their terms would change, is
printed, and there are at least as many of each as HELD (making/direction_cases.py) says.

Reason and load of a demand are no values of the Rust. making/why.py has the tests of docs/SPECIFICATION.md in their
order; making/why_cases.py takes them on temperatures of the Rust's own update, at the target rate, at the rate
of open windows and at the rate found, with the demand's gains and their share. The rate found is worked out there by
the Rust's formula; by the same formula come the rate that triggers heating and the chosen rate, which must be those of
the Rust's demand. The load is by the Rust's demand. Beside the samples stand demands that are constructed
(making/near_demands.py), with the profile that they are like: setpoints at the Rust's own temperatures or as close to
them as only one of the two closenesses tells, a supply between air and operative temperature, a target above the rate
of open windows, and a room in which the rate found misses its setpoint. How many demands hold each reason beside each
load, two reasons of which the earlier is named, and the others of these is printed, and there are at least as many of
each as WHY_HELD says.

data/refusals: rows made from the rules of docs/SPECIFICATION.md alone (entry versions, limits, the three questions, fixed rates and the
converter too). making/order.py has the tests in their order; the houses that give 12 to 15 are constructed, the entries of take-up rows are those of House P in balance,
where every result is 0 and every temperature 20, or heated and cooled by hand, with and without a limit
(making/houses.py, making/limit_rows.py). The books of questions have hours that are worked out in
making/question_rows.py, of House P and of one with a second element. Hours with the fixed rate stand in
making/fixed_rate_rows.py, where calls refuse them and stored ones are judged as before; the books of the converter, and
what comes of them, in making/convert_rows.py. A row:

    u32   length of what follows
    u8    call (1 demand, 2 update, 3 start-up, 4 hour step, 5 begin, 6 append, 7 take-up, 8 the head alone,
          structure and values, printed as read_head, 9 zone_test, 10 first_above, 11 hours_within, 12 nearest_hour,
          13 convert, 14 why); number and index of a demand are also those of `why`, but where it is refused for the fixed
          rate: then the answer of `why` is a row of its own
    u8    expected number (0: accepted), u16 expected index
    u32   length, the head (of a take-up, a question and a conversion: the whole book)
    u8    change of the zone after its head is read (0 none, 1 count, 2 treatments of the first element,
          3 useful area, 4 area of the second element), u16 its value
    u16   the state's node count, u16 count of temperatures, the temperatures
    u16   length, the conditions
    3 f64 own floats: update's gains, fraction and rate; of an hour step or an append greatest heating, greatest cooling
          and 0, also with versions that have no limits; of a question the value, or the lower and the upper end of
          the band, and zeros
    u32   count of entries and u32 used length that the call is given, u32 length of the buffer or the output
    u64   version that an hour step or an append names, u64 last version that a call on a book is given
    u16   count, the expected values of an accepted call, each 8 bytes: of an hour step as above; of a call on a book
          the count of entries, the used length, the last version and the node temperatures that it hands back, and
          of an append the entry that it writes, four bytes in each value; of a question the hour or the count of hours; of
          a conversion the count of entries, the used length and the book that it writes, four bytes in each value; of `why`
          its reason and its load; none of a head, of a question that no hour answers or of a refused call
"""
import os
import random
import sys

sys.dont_write_bytecode = True  # before the modules are read: they leave nothing behind

from making.layout import LIMITS_VERSION, VERSIONS
from making.cases import make_cases
from making.rows import Rows
from making.refusal_rows import make_books, make_calls, make_heads, make_solves
from making.version_rows import (
    make_append_versions, make_book_versions, make_hour_versions, make_last_zero, make_rests)
from making.limit_rows import make_limit_rooms, make_limit_values, make_limited, make_powered
from making.question_rows import make_questions
from making.fixed_rate_rows import make_fixed_rates
from making.convert_rows import make_conversions


def make_refusals(out):
    rows, r = Rows(), random.Random(1801)
    make_heads(rows, r)
    make_calls(rows, r)
    make_solves(rows)
    make_books(rows, r)
    make_hour_versions(rows)
    make_append_versions(rows)
    make_book_versions(rows)
    make_rests(rows)
    make_powered(rows)
    make_limited(rows)
    make_limit_values(rows)
    make_limit_rooms(rows)
    make_last_zero(rows)
    make_questions(rows)
    make_fixed_rates(rows)
    make_conversions(rows)
    with open(out, "wb") as f:
        f.write(b"".join(rows.rows))
        total = f.tell()
    print("refusals: %d rows, %d bytes" % (len(rows.rows), total))
    print("  by number", dict(sorted(rows.numbers.items())))
    print("  by call  ", dict(sorted(rows.calls.items())))
    assert all(rows.numbers[n] for n in (*range(1, 21), 24))
    for version in VERSIONS:
        of_limits = (19,) if version == LIMITS_VERSION else ()
        assert all((4, version, n) in rows.versions for n in (*range(6, 15), *of_limits))
        assert all((6, version, n) in rows.versions for n in (*range(6, 15), 16, 17, 18, *of_limits))


def main():
    oracle, program = sys.argv[1:]
    data = os.path.join(os.path.dirname(os.path.abspath(__file__)), "data")
    os.makedirs(data, exist_ok=True)
    make_cases(oracle, program, os.path.join(data, "cases"))
    make_refusals(os.path.join(data, "refusals"))


if __name__ == "__main__":
    main()
