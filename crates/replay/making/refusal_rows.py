"""Rows of each call and each number."""
from making.layout import (
    RATES, RATE_CODE, SECOND_RATE, TRANSPARENT, elements_of, f64, has_fixed_rate, node_count, put, u16, u32)
from making.order import conditions_answer, first, head_answer, own_answer, setpoints_answer, state_answer
from making.houses import (
    ENTRY, HEAD, HOT_START, HOUSE_P, HOUSE_Q, LIGHT, SINGULAR, SLOW, VENT, WEAK, WEAK_START, conditions_of,
    entry_p, room_for_one)
from making.rows import GIVEN, WHY, why_values


def head_faults(head):
    """places and new bytes, each a fault or a neighbour of one"""
    faults = [(0, u32(175)), (0, u32(4158)), (0, u32(0)), (0, u32(len(head) - 5)), (0, u32(len(head) - 3)),
              (4, b"\0"), (4, b"\2"), (5, b"\2"), (6, b"\0"), (6, b"\x19"), (6, bytes([head[6] + 1])),
              (6, bytes([max(1, head[6] - 1)])), (7, u16(0)), (7, u16(10001)), (7, u16(10000))]
    for j, bad in enumerate((0.0, -1.0, -1e-9, 100.5, -273.2, 1.5e32)):
        faults += [(9 + 8 * j, f64(bad)), (9 + 8 * j, f64(float("nan")))]
    for kind, t, p in elements_of(head):
        faults += [(p, b"\6"), (p, b"\0" if kind == TRANSPARENT else b"\4"), (p + 1, b"\5"), (p + 1, b"\1")]
        n = 7 + (3 if kind == TRANSPARENT else 9) + t
        faults += [(p + 2 + 8 * j, f64(bad)) for j in range(n) for bad in (-1e9, float("inf"))]
        end = p + 2 + 8 * n
        faults += [(end + 8 * j, f64(2001.0)) for j in range(5)] + [(end + 40, bytes([1 << t]))]
    return faults


def condition_faults(head):
    c = conditions_of(head)
    faults = [(0, b"")]
    bad = (0.0005, 101.0, 1.1e7, -1.1e7, 1.5, -0.5, 100.5, 1.5e32, -274.0, -101.0, float("nan"), float("inf"))
    faults += [(8 * j, f64(x)) for j, x in enumerate(bad)]
    faults += [(RATE_CODE, b"\2"), (RATE_CODE, b"\xff"), (RATE_CODE, b"\0"), (RATE_CODE, b"\0" + f64(0.5)),
               (RATE_CODE, b"\0" + f64(0.0, 1.0)), (RATE_CODE, b"\0" + f64(0.0, -0.0)), (RATES, f64(1000.5)),
               (RATES, f64(-1e-9)), (SECOND_RATE, f64(1000.5)), (SECOND_RATE, f64(float("nan")))]
    for i, (_, t, _) in enumerate(elements_of(head)):
        at = 113 + 41 * i
        faults += [(at + 8 * j, f64(x)) for j, x in enumerate((100.5, -1.0, 2000.5, 1.1, -0.1))]
        faults += [(at + 40, bytes([1 << t]))]
    assert len(c) == 113 + 41 * head[6]
    return faults


def make_heads(rows, r):
    for head in (HOUSE_P, HOUSE_Q):
        rows.add(8, (0, 0), head)
        for n in (0, 1, 3, 4, 100, len(head) - 1):
            rows.add(8, head_answer(head[:n]), head[:n])
        rows.add(8, head_answer(head + b"\x55" * 7), head + b"\x55" * 7)
        faults = head_faults(head)
        for at, new in faults:
            b = put(head, at, new)
            rows.add(8, head_answer(b), b)
        for _ in range(60):
            (a1, n1), (a2, n2) = r.sample(faults, 2)
            b = put(put(head, a1, n1), a2, n2)
            if r.random() < 0.15:
                b = b[:r.randrange(len(b))]
            rows.add(8, head_answer(b), b)
    # a zone as a record: 4 before 5, and before the state and the conditions of a call
    t = [20.0] * node_count(HOUSE_Q)
    c = conditions_of(HOUSE_Q)
    for change, answer in (((1, 0), (4, 0)), ((1, 25), (4, 0)), ((2, 1), (4, 1)), ((3, 0), (5, 0)), ((4, 0), (5, 2))):
        rows.add(9, answer, HOUSE_Q, change)
        rows.add(3, answer, HOUSE_Q, change)
        for call in (1, 2, 4):
            rows.add_each(call, answer, HOUSE_Q, change, None, t, c)
            rows.add_each(call, answer, HOUSE_Q, change, None, [1e7] * 3, c[:-1])
        rows.add_each(6, answer, HOUSE_Q, change, None, t, c, count=9000, used=0, room=0)


def state_faults(head):
    n = node_count(head)
    good = [20.0] * n
    far = list(good)
    far[0] = 1000000.0000000001
    nan = list(good)
    nan[-1] = float("nan")
    inf = list(good)
    inf[n // 2] = float("-inf")
    edge = [1e6] * n
    return [(n, good), (n, edge), (n - 1, good), (n + 1, good + [20.0]), (0, good), (n, far), (n, nan), (n, inf),
            (500, good)]


def add_hour(rows, call, head, state, b):
    """a refused hour; where a demand has the fixed rate, also `why`, which still takes it: of House Q, whose load is not
    known here, a refused one alone"""
    tail = setpoints_answer(b) if len(b) == 113 + 41 * head[6] else (0, 0)
    answer = first(conditions_answer(head, b), tail)
    if answer[0]:
        rows.add_each(call, answer, head, (0, 0), *state, b)
    why = first(conditions_answer(head, b, fixed_taken=True), tail)
    if call == 1 and why != answer and (why[0] or head is HOUSE_P):
        assert has_fixed_rate(b)
        rows.add(WHY, why, head, (0, 0), *state, b, values=why_values(why))


def make_calls(rows, r):
    """6, 7, 8, 9, then 10 and 11; pairs of faults show the order"""
    for head in (HOUSE_P, HOUSE_Q):
        states, faults = state_faults(head), condition_faults(head)
        good = states[0]
        c = conditions_of(head)
        crossed = put(put(c, 48, f64(22.0)), 56, f64(21.0))
        low_vent = put(c, 64, f64(19.0))
        both = put(crossed, 64, f64(19.0))
        bad = [s for s in states if state_answer(head, *s)[0]]
        variants = [c[:-1], c + b"\0", b"", crossed, low_vent, both] + [put(c, at, new) for at, new in faults if new]
        for nodes, temps in bad:
            for call in (1, 2, 4):
                rows.add_each(call, (6, 0), head, (0, 0), nodes, temps, r.choice(variants))
        for b in variants:
            for call in (1, 4) if head is HOUSE_P else (r.choice((1, 4)),):
                add_hour(rows, call, head, good, b)
            answer = conditions_answer(head, b)
            if answer[0]:
                rows.add(2, answer, head, (0, 0), good[0], good[1], b, (1e9, -1.0, -1.0))
        for own in ((1.1e7, 0.5, 1.0), (-1.1e7, 0.5, 1.0), (0.0, 1.5, 1.0), (0.0, -0.5, 1.0), (0.0, 0.5, 1000.5),
                    (0.0, 0.5, -1.0), (float("nan"), 0.5, 1.0), (0.0, float("nan"), 1.0), (0.0, 0.0, float("inf"))):
            rows.add(2, own_answer(own), head, (0, 0), good[0], good[1], c, own)
            rows.add(2, (9, 0), head, (0, 0), good[0], good[1], crossed, own)
        for _ in range(40):
            (a1, n1), (a2, n2) = r.sample(faults, 2)
            b = put(put(r.choice((c, both)), a1, n1), a2, n2)
            add_hour(rows, r.choice((1, 4)), head, good, b)


def make_solves(rows):
    """12, 13, 14, 15 by constructed houses"""
    t = [20.0] * 3
    for call in (1, 2, 4):
        rows.add_each(call, (12, 0), SINGULAR, (0, 0), 3, t, conditions_of(SINGULAR))
    rows.add(3, (12, 0), SINGULAR)
    crossed = put(put(conditions_of(SINGULAR), 48, f64(22.0)), 56, f64(21.0))
    rows.add(1, (10, 0), SINGULAR, (0, 0), 3, t, crossed)
    rows.add_each(4, (11, 0), SINGULAR, (0, 0), 3, t, put(conditions_of(SINGULAR), 64, f64(19.0)))
    hot = put(conditions_of(LIGHT), 16, f64(1e7))
    for call in (1, 2, 4):
        rows.add_each(call, (13, 0), LIGHT, (0, 0), 3, t, hot)
    rows.add(2, (13, 0), LIGHT, (0, 0), 3, t, conditions_of(LIGHT), (1e7, 1.0, 0.0))
    rows.add(3, (13, 0), HOT_START)
    # 12 before 13: no pivot, and gains that would carry any house beyond a million
    rows.add(1, (12, 0), SINGULAR, (0, 0), 3, t, put(conditions_of(SINGULAR), 16, f64(1e7)))
    wanted = put(conditions_of(WEAK), 48, f64(21.0))
    cooling = put(put(conditions_of(WEAK), 48, f64(15.0)), 56, f64(19.0))
    for c in (wanted, cooling):
        rows.add(1, (14, 0), WEAK, (0, 0), 3, t, c)
        rows.add_each(4, (14, 0), WEAK, (0, 0), 3, t, c)
    # 14 is tested before the setpoint's equality: the free temperature is just below the setpoint, and close to it
    near = put(conditions_of(WEAK), 48, f64(20.000000000001))
    rows.add(1, (14, 0), WEAK, (0, 0), 3, t, near)
    rows.add(3, (14, 0), WEAK_START)
    rows.add(3, (15, 0), SLOW)
    rows.add(3, (11, 0), VENT)
    # 11 in the first pass, before 15, 14 and 12
    for head in (SLOW, WEAK_START, SINGULAR):
        rows.add(3, (11, 0), put(head, 9 + 40, f64(9.0)))
    # the state before the solves
    rows.add(1, (6, 0), SINGULAR, (0, 0), 2, t, conditions_of(SINGULAR))
    rows.add(1, (9, 1), SINGULAR, (0, 0), 3, t, put(conditions_of(SINGULAR), 113, f64(101.0)))


def make_books(rows, r):
    p, c, t, e = HOUSE_P, conditions_of(HOUSE_P), [20.0] * 3, entry_p()
    given = GIVEN
    # begin: head, start-up, then the buffer
    rows.add(5, (0, 0), p, room=180, **given)
    for room in (0, 4, 179):
        rows.add(5, (16, 0), p, room=room, **given)
        rows.add(5, (15, 0), SLOW, room=room, **given)
        rows.add(5, (12, 0), SINGULAR, room=room, **given)
        rows.add(5, (11, 0), VENT, room=room, **given)
        rows.add(5, (14, 0), WEAK_START, room=room, **given)
        rows.add(5, (13, 0), HOT_START, room=room, **given)
    for at, new in head_faults(p)[:30]:
        b = put(p, at, new)
        if head_answer(b)[0]:
            rows.add(5, head_answer(b), b, room=r.choice((0, 500)), **given)
    # append: 17, the hour step's, the buffer
    rows.add_each(6, (0, 0), p, (0, 0), 3, t, c, count=8783, used=180, room=room_for_one)
    crossed = put(put(c, 48, f64(22.0)), 56, f64(21.0))
    for count in (8784, 8785, 2 ** 32 - 1):
        rows.add_each(6, (17, 0), p, (0, 0), 3, t, c, count=count, used=180, room=396)
        rows.add_each(6, (17, 0), p, (0, 0), 3, t, c, count=count, used=180, room=0)
        rows.add_each(6, (17, 0), p, (0, 0), 2, t, c[:-1], count=count, used=180, room=396)
        rows.add_each(6, (17, 0), p, (0, 0), 3, t, crossed, count=count, used=180, room=396)
    for used, room in ((180, 395), (180, 180), (180, 0), (397, 396), (2 ** 32 - 1, 396), (181, 396)):
        rows.add_each(6, (16, 0), p, (0, 0), 3, t, c, count=5, used=used, room=room)
        rows.add_each(6, (10, 0), p, (0, 0), 3, t, crossed, count=5, used=used, room=room)
        rows.add_each(6, (6, 0), p, (0, 0), 4, t, crossed, count=5, used=used, room=room)
        rows.add_each(6, (7, 0), p, (0, 0), 3, t, c[1:], count=5, used=used, room=room)
    no_room = {"count": 5, "used": 180, "room": 0}
    for number, b in ((8, put(c, RATE_CODE, b"\2")), (9, put(c, 0, f64(0.0))), (11, put(c, 64, f64(19.0)))):
        rows.add_each(6, (number, 0), p, (0, 0), 3, t, b, **no_room)
    rows.add_each(6, (9, 1), p, (0, 0), 3, t, put(c, 113, f64(101.0)), **no_room)
    rows.add_each(6, (12, 0), SINGULAR, (0, 0), 3, t, conditions_of(SINGULAR), **no_room)
    rows.add_each(6, (13, 0), LIGHT, (0, 0), 3, t, put(conditions_of(LIGHT), 16, f64(1e7)), **no_room)
    rows.add_each(6, (14, 0), WEAK, (0, 0), 3, t, put(c, 48, f64(21.0)), **no_room)
    # take-up: head, start-up, then entry by entry; what is done with a rest: make_rests
    book = p + e * 5
    rows.add(7, (0, 0), book, **given)
    rows.add(7, (0, 0), book[:-1], **given)
    rows.add(7, (0, 0), p, **given)
    for n in (0, 3, 4, 179):
        rows.add(7, head_answer(book[:n]), book[:n], **given)
    for head, answer in ((SLOW, 15), (SINGULAR, 12), (VENT, 11), (WEAK_START, 14), (HOT_START, 13)):
        rows.add(7, (answer, 0), head + e, **given)
        rows.add(7, (answer, 0), head + b"\xff" * 300, **given)
    for at, new in head_faults(p)[::3]:
        b = put(book, at, new)
        if head_answer(b)[0]:
            rows.add(7, head_answer(b), b, **given)
    # places of an entry: length and version, results, trigger, temperatures
    places = [0, 1, 2, 3, 4, 159, 166, 167, 174, 175, 182, 183, 184, 191, 192, 199, 200, 208, 215]
    for i in range(5):
        for at in places:
            k = HEAD + ENTRY * i + at
            rows.add(7, (18, i), put(book, k, bytes([book[k] ^ r.choice((1, 128, 255))])), **given)
        # conditions that the hour step refuses, 9, 8, 10, or that give it a choice of rates and so a trigger
        for at, new in ((5, f64(0.0)), (101, b"\2"), (110, b"\1"), (53, f64(25.0)), (118, f64(101.0)), (158, b"\1")):
            rows.add(7, (18, i), put(book, HEAD + ENTRY * i + at, new), **given)
    for _ in range(10):
        i, j = sorted(r.sample(range(5), 2))
        b = put(put(book, HEAD + ENTRY * i + 4, b"\7"), HEAD + ENTRY * j + 4, b"\7")
        rows.add(7, (18, i), b, **given)
        # also where it is the last: with a version that no hour has, it is whole without its last byte
        rows.add(7, (18, j), put(book, HEAD + ENTRY * j + 4, b"\7")[:-1], **given)
    # one more byte in front: every later entry is false
    rows.add(7, (18, 0), p + b"\0" + e * 5, **given)
