"""The operative temperature of node temperatures (Specification, Operative temperature)."""
from making.layout import TRANSPARENT, elements_of, floats_at, node_count


def sum2(terms):
    """Specification, Compensated sum"""
    s = c = 0.0
    for t in terms:
        u = s + t
        z = u - s
        c += (s - (u - z)) + (t - z)
        s = u
    return s + c


def operative(head, temps):
    """the mean of the air and of the inner surfaces by their areas"""
    areas, inner, at = [], [], 0
    for kind, _, p in elements_of(head):
        at += 2 if kind == TRANSPARENT else 5
        areas.append(floats_at(head, p + 2, 1)[0])
        inner.append(temps[at - 1])
    assert len(temps) == node_count(head) == at + 1
    return (temps[at] + sum2(a * t for a, t in zip(areas, inner)) / sum2(areas)) / 2.0
