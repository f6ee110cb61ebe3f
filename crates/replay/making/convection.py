"""Convection by direction of heat flow (Specification, Heat balance). The Rust has the convective total alone; its terms, and their
sums by direction, are worked out here from a head and the Rust's node temperatures before and after a step."""
import functools
import operator

from making.layout import elements_of, floats_at, nodes_of

DIRECTIONS = HORIZONTAL, UPWARDS, DOWNWARDS = range(3)
NAMES = ("horizontal", "upwards", "downwards")
# W / (m2.K), by direction
H_CI = (2.5, 5.0, 0.7)
CEILING_BELOW, FLOOR_ABOVE = 60.0, 120.0
# place of area and pitch in an element
AREA = 2


def direction_of(pitch, air, surface):
    if CEILING_BELOW <= pitch <= FLOOR_ABOVE:
        return HORIZONTAL
    if pitch < CEILING_BELOW:
        return DOWNWARDS if air < surface else UPWARDS
    return UPWARDS if air < surface else DOWNWARDS


def surfaces_of(head):
    """area, pitch and node of each element's inner surface"""
    found, node = [], -1
    for kind, _, place in elements_of(head):
        node += nodes_of(kind)
        found.append((*floats_at(head, place + AREA, 2), node))
    return found


def directions_by(head, temps):
    """of each element, by these node temperatures"""
    return [direction_of(pitch, temps[-1], temps[node]) for _, pitch, node in surfaces_of(head)]


def terms_of(head, before, after):
    """a direction and a term for each element: area × (h_ci × (air − surface)), with the temperatures after the step;
    the direction, and h_ci with it, is that of the temperatures before it"""
    return [(direction, area * (H_CI[direction] * (after[-1] - after[node])))
            for direction, (area, _, node) in zip(directions_by(head, before), surfaces_of(head))]


def left_to_right(terms):
    """not Python's own sum, which compensates from 3.12 on"""
    return functools.reduce(operator.add, terms, 0.0)


def total_of(terms):
    return left_to_right(x for _, x in terms)


def by_direction(terms):
    """the terms of each direction, in element order"""
    return [[x for d, x in terms if d == direction] for direction in DIRECTIONS]


def sums_of(terms):
    return [left_to_right(x) for x in by_direction(terms)]
