"""The sums by direction of heat flow in the answers of cases, and what the cases hold of them."""
from making.convection import (
    CEILING_BELOW, FLOOR_ABOVE, NAMES, by_direction, directions_by, left_to_right, sums_of, surfaces_of, terms_of, total_of)
from making.layout import AIR_NODE, INTERNAL

# what a case may hold, and how many cases hold it at least
ALL, OTHER_AFTER, AT_LIMIT = "all three directions", "another direction after the step", "a pitch of 60 or 120"
ORDER, SIGNS, NONE = "a sum that its order changes", "a sum of either sign's terms", "a direction without element"
HELD = {**{"direction %s" % name: 500 for name in NAMES}, ALL: 300, OTHER_AFTER: 100, AT_LIMIT: 100, ORDER: 50,
        SIGNS: 100, NONE: 100}


def holds(head, before, after, terms):
    """what of HELD a case holds"""
    parts = by_direction(terms)
    found = {"direction %s" % name: bool(part) for name, part in zip(NAMES, parts)}
    found[ALL], found[NONE] = all(parts), not all(parts)
    found[OTHER_AFTER] = directions_by(head, before) != directions_by(head, after)
    found[AT_LIMIT] = any(pitch in (CEILING_BELOW, FLOOR_ABOVE) for _, pitch, _ in surfaces_of(head))
    found[ORDER] = any(left_to_right(part) != left_to_right(part[::-1]) for part in parts)
    found[SIGNS] = any(part and min(part) < 0.0 < max(part) for part in parts)
    return [name for name in HELD if found[name]]


def with_sums(head, before, after, balance, seen):
    """the Rust's heat balance with the sums by direction behind the four values of its internal boundary. Their terms
    are those of the Rust's own total, to the bit"""
    terms = terms_of(head, before, after)
    assert total_of(terms) == balance[AIR_NODE]
    seen.update(holds(head, before, after, terms))
    at = AIR_NODE + INTERNAL
    return (*balance[:at], *sums_of(terms), *balance[at:])
