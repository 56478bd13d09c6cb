"""Whole-number arithmetic on ranges: a pair is all numbers from the first to the last. Of a truth value 1 is true and 0 false.

What stands here has the names that terms.py has too, so that the prelude is stated once for both (prelude.py).
"""
FALSE, TRUE, EITHER = (0, 0), (1, 1), (0, 1)


def number(value):
    return value, value


def constant(value, _):
    return value, value


def hull(one, other):
    """The least range that has two ranges."""
    return min(one[0], other[0]), max(one[1], other[1])


def meet(one, other):
    """What two ranges share; nothing where that is empty."""
    low, high = max(one[0], other[0]), min(one[1], other[1])
    return (low, high) if low <= high else None


def within(one, other):
    return other[0] <= one[0] and one[1] <= other[1]


def corners(one, other, work):
    """The range of what an operator gives at the ends of both ranges."""
    found = [work(left, right) for left in one for right in other]
    return min(found), max(found)


def add(one, other):
    return one[0] + other[0], one[1] + other[1]


def subtract(one, other):
    return one[0] - other[1], one[1] - other[0]


def multiply(one, other):
    return corners(one, other, lambda left, right: left * right)


def divided(left, right):
    """The quotient, rounded towards zero."""
    found = abs(left) // abs(right)
    return found if (left < 0) == (right < 0) else -found


def halves(it):
    """The negative and the positive part of a range."""
    parts = meet(it, (min(it[0], -1), -1)), meet(it, (1, max(it[1], 1)))
    return [part for part in parts if part]


def quotient(one, other):
    """The quotient rounded towards zero; of a divisor 0 anything."""
    found = [corners(one, part, divided) for part in halves(other)]
    return (min(it[0] for it in found), max(it[1] for it in found)) if found else (0, 0)


def remainder(one, other):
    """What a quotient leaves, with the sign of the dividend; of a divisor 0 anything."""
    most = max(abs(other[0]), abs(other[1])) - 1
    if most < 0:
        return 0, 0
    least = min((min(abs(low), abs(high)) for low, high in halves(other)), default=0)
    if one[0] == one[1] and other[0] == other[1]:
        return number(one[0] - divided(one[0], other[0]) * other[0])
    if max(abs(one[0]), abs(one[1])) < least:
        return one
    return max(min(one[0], 0), -most), min(max(one[1], 0), most)


def ones(value):
    """The least number of ones alone that is no less than a number."""
    return (1 << value.bit_length()) - 1


def bit_and(one, other):
    if one[0] == one[1] and other[0] == other[1]:
        return number(one[0] & other[0])
    return 0, min(one[1], other[1])


def bit_or(one, other):
    if one[0] == one[1] and other[0] == other[1]:
        return number(one[0] | other[0])
    return max(one[0], other[0]), ones(max(one[1], other[1]))


def bit_xor(one, other):
    if one[0] == one[1] and other[0] == other[1]:
        return number(one[0] ^ other[0])
    return 0, ones(max(one[1], other[1]))


def shift_left(one, by, width):
    """A shift to the left modulo 2 to the width; of the width or more it is 0."""
    if by[0] >= width:
        return 0, 0
    return wrap((one[0] << by[0], one[1] << min(by[1], width)), width)


def shift_right(one, by):
    return one[0] >> min(by[1], 64), one[1] >> min(by[0], 64)


def wrap(it, width):
    """A number modulo 2 to the width."""
    if it[0] >> width == it[1] >> width:
        return it[0] & ((1 << width) - 1), it[1] & ((1 << width) - 1)
    return 0, (1 << width) - 1


def fit(it, low, high):
    """The number itself where it lies between two numbers, else anything between them."""
    return meet(it, (low, high)) or (low, low)


# ---- truth values

def less(one, other):
    return int(one[1] < other[0]), int(one[0] < other[1])


def at_most(one, other):
    return int(one[1] <= other[0]), int(one[0] <= other[1])


def equal(one, other):
    return int(one[0] == one[1] == other[0] == other[1]), int(meet(one, other) is not None)


def negation(it):
    return 1 - it[1], 1 - it[0]


def both(one, other):
    return one[0] & other[0], one[1] & other[1]


def either(one, other):
    return one[0] | other[0], one[1] | other[1]


def choose(condition, one, other):
    if condition[0] == condition[1]:
        return one if condition[0] else other
    return hull(one, other)
