"""Terms: what cells hold behind a tick, as a function of what they held before it and of the inputs.

A term stands for a whole number or a truth value, and carries a range in which it lies if nothing has trapped before. Its operators are exact, so
that overflow is a comparison. They have the names of ranges.py, so that the prelude is stated once for both (prelude.py). Equal terms are one object.
"""
from . import ranges

# a program that comes to more terms is beyond what is tried
MOST = 600000


class TooLarge(Exception):
    """There are too many terms, or an index has too many elements."""


class Term:
    """An operator on terms, or a number, or a variable. Its number is greater than those of its operands."""

    __slots__ = ("operator", "operands", "detail", "low", "high", "truth", "number")

    def __init__(self, operator, operands, detail, reach, truth, number):
        self.operator, self.operands, self.detail = operator, operands, detail
        (self.low, self.high), self.truth, self.number = reach, truth, number

    @property
    def reach(self):
        return self.low, self.high

    @property
    def known(self):
        """Whether it is one number, whatever is put in."""
        return self.low == self.high


class Terms:
    """Makes terms. What two of these make isn't mixed."""

    def __init__(self):
        self.table, self.count, self.variables = {}, 0, {}
        self.FALSE, self.TRUE = self.constant(0, True), self.constant(1, True)

    # ---- making

    def made(self, operator, operands, reach, truth=False, detail=None):
        """A term; a number where its range has only one."""
        if reach[0] == reach[1] and operator != "constant":
            return self.constant(reach[0], truth)
        key = operator, tuple(it.number for it in operands), detail, truth
        found = self.table.get(key)
        if found is None:
            self.count += 1
            if self.count > MOST:
                raise TooLarge("it comes to too many terms")
            found = self.table[key] = Term(operator, operands, detail, reach, truth, self.count)
        return found

    def constant(self, value, truth):
        return self.made("constant", (), (value, value), truth, value)

    def number(self, value):
        return self.constant(value, False)

    def truth(self, value):
        return self.TRUE if value else self.FALSE

    def value(self, value, scalar):
        """A number of a scalar type of C as a term."""
        return self.truth(value) if scalar.name == "bool" else self.number(value)

    def variable(self, name, scalar, reach=None):
        """A variable of a scalar type of C, within a range. No two have one name, so that none is taken with the range of another."""
        assert name not in self.variables
        found = self.made("variable", (), reach or (scalar.low, scalar.high), scalar.name == "bool", name)
        self.variables[name] = found
        return found

    # ---- numbers

    def exact(self, operator, work, one, other):
        return self.made(operator, (one, other), work(one.reach, other.reach))

    def add(self, one, other):
        if other.known and other.low == 0:
            return one
        return other if one.known and one.low == 0 else self.exact("add", ranges.add, one, other)

    def subtract(self, one, other):
        return one if other.known and other.low == 0 else self.exact("subtract", ranges.subtract, one, other)

    def multiply(self, one, other):
        for left, right in ((one, other), (other, one)):
            if left.known and left.low == 1:
                return right
        return self.exact("multiply", ranges.multiply, one, other)

    def quotient(self, one, other):
        return one if other.known and other.low == 1 else self.exact("quotient", ranges.quotient, one, other)

    def remainder(self, one, other):
        return self.exact("remainder", ranges.remainder, one, other)

    def bit_and(self, one, other):
        return self.exact("bit_and", ranges.bit_and, one, other)

    def bit_or(self, one, other):
        return self.exact("bit_or", ranges.bit_or, one, other)

    def bit_xor(self, one, other):
        return self.exact("bit_xor", ranges.bit_xor, one, other)

    def shift_left(self, one, by, width):
        return self.made("shift_left", (one, by), ranges.shift_left(one.reach, by.reach, width), detail=width)

    def shift_right(self, one, by):
        return one if by.known and by.low == 0 else self.exact("shift_right", ranges.shift_right, one, by)

    def wrap(self, it, width):
        if it.low >= 0 and it.high < 1 << width:
            return it
        return self.made("wrap", (it,), ranges.wrap(it.reach, width), detail=width)

    def fit(self, it, low, high):
        if low <= it.low and it.high <= high:
            return it
        return self.made("fit", (it,), ranges.fit(it.reach, low, high))

    # ---- truth values

    def less(self, one, other):
        return self.made("less", (one, other), ranges.less(one.reach, other.reach), True)

    def at_most(self, one, other):
        return self.made("at_most", (one, other), ranges.at_most(one.reach, other.reach), True)

    def equal(self, one, other):
        if one is other:
            return self.TRUE
        if one.truth and (one.known or other.known):
            fixed, free = (one, other) if one.known else (other, one)
            return free if fixed.low else self.negation(free)
        if one.known:
            one, other = other, one
        if other.known and one.operator == "choose" and any(it.known for it in one.operands[1:]):
            # (so the test of a counter that was just set is one of what set it)
            condition, then, otherwise = one.operands
            return self.choose(condition, self.equal(then, other), self.equal(otherwise, other))
        return self.made("equal", (one, other), ranges.equal(one.reach, other.reach), True)

    def negation(self, it):
        if it.operator == "negation":
            return it.operands[0]
        return self.made("negation", (it,), ranges.negation(it.reach), True)

    def both(self, one, other):
        if one is other or (other.known and other.low):
            return one
        if one.known and one.low:
            return other
        if self.are_opposite(one, other):
            return self.FALSE
        return self.made("both", (one, other), ranges.both(one.reach, other.reach), True)

    def either(self, one, other):
        if one is other or (other.known and not other.low):
            return one
        if one.known and not one.low:
            return other
        if self.are_opposite(one, other):
            return self.TRUE
        return self.made("either", (one, other), ranges.either(one.reach, other.reach), True)

    def are_opposite(self, one, other):
        return (one.operator == "negation" and one.operands[0] is other) or (other.operator == "negation" and other.operands[0] is one)

    def choose(self, condition, one, other):
        """One term where a condition holds, else another."""
        if condition.known:
            return one if condition.low else other
        if condition.operator == "negation":
            condition, one, other = condition.operands[0], other, one
        if one.operator == "choose" and one.operands[0] is condition:
            one = one.operands[1]
        if other.operator == "choose" and other.operands[0] is condition:
            other = other.operands[2]
        if one is other:
            return one
        if one.truth:
            return self.chosen_truth(condition, one, other)
        return self.made("choose", (condition, one, other), ranges.hull(one.reach, other.reach))

    def chosen_truth(self, condition, one, other):
        if one.known:
            return self.either(condition, other) if one.low else self.both(self.negation(condition), other)
        if other.known:
            return self.either(self.negation(condition), one) if other.low else self.both(condition, one)
        return self.made("choose", (condition, one, other), ranges.EITHER, True)

    def all(self, items):
        """Whether all of some hold."""
        return self.gathered(list(items), self.both, self.TRUE)

    def any(self, items):
        """Whether one of some holds."""
        return self.gathered(list(items), self.either, self.FALSE)

    def gathered(self, items, work, none):
        """Joins in pairs, so that terms don't get deep."""
        while len(items) > 1:
            pairs = [work(*items[at:at + 2]) for at in range(0, len(items) - 1, 2)]
            items = pairs + items[len(items) - len(items) % 2:]
        return items[0] if items else none

    def between(self, it, reach):
        """Whether a term lies in a range."""
        if it.truth:
            return self.TRUE if reach == ranges.EITHER else self.equal(it, self.truth(reach[0]))
        if reach[0] == reach[1]:
            return self.equal(it, self.number(reach[0]))
        return self.both(self.at_most(self.number(reach[0]), it), self.at_most(it, self.number(reach[1])))


def cone(items):
    """The terms that some are made of, themselves included, operands first."""
    found, waiting = {}, list(items)
    while waiting:
        it = waiting.pop()
        if it.number not in found:
            found[it.number] = it
            waiting.extend(it.operands)
    return [found[at] for at in sorted(found)]
