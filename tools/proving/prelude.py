"""What the functions of the prelude give, and when they trap, over any arithmetic: that of ranges.py or that of terms.py.

Numbers are exact: a sum is the sum of two whole numbers, and then it is asked whether the type has it.
"""
import re

NAME = re.compile(r"bl_(add|sub|mul|div|rem|neg|not|and|or|xor|shl|shr|of_s|of_u)_([inb])(8|16|32|64)")
# what an operator is called where it is shown
SIGNS = {"add": "+", "sub": "-", "mul": "*", "div": "/", "rem": "%", "neg": "-", "not": "~", "and": "&", "or": "|", "xor": "^", "shl": "<<",
         "shr": ">>", "of_s": "as", "of_u": "as"}
WORDS = {"i": "int", "n": "nat", "b": "bits"}


class Operator:
    """A function of the prelude: its operator, and the kind, the width and the range of its type."""

    def __init__(self, name):
        self.name = name
        self.operator, self.kind, width = NAME.fullmatch(name).groups()
        self.width = int(width)
        self.low, self.high = (-(1 << self.width - 1), (1 << self.width - 1) - 1) if self.kind == "i" else (0, (1 << self.width) - 1)
        self.sign, self.type = SIGNS[self.operator], f"{WORDS[self.kind]}{width}"

    @property
    def may_trap(self):
        """Whether some numbers make it trap."""
        return self.kind != "b" or self.operator in ("div", "rem", "of_s", "of_u")

    def outside(self, domain, value):
        """Whether a number is outside the type."""
        return domain.either(domain.less(value, domain.number(self.low)), domain.less(domain.number(self.high), value))

    def held(self, domain, value):
        """A number that the type has to have: it, and whether that traps."""
        return domain.fit(value, self.low, self.high), self.outside(domain, value)

    def apply(self, domain, values):
        """The value, and whether the function traps."""
        return getattr(self, f"apply_{self.operator}")(domain, *values)

    def summed(self, domain, value):
        """An exact result, in the type or modulo its numbers."""
        if self.kind == "b":
            return domain.wrap(value, self.width), domain.FALSE
        return self.held(domain, value)

    def apply_add(self, domain, one, other):
        return self.summed(domain, domain.add(one, other))

    def apply_sub(self, domain, one, other):
        return self.summed(domain, domain.subtract(one, other))

    def apply_mul(self, domain, one, other):
        return self.summed(domain, domain.multiply(one, other))

    def apply_neg(self, domain, one):
        return self.summed(domain, domain.subtract(domain.number(0), one))

    def apply_div(self, domain, one, other):
        value, outside = self.held(domain, domain.quotient(one, other))
        zero = domain.equal(other, domain.number(0))
        # (the one quotient outside the type is that of its least number and -1)
        return value, domain.either(zero, domain.both(outside, domain.equal(other, domain.number(-1))))

    def apply_rem(self, domain, one, other):
        return domain.fit(domain.remainder(one, other), self.low, self.high), domain.equal(other, domain.number(0))

    def apply_of_s(self, domain, one):
        return self.held(domain, one)

    apply_of_u = apply_of_s

    def apply_not(self, domain, one):
        return domain.subtract(domain.number(self.high), one), domain.FALSE

    def apply_and(self, domain, one, other):
        return domain.bit_and(one, other), domain.FALSE

    def apply_or(self, domain, one, other):
        return domain.bit_or(one, other), domain.FALSE

    def apply_xor(self, domain, one, other):
        return domain.bit_xor(one, other), domain.FALSE

    def apply_shl(self, domain, one, other):
        return domain.shift_left(one, other, self.width), domain.FALSE

    def apply_shr(self, domain, one, other):
        return domain.shift_right(one, other), domain.FALSE


OPERATORS = {}


def operator_of(name):
    """The function of the prelude of a name."""
    if name not in OPERATORS:
        OPERATORS[name] = Operator(name)
    return OPERATORS[name]


def index(domain, value, length):
    """An index below a length: its value, and whether it traps."""
    outside = domain.either(domain.less(value, domain.number(0)), domain.at_most(domain.number(length), value))
    return domain.fit(value, 0, length - 1), outside


def compared(domain, operator, one, other):
    """What a comparison gives."""
    if operator in ("==", "!="):
        found = domain.equal(one, other)
        return found if operator == "==" else domain.negation(found)
    if operator in (">", ">="):
        one, other = other, one
    return domain.less(one, other) if operator in ("<", ">") else domain.at_most(one, other)
