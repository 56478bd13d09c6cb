"""Values: the types of expressions, arithmetic that traps, and parts of structs and arrays.

A struct is a dictionary of its fields, and an array is a list.
"""
import operator
import re

from tree import Array, Binary, Call, Constant, Conversion, Field, Number, Place, Previous, Struct, Unary

COMPARISONS = {
    "==": operator.eq,
    "!=": operator.ne,
    "<": operator.lt,
    "<=": operator.le,
    ">": operator.gt,
    ">=": operator.ge,
}
BIT_OPERATORS = {"&": operator.and_, "|": operator.or_, "^": operator.xor}
SIMPLE_OPERATORS = {"+": operator.add, "-": operator.sub, "*": operator.mul, **BIT_OPERATORS}
# the type of a number that no other type is asked of
DEFAULT = "int32"


class Trap(Exception):
    """The tick traps: why, the expression whose operation did, and the statements of functions around it, the inner ones first."""

    def __init__(self, why):
        super().__init__(why)
        self.expression, self.calls = None, []


def width(kind):
    """How many bits a basic type has."""
    return int(re.search(r"\d+", kind).group())


def bounds(kind):
    """The least and the greatest value of a basic type."""
    if kind == "bool":
        return 0, 1
    if kind.startswith("int"):
        return -(1 << width(kind) - 1), (1 << width(kind) - 1) - 1
    return 0, (1 << width(kind)) - 1


def checked(kind, value):
    """The value, where it fits the type."""
    least, greatest = bounds(kind)
    if not least <= value <= greatest:
        raise Trap(f"{value} isn't within {kind}, which goes from {least} to {greatest}")
    return value


def fitted(kind, value):
    """What arithmetic makes of an exact result: `bits` go around, and others trap."""
    return value & bounds(kind)[1] if kind.startswith("bits") else checked(kind, value)


def quotient(left, right):
    """Division that rounds towards zero."""
    size = abs(left) // abs(right)
    return size if (left < 0) == (right < 0) else -size


def calculated(sign, kind, left, right):
    """The value of an operator of arithmetic at a type."""
    if sign in ("/", "%"):
        if right == 0:
            raise Trap("the divisor is zero")
        # (a remainder has the sign of the left operand)
        exact = quotient(left, right) if sign == "/" else left - right * quotient(left, right)
    elif sign in ("<<", ">>"):
        exact = 0 if right >= width(kind) else left << right if sign == "<<" else left >> right
    else:
        exact = SIMPLE_OPERATORS[sign](left, right)
    return fitted(kind, exact)


def zero(kind):
    """The value that a variable of this type begins with."""
    if isinstance(kind, Struct):
        return {name: zero(it) for name, it in kind.fields.items()}
    if isinstance(kind, Array):
        return [zero(kind.element) for _ in range(kind.length)]
    return False if kind == "bool" else 0


def part(value, path):
    """The part of a value that names of fields and indices lead to."""
    for step in path:
        if isinstance(value, list) and not 0 <= step < len(value):
            raise Trap(f"index {step} of an array of {len(value)}")
        value = value[step]
    return value


def store(values, variable, path, value):
    """Puts a value at a part of a variable."""
    whole = values[variable]
    if path:
        # (this traps where there is no such part)
        part(whole, path)
        part(whole, path[:-1])[path[-1]] = value
    else:
        values[variable] = value


# ---- the types of expressions


def type_of(expression):
    """The type of an expression; nothing where it is made of numbers alone."""
    if isinstance(expression, Number):
        return None
    if isinstance(expression, (Constant, Conversion)):
        return expression.type
    if isinstance(expression, Previous):
        return expression.variable.type
    if isinstance(expression, Place):
        return type_of_place(expression)
    if isinstance(expression, Call):
        return expression.function.result
    if isinstance(expression, Unary):
        return "bool" if expression.operator == "not" else type_of(expression.operand)
    assert isinstance(expression, Binary)
    if expression.operator in ("and", "or") or expression.operator in COMPARISONS:
        return "bool"
    return type_of(expression.left) or type_of(expression.right)


def type_of_place(place):
    """The type of a part of a variable."""
    kind = place.variable.type
    for step in place.steps:
        kind = kind.fields[step.name] if isinstance(step, Field) else kind.element
    return kind
