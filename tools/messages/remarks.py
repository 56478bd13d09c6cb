"""What no rule refuses, but is seldom meant: what nothing uses or sets, and what is decided by types or literals alone."""
import shared
import tree
from effects import part_of
from functions import Evaluator
from places import place_in
from values import COMPARISONS, Trap, bounds, type_of
from ways import inner


class Uses:
    """What the statements of a source read and write, and their expressions."""

    def __init__(self, units):
        self.read, self.written, self.values = set(), set(), []
        for unit in units:
            self.statements(unit.body)

    def statements(self, statements):
        for it in statements:
            self.statement(it)
            for condition, _ in getattr(it, "arms", ()):
                self.value(condition)
            self.statements(inner(it))

    def statement(self, it):
        """The parts of one statement that are no statements."""
        for name in ("condition", "value"):
            self.value(getattr(it, name, None))
        for each in getattr(it, "inputs", ()):
            self.value(each)
        for each in [*getattr(it, "outputs", ()), *filter(None, [getattr(it, "place", None), getattr(it, "target", None)])]:
            self.written.add(each.variable)
            self.indices(each)
        for each in getattr(it, "outputs", ()):
            # (what is called may read an output)
            self.read.add(part_of(each)[0])

    def value(self, expression):
        if expression is None:
            return
        self.values.append(expression)
        if isinstance(expression, tree.Place):
            self.read.add(expression.variable)
            self.indices(expression)
        elif isinstance(expression, tree.Previous):
            self.read.add(expression.variable)
        for name in ("left", "right", "operand"):
            self.value(getattr(expression, name, None))
        for each in getattr(expression, "arguments", ()):
            self.value(each)

    def indices(self, place):
        for step in place.steps:
            if isinstance(step, tree.Index):
                self.value(step.value)


def unused(source, uses):
    """Variables, constants and inputs that nothing uses, outputs that nothing sets."""
    for unit in source.units.values():
        for it in unit.variables:
            if it in unit.outputs:
                if it not in uses.written:
                    yield it.span, f"nothing sets the output `{it.name}` of `{unit.name}`"
            elif it not in uses.read:
                what = "input" if it in unit.inputs else "variable"
                yield it.span, f"nothing uses the {what} `{it.name}` of `{unit.name}`"
    for it in source.reader.constants:
        if id(it) not in source.reader.used:
            yield it.span, f"nothing uses the constant `{it.name}`"


def literal(expression):
    """The number that an expression of literals and constants is; nothing where it is another one."""
    if isinstance(expression, tree.Number):
        return expression.value
    return expression.value if isinstance(expression, tree.Constant) and not isinstance(expression.value, bool) else None


def decided(expression):
    """How a comparison with a number comes out for each value of the other side's type; nothing where that isn't so."""
    if not isinstance(expression, tree.Binary) or expression.operator not in COMPARISONS:
        return None
    left, right = literal(expression.left), literal(expression.right)
    if (left is None) == (right is None):
        return None
    kind = type_of(expression.right if right is None else expression.left)
    if not isinstance(kind, str) or kind == "bool":
        return None
    compare, ends = COMPARISONS[expression.operator], bounds(kind)
    known = left if right is None else right
    if expression.operator in ("==", "!="):
        return expression.operator == "!=" if not ends[0] <= known <= ends[1] else None
    sides = {compare(left, end) if right is None else compare(end, right) for end in ends}
    return sides.pop() if len(sides) == 1 else None


def is_literal(expression):
    """Whether an expression has neither variables nor calls."""
    if isinstance(expression, (tree.Number, tree.Constant)):
        return True
    parts = [getattr(expression, it) for it in ("left", "right", "operand") if hasattr(expression, it)]
    return bool(parts) and all(map(is_literal, parts))


def trapping(expression):
    """Why an operation on literals always traps; nothing where it doesn't."""
    if isinstance(expression, tree.Binary) and expression.operator in ("/", "%") and literal(expression.right) == 0:
        return "the divisor is zero"
    if isinstance(expression, tree.Place):
        return index_outside(expression)
    if not is_literal(expression):
        return None
    try:
        Evaluator().value(expression)
    except Trap as trap:
        return str(trap)
    except (AttributeError, LookupError, TypeError, ValueError):
        return None
    return None


def index_outside(place):
    """Why an index that is a number is always outside of its array."""
    kind = place.variable.type
    for step in place.steps:
        if isinstance(step, tree.Field):
            kind = kind.fields[step.name]
            continue
        number = literal(step.value)
        if number is not None and not 0 <= number < kind.length:
            return f"index {number} of an array of {kind.length}"
        kind = kind.element
    return None


def of_values(uses):
    """Comparisons that are decided, and operations that always trap."""
    for it in uses.values:
        side = decided(it)
        if side is not None:
            yield it.span, f"this is {str(side).lower()} for each value of the type"
        why = trapping(it)
        if why:
            yield it.span, f"this always traps: {why}"


def of(source):
    """All remarks on a source, in the order of their places."""
    uses = Uses(source.units.values())
    return sorted({it for it in (*unused(source, uses), *of_values(uses)) if it[0]})


def checked(paths, call):
    """Checks a source, and tells the remarks where it is accepted; the status of the check."""
    status = call("check", paths)
    if not status:
        source = shared.Source(paths)
        for span, told in of(source):
            print("\n".join(place_in(source, *span, f"remark: {told}")))
    return status
