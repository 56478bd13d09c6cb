"""The types of a source that breaks rule Type or Literal, and what is wrong with them (docs/LANGUAGE.md, "Types").

The reader of accepted sources is taken, and each expression is judged where it stands. An expression has a type, or it is open, which is to say
that it takes the type that is wanted of it, or it has none, since a part of it fails.
"""
import collections

import tree
from functions import Evaluator
from reader import Reader, number_of
from values import BIT_OPERATORS, COMPARISONS, DEFAULT, Trap, bounds

# what is wrong at a place: a sentence, and a hint
Failure = collections.namedtuple("Failure", "told hint")
OPEN, NONE = "open", None
CONVERT = "No type is converted by itself: write `as` and the type that is wanted."
BOOLS = "A bool is no number: write `if c then x = 1 else x = 0 end`, and `x != 0` for a bool of a number."
WHOLES = "Arrays and structs are copied whole and not compared: compare their elements or fields, in a function with a loop."
SHIFTS = {"<<", ">>"}


def scalar(kind):
    return isinstance(kind, str) and kind != OPEN


def whole(kind):
    """Whether a type is one of whole numbers."""
    return scalar(kind) and kind != "bool"


def shown(kind):
    """A type as a source writes it."""
    if isinstance(kind, tree.Array):
        return f"[{kind.length}]{shown(kind.element)}"
    return kind.name if isinstance(kind, tree.Struct) else kind


def same(first, second):
    """Whether two types are one: structs by their name, arrays by length and element."""
    if isinstance(first, tree.Array) and isinstance(second, tree.Array):
        return first.length == second.length and same(first.element, second.element)
    if isinstance(first, tree.Struct) and isinstance(second, tree.Struct):
        return first.name == second.name
    return first == second


def takes(sign, kind):
    """Whether an operator with two operands of arithmetic takes a type."""
    return kind.startswith("bits") if sign in BIT_OPERATORS or sign in SHIFTS else whole(kind)


def is_open(expression):
    """Whether an expression is made of numbers alone."""
    if isinstance(expression, tree.Number):
        return True
    if isinstance(expression, tree.Unary):
        return expression.operator != "not" and is_open(expression.operand)
    arithmetic = isinstance(expression, tree.Binary) and expression.operator not in ("and", "or", *COMPARISONS)
    return arithmetic and is_open(expression.left) and is_open(expression.right)


class Expressions:
    """Judges expressions, and keeps what is wrong by its place."""

    def __init__(self, text):
        self.text, self.failures, self.literals = text, {}, {}

    def of(self, place):
        """What stands at a place, on one line."""
        return " ".join(self.text[place[0]:place[1]].split())

    def fail(self, node, told, hint=CONVERT):
        """Keeps that something is wrong there; what fails has no type."""
        self.failures.setdefault(node.span, Failure(told, hint))
        return NONE

    def named(self, expression, kind):
        """An expression with its type, as a sentence tells it."""
        return f"`{self.of(expression.span)}` is {shown(kind)}"

    def judged(self, expression, wanted=NONE):
        """The type of an expression. An open one takes the wanted type, and where none is wanted int32."""
        if not is_open(expression):
            return getattr(self, "of_" + type(expression).__name__.lower())(expression)
        kind = wanted or DEFAULT
        if whole(kind):
            return self.settled(expression, kind)
        return self.fail(expression, f"{shown(kind)} is wanted here, and `{self.of(expression.span)}` is a number.",
                         BOOLS if kind == "bool" else CONVERT)

    def settled(self, expression, kind):
        """The type of an open expression of which a whole-number type is wanted."""
        if isinstance(expression, tree.Number):
            least, most = bounds(kind)
            if not least <= expression.value <= most:
                self.literals[expression.span] = kind
            return kind
        if isinstance(expression, tree.Unary):
            inner = self.settled(expression.operand, kind)
            return inner and self.signed(expression, inner)
        left, right = self.settled(expression.left, kind), self.settled(expression.right, kind)
        if not left or not right:
            return NONE
        return kind if takes(expression.operator, kind) else self.bits_only(expression, kind)

    def bits_only(self, expression, kind):
        return self.fail(expression, f"`{expression.operator}` takes bits types alone, and this is {shown(kind)}.",
                         "Declare what holds single bits with a bits type, or write `as bits32` and back; a bool has `and`, `or`, `not`.")

    def signed(self, expression, kind):
        """The type of `-` or `~`."""
        fitting = kind.startswith("bits") or (expression.operator == "-" and kind.startswith("int")) if whole(kind) else False
        if fitting:
            return kind
        what = "int and bits types" if expression.operator == "-" else "bits types"
        hint = "A nat has no negative numbers: take an int type." if expression.operator == "-" else "The `not` of a bool is `not`."
        return self.fail(expression, f"{self.named(expression.operand, kind)}, and `{expression.operator}` takes {what} alone.", hint)

    def of_constant(self, expression):
        return expression.type

    def of_previous(self, expression):
        return expression.variable.type

    def of_place(self, expression):
        kind, path = expression.variable.type, expression.variable.name
        for step in expression.steps:
            kind = self.field(kind, path, step) if isinstance(step, tree.Field) else self.element(kind, path, step.value)
            path = f"{path}.{step.name}" if isinstance(step, tree.Field) else f"{path}[..]"
        return kind

    def field(self, kind, path, step):
        if kind is NONE:
            return NONE
        if not isinstance(kind, tree.Struct):
            return self.fail(step, f"`{path}` is {shown(kind)}, which has no fields.", "Only a struct has fields, which it declares by `var`.")
        if step.name not in kind.fields:
            return self.fail(step, f"`{path}` is {kind.name}, whose fields are {', '.join(kind.fields)}.", "Take one of these, or add the field to its struct.")
        return kind.fields[step.name]

    def element(self, kind, path, index):
        """The type of an element. Its index is judged whatever stands before it."""
        of_index = self.judged(index)
        if of_index and not whole(of_index):
            self.fail(index, f"An index is a whole number, and {self.named(index, of_index)}.", "Count in a whole-number type.")
        if kind is not NONE and not isinstance(kind, tree.Array):
            hint = "Only an array has elements: `var x: [8]int32`. Bits are taken by `>>` and `&`."
            return self.fail(index, f"`{path}` is {shown(kind)}, which has no elements.", hint)
        return kind.element if kind is not NONE and of_index and whole(of_index) else NONE

    def of_conversion(self, expression):
        kind = self.judged(expression.operand, expression.type)
        if kind is NONE:
            return NONE
        if not whole(kind) or not whole(expression.type):
            hint = BOOLS if "bool" in (kind, expression.type) else "Convert its elements or fields."
            return self.fail(expression, f"{self.named(expression.operand, kind)}, and `as` goes from one whole-number type to another.", hint)
        return expression.type

    def of_call(self, expression):
        fits = self.arguments(expression.arguments, expression.function.inputs, expression.function)
        return expression.function.result if fits and scalar(expression.function.result) else NONE

    def arguments(self, given, parameters, unit):
        """Whether the arguments of a call fit, as far as there are parameters."""
        fits = True
        for at, argument in enumerate(given):
            wanted = parameters[at].type if at < len(parameters) else NONE
            fits &= self.wants(argument, wanted, f"`{parameters[at].name}` of `{unit.name}`" if at < len(parameters) else "")
        return fits

    def wants(self, expression, wanted, what, hint=CONVERT):
        """Judges an expression of which a type is wanted: whether it has it, or where none is wanted any."""
        kind = self.judged(expression, wanted)
        if kind and wanted and not same(kind, wanted):
            other = BOOLS if "bool" in (kind, wanted) and whole(kind if wanted == "bool" else wanted) else hint
            self.fail(expression, f"{self.named(expression, kind)}, and {what} is {shown(wanted)}.", other)
            return False
        return kind is not NONE

    def of_unary(self, expression):
        if expression.operator != "not":
            kind = self.judged(expression.operand)
            return kind and self.signed(expression, kind)
        kind = self.judged(expression.operand, "bool")
        if kind and kind != "bool":
            return self.fail(expression, f"{self.named(expression.operand, kind)}, and `not` takes a bool.", "Write a comparison, as `x == 0`; bits have `~`.")
        return kind

    def of_binary(self, expression):
        sign = expression.operator
        if sign in ("and", "or"):
            return self.connected(expression)
        left, right = expression.left, expression.right
        if is_open(left) and not is_open(right):
            of_right = self.judged(right)
            of_left = self.judged(left, of_right)
        else:
            of_left = self.judged(left)
            of_right = self.judged(right, of_left)
        if not of_left or not of_right:
            return NONE
        return self.compared(expression, of_left, of_right) if sign in COMPARISONS else self.calculated(expression, of_left, of_right)

    def both(self, expression, left, right):
        """Both operands with their types."""
        return f"{self.named(expression.left, left)}, {self.named(expression.right, right)}"

    def connected(self, expression):
        """The type of `and` and `or`."""
        left, right = self.judged(expression.left, "bool"), self.judged(expression.right, "bool")
        if not left or not right:
            return NONE
        if (left, right) == ("bool", "bool"):
            return "bool"
        hint = f"Bits have `{'&' if expression.operator == 'and' else '|'}`; of a number make a bool by a comparison, as `x != 0`."
        return self.fail(expression, f"{self.both(expression, left, right)}, and `{expression.operator}` takes two bools.", hint)

    def compared(self, expression, left, right):
        """The type of a comparison."""
        sign = expression.operator
        if not same(left, right):
            return self.fail(expression, f"{self.both(expression, left, right)}, and `{sign}` takes two of one type.", CONVERT)
        if not scalar(left):
            return self.fail(expression, f"{self.both(expression, left, right)}, and `{sign}` takes scalars alone.", WHOLES)
        if left == "bool" and sign not in ("==", "!="):
            told = f"{self.both(expression, left, right)}, and `{sign}` takes whole numbers alone."
            return self.fail(expression, told, "Of bools `a and not b` is what a > b would be.")
        return "bool"

    def calculated(self, expression, left, right):
        """The type of arithmetic."""
        sign = expression.operator
        if not same(left, right) or not whole(left):
            bools = "bool" in (left, right)
            hint = BOOLS if bools else "Calculate with elements or fields." if not whole(left) else CONVERT
            return self.fail(expression, f"{self.both(expression, left, right)}, and `{sign}` takes two of one whole-number type.", hint)
        return left if takes(sign, left) else self.bits_only(expression, left)


class Judge(Reader):
    """Reads a source whose names are declared, whatever its types are, and judges them."""

    def __init__(self, text):
        super().__init__(text)
        self.of = Expressions(text)

    def judge(self):
        """Reads the whole source, and gives what it found."""
        self.program()
        return self.of

    def type(self):
        if self.eats("["):
            length = self.length(self.eat())
            self.eat("]")
            return tree.Array(length, self.type())
        return super().type()

    def length(self, word):
        """The length that a word is; 0 where it is none."""
        value = number_of(word) if word[0].isdigit() else self.found(word).value
        return value if isinstance(value, int) and not isinstance(value, bool) and 1 <= value <= 65536 else 0

    def operand(self, text):
        """A constant may stand before a field or an index, too, though it has neither."""
        if self.next(1) in (".", "[") and text.isidentifier():
            found = self.found(text)
            if isinstance(found, tree.Constant):
                variable = tree.Variable(text, found.type)
                place = self.stepped(variable)
                return place
        return super().operand(text)

    def stepped(self, variable):
        self.eat()
        steps = []
        while self.next() in (".", "["):
            if self.eat() == ".":
                steps.append(self.field())
            else:
                steps.append(tree.Index(self.expression()))
                self.eat("]")
        return tree.Place(variable, steps)

    def constant(self, kind, value):
        written = kind
        if written is not NONE:
            self.of.wants(value, written, "the constant")
        kind = written or self.of.judged(value)
        try:
            return tree.Constant(Evaluator().value(value, kind), kind)
        except (Trap, AttributeError, LookupError, TypeError, ValueError):
            return tree.Constant(0, kind)

    def const(self):
        super().const()
        found = self.constants[-1]
        if found.type is not NONE and not scalar(found.type):
            self.of.fail(found, f"`{found.name}` is {shown(found.type)}, and a constant is a scalar.", "Set the elements of a `var`.")

    def unit(self):
        unit = super().unit()
        if unit.result is not None and not scalar(unit.result):
            self.of.fail(unit, f"The result of `{unit.name}` is {shown(unit.result)}, and a result is a scalar.",
                         f"Make it an output: `{unit.kind} {unit.name} (..)(x: {shown(unit.result)})`.")
        for it in self.returned:
            # (where the result isn't scalar the unit counts as one without a result)
            self.of.wants(it, unit.result if scalar(unit.result) else NONE, f"the result of `{unit.name}`")
        return unit

    def parameters(self):
        self.returned = []
        return super().parameters()

    def returns(self):
        found = super().returns()
        if found.value:
            self.returned.append(found.value)
        return found

    def variable(self):
        first, name = self.at, self.eat()
        place, kind = self.place_from(first), self.type() if self.eats(":") else NONE
        value = self.expression() if self.eats("=") else None
        if value:
            if kind is not NONE:
                self.of.wants(value, kind, f"`{name}`")
            else:
                kind = self.of.judged(value)
        return tree.Declare(self.declare(name, kind, place), value)

    def plain(self):
        kind, found = super().plain()
        if isinstance(found, tree.Assign):
            wanted = self.of.judged(found.place)
            self.of.wants(found.value, wanted, f"`{self.of.of(found.place.span)}`")
        elif isinstance(found, (tree.CallStatement, tree.Run)):
            unit = found.activity if isinstance(found, tree.Run) else found.function
            self.of.arguments(found.inputs, unit.inputs, unit)
            self.of.arguments(found.outputs, unit.outputs, unit)
            self.target(found, unit)
        elif isinstance(found, tree.Await):
            self.condition(found.condition)
        return kind, found

    def target(self, statement, unit):
        """The target of a `run` gets the result."""
        if isinstance(statement, tree.Run) and statement.target:
            self.of.wants(statement.target, unit.result if scalar(unit.result) else NONE, f"the result of `{unit.name}`")

    def condition(self, expression):
        self.of.wants(expression, "bool", "a condition", "Write a comparison, as `x != 0`.")

    def when(self, first):
        found = super().when(first)
        self.condition(found.condition)
        return found

    def repeat(self, first):
        found = super().repeat(first)
        if isinstance(found, tree.Until):
            self.condition(found.condition)
        return found

    def whiles(self, first):
        found = super().whiles(first)
        self.condition(found.condition)
        return found

    def ifs(self, first):
        found = super().ifs(first)
        for condition, _ in found.arms:
            self.condition(condition)
        return found
