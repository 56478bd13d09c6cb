"""What expressions come to, and what functions do."""
import copy

from tree import Assign, CallStatement, Declare, Field, If, Repeat, Return, Until, While
from values import COMPARISONS, DEFAULT, Trap, calculated, checked, fitted, part, store, type_of, type_of_place, zero

# a loop of a function that makes more turns traps
TURNS = 65536


class Evaluator:
    """Evaluates expressions. `get` gives a part of a variable, and `previous` what a variable was when the tick began."""

    def __init__(self, get=None, previous=None, watch=None):
        self.get, self.previous, self.watch = get, previous, watch

    def value(self, expression, wanted=None):
        """The value of an expression, whose numbers take the wanted type where nothing in it has one."""
        try:
            found = getattr(self, "value_of_" + type(expression).__name__.lower())(expression, wanted)
        except Trap as trap:
            # (the innermost operation is the one that trapped)
            trap.expression = trap.expression or expression
            raise
        if self.watch:
            self.watch.value(expression, found)
        return found

    def value_of_number(self, expression, _):
        return expression.value

    def value_of_constant(self, expression, _):
        return expression.value

    def value_of_previous(self, expression, _):
        return copy.deepcopy(self.previous(expression.variable))

    def value_of_place(self, expression, _):
        return copy.deepcopy(self.get(expression.variable, self.path(expression)))

    def value_of_conversion(self, expression, _):
        return checked(expression.type, self.value(expression.operand, expression.type))

    def value_of_call(self, expression, _):
        return result_of(expression.function, self.inputs(expression.arguments, expression.function), [], self.watch)

    def value_of_unary(self, expression, wanted):
        if expression.operator == "not":
            return not self.value(expression.operand, "bool")
        kind = type_of(expression.operand) or wanted or DEFAULT
        value = self.value(expression.operand, kind)
        return fitted(kind, -value if expression.operator == "-" else ~value)

    def value_of_binary(self, expression, wanted):
        sign = expression.operator
        # (the right side isn't evaluated where the left one decides)
        if sign == "and":
            return self.value(expression.left, "bool") and self.value(expression.right, "bool")
        if sign == "or":
            return self.value(expression.left, "bool") or self.value(expression.right, "bool")
        kind = type_of(expression.left) or type_of(expression.right)
        if sign in COMPARISONS:
            kind = kind or DEFAULT
            return COMPARISONS[sign](self.value(expression.left, kind), self.value(expression.right, kind))
        kind = kind or wanted or DEFAULT
        left = self.value(expression.left, kind)
        return calculated(sign, kind, left, self.value(expression.right, kind))

    def path(self, place):
        """The names of fields and the indices of a place."""
        return [it.name if isinstance(it, Field) else self.value(it.value, type_of(it.value) or DEFAULT) for it in place.steps]

    def inputs(self, arguments, unit):
        """The values of the inputs of a unit."""
        return [self.value(it, variable.type) for it, variable in zip(arguments, unit.inputs)]


class Part:
    """A part of a variable that a function has as an output."""

    def __init__(self, owner, variable, path):
        self.owner, self.variable, self.path = owner, variable, path

    def get(self, path):
        return self.owner.get(self.variable, self.path + path)

    def put(self, path, value):
        self.owner.put(self.variable, self.path + path, value)


def call(owner, evaluator, statement):
    """Does the statement that calls a function. The owner is what gets and puts the variables of the caller."""
    inputs = evaluator.inputs(statement.inputs, statement.function)
    # (the places of outputs have no index)
    outputs = [Part(owner, it.variable, [step.name for step in it.steps]) for it in statement.outputs]
    result_of(statement.function, inputs, outputs, evaluator.watch)


def result_of(function, inputs, outputs, watch=None):
    """Calls a function: what it returns. Where somebody watches, statements and values are told."""
    try:
        Frame(function, inputs, outputs, watch).block(function.body)
    except Returned as it:
        return it.value
    return None


class Returned(Exception):
    """A function returns."""

    def __init__(self, value):
        super().__init__()
        self.value = value


class Frame:
    """One call of a function, with its variables."""

    def __init__(self, function, inputs, outputs, watch=None):
        self.function, self.watch = function, watch
        self.values = {it: zero(it.type) for it in function.variables}
        self.values.update(zip(function.inputs, inputs))
        # an output stands for what the caller has given
        self.outputs = dict(zip(function.outputs, outputs))
        self.evaluator = Evaluator(self.get, watch=watch)

    def get(self, variable, path):
        if variable in self.outputs:
            return self.outputs[variable].get(path)
        return part(self.values[variable], path)

    def put(self, variable, path, value):
        if variable in self.outputs:
            self.outputs[variable].put(path, value)
        else:
            store(self.values, variable, path, value)

    def block(self, statements):
        for it in statements:
            if self.watch:
                self.watch.begins(it)
            try:
                self.do(it)
            except Trap as trap:
                trap.calls.append(it)
                raise

    def do(self, statement):
        """Does one statement of the function."""
        value = self.evaluator.value
        if isinstance(statement, Declare):
            kind = statement.variable.type
            self.values[statement.variable] = value(statement.value, kind) if statement.value else zero(kind)
        elif isinstance(statement, Assign):
            # the value comes before the indices of the place
            got = value(statement.value, type_of_place(statement.place))
            self.put(statement.place.variable, self.evaluator.path(statement.place), got)
        elif isinstance(statement, CallStatement):
            call(self, self.evaluator, statement)
        elif isinstance(statement, If):
            bodies = (body for condition, body in statement.arms if value(condition, "bool"))
            self.block(next(bodies, statement.other))
        elif isinstance(statement, Return):
            raise Returned(value(statement.value, self.function.result) if statement.value else None)
        else:
            self.loop(statement)

    def loop(self, statement):
        """Does a loop."""
        assert isinstance(statement, (While, Until, Repeat))
        turns = 0
        while not isinstance(statement, While) or self.evaluator.value(statement.condition, "bool"):
            turns += 1
            if turns > TURNS:
                raise Trap(f"a loop would begin turn {TURNS + 1:,}")
            self.block(statement.body)
            if isinstance(statement, Until) and self.evaluator.value(statement.condition, "bool"):
                break
