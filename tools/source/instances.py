"""The instances of activities: their variables, and what is done to them."""
import copy

import tree
from effects import part_of, read_by
from functions import Evaluator, call
from values import part, store, type_of_place, zero


class Instance:
    """An activity that the entry or a `run` has, with its variables now and when the tick began."""

    def __init__(self, unit, caller=None, statement=None, watch=None):
        self.unit, self.caller, self.statement, self.result = unit, caller, statement, None
        self.watch = caller.watch if caller else watch
        self.now = {it: zero(it.type) for it in unit.variables}
        self.before = {it: zero(it.type) for it in unit.variables}
        # the instance of each `run` that has begun
        self.called = {}
        self.evaluator = Evaluator(self.get, lambda variable: self.before[variable], self.watch)

    def home(self, place):
        """Whose variable a part is: an output is a part of a variable of the caller."""
        variable, names = place
        if self.caller and variable in self.unit.outputs:
            outer, front = part_of(self.statement.outputs[self.unit.outputs.index(variable)])
            return self.caller.home((outer, front + names))
        return self, variable, names

    def homes(self, places):
        return [self.home(it) for it in places]

    def get(self, variable, path):
        owner, whole, names = self.home((variable, ()))
        return part(owner.now[whole], [*names, *path])

    def put(self, variable, path, value):
        owner, whole, names = self.home((variable, ()))
        store(owner.now, whole, [*names, *path], value)

    def begins(self, start):
        """Tells who watches of the step at a place that now begins."""
        if self.watch:
            self.watch.step(self, start)

    def wrote(self, value):
        """Tells who watches which value a step gave to a variable."""
        if self.watch:
            self.watch.wrote(value)

    def tests(self, start, condition):
        """Does the step that tests a condition."""
        self.begins(start)
        found = self.evaluator.value(condition, "bool")
        if self.watch:
            self.watch.tested(found)
        return found

    def read_by(self, expression):
        return self.homes(read_by(expression))

    def callee(self, statement):
        """The instance of a `run`, which keeps its variables where the `run` begins again."""
        if statement not in self.called:
            self.called[statement] = Instance(statement.activity, self, statement)
        return self.called[statement]

    def copy_inputs(self, statement):
        """Sets the inputs of what is run."""
        inputs = self.evaluator.inputs(statement.inputs, statement.activity)
        self.callee(statement).now.update(zip(statement.activity.inputs, inputs))

    def begin_tick(self):
        """Keeps what the variables are now, for `prev`."""
        self.before = {variable: copy.deepcopy(value) for variable, value in self.now.items()}
        for it in self.called.values():
            it.begin_tick()

    def act(self, statement):
        """Does a statement that ends at once and has no statements in it."""
        if isinstance(statement, tree.Declare):
            kind = statement.variable.type
            value = self.evaluator.value(statement.value, kind) if statement.value else zero(kind)
            self.now[statement.variable] = value
            self.wrote(value)
            # a declaration sets what `prev` gives, too
            self.before[statement.variable] = copy.deepcopy(value)
        elif isinstance(statement, tree.Assign):
            value = self.evaluator.value(statement.value, type_of_place(statement.place))
            self.put(statement.place.variable, self.evaluator.path(statement.place), value)
            self.wrote(value)
        elif isinstance(statement, tree.CallStatement):
            call(self, self.evaluator, statement)
        elif statement.value:
            self.result = self.evaluator.value(statement.value, self.unit.result)
