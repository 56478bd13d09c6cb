"""One tick as terms: what each cell holds behind it, whether the run ends, and under which condition each operation traps.

Both arms of an `if` are done and joined. Calls are done in place, and loops turn by turn; where a loop may go on behind the last turn that is done,
the condition of that is told, and has to be excluded by whoever asks.
"""
from . import prelude
from .prelude import operator_of
from .terms import TooLarge
from .text import Address, Assign, Binary, Break, Call, CallStatement, If, Literal, Loop, Not, Place, Return, Struct, size_of

# so many turns of a loop are done whose end isn't known, and so many elements chosen from
TURNS, ELEMENTS = 300, 1024
MOST_TURNS = 65536


class Outcome:
    """What a tick leaves: the terms of the kept cells, whether the run ends, what traps, and which loops go on behind the last turn done."""

    def __init__(self, cells, ended, traps, unwound):
        self.cells, self.ended, self.traps, self.unwound = cells, ended, traps, unwound


class Ticker:
    """Does functions on terms."""

    def __init__(self, program, terms, turns=None):
        self.program, self.terms, self.turns = program, terms, turns or {}
        self.results = {name: len(program.types) + at for at, name in enumerate(program.functions)}
        self.zero = [terms.value(0, it) for it in program.types]
        self.cells, self.pointers, self.journals, self.guard = [], {}, [{}], terms.TRUE
        self.traps, self.unwound, self.stack = [], [], []
        self.works = {Assign: self.assign, CallStatement: self.call_statement, If: self.choice, Loop: self.loop, Break: self.leave,
                      Return: self.returns}
        self.values = {Literal: lambda it: terms.value(it.value, it.type), Place: self.value_of_place, Not: self.value_of_not,
                       Binary: self.value_of_binary, Call: self.value_of_call}
        self.stays = terms.FALSE, terms.FALSE

    # ---- whole calls

    def begin(self):
        """The kept cells behind `bl_init`."""
        return self.alone("bl_init", self.zero[:self.program.kept.stop])

    def tick(self, kept, inputs):
        """What a tick leaves that begins with the terms of the kept cells and gets those of the inputs."""
        cells = list(kept)
        cells[self.program.inputs.start + 1:self.program.inputs.stop] = inputs
        return self.alone("bl_tick", cells)

    def alone(self, name, kept):
        self.cells = [*kept, *self.zero[len(kept):], *[self.terms.number(0)] * len(self.results)]
        self.traps, self.unwound, self.guard, self.journals = [], [], self.terms.TRUE, [{}]
        function = self.program.functions[name]
        objects = (self.program.state, self.program.inputs, self.program.outputs)
        self.pointers = {it: (part.start, ()) for it, part in zip(function.parameters, objects)}
        result = self.entered(function)
        ended = self.terms.equal(result, self.terms.number(1))
        return Outcome(self.cells[:self.program.kept.stop], ended, self.traps, self.unwound)

    def trap(self, it, condition):
        """Tells that an operation traps under a condition."""
        condition = self.terms.both(self.guard, condition)
        if condition is not self.terms.FALSE:
            self.traps.append((it, condition))

    # ---- statements: each gives whether it leaves its loop, and whether it leaves its function

    def block(self, statements):
        for at, it in enumerate(statements):
            left = self.works[type(it)](it)
            gone = self.terms.either(*left)
            if gone is self.terms.FALSE:
                continue
            if gone is self.terms.TRUE or at + 1 == len(statements):
                return left
            stays = self.terms.negation(gone)
            changed, more = self.tried(stays, statements[at + 1:])
            self.join(stays, changed, {})
            return tuple(self.terms.either(one, self.terms.both(stays, other)) for one, other in zip(left, more))
        return self.stays

    def tried(self, condition, statements):
        """Does statements under a condition, and takes back what they change: the changed cells, and what they leave."""
        guard = self.guard
        self.guard = self.terms.both(guard, condition)
        self.journals.append({})
        left = self.block(statements)
        journal, self.guard = self.journals.pop(), guard
        changed = {at: self.cells[at] for at in journal}
        for at, old in journal.items():
            self.cells[at] = old
        return changed, left

    def join(self, condition, then, other):
        """Sets the cells that were changed under a condition, or under its contrary."""
        for at in {**then, **other}:
            old = self.cells[at]
            self.set(at, self.terms.choose(condition, then.get(at, old), other.get(at, old)))

    def set(self, at, value):
        self.journals[-1].setdefault(at, self.cells[at])
        self.cells[at] = value

    def assign(self, it):
        base, indices = self.resolved(it.place)
        size = size_of(it.place.type)
        if it.value is None:
            values = self.zero[base:base + size]
        elif isinstance(it.place.type, Struct):
            source, more = self.resolved(it.value)
            values = [self.read(source + at, more) for at in range(size)]
        else:
            values = [self.value(it.value)]
        for at, value in enumerate(values):
            for address, condition in self.spread(base + at, indices):
                self.set(address, self.terms.choose(condition, value, self.cells[address]))
        return self.stays

    def choice(self, it):
        condition = self.value(it.condition)
        if condition.known:
            return self.block(it.then if condition.low else it.other)
        then, left = self.tried(condition, it.then)
        other, more = self.tried(self.terms.negation(condition), it.other)
        self.join(condition, then, other)
        return tuple(self.terms.choose(condition, *both) for both in zip(left, more))

    def leave(self, _):
        return self.terms.TRUE, self.terms.FALSE

    def returns(self, it):
        if it.value:
            self.set(self.stack[-1], self.value(it.value))
        return self.terms.FALSE, self.terms.TRUE

    def call_statement(self, it):
        self.value(it.call)
        return self.stays

    def loop(self, it):
        terms, alive, returned, turn = self.terms, self.terms.TRUE, self.terms.FALSE, 0
        while True:
            alive = terms.both(alive, self.under(alive, it.condition))
            if alive is terms.FALSE:
                break
            turn += 1
            if turn > MOST_TURNS:
                self.trap(it, alive)
                break
            if not alive.known and turn > min(TURNS, self.turns.get(it, TURNS)):
                self.unwound.append((it, terms.both(self.guard, alive)))
                break
            changed, (broken, left) = self.tried(alive, it.body)
            self.join(alive, changed, {})
            returned = terms.either(returned, terms.both(alive, left))
            alive = terms.both(alive, terms.negation(terms.either(broken, left)))
        return terms.FALSE, returned

    def under(self, condition, it):
        """The value of an expression that is evaluated under a condition."""
        guard = self.guard
        self.guard = self.terms.both(guard, condition)
        found = self.value(it)
        self.guard = guard
        return found

    # ---- values

    def value(self, it):
        return self.values[type(it)](it)

    def value_of_place(self, it):
        return self.read(*self.resolved(it))

    def value_of_not(self, it):
        return self.terms.negation(self.value(it.operand))

    def value_of_binary(self, it):
        left = self.value(it.left)
        if it.operator == "&&":
            return self.terms.both(left, self.under(left, it.right))
        if it.operator == "||":
            return self.terms.either(left, self.under(self.terms.negation(left), it.right))
        return prelude.compared(self.terms, it.operator, left, self.value(it.right))

    def value_of_call(self, it):
        if not it.function:
            value, trap = operator_of(it.name).apply(self.terms, [self.value(one) for one in it.arguments])
            self.trap(it, trap)
            return value
        for parameter, argument in zip(it.function.parameters, it.arguments):
            if isinstance(argument, Address):
                self.pointers[parameter] = self.resolved(argument.place)
            else:
                self.set(parameter.address, self.value(argument))
        return self.entered(it.function)

    def entered(self, function):
        """Does the body of a function whose parameters are set: its result."""
        for it in function.locals:
            for at in range(it.address, it.address + size_of(it.type)):
                self.set(at, self.zero[at])
        place = self.results[function.name]
        self.set(place, self.terms.value(0, function.result) if function.result else self.terms.number(0))
        self.stack.append(place)
        self.block(function.body)
        self.stack.pop()
        return self.cells[place]

    # ---- places

    def resolved(self, place):
        """Where a place stands: an address, and the indices that aren't one number, each with its stride."""
        if place.variable.pointer:
            base, indices = self.pointers[place.variable]
        else:
            base, indices = place.variable.address, ()
        base += place.offset
        for it in place.indices:
            value, trap = prelude.index(self.terms, self.value(it.value), it.length)
            self.trap(it, trap)
            if value.known:
                base += value.low * it.stride
            else:
                indices = (*indices, (value, it.stride))
        return base, indices

    def spread(self, base, indices):
        """All addresses that a place may mean, each with the condition under which it does."""
        found = [(base, self.terms.TRUE)]
        for value, stride in indices:
            if len(found) * (value.high - value.low) > ELEMENTS:
                raise TooLarge(f"an index over more than {ELEMENTS} elements")
            found = [(one + at * stride, self.terms.both(condition, self.terms.equal(value, self.terms.number(at))))
                     for one, condition in found for at in range(value.low, value.high + 1)]
        return found

    def read(self, base, indices):
        """What a place holds."""
        (first, _), *others = self.spread(base, indices)
        found = self.cells[first]
        for address, condition in others:
            found = self.terms.choose(condition, self.cells[address], found)
        return found
