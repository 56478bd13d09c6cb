"""Goes through a tick with ranges in place of numbers, along ways that flags, counters and bools keep apart.

What comes out holds for every tick that begins within the ranges: which operations may trap, how many turns loops take, how many
statements are executed, and which ranges the cells have at the end.
"""
import re

from . import prelude, ranges
from .clock import worked
from .live import Liveness
from .prelude import operator_of
from .text import Address, Assign, Binary, Break, Call, CallStatement, If, Literal, Loop, Not, Place, Return, Struct, nodes_of, size_of

# so many ways are followed apart at once, and so many where all is kept apart
WAYS, RICH = 64, 24
# so many turns of a loop are followed one by one, and so many ways times turns
TURNS, WORK = 70000, 6000
# a loop of a function that begins a turn more traps
MOST_TURNS = 65536
COUNTER = re.compile(r"s\.f(\.x\w+)*\.c\d+")


class TooLong(Exception):
    """There is no time left for ranges."""


class Dead(Exception):
    """No tick goes on here: what was executed traps for all numbers."""


class Way:
    """A way through a tick: the range of each cell, and how many statements were executed at most."""

    __slots__ = ("cells", "cost", "result")

    def __init__(self, cells, cost):
        self.cells, self.cost, self.result = cells, cost, (0, 0)

    def copy(self):
        return Way(self.cells.copy(), self.cost)


def joined(one, other):
    """The way whose ranges have those of both."""
    cells = [left if left is right or left == right else ranges.hull(left, right) for left, right in zip(one.cells, other.cells)]
    return Way(cells, max(one.cost, other.cost))


class Findings:
    """What was seen on all ways: operations that may trap, turns of loops, and statements of ticks."""

    def __init__(self):
        self.seen, self.trapping, self.turns, self.cost = set(), set(), {}, 0

    def operation(self, it, trap):
        """An operation was executed: what its trap condition comes to."""
        self.seen.add(it)
        if trap[1]:
            self.trapping.add(it)
            if trap[0]:
                raise Dead


class Walker:
    """Goes through functions of a program."""

    def __init__(self, program):
        self.program, self.found, self.work = program, Findings(), 0
        self.full = [(it.low, it.high) for it in program.types]
        self.pointers, self.bound, self.lives = {}, {}, {}
        self.stack, self.returned, self.broken = [], [], []
        self.limits = self.thresholds()
        # (elements of arrays are too many)
        kept = [at for at in program.kept if program.types[at].name == "bool" and "[" not in program.paths[at]]
        self.counters = [at for at in program.state if COUNTER.fullmatch(program.paths[at])]
        self.bools = [at for at in kept if at not in program.inputs]
        # how ways are kept apart, each coarser than the one before, and how many ways there may be
        self.levels = [(self.counters + kept, RICH), (self.counters + self.bools, WAYS), (self.counters, WAYS)]
        self.apart, self.until = set(kept), float("inf")
        self.works = {Assign: self.assign, CallStatement: self.call_statement, If: self.choice, Loop: self.loop, Break: self.leave,
                      Return: self.returns}
        self.values = {Literal: lambda it, way: (it.value, it.value), Place: self.value_of_place, Not: self.value_of_not,
                       Binary: self.value_of_binary, Call: self.value_of_call}

    def thresholds(self):
        """The numbers at which ranges stop when they grow: those of the text, their neighbours, and the ends of types."""
        found = {end + more for it in self.program.types for end, more in ((it.low, 0), (it.high, 0))}
        for function in self.program.functions.values():
            for it in nodes_of(function.body):
                if isinstance(it, Literal):
                    found |= {it.value - 1, it.value, it.value + 1}
        return sorted(found)

    # ---- statements

    def block(self, statements, ways):
        """The ways behind statements."""
        for it in statements:
            ways = self.step(it, ways)
        return ways

    def step(self, it, ways):
        """The ways behind one statement."""
        work, found = self.works[type(it)], []
        self.stack[-1].behind = self.live.behind[id(it)]
        for way in ways:
            way.cost += 1
            self.work += 1
            if not self.work & 511 and worked() > self.until:
                raise TooLong
            try:
                found += work(it, way)
            except Dead:
                self.found.cost = max(self.found.cost, way.cost)
        return self.merged(found, self.live.behind[id(it)])

    @property
    def live(self):
        """What is read in the function that is gone through."""
        return self.stack[-1].live

    def merged(self, ways, live):
        """Joins the ways that nothing keeps apart, of which so many locals are read later."""
        if len(ways) < 2:
            return ways
        held = list(live.union(*(it.behind for it in self.stack[:-1])))
        for level, most in self.levels:
            ways = joined_by(ways, level + held)
            if len(ways) <= most:
                return ways
        ways = joined_by(ways, self.counters)
        return ways if len(ways) <= WAYS else joined_by(ways, self.counters[:1])

    def assign(self, it, way):
        base, indices = self.resolved(it.place, way)
        size = size_of(it.place.type)
        if it.value is None:
            return [self.written(way, base, indices, [(0, 0)] * size)]
        if isinstance(it.place.type, Struct):
            source, more = self.resolved(it.value, way)
            return [self.written(way, base, indices, self.part(way, source, more, size))]
        value = self.value(it.value, way)
        if it.place.type.name == "bool" and value == ranges.EITHER and not indices and self.keeps_apart(it, base):
            return [self.written(one, base, indices, [(truth, truth)]) for truth in (1, 0) for one in self.where(it.value, way.copy(), truth)]
        return [self.written(way, base, indices, [value])]

    def keeps_apart(self, it, address):
        """Whether a bool keeps ways apart behind a statement."""
        return address in self.apart or address in self.live.behind[id(it)]

    def written(self, way, base, indices, values):
        """The way behind an assignment: of several places that it may mean each may stay as it is."""
        places = list(spread(base, indices))
        for at, value in enumerate(values):
            for place in places:
                old = way.cells[place + at]
                way.cells[place + at] = value if len(places) == 1 else ranges.hull(old, value)
        return way

    def part(self, way, base, indices, size):
        """The ranges of the cells of a part of memory."""
        places = list(spread(base, indices))
        found = way.cells[places[0]:places[0] + size]
        for place in places[1:]:
            found = [ranges.hull(one, other) for one, other in zip(found, way.cells[place:place + size])]
        return found

    def choice(self, it, way):
        value = self.value(it.condition, way)
        then = self.where(it.condition, way.copy() if value == ranges.EITHER else way, 1) if value[1] else []
        other = self.where(it.condition, way, 0) if not value[0] else []
        return (self.block(it.then, then) if then else []) + (self.block(it.other, other) if other else [])

    def leave(self, _, way):
        self.broken[-1].append(way)
        return []

    def returns(self, it, way):
        value = self.value(it.value, way) if it.value else None
        self.returned[-1].append((way, value))
        return []

    def call_statement(self, it, way):
        if it.call.function:
            return [one for one, _ in self.called(it.call, way)]
        self.value(it.call, way)
        return [way]

    # ---- loops

    def loop(self, it, way):
        """The ways behind a loop: its turns are followed one by one, as long as that isn't too much."""
        ways, out, turns, begun = [way], [], 0, self.work
        self.broken.append([])
        while ways:
            ways, ended = self.tested(it, ways)
            out += ended
            if not ways:
                break
            turns += 1
            if turns > MOST_TURNS:
                self.over(it, ways)
                break
            if turns > TURNS or self.work - begun > WORK * (1 + len(it.body)):
                turns = MOST_TURNS
                out += self.widened(it, ways)
                break
            ways = self.turn(it, ways)
        self.found.seen.add(it)
        self.found.turns[it] = max(turns, self.found.turns.get(it, 0))
        return self.merged(out + self.broken.pop(), self.live.behind[id(it)])

    def over(self, it, ways):
        """A turn more than may be begins."""
        self.found.trapping.add(it)
        self.found.cost = max([self.found.cost, *(way.cost + 1 for way in ways)])

    def tested(self, it, ways):
        """The ways on which one more turn begins, and those on which none does."""
        more, ended = [], []
        for way in ways:
            try:
                value = self.value(it.condition, way)
            except Dead:
                self.found.cost = max(self.found.cost, way.cost)
                continue
            if not value[0]:
                ended += self.where(it.condition, way.copy(), 0)
            if value[1]:
                more += self.where(it.condition, way, 1)
        return more, ended

    def turn(self, it, ways):
        for way in ways:
            way.cost += 1
        return self.merged(self.block(it.body, ways), self.live.heads[id(it)])

    def widened(self, it, ways):
        """The ways behind a loop whose turns are too many to be followed: its ranges grow until a turn leaves them as they are."""
        self.found.trapping.add(it)
        head, start, dearest = all_joined(ways), max(way.cost for way in ways), 0
        while True:
            begun = head.copy()
            begun.cost = 0
            more, _ = self.tested(it, [begun])
            after = self.turn(it, more)
            dearest = max([dearest, *(way.cost for way in after)])
            grown = self.grown(head, after)
            if grown is None:
                break
            head = grown
        head.cost = start + MOST_TURNS * max(1, dearest) + 1
        for way in self.broken[-1]:
            way.cost = max(way.cost, head.cost)
        _, ended = self.tested(it, [head])
        return ended

    def grown(self, head, ways):
        """A way with more than its ranges and those of others; nothing where it has them already."""
        if not ways:
            return None
        wider = joined(head, all_joined(ways))
        if wider.cells == head.cells:
            return None
        return Way([self.wider(old, new, full) for old, new, full in zip(head.cells, wider.cells, self.full)], head.cost)

    def wider(self, old, new, full):
        """A range that has a new one, and stops at a number of the text or the end of its type."""
        low = old[0] if new[0] >= old[0] else max((it for it in self.limits if it <= new[0]), default=full[0])
        high = old[1] if new[1] <= old[1] else min((it for it in self.limits if it >= new[1]), default=full[1])
        return max(low, full[0]), min(high, full[1])

    # ---- calls

    def called(self, call, way):
        """The ways behind a call of a function of the text, each with the range of its result."""
        function = call.function
        # (no function calls itself, so its pointers stand until it is called again)
        self.pointers.update(self.arguments(call, way))
        first = next((it for it in function.parameters if it.pointer), None)
        if first and first.type.name.startswith("f_"):
            own = {it: self.pointers[it] for it in function.parameters if it.pointer}
            self.bound.setdefault(self.pointers[first][0], (function, own))
        return self.entered(function, way)

    def arguments(self, call, way):
        """Sets the parameters of a call: what its pointers point to."""
        found = {}
        for parameter, argument in zip(call.function.parameters, call.arguments):
            if isinstance(argument, Address):
                found[parameter] = self.resolved(argument.place, way)
            else:
                way.cells[parameter.address] = self.value(argument, way)
        return found

    def entered(self, function, way):
        """The ways behind the body of a function whose parameters are set."""
        if function.name not in self.lives:
            self.lives[function.name] = Liveness(function)
        for it in function.locals:
            way.cells[it.address:it.address + size_of(it.type)] = [(0, 0)] * size_of(it.type)
        self.stack.append(Frame(self.lives[function.name]))
        self.returned.append([])
        ways = self.block(function.body, [way])
        out = [(it, None) for it in ways] + self.returned.pop()
        self.stack.pop()
        for it, _ in out:
            it.cells[function.first:function.last] = [(0, 0)] * (function.last - function.first)
        return out

    def entered_alone(self, name, way):
        """The ways behind one of the two functions of the interface."""
        function = self.program.functions[name]
        objects = (self.program.state, self.program.inputs, self.program.outputs)
        self.pointers.update({it: (part.start, ()) for it, part in zip(function.parameters, objects)})
        found = []
        for one, result in self.entered(function, way):
            one.result = result
            found.append(one)
        return found

    # ---- values

    def value(self, it, way):
        """The range of an expression. Where it traps for all numbers, `Dead` is raised."""
        return self.values[type(it)](it, way)

    def value_of_place(self, it, way):
        base, indices = self.resolved(it, way)
        return way.cells[base] if not indices else self.part(way, base, indices, 1)[0]

    def value_of_not(self, it, way):
        return ranges.negation(self.value(it.operand, way))

    def value_of_binary(self, it, way):
        left = self.value(it.left, way)
        if it.operator not in ("&&", "||"):
            return prelude.compared(ranges, it.operator, left, self.value(it.right, way))
        decisive = int(it.operator == "||")
        if left == (decisive, decisive):
            return left
        # (the right side is evaluated only where the left one doesn't decide)
        found = [self.tried(it.right, one) for one in self.where(it.left, way.copy(), 1 - decisive)] if left == ranges.EITHER \
            else [self.value(it.right, way)]
        right = [one for one in found if one]
        if not right:
            return decisive, decisive
        both = min(one[0] for one in right), max(one[1] for one in right)
        return ranges.either(left, both) if decisive else ranges.both(left, both)

    def tried(self, it, way):
        """The range of an expression; nothing where it traps for all numbers."""
        try:
            return self.value(it, way)
        except Dead:
            return None

    def value_of_call(self, it, way):
        if it.function:
            return self.result(it, way)
        operator = operator_of(it.name)
        value, trap = operator.apply(ranges, [self.value(one, way) for one in it.arguments])
        if operator.may_trap:
            self.found.operation(it, trap)
        return value

    def result(self, it, way):
        """The range of what a function returns, and what its call costs."""
        ends = self.called(it, way.copy())
        found = [value for _, value in ends if value]
        if not ends:
            raise Dead
        way.cost = max(one.cost for one, _ in ends)
        return (min(one[0] for one in found), max(one[1] for one in found)) if found else (0, 0)

    def resolved(self, place, way):
        """Where a place stands: an address, and the indices that aren't one number, each with its stride."""
        if place.variable.pointer:
            base, indices = self.pointers[place.variable]
        else:
            base, indices = place.variable.address, ()
        base += place.offset
        for it in place.indices:
            value, trap = prelude.index(ranges, self.value(it.value, way), it.length)
            self.found.operation(it, trap)
            if value[0] == value[1]:
                base += value[0] * it.stride
            else:
                indices = (*indices, (value, it.stride))
        return base, indices

    # ---- what a condition says

    def where(self, it, way, truth):
        """The ways on which a condition has a truth value: a way may come to none, or to several."""
        if isinstance(it, Not):
            return self.where(it.operand, way, 1 - truth)
        if isinstance(it, Binary) and it.operator in ("&&", "||"):
            return self.where_joined(it, way, truth)
        if isinstance(it, Binary):
            return self.where_compared(it, way, truth)
        if isinstance(it, Literal):
            return [way] if it.value == truth else []
        return [way] if isinstance(it, Call) or self.narrow(it, way, (truth, truth)) else []

    def where_joined(self, it, way, truth):
        if truth == int(it.operator == "&&"):
            return [two for one in self.where(it.left, way, truth) for two in self.where(it.right, one, truth)]
        first = self.where(it.left, way.copy(), truth)
        return first + [two for one in self.where(it.left, way, 1 - truth) for two in self.where(it.right, one, truth)]

    def where_compared(self, it, way, truth):
        try:
            left, right = self.quiet(it.left, way), self.quiet(it.right, way)
        except Dead:
            return []
        operator = it.operator if truth else OPPOSITE[it.operator]
        if not prelude.compared(ranges, operator, left, right)[1]:
            return []
        for side, own, other, sign in ((it.left, left, right, operator), (it.right, right, left, MIRRORED[operator])):
            kept = told(sign, own, other)
            if kept is None or not self.narrow(side, way, kept):
                return []
        return [way]

    def quiet(self, it, way):
        """The range of what was evaluated before, so that nothing of it is told again."""
        found, self.found = self.found, Findings()
        cost = way.cost
        try:
            return self.value(it, way)
        finally:
            self.found, way.cost = found, cost

    def narrow(self, it, way, kept):
        """Tells a way that an expression lies in a range: whether that may be."""
        if isinstance(it, Place):
            base, indices = (self.resolved_quietly(it, way))
            if indices:
                return True
            found = ranges.meet(way.cells[base], kept)
            if found:
                way.cells[base] = found
            return found is not None
        if isinstance(it, Call) and not it.function:
            return self.narrow_call(it, way, kept)
        return True

    def resolved_quietly(self, it, way):
        found, self.found = self.found, Findings()
        try:
            return self.resolved(it, way)
        finally:
            self.found = found

    def narrow_call(self, it, way, kept):
        """Tells a way that a cast, or a sum with a number, lies in a range."""
        operator = operator_of(it.name)
        if operator.operator in ("of_s", "of_u"):
            return self.narrow(it.arguments[0], way, kept)
        if operator.operator not in ("add", "sub") or operator.kind == "b":
            return True
        left, right = (self.quiet(one, way) for one in it.arguments)
        back, forth = (ranges.subtract, ranges.subtract) if operator.operator == "add" else (ranges.add, lambda total, one: ranges.subtract(one, total))
        return self.narrow(it.arguments[0], way, back(kept, right)) and self.narrow(it.arguments[1], way, forth(kept, left))


class Frame:
    """A call that goes on: what is read later of each of its statements, and of the one that is executed."""

    def __init__(self, live):
        self.live, self.behind = live, frozenset()


OPPOSITE = {"==": "!=", "!=": "==", "<": ">=", ">=": "<", ">": "<=", "<=": ">"}
MIRRORED = {"==": "==", "!=": "!=", "<": ">", ">": "<", "<=": ">=", ">=": "<="}


def told(operator, own, other):
    """What a comparison with another range leaves of a range; nothing where that is empty."""
    if operator == "==":
        return ranges.meet(own, other)
    if operator == "!=":
        return unequal(own, other)
    if operator in ("<", "<="):
        return ranges.meet(own, (own[0], max(own[0] - 1, other[1] - (operator == "<")))) if own[0] <= other[1] - (operator == "<") else None
    return ranges.meet(own, (other[0] + (operator == ">"), own[1])) if own[1] >= other[0] + (operator == ">") else None


def unequal(own, other):
    """What is left of a range beside a number."""
    if other[0] != other[1]:
        return own
    low, high = own[0] + (own[0] == other[0]), own[1] - (own[1] == other[0])
    return (low, high) if low <= high else None


def spread(base, indices):
    """All addresses that a place may mean."""
    found = [base]
    for (low, high), stride in indices:
        found = [one + at * stride for one in found for at in range(low, high + 1)]
    return found


def all_joined(ways):
    """The way whose ranges have those of all."""
    found = ways[0]
    for it in ways[1:]:
        found = joined(found, it)
    return found


def joined_by(ways, addresses):
    """Ways of which those are joined that have the same ranges at some addresses."""
    found = {}
    for it in ways:
        key = tuple([it.cells[at] for at in addresses])
        found[key] = joined(found[key], it) if key in found else it
    return list(found.values())
