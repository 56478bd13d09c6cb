"""Ranges of all cells between ticks that no tick leaves, kept apart by where activities rest and by bools.

A *part* is a range for each cell that stays from tick to tick. Each state between ticks lies in one of the parts, for any inputs. That is shown by
going through a tick from each of them; the solver is asked for the same (search.py).
"""
import re

from . import ranges
from .clock import worked
from .paths import Findings, TooLong, Walker, Way, joined
from .text import Address

# by what parts are kept apart, and how many there may be: bools and counters, counters, those of the entry, nothing
LEVELS = (("bools", 64), ("counters", 300), ("entry", 300), ("none", 1))
# so often a part grows before it is widened
PATIENCE = 3


class TooMany(Exception):
    """There are too many parts."""


class Outsider(Walker):
    """Goes through the function of one activity alone: what it runs does anything."""

    def __init__(self, walker):
        super().__init__(walker.program)
        self.pointers, self.entering = dict(walker.pointers), set()
        self.top = None

    def called(self, call, way):
        if call.function is self.top or not self.runs(call):
            return super().called(call, way)
        for it in call.arguments:
            self.let_go(it, way)
        return [(way, (0, 1))]

    def runs(self, call):
        """Whether a call passes an activity."""
        first = call.function.parameters[:1]
        return bool(first) and first[0].pointer and first[0].type.name.startswith("f_")

    def let_go(self, argument, way):
        """Tells what a call may do at one of its arguments."""
        if not isinstance(argument, Address):
            return
        base, indices = self.resolved(argument.place, way)
        kind, size = argument.place.type, getattr(argument.place.type, "size", 1)
        if getattr(kind, "name", "").startswith("f_") and any(it != (0, 0) for it in way.cells[base:base + size]):
            self.entering.add(base)
        self.written(way, base, indices, self.full[base:base + size])

    def entered_from(self, function, pointers, counters):
        """The frames with which activities are gone on, where the counters of one activity have such ranges."""
        self.pointers.update(pointers)
        self.top, self.entering = function, set()
        way = Way(self.full.copy(), 0)
        for at, value in counters.items():
            way.cells[at] = value
        self.entered(function, way)
        return frozenset(self.entering)


class Invariants:
    """Finds the parts of a program."""

    def __init__(self, program, assumed=None, seconds=20):
        self.program, self.walker, self.assumed = program, Walker(program), assumed
        self.until, self.level = worked() + seconds, LEVELS[0][0]
        self.outsider, self.going, self.parts = Outsider(self.walker), {}, {}
        self.owners = self.cells_by_instance()
        self.start = self.begun()

    def cells_by_instance(self):
        """The counters and the bools of each instance, by its path from the entry."""
        found = {}
        for at in self.walker.counters + self.walker.bools:
            path = self.program.paths[at]
            if path[0] == "s":
                instance = tuple(it for it in path.split(".")[2:-1] if re.match(r"x\d", it))
                found.setdefault(instance, ([], []))[at not in self.walker.counters].append(at)
        return found

    def begun(self):
        """The part of the state in which `bl_init` leaves everything."""
        way = Way([(0, 0)] * len(self.program.types), 0)
        ends = self.walker.entered_alone("bl_init", way)
        return ends[0].cells[:self.program.kept.stop] if ends else None

    # ---- what keeps parts apart

    def running(self, cells, instance=()):
        """The instances that may be gone on in the next tick."""
        yield instance
        counters = {at: cells[at] for at in self.owners.get(instance, ([], []))[0]}
        children = {it for it in self.owners if len(it) == len(instance) + 1 and it[:len(instance)] == instance}
        if not children:
            return
        key = instance, tuple(counters.values())
        if key not in self.going:
            self.going[key] = self.entered(instance, counters)
        for it in sorted(children):
            if self.going[key] is None or self.frame(it) in self.going[key]:
                yield from self.running(cells, it)

    def frame(self, instance):
        """Where an instance rests: the address of its first cell."""
        front = "s.f" + "".join(f".{it}" for it in instance) + "."
        return next((at for at in self.program.state if self.program.paths[at].startswith(front)), None)

    def entered(self, instance, counters):
        """The frames that an instance goes on with; nothing where that isn't known."""
        bound = self.walker.bound.get(self.frame(instance))
        if bound is None:
            return None
        return self.outsider.entered_from(*bound, counters)

    def key(self, cells):
        """What keeps a part apart from others."""
        if self.level in ("none", "types"):
            return ()
        instances = [()] if self.level == "entry" else self.running(cells)
        kinds = 2 if self.level == "bools" else 1
        found = [at for it in instances for part in self.owners.get(it, ([], []))[:kinds] for at in part]
        if self.level == "bools":
            found += [at for at in self.walker.bools if at >= self.program.outputs.start]
        return tuple((at, cells[at]) for at in found)

    # ---- ticks

    def ticked(self, cells):
        """The ranges of the kept cells behind a tick, on each way on which the run goes on."""
        way = Way(cells + self.walker.full[len(cells):], 0)
        for at in self.program.inputs[1:]:
            way.cells[at] = self.walker.full[at]
        ways = self.assumed(self.walker, way, cells) if self.assumed else [way]
        ends = [it for one in ways for it in self.walker.entered_alone("bl_tick", one)]
        self.walker.found.cost = max([self.walker.found.cost, *(it.cost for it in ends)])
        return [it.cells[:len(cells)] for it in ends if it.result != (1, 1)]

    def find(self):
        """Finds the parts at the first level that can be held; else the one part that types tell."""
        begun = worked()
        for number, (level, most) in enumerate(LEVELS):
            self.level, self.parts, self.walker.found = level, {}, Findings()
            self.walker.until = begun + (self.until - begun) * (number + 1) / len(LEVELS)
            try:
                if self.start is not None:
                    self.grow(most)
                # (what was found can't get lost any more)
                self.walker.until = float("inf")
                self.narrow()
                return self
            except (TooLong, TooMany):
                continue
        self.level, self.parts, self.walker.until = "types", {(): self.walker.full[:self.program.kept.stop]}, self.until + 20
        self.again()
        self.walker.until = float("inf")
        return self

    def grow(self, most):
        """Lets parts grow until no tick leaves them."""
        grown, waiting = {}, []
        self.take(self.start, grown, waiting)
        while waiting:
            for cells in self.ticked(self.parts[waiting.pop()]):
                self.take(cells, grown, waiting)
            if len(self.parts) > most:
                raise TooMany

    def take(self, cells, grown, waiting):
        """Adds ranges to the part to which they belong."""
        key = self.key(cells)
        old = self.parts.get(key)
        if old is None:
            self.parts[key] = cells
        else:
            new = self.joined(old, cells)
            if new == old:
                return
            grown[key] = grown.get(key, 0) + 1
            if grown[key] > PATIENCE:
                new = [self.walker.wider(*it) for it in zip(old, new, self.walker.full)]
            self.parts[key] = new
        if key not in waiting:
            waiting.append(key)

    def joined(self, one, other):
        return joined(Way(one, 0), Way(other, 0)).cells

    def narrow(self):
        """Makes parts smaller where that loses nothing, then goes through a tick from each of them for what is told of operations."""
        for _ in range(2):
            smaller = self.again()
            if smaller == self.parts:
                return
            wide, self.parts = self.parts, smaller
            if not self.holds(self.again()):
                self.parts = wide
                self.again()
                return

    def again(self):
        """The parts that a tick from the present ones leads to."""
        self.walker.found = Findings()
        found = {}
        for cells in [self.start] if self.start is not None else []:
            found[self.key(cells)] = cells
        for part in list(self.parts.values()):
            for cells in self.ticked(part):
                key = self.key(cells)
                found[key] = self.joined(found[key], cells) if key in found else cells
        return found

    def holds(self, found):
        """Whether ranges lie within the parts."""
        return all(key in self.parts and all(map(ranges.within, cells, self.parts[key])) for key, cells in found.items())

    @property
    def found(self):
        """What was seen in ticks from all parts."""
        return self.walker.found

    def trapping_within(self, reach):
        """The operations that may trap in a tick that begins in a part, with its cells in such ranges."""
        before, self.walker.found = self.walker.found, Findings()
        for part in self.parts.values():
            cells = [ranges.meet(*it) for it in zip(part, reach)]
            if all(cells):
                self.ticked(cells)
        found, self.walker.found = self.walker.found.trapping, before
        return found

    def forget(self):
        """Leaves one part, which types tell, where the parts can't be relied on. What was seen of operations stays."""
        self.level, self.parts = "types", {(): [(it.low, it.high) for it in self.program.types[:self.program.kept.stop]]}

    def hull(self):
        """The range of each kept cell over all parts."""
        parts = list(self.parts.values())
        found = parts[0]
        for it in parts[1:]:
            found = self.joined(found, it)
        return found

    def has(self, cells):
        """Whether a state lies in a part."""
        return any(all(low <= it <= high for it, (low, high) in zip(cells, part)) for part in self.parts.values())
