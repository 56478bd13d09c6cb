"""How far cells can move: after T ticks a cell is at most a + d * T, and at least a - d * T with other numbers.

A tick as a term shows what a cell comes from: from a number, or from a cell to which something was added. So a counter that nobody bounds moves by 1
in a tick, and what would trap at its end doesn't trap before a certain tick.
"""
from . import ranges

# so often bounds are raised before a cell is left at the ends of its range
ROUNDS = 12
# no tick is asked for that has a greater number
FOREVER = 1 << 64


class Moves:
    """What terms come from: for each cell the range of what is added to it, and the range of what comes from no cell."""

    def __init__(self, cells):
        self.cells, self.found = cells, {}

    def of(self, it):
        """The origins of a term: a range for each cell, and under -1 one of its own."""
        waiting = [it]
        while waiting:
            last = waiting[-1]
            missing = [one for one in self.needed(last) if one.number not in self.found]
            if missing:
                waiting.extend(missing)
                continue
            waiting.pop()
            if last.number not in self.found:
                self.found[last.number] = self.one(last)
        return self.found[it.number]

    def needed(self, it):
        if it.operator == "choose":
            return it.operands[1:]
        return it.operands if it.operator in ("add", "subtract", "fit") else ()

    def one(self, it):
        if it.number in self.cells:
            return {self.cells[it.number]: (0, 0)}
        parts = [self.found[one.number] for one in self.needed(it)]
        if it.operator == "choose":
            return {at: hull_of(parts, at) for part in parts for at in part}
        if it.operator == "fit":
            return parts[0]
        if parts and (it.operator == "subtract" or comes_from_none(parts[1])):
            by = it.operands[1].reach
            return moved(parts[0], by if it.operator == "add" else (-by[1], -by[0])) if comes_from_none(parts[1]) else {-1: it.reach}
        if parts and comes_from_none(parts[0]):
            return moved(parts[1], it.operands[0].reach)
        return {-1: it.reach}


def comes_from_none(part):
    return list(part) == [-1]


def moved(part, by):
    return {at: ranges.add(it, by) for at, it in part.items()}


def hull_of(parts, at):
    found = [it[at] for it in parts if at in it]
    return min(it[0] for it in found), max(it[1] for it in found)


class Bounds:
    """For each cell how far it is at most after so many ticks: the numbers a and d upwards, and the same downwards."""

    def __init__(self, start, hull, origins):
        self.hull = hull
        self.high = solved([it[0] for it in start], [it[1] for it in hull], origins, 1)
        self.low = solved([-it[0] for it in start], [-it[0] for it in hull], origins, -1)

    def at(self, ticks):
        """The range of each cell after so many ticks."""
        return [(max(low, -(down[0] + down[1] * ticks)), min(high, up[0] + up[1] * ticks))
                for (low, high), up, down in zip(self.hull, self.high, self.low)]

    def moving(self):
        """The cells that move without another bound than that of their range, each with the most in a tick."""
        return {at: max(up[1], down[1]) for at, (up, down) in enumerate(zip(self.high, self.low)) if up[1] or down[1]}


def solved(start, most, origins, sign):
    """For each cell a and d, such that it is at most a + d * T after T ticks; of numbers times the sign."""
    bounds = [(min(it, end), 0) for it, end in zip(start, most)]
    for turn in range(2 * ROUNDS):
        raised = [raised_bound(at, bounds, part, most, sign) for at, part in enumerate(origins)]
        if turn >= ROUNDS:
            # (what goes on rising is left at the end of its range)
            raised = [new if new == old else (end, 0) for new, old, end in zip(raised, bounds, most)]
        if raised == bounds:
            return bounds
        bounds = raised
    return [(end, 0) for end in most]


def raised_bound(at, bounds, part, most, sign):
    first, each = bounds[at]
    if first >= most[at]:
        return most[at], 0
    ends = {origin: reach[1] if sign > 0 else -reach[0] for origin, reach in part.items()}
    each = max([each, *(bounds[origin][1] for origin in ends if origin not in (at, -1)), ends.get(at, 0)])
    for origin, by in ends.items():
        if origin != at:
            # (what a tick leaves is asked of one tick at least)
            first = max(first, by - each if origin < 0 else bounds[origin][0] + by - each)
    return (first, each) if first < most[at] else (most[at], 0)


def bounds_of(start, hull, kept, outcome):
    """The bounds of the cells of a tick that begins with variables and leaves an outcome."""
    moves = Moves({it.number: at for at, it in enumerate(kept) if it.operator == "variable"})
    return Bounds(start, hull, [moves.of(it) for it in outcome.cells])


def last_safe(invariants, bounds, operations, until):
    """For each operation the greatest T such that it doesn't trap in the first T ticks, as far as ranges say: 0 where there is none."""
    known = {}

    def trapping(ticks):
        if ticks not in known:
            known[ticks] = invariants.trapping_within(bounds.at(ticks - 1))
        return known[ticks]

    found = {}
    for it in operations:
        low, high = 0, FOREVER
        while low + 1 < high and not until():
            middle = min(2 * low + 1, (low + high) // 2)
            low, high = (low, middle) if it in trapping(middle) else (middle, high)
        found[it] = low
    return found
