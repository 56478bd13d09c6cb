"""Answers questions about a program: which operations can trap, and whether expressions hold in every tick.

First it is proved what can be, by one step from any state within the invariants. Then rows are sought, shortest first. What is left is asked for
in two steps, and at last it is told in how many ticks nothing happens.
"""
from . import drift, prelude, ranges, wishes
from .chain import Chain, replayed
from .clock import worked
from .invariants import Invariants
from .prelude import operator_of
from .terms import Terms
from .text import Call, Index, Literal, Loop, nodes_of
from .tick import Ticker

# the most seconds for one question to the solver, and for making rows simpler
EACH, SIMPLER = 10, 2
# for a question that is asked again in parts
SHORT = 3


class Question:
    """Whether an operation can trap (`operation`), or whether an expression breaks (`wish`), and what is known of it."""

    def __init__(self, operation=None, wish=None, text=""):
        self.operation, self.wish, self.text = operation, wish, text
        # never, found, safe or unknown, and how it is known
        self.answer, self.steps, self.by_ranges = "unknown", 0, False
        self.safe, self.rows, self.searched, self.why = 0, None, 0, ""

    @property
    def is_open(self):
        return self.answer in ("unknown", "safe")

    @property
    def excluded(self):
        """In how many ticks the solver says that nothing happens."""
        return max(self.searched, 0 if self.by_ranges else self.safe)

    def condition(self, chain):
        """What has to hold of the last tick of a chain, where it is hit."""
        if self.operation is not None:
            return chain.firsts().get(self.operation, chain.terms.FALSE)
        return chain.terms.both(chain.calm(), chain.terms.negation(chain.says(self.wish)))

    def is_hit(self, replay):
        return replay.trap is self.operation if self.operation is not None else replay.breaks(self.wish)


def reach_of(it):
    """The range of an expression that its type tells, and of a literal itself."""
    if isinstance(it, Literal):
        return it.value, it.value
    if isinstance(it, Call) and not it.function:
        operator = operator_of(it.name)
        return operator.low, operator.high
    kind = it.function.result if isinstance(it, Call) else getattr(it, "type", None)
    return (kind.low, kind.high) if kind else (0, 1)


def is_checked(it):
    """Whether an operation traps for some numbers of the types of its operands."""
    if isinstance(it, Loop):
        return True
    if isinstance(it, Index):
        return bool(prelude.index(ranges, reach_of(it.value), it.length)[1][1])
    if not isinstance(it, Call) or it.function or not operator_of(it.name).may_trap:
        return False
    return bool(operator_of(it.name).apply(ranges, [reach_of(one) for one in it.arguments])[1][1])


def checked(program):
    """The operations of the functions of a program that can trap for some numbers, in the order of the text."""
    return [it for function in program.functions.values() for it in nodes_of(function.body) if is_checked(it)]


class Study:
    """A program with its assumptions and its invariants, and what is known."""

    def __init__(self, program, assumptions=(), wished=(), solver=None, within=40, seconds=20):
        self.program, self.assumptions, self.solver = program, [it for _, it in assumptions], solver
        self.within, self.seconds = within, seconds
        self.chains, self.notes, self.confirmed, self.unwinding = {}, [], False, False
        self.invariants = Invariants(program, self.assumed, seconds).find()
        seen = self.invariants.found.seen
        self.traps = [Question(operation=it) for it in checked(program) if it in seen]
        self.wishes = [Question(wish=it, text=text) for text, it in wished]
        for it in self.traps:
            if it.operation not in self.invariants.found.trapping:
                it.answer, it.by_ranges = "never", True

    def assumed(self, walker, way, _):
        """The ways on which a tick begins in which the assumptions hold, as far as ranges can be told of them."""
        ways = [way]
        for it in self.assumptions:
            condition = wishes.condition_of(it, self.program)
            if condition:
                ways = [one for before in ways for one in walker.where(condition, before, 1)]
        return ways

    # ---- chains

    def from_within(self, ticks, reach):
        """Ticks from any state whose cells lie in some ranges."""
        terms = Terms()
        kept = [terms.value(low, self.program.types[at]) if low == high
                else terms.variable(f"0.{self.program.paths[at]}", self.program.types[at], (low, high)) for at, (low, high) in enumerate(reach)]
        chain = Chain(self.program, terms, self.invariants.found.turns, self.assumptions, kept)
        for _ in range(ticks):
            chain.tick()
        return chain

    def from_anywhere(self, ticks):
        """Ticks from any state within the invariants, or from any state at all where those aren't confirmed."""
        key = ticks, "whole"
        if key not in self.chains:
            chain = self.from_within(ticks, self.invariants.hull())
            self.chains[key] = chain, self.within_parts(chain.terms, chain.kept[0])
        return self.chains[key]

    def from_parts(self, ticks):
        """The same by one chain for each part, in which much is known."""
        key = ticks, "parts"
        if key not in self.chains:
            self.chains[key] = [self.from_within(ticks, part) for part in self.invariants.parts.values()]
        return self.chains[key]

    def never(self, ticks, condition):
        """Whether the solver shows that a condition, given for a chain, never holds in the last of so many ticks that begin anywhere."""
        chain, begin = self.from_anywhere(ticks)
        several = len(self.invariants.parts) > 1
        answer = self.solver.ask([begin, *chain.goes, condition(chain)], seconds=SHORT if several else EACH).word
        if answer != "unknown" or not several:
            return answer == "unsat"
        return all(self.solver.ask([*one.goes, condition(one)], seconds=EACH).word == "unsat" for one in self.from_parts(ticks))

    def within_parts(self, terms, cells):
        """Whether cells lie in a part."""
        return terms.any(terms.all(terms.between(it, reach) for it, reach in zip(cells, part)) for part in self.invariants.parts.values())

    def from_start(self):
        """A chain that begins where `bl_init` leaves everything."""
        terms = Terms()
        return Chain(self.program, terms, self.invariants.found.turns, self.assumptions, Ticker(self.program, terms).begin().cells)

    # ---- proofs

    def confirm(self):
        """Asks the solver whether the invariants are kept by each tick, and whether all turns of loops are done."""
        start, self.chains = self.invariants.start, {}
        begins = start is not None and self.invariants.has([it[0] for it in start])
        self.unwinding = not self.never(1, self.goes_on)
        self.confirmed = begins and not self.unwinding and self.never(1, self.leaves)
        if not self.confirmed:
            # (so nothing is taken of cells but their types)
            self.invariants.forget()
            self.chains = {}
            self.unwinding = not self.never(1, self.goes_on)
        return self.confirmed

    def goes_on(self, chain):
        """Whether a loop of the last tick of a chain goes on behind the last turn that was done."""
        return chain.terms.both(chain.assumed(), chain.terms.negation(chain.described()))

    def leaves(self, chain):
        """Whether the run goes on behind the last tick of a chain, outside of all parts."""
        terms = chain.terms
        return terms.all([chain.calm(), terms.negation(chain.last.ended), terms.negation(self.within_parts(terms, chain.last.cells))])

    def prove(self, steps):
        """Asks the solver of each question whether it is hit by the last of so many ticks that begin anywhere."""
        if self.unwinding:
            return
        known = [it for it in self.traps if it.answer == "never" and it.by_ranges]
        if steps == 1 and self.never(1, lambda chain: chain.terms.any(it.condition(chain) for it in known)):
            for it in known:
                it.by_ranges, it.steps = False, 1
        for it in [*self.traps, *self.wishes]:
            if it.is_open and it.excluded >= steps - 1 and self.never(steps, lambda chain: self.held(it, chain, steps)):
                it.answer, it.steps, it.by_ranges = "never", steps, False

    def held(self, question, chain, steps):
        """Whether a question is hit by the last tick of a chain, where an expression held in the tick before."""
        hit = question.condition(chain)
        return chain.terms.both(held_before(question.wish, chain), hit) if question.wish and steps > 1 else hit

    # ---- ticks that are safe

    def bound(self):
        """Tells of what may trap in how many ticks nothing happens, since cells don't move so far."""
        begun = worked()
        chain, _ = self.from_anywhere(1)
        bounds = drift.bounds_of(self.invariants.start, self.invariants.hull(), chain.kept[0], chain.last)
        asked = [it for it in self.traps if it.is_open]
        safe = drift.last_safe(self.invariants, bounds, [it.operation for it in asked], lambda: worked() > begun + self.seconds)
        moving = bounds.moving()
        for it in asked:
            it.safe, it.by_ranges = safe[it.operation], True
            it.why = self.reason(it.operation, moving)
            it.answer = "safe" if it.safe else "unknown"
        if self.solver and self.confirmed and any(it.safe for it in asked):
            self.confirm_bounds(bounds, [it for it in asked if it.safe])

    def reason(self, operation, moving):
        """The cells of an operation that move, and by how much."""
        names = {it.path[-1] for it in nodes_of([operation]) if hasattr(it, "path") and isinstance(it.path[-1], str)}
        return {self.program.paths[at]: by for at, by in moving.items() if shortened(self.program.paths[at]) in {shortened(it) for it in names}}

    def confirm_bounds(self, bounds, asked):
        """Asks the solver whether each tick keeps the bounds, and whether they leave what was told."""
        chain, begin = self.from_anywhere(1)
        terms = chain.terms
        moved = self.distances(terms, bounds)
        kept = self.moved_so_far(terms, chain.kept[0], bounds, moved)
        left = self.moved_so_far(terms, chain.last.cells, bounds, {each: terms.add(it, terms.number(each)) for each, it in moved.items()})
        # (what moves by more in a tick has moved at least as far)
        kept = terms.all([kept, *(terms.at_most(moved[one], moved[more]) for one, more in zip(sorted(moved), sorted(moved)[1:]))])
        goes = [chain.calm(), terms.negation(chain.last.ended), terms.negation(left)]
        if self.solver.ask([begin, kept, *goes], seconds=EACH).word != "unsat":
            return
        for it in asked:
            within = terms.all(terms.between(cell, reach) for cell, reach in zip(chain.kept[0], bounds.at(it.safe - 1)))
            it.by_ranges = self.solver.ask([begin, within, it.condition(chain)], seconds=EACH).word != "unsat"

    def distances(self, terms, bounds):
        """For each number by which cells move in a tick how far that leads so far: any number, so that nothing is multiplied."""
        steps = {each for _, each in [*bounds.high, *bounds.low]} | {0}
        return {each: terms.made("variable", (), (0, each * drift.FOREVER), False, f"moved by {each}") for each in steps}

    def moved_so_far(self, terms, cells, bounds, moved):
        """Whether cells lie where they may after the ticks so far."""
        found = []
        for it, up, down, (low, high) in zip(cells, bounds.high, bounds.low, bounds.hull):
            if it.truth:
                continue
            for (first, each), sign, end in ((up, 1, high), (down, -1, low)):
                if sign * end > first:
                    bound = terms.add(terms.number(first), moved[each])
                    own = it if sign > 0 else terms.subtract(terms.number(0), it)
                    found.append(terms.at_most(own, bound))
        return terms.all(found)

    # ---- rows

    def search(self, confirm):
        """Seeks rows for what is open, tick by tick."""
        until, chain = worked() + self.seconds, self.from_start()
        clip = self.invariants.hull() if self.confirmed else None
        for tick in range(1, self.within + 1):
            asked = [it for it in [*self.traps, *self.wishes] if it.is_open and it.safe < self.within and it.searched == tick - 1]
            if not asked or worked() > until:
                return
            chain.tick(clip)
            for it in asked:
                if it.safe >= tick:
                    it.searched = tick
            self.hit(chain, [it for it in asked if it.safe < tick], until, confirm)

    def hit(self, chain, asked, until, confirm):
        """Seeks rows that hit questions in the last tick of a chain."""
        inputs, tick = [it for row in chain.inputs for it in row], len(chain.inputs)
        while asked:
            conditions = chain.terms.any(it.condition(chain) for it in asked)
            answer = self.solver.ask([*chain.goes, conditions], inputs, min(EACH, until - worked()))
            if answer.word == "unknown" and len(asked) > 1:
                for it in asked:
                    self.hit(chain, [it], until, confirm)
                return
            if answer.word != "sat":
                for it in asked if answer.word == "unsat" else []:
                    it.searched = tick
                return
            rows = [[answer.values[it] for it in row] for row in chain.inputs]
            found = [it for it in asked if it.is_hit(replayed(self.program, self.assumptions, rows))]
            for it in found:
                it.answer, it.rows = "found", self.simpler(it, rows)
                confirm(it)
            if not found:
                raise Disagreement(rows)
            asked = [it for it in asked if it not in found]

    def simpler(self, question, rows):
        """Rows that hit the same question, with numbers nearer to 0."""
        until = worked() + SIMPLER
        rows = [list(row) for row in rows]
        for row in rows:
            for at in range(len(row)):
                self.nearer(question, rows, row, at, until)
                if worked() > until:
                    return rows
        return rows

    def nearer(self, question, rows, row, at, until):
        """Sets a number of rows to one that is nearer to 0 and hits the same question: to 0 or 1, else by halves."""
        misses, hits, sign = 0, abs(row[at]), -1 if row[at] < 0 else 1
        for value in (0, 1):
            if value < hits and self.still_hits(question, rows, row, at, value):
                return
        while hits - misses > 1 and worked() < until:
            middle = (misses + hits) // 2
            if self.still_hits(question, rows, row, at, sign * middle):
                hits = middle
            else:
                misses = middle

    def still_hits(self, question, rows, row, at, value):
        """Whether rows hit a question with another number; else the old one stands again."""
        old, row[at] = row[at], value
        replay = replayed(self.program, self.assumptions, rows)
        if replay.assumed and replay.tick == len(rows) and question.is_hit(replay):
            return True
        row[at] = old
        return False

    def unkeepable(self, ticks=3):
        """The first tick for which no inputs keep the assumptions; 0 where there is none."""
        chain, before = self.from_start(), []
        for tick in range(1, ticks + 1 if self.assumptions else 0):
            chain.tick()
            if self.solver.ask([*chain.goes, *before, chain.assumed()], seconds=EACH).word == "unsat":
                ended = self.solver.ask([*chain.goes, *before], seconds=EACH).word == "unsat"
                return 0 if ended else tick
        return 0

    def work(self, confirm):
        """Answers all questions, as far as that goes."""
        if self.solver:
            self.prepare()
            self.prove(1)
        self.bound()
        if self.solver:
            self.search(confirm)
            self.prove(2)

    def prepare(self):
        """Asks for what proofs rest on, and notes where it isn't so."""
        if not self.confirm():
            self.notes.append("the solver didn't confirm the invariants, so it used none")
        if self.unwinding:
            self.notes.append("a loop may take more turns than were looked at, so nothing was proved by the solver")


class Disagreement(Exception):
    """The solver gave rows that don't hit what they should: a fault of the tool."""

    def __init__(self, rows):
        super().__init__("the solver's rows don't do what it says")
        self.rows = rows


def held_before(wish, chain):
    """Whether an expression held in the tick before the last one."""
    ports = {**chain.program.ports(chain.program.inputs), **chain.program.ports(chain.program.outputs)}
    return wishes.value(wish, chain.terms, lambda name, previous: chain.kept[-3 if previous else -2][ports[name]])


def shortened(path):
    """The name in a path, without what the emitter puts before it."""
    return path.rsplit(".", 1)[-1].split("[")[0].split("_", 1)[-1]
