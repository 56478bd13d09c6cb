"""Ticks one behind another, as terms or with numbers."""
from . import wishes
from .terms import Terms
from .tick import Ticker


class Chain:
    """Ticks that begin with some kept cells, each with inputs of its own."""

    def __init__(self, program, terms, turns, assumed, kept):
        self.program, self.terms, self.assumptions = program, terms, assumed
        self.ticker = Ticker(program, terms, turns)
        self.kept, self.inputs, self.outcomes, self.goes = [kept], [], [], []
        self.known_firsts = None, {}

    def tick(self, clip=None):
        """One more tick. Between ticks each cell may be clipped to a range in which it is known to lie."""
        number = len(self.inputs) + 1
        self.put([self.terms.variable(f"{number}.{self.program.paths[at]}", self.program.types[at]) for at in self.program.inputs[1:]], clip)

    def put(self, inputs, clip=None):
        """One more tick with some inputs."""
        if self.outcomes:
            self.goes.append(self.terms.both(self.calm(), self.terms.negation(self.last.ended)))
        self.inputs.append(inputs)
        self.outcomes.append(self.ticker.tick(self.kept[-1], inputs))
        cells = self.last.cells
        if clip:
            cells = [it if it.truth else self.terms.fit(it, *reach) for it, reach in zip(cells, clip)]
        self.kept.append(cells)

    @property
    def last(self):
        return self.outcomes[-1]

    def port(self, name, previous):
        """An input or output at the end of the last tick, or at the end of the one before."""
        ports = {**self.program.ports(self.program.inputs), **self.program.ports(self.program.outputs)}
        return self.kept[-2][ports[name]] if previous else self.last.cells[ports[name]]

    def says(self, wish):
        """Whether an expression holds in the last tick."""
        return wishes.value(wish, self.terms, self.port)

    def assumed(self):
        """Whether the assumptions hold in the last tick."""
        return self.terms.all(self.says(it) for it in self.assumptions)

    def described(self):
        """Whether no loop of the last tick goes on behind the last turn that was done."""
        return self.terms.negation(self.terms.any(condition for _, condition in self.last.unwound))

    def calm(self):
        """Whether the last tick is one of those that are looked at, and doesn't trap."""
        traps = self.terms.any(condition for _, condition in self.last.traps)
        return self.terms.all([self.assumed(), self.described(), self.terms.negation(traps)])

    def firsts(self):
        """For each operation of the last tick the condition that it is the first that traps in it."""
        if self.known_firsts[0] is not self.last:
            self.known_firsts = self.last, self.first_ones()
        return self.known_firsts[1]

    def first_ones(self):
        found, before = {}, self.terms.FALSE
        for it, condition in self.last.traps:
            first = self.terms.both(condition, self.terms.negation(before))
            found[it] = self.terms.either(found.get(it, self.terms.FALSE), first)
            before = self.terms.either(before, condition)
        looked = self.terms.both(self.assumed(), self.described())
        return {it: self.terms.both(looked, condition) for it, condition in found.items()}


class Replay:
    """What came of rows: the number of the last tick, what trapped in it, and whether assumptions held so far."""

    def __init__(self, chain, trap, assumed):
        self.chain, self.tick, self.trap, self.assumed = chain, len(chain.outcomes), trap, assumed

    def breaks(self, wish):
        """Whether the last tick doesn't trap, and an expression doesn't hold in it."""
        return self.trap is None and self.chain.says(wish) is self.chain.terms.FALSE


def replayed(program, assumed, rows):
    """Does ticks with numbers, up to one that traps or ends the run."""
    terms = Terms()
    chain = Chain(program, terms, None, assumed, Ticker(program, terms).begin().cells)
    kept = True
    for row in rows:
        chain.put([terms.value(value, program.types[at]) for value, at in zip(row, program.inputs[1:])])
        trap = chain.last.traps[0][0] if chain.last.traps else None
        kept = kept and chain.assumed() is terms.TRUE
        if trap or chain.last.ended is terms.TRUE:
            return Replay(chain, trap, kept)
    return Replay(chain, None, kept)
