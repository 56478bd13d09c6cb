"""A run of a source by the interpreter in tools/source, which shows what stands between the ends of two ticks.

It takes the steps that seed 0 of `walk` takes. So whoever uses it compares its trace and its steps with those of the program, and says so where
they differ.
"""
import collections

import shared
from meaning import Machine, Stuck
from values import Trap

# a step: the place, the instance that takes it, and the outcome of a test, or the value that an assignment gave
Step = collections.namedtuple("Step", "start instance outcome")


class Watch:
    """Keeps the steps of a tick, and counts what acts and how conditions come out."""

    def __init__(self):
        self.steps, self.acts, self.sides, self.latest = [], collections.Counter(), collections.Counter(), {}

    def begin_tick(self):
        self.steps = []

    def step(self, instance, start):
        self.steps.append(Step(start, instance, None))

    def tested(self, outcome):
        self.steps[-1] = self.steps[-1]._replace(outcome=outcome)

    def wrote(self, value):
        if not isinstance(value, (dict, list)):
            self.steps[-1] = self.steps[-1]._replace(outcome=value)

    def begins(self, statement):
        """A statement of a function begins."""
        self.acts[statement.span[0]] += 1

    def value(self, expression, value):
        """An expression has a value; of bools it is counted."""
        self.latest[id(expression)] = value
        if isinstance(value, bool) and expression.span:
            self.sides[expression.span, value] += 1


class Replay:
    """A run of a source, tick by tick."""

    def __init__(self, source, watch=None):
        self.source, self.watch = source, watch or Watch()
        self.machine, self.trap = Machine(source.entry, watch=self.watch), None

    def tick(self, inputs):
        """The outputs of a tick; nothing where it traps."""
        self.watch.begin_tick()
        try:
            return self.machine.tick(inputs)
        except Trap as trap:
            self.trap = trap
            return None

    def over(self, rows, ticks):
        """Runs so many ticks, and gives the outputs of the last one."""
        found = None
        for at in range(ticks):
            found = self.tick(rows.ticks[at])
        return found

    def starts(self):
        """The places of the steps of the last tick."""
        return [it.start for it in self.watch.steps]


def replayed(source, rows, steps, watch=None):
    """The replay of a run whose steps `walk` told, up to its last tick; nothing where it takes other steps."""
    replay = Replay(source, watch)
    try:
        for at, told in enumerate(steps):
            replay.tick(rows.ticks[at])
            if replay.starts() != told:
                return None
    except (Stuck, *shared.NO_SOURCE):
        return None
    return replay


def instance_name(source, instance):
    """An instance by its activity, behind the places of the `run`s that lead to it."""
    names = []
    while instance.caller:
        names.append(f"{source.spot(instance.statement.span[0])} {instance.unit.name}")
        instance = instance.caller
    return " > ".join([instance.unit.name, *reversed(names)])
