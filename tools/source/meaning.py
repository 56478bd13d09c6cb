"""The meaning of a program: control trees and their steps, as docs/SEMANTICS.md says under "Control trees".

A tree says what of an activity is paused, has begun or is to begin. Each class is one form of a tree, and answers whether it is
settled, whether it may end in this tick, which parts it may still write, and which points of it may act. A point is a pair: the
parts that its action reads, and the action, which gives the tree that stands in its place then.
"""
import tree
from effects import ends_with, instant, instant_all, outputs, overlap, read_by_all, reads, target
from effects import surface, surface_all, surface_of_arms
from instances import Instance


class Stuck(Exception):
    """Nothing may act, and the tree isn't settled. No tick of an accepted program comes to this."""


# ---- the forms of control trees


class Nil:
    """It has ended."""

    def settled(self):
        return True

    def may_end(self):
        return True

    def may_write(self, _):
        return []

    def points(self, _):
        return iter(())

    def woken(self):
        return self


# the one tree of this form
NIL = Nil()


class Wait(Nil):
    """It is paused at an `await`."""

    def __init__(self, statement):
        self.statement = statement

    def may_end(self):
        return False

    def woken(self):
        return Test(self.statement)


class Test(Nil):
    """An `await` that was woken."""

    def __init__(self, statement):
        self.statement = statement

    def settled(self):
        return False

    def points(self, instance):
        yield instance.read_by(self.statement.condition), lambda: NIL if self.holds(instance) else Wait(self.statement)

    def holds(self, instance):
        return instance.tests(self.statement.span[0], self.statement.condition)


class Turn(Test):
    """The test at the end of a turn of `repeat .. until`."""

    def may_write(self, instance):
        return instance.homes(surface_all(self.statement.body))

    def points(self, instance):
        yield instance.read_by(self.statement.condition), lambda: NIL if self.holds(instance) else Do(self.statement)


class Do:
    """A statement that is to begin; of an `if` the arm that is tested next."""

    def __init__(self, statement, arm=0):
        self.statement, self.arm = statement, arm

    def settled(self):
        return False

    def may_end(self):
        if self.arm == 0:
            return instant(self.statement)
        return any(instant_all(body) for _, body in self.statement.arms[self.arm :]) or instant_all(self.statement.other)

    def may_write(self, instance):
        return instance.homes(surface_of_arms(self.statement, self.arm) if self.arm else surface(self.statement))

    def points(self, instance):
        """The one point of a statement that begins."""
        statement = self.statement
        if isinstance(statement, (tree.Declare, tree.Assign, tree.CallStatement, tree.Return)):
            yield instance.homes(reads(statement)), lambda: acted(statement, instance)
        elif isinstance(statement, tree.If):
            yield instance.read_by(statement.arms[self.arm][0]), lambda: self.chosen(instance)
        elif isinstance(statement, tree.Run):
            yield instance.homes(read_by_all(statement.inputs)), lambda: begun_run(statement, instance)
        elif isinstance(statement, tree.While):
            yield instance.read_by(statement.condition), lambda: turned(statement, instance)
        else:
            yield [], lambda: begun(statement, instance)

    def chosen(self, instance):
        """What an arm of an `if` becomes."""
        condition, body = self.statement.arms[self.arm]
        if instance.tests(self.statement.tests[self.arm], condition):
            return list_of(body)
        following = self.arm + 1
        return Do(self.statement, following) if following < len(self.statement.arms) else list_of(self.statement.other)


def acted(statement, instance):
    """What a statement becomes that ends at once."""
    instance.begins(statement.span[0])
    instance.act(statement)
    return NIL


def turned(statement, instance):
    """What a `while` becomes."""
    return list_of([*statement.body, statement]) if instance.tests(statement.span[0], statement.condition) else NIL


def begun_run(statement, instance):
    """What a `run` begins with: it sets the inputs at once."""
    instance.begins(statement.span[0])
    instance.copy_inputs(statement)
    return Run(statement, instance.callee(statement), False, list_of(statement.activity.body))


def begun(statement, instance):
    """What a statement begins with that reads nothing."""
    instance.begins(statement.span[0])
    if isinstance(statement, tree.Await):
        return Wait(statement)
    if isinstance(statement, tree.Repeat):
        return sequence(list_of(statement.body), [Do(statement)])
    if isinstance(statement, tree.Until):
        return sequence(list_of(statement.body), [Turn(statement)])
    if isinstance(statement, tree.Cobegin):
        return Par(statement, [(weak, list_of(body)) for weak, body in statement.branches])
    return Guard(statement, False, list_of(statement.body))


def list_of(statements):
    """The tree of a list of statements that is to begin."""
    return sequence(NIL, [Do(it) for it in statements])


def sequence(first, rest):
    """A tree and what follows it: where the tree has ended, the next one stands in its place."""
    if first is NIL and rest:
        first, rest = rest[0], rest[1:]
    return Seq(first, rest) if rest else first


class Seq:
    """A tree and what follows it, each a `Do` or a `Turn`."""

    def __init__(self, first, rest):
        self.first, self.rest = first, rest

    def settled(self):
        return self.first.settled()

    def may_end(self):
        return self.first.may_end() and all(it.may_end() for it in self.rest)

    def may_write(self, instance):
        found, reached = self.first.may_write(instance), self.first.may_end()
        for it in self.rest:
            if not reached:
                break
            found = found + it.may_write(instance)
            reached = it.may_end()
        return found

    def points(self, instance):
        for read, act in self.first.points(instance):
            yield read, lambda act=act: sequence(act(), self.rest)

    def woken(self):
        return Seq(self.first.woken(), self.rest)


class Par:
    """Branches side by side: of each whether it is weak, and its tree."""

    def __init__(self, statement, branches):
        self.statement, self.branches = statement, branches

    def ready(self):
        """Whether all branches are settled."""
        return all(it.settled() for _, it in self.branches)

    def over(self):
        """Whether those branches have ended that the end of all waits for."""
        return ends_with(self.branches, lambda it: it is NIL)

    def settled(self):
        return self.ready() and not self.over()

    def may_end(self):
        return ends_with(self.branches, lambda it: it.may_end())

    def may_write(self, instance):
        return [it for _, branch in self.branches for it in branch.may_write(instance)]

    def points(self, instance):
        if self.ready() and self.over():
            yield [], lambda: left(self.statement, instance)
            return
        writes = [branch.may_write(instance) for _, branch in self.branches]
        for k, (_, branch) in enumerate(self.branches):
            others = [it for other, written in enumerate(writes) if other != k for it in written]
            for read, act in branch.points(instance):
                # what another branch may still write isn't read yet
                if not any(overlap(it, written) for it in read for written in others):
                    yield read, lambda act=act, k=k: self.replaced(k, act())

    def replaced(self, k, branch):
        """The branches, with another tree in one of them."""
        branches = list(self.branches)
        branches[k] = (branches[k][0], branch)
        return Par(self.statement, branches)

    def woken(self):
        return Par(self.statement, [(weak, it.woken()) for weak, it in self.branches])


def left(statement, instance):
    """What a `cobegin` or a `when` that is due becomes."""
    instance.begins(statement.span[0])
    return NIL


class Framed:
    """A tree in a frame. In phase check the frame acts before all that is in it, and else the tree acts."""

    def __init__(self, statement, checks, body):
        self.statement, self.checks, self.body = statement, checks, body

    def settled(self):
        return not self.checks and self.body is not NIL and self.body.settled()


class Guard(Framed):
    """The body of a `when`."""

    def may_end(self):
        if not self.checks:
            return self.body.may_end()
        return self.statement.keyword == "abort" or self.body.may_end() or instant_all(self.statement.body)

    def may_write(self, instance):
        found = self.body.may_write(instance)
        if self.checks and self.statement.keyword == "reset":
            found = found + instance.homes(surface_all(self.statement.body))
        return found

    def points(self, instance):
        if self.checks:
            yield instance.read_by(self.statement.condition), lambda: self.checked(instance)
        elif self.body is NIL:
            yield [], lambda: left(self.statement, instance)
        else:
            for read, act in self.body.points(instance):
                yield read, lambda act=act: Guard(self.statement, False, act())

    def checked(self, instance):
        """What the frame becomes: the body goes on, ends or begins anew."""
        if not instance.tests(self.statement.span[0], self.statement.condition):
            return Guard(self.statement, False, self.body)
        return NIL if self.statement.keyword == "abort" else Guard(self.statement, False, list_of(self.statement.body))

    def woken(self):
        return Guard(self.statement, True, self.body.woken())


class Run(Framed):
    """An activity that is run. In phase check its inputs are set anew."""

    def __init__(self, statement, callee, checks, body):
        super().__init__(statement, checks, body)
        self.callee = callee

    def may_end(self):
        return self.checks or self.body.may_end()

    def may_write(self, instance):
        if self.settled():
            return []
        ends = target(self.statement) if self.may_end() else []
        return instance.homes(outputs(self.statement) + ends)

    def points(self, instance):
        if self.checks:
            yield instance.homes(read_by_all(self.statement.inputs)), lambda: self.checked(instance)
        elif self.body is NIL:
            yield [], lambda: self.ended(instance)
        else:
            for read, act in self.body.points(self.callee):
                yield read, lambda act=act: Run(self.statement, self.callee, False, act())

    def checked(self, instance):
        instance.begins(self.statement.span[0])
        instance.copy_inputs(self.statement)
        return Run(self.statement, self.callee, False, self.body)

    def ended(self, instance):
        """The target gets the result."""
        instance.begins(self.statement.span[0])
        place = self.statement.target
        if place:
            instance.put(place.variable, [it.name for it in place.steps], self.callee.result)
        return NIL

    def woken(self):
        return Run(self.statement, self.callee, True, self.body.woken())


# ---- ticks


class Machine:
    """A run of a program: it takes the steps of each tick in an order that `random` picks, and without it always the first."""

    def __init__(self, entry, random=None, watch=None):
        self.instance, self.random = Instance(entry, watch=watch), random
        # nothing stands here before the first tick
        self.tree = None

    def tick(self, inputs):
        """Runs one tick over the values of its inputs, and gives those of the outputs."""
        self.instance.begin_tick()
        unit, now = self.instance.unit, self.instance.now
        now.update(zip(unit.inputs, inputs))
        control = self.tree.woken() if self.tree else list_of(unit.body)
        while True:
            point = self.picked(control.points(self.instance))
            if not point:
                break
            control = point[1]()
        if not control.settled():
            raise Stuck
        self.tree = control
        return [now[it] for it in unit.outputs]

    def picked(self, points):
        """The point of which the step is taken; nothing where none may act."""
        if not self.random:
            return next(points, None)
        found = list(points)
        return self.random.choice(found) if found else None

    def ended(self):
        return self.tree is NIL
