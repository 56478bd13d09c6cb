"""Where an activity rests, and by which numbers its C text tells that (docs/INTERNALS.md, "Machines").

A text is made of the peeled activity where first turns are copied (docs/SEMANTICS.md, "First turns"). So one `await` or `run` may have several
numbers: one where it begins in a copy, and one where the loop goes on.
"""
import collections

import tree
from effects import ends_with, instant, instant_all

# a body with more statements isn't copied
MOST = 10000
# a resting place: its counter and value; the `await` or `run`, or the `cobegin` and the number of the branch that has ended; whether control may come there
Place = collections.namedtuple("Place", "counter value statement branch reached")


def blocks_of(statement):
    """The lists of statements in a statement."""
    if isinstance(statement, tree.Cobegin):
        return [body for _, body in statement.branches]
    if isinstance(statement, tree.If):
        return [*(body for _, body in statement.arms), statement.other]
    return [statement.body] if hasattr(statement, "body") else []


def width(statements):
    """How many places of a list rest at once."""
    return max(map(width_of_one, statements), default=0)


def width_of_one(statement):
    """How many places of a statement rest at once."""
    if isinstance(statement, tree.Cobegin):
        return sum(max(1, width(it)) for it in blocks_of(statement))
    return int(isinstance(statement, (tree.Await, tree.Run))) or max(map(width, blocks_of(statement)), default=0)


# ---- first turns


def with_blocks(statement, blocks):
    """A statement with other lists of statements in it."""
    if isinstance(statement, tree.Cobegin):
        made = tree.Cobegin([(weak, it) for (weak, _), it in zip(statement.branches, blocks)])
    elif isinstance(statement, tree.If):
        made = tree.If([(test, it) for (test, _), it in zip(statement.arms, blocks)], blocks[-1], statement.tests)
    elif isinstance(statement, tree.When):
        made = tree.When(statement.keyword, statement.condition, *blocks)
    elif isinstance(statement, tree.Repeat):
        made = tree.Repeat(*blocks)
    else:
        made = type(statement)(statement.condition, *blocks)
    made.span = statement.span
    return made


def deep(statement):
    """A statement outside of first turns: branches in it begin with first turns."""
    blocks = blocks_of(statement)
    if not blocks:
        return statement
    return with_blocks(statement, [(front_all if isinstance(statement, tree.Cobegin) else deep_all)(it) for it in blocks])


def deep_all(statements):
    return [deep(it) for it in statements]


def front(statement):
    """What a statement becomes where it begins a branch: a loop is its first turn and the loop."""
    if isinstance(statement, tree.Cobegin) or not blocks_of(statement):
        return [deep(statement)]
    if isinstance(statement, (tree.If, tree.When)):
        return [with_blocks(statement, [front_all(it) for it in blocks_of(statement)])]
    turn, loop = front_all(statement.body), deep(statement)
    if isinstance(statement, tree.Repeat):
        return [*turn, loop]
    if isinstance(statement, tree.Until):
        return [*turn, tree.If([(statement.condition, [])], [loop], [])]
    return [tree.If([(statement.condition, [*turn, loop])], [], [])]


def front_all(statements):
    """What a list becomes where it begins a branch: first turns up to the first statement that isn't instant."""
    pauses = next((at for at, it in enumerate(statements, 1) if not instant(it)), len(statements))
    return [part for it in statements[:pauses] for part in front(it)] + deep_all(statements[pauses:])


def counts(statement):
    """How many statements `deep` and `front` make of a statement."""
    blocks = list(map(counts_all, blocks_of(statement)))
    plain, turns = 1 + sum(it for it, _ in blocks), sum(it for _, it in blocks)
    if isinstance(statement, tree.Cobegin):
        return 1 + turns, 1 + turns
    if isinstance(statement, (tree.Repeat, tree.Until, tree.While)):
        return plain, turns + plain + (not isinstance(statement, tree.Repeat))
    return plain, 1 + turns


def counts_all(statements):
    """The same of a list."""
    deeps, fronts, pauses = 0, 0, False
    for it in statements:
        plain, turns = counts(it)
        deeps, fronts, pauses = deeps + plain, fronts + (plain if pauses else turns), pauses or not instant(it)
    return deeps, fronts


# ---- numbers


class Layout:
    """The numbers of the resting places of a body, in source order."""

    def __init__(self, body):
        self.places, self.counts = [], collections.Counter()
        self.list(body, 0, True)

    def place(self, counter, statement, branch, reached):
        self.counts[counter] += 1
        self.places.append(Place(counter, self.counts[counter], statement, branch, reached))
        return len(self.places) - 1

    def list(self, statements, counter, reached):
        """Lays out a list from a counter on; whether its end may be reached."""
        for it in statements:
            reached = self.one(it, counter, reached)
        return reached

    def one(self, it, counter, reached):
        """Lays out a statement; whether its end may be reached."""
        if isinstance(it, (tree.Await, tree.Run)):
            self.place(counter, it, None, reached)
            return reached and (may_end(it.activity) if isinstance(it, tree.Run) else not always(it.condition, False))
        if isinstance(it, tree.Cobegin):
            return self.branches(it, counter, reached) and reached
        if isinstance(it, tree.If):
            return self.arms(it, counter, reached)
        if not blocks_of(it):
            return reached
        inside = reached and not (isinstance(it, tree.While) and always(it.condition, False))
        ends = self.list(it.body, counter, inside)
        if isinstance(it, tree.Repeat):
            return False
        if isinstance(it, tree.Until):
            return ends and not always(it.condition, False)
        return reached and not always(it.condition, True) if isinstance(it, tree.While) else ends or (reached and it.keyword == "abort")

    def arms(self, it, counter, reached):
        """Lays out an `if`: a test that is a literal leads one way alone."""
        ends = False
        for condition, body in it.arms:
            ends = self.list(body, counter, reached and not always(condition, False)) or ends
            reached = reached and not always(condition, True)
        return self.list(it.other, counter, reached) or ends

    def branches(self, it, counter, reached):
        """Lays out branches beside each other, the end of each before what stands in it."""
        ends = []
        for number, (_, body) in enumerate(it.branches, 1):
            at = self.place(counter, it, number, False)
            ends.append(self.list(body, counter, reached))
            self.places[at] = self.places[at]._replace(reached=ends[-1])
            counter += max(1, width(body))
        return ends_with([(weak, end) for (weak, _), end in zip(it.branches, ends)], bool)

    def numbers(self, reached):
        """The numbers of the places, or of those alone that may be reached."""
        return {(it.counter, it.value) for it in self.places if it.reached or not reached}


def always(condition, value):
    """Whether a condition is a literal of a value."""
    return isinstance(condition, tree.Constant) and condition.value is value


def may_end(activity):
    """Whether an activity may end: not where its last statement is a loop without a test."""
    return not (activity.body and isinstance(activity.body[-1], tree.Repeat))


def layout_of(body, numbers):
    """The layout of a body whose text sets counters to these numbers.

    The text is that of the peeled body where it has a number beyond those of the body as it stands, or lacks more of those to which control may come
    than it lacks of such numbers of the peeled body. A text may lack some, since it doesn't set what it would set again in the same tick.
    """
    plain = Layout(body)
    if counts_all(body)[0] == sum(map(size, body)) or counts_all(body)[0] > MOST:
        return plain
    peeled = Layout(deep_all(body))
    beyond = numbers - plain.numbers(False)
    lacks = [len(it.numbers(True) - numbers) for it in (plain, peeled)]
    return peeled if beyond or lacks[0] > lacks[1] else plain


def size(statement):
    """How many statements a statement has, itself included."""
    return 1 + sum(size(it) for block in blocks_of(statement) for it in block)
