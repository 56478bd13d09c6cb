"""What may come next in the statements of an activity, by their places.

A text that `build` writes leaves out tests that are decided and branches that meet. So what stands behind a test, a loop or a `cobegin` follows what
stands before it, too.
"""
import collections

import tree

# a branch or the body ends
END = "end"
# where a loop begins anew, and where branches meet: neither has a line of its own
Joint = collections.namedtuple("Joint", "kind start")


class Flow:
    """For each statement that acts or rests, and for each test, what may follow it in its branch."""

    def __init__(self, body):
        self.edges, self.passed, self.rests = collections.defaultdict(set), set(), set()
        self.list(body, {END})

    def list(self, statements, behind):
        """What a list begins with, of which so much comes behind."""
        for it in reversed(statements):
            behind = self.one(it, behind)
        return behind

    def one(self, it, behind):
        start = it.span[0]
        if isinstance(it, tree.If):
            return self.arms(it, behind)
        if isinstance(it, tree.Cobegin):
            joint = Joint("join", start)
            self.lead(joint, behind | {END})
            return set().union(*(self.list(body, {joint}) for _, body in it.branches))
        if isinstance(it, (tree.Repeat, tree.Until, tree.While)):
            return self.loop(it, behind)
        if isinstance(it, tree.When):
            first = self.list(it.body, behind)
            self.lead(start, first if it.keyword == "reset" else behind)
            return first
        if isinstance(it, (tree.Await, tree.Run)):
            self.rests.add(start)
        self.edges[start] |= {END} if isinstance(it, tree.Return) else behind
        return {start}

    def arms(self, it, behind):
        """The tests of an `if`, from the last one on."""
        other = self.list(it.other, behind)
        for (_, body), test in reversed(list(zip(it.arms, it.tests))):
            self.lead(test, self.list(body, behind) | other)
            other = {test}
        return other

    def loop(self, it, behind):
        start = it.span[0]
        if isinstance(it, tree.While):
            self.lead(start, behind | self.list(it.body, {start}))
            return {start}
        joint = Joint("head", start)
        first = self.list(it.body, {joint} if isinstance(it, tree.Repeat) else {start})
        self.lead(joint, first)
        if isinstance(it, tree.Until):
            self.lead(start, behind | {joint})
        return first

    def lead(self, start, following):
        """What follows something that a text may leave out."""
        self.edges[start] |= following
        self.passed.add(start)

    def behind(self, start):
        """What may follow a statement or a test, what follows what may be left out among it."""
        found, waiting = set(), list(self.edges[start])
        while waiting:
            it = waiting.pop()
            if it not in found:
                found.add(it)
                waiting += self.edges[it] if it in self.passed else ()
        return found
