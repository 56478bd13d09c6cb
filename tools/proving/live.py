"""Which locals are still read behind a statement."""
import re

from .text import Assign, Break, CallStatement, If, Loop, Place, Return, Struct, nodes_of

# what the emitter calls the copy of a counter
COPY = re.compile(r"w\d+")


def is_apart(variable):
    """Whether ways through a tick are kept apart by a parameter or local."""
    return not variable.pointer and not isinstance(variable.type, Struct) and (variable.type.name == "bool" or bool(COPY.fullmatch(variable.name)))


class Liveness:
    """For each statement of a function the addresses of such locals that are read behind it."""

    def __init__(self, function):
        self.behind, self.heads, self.loops = {}, {}, []
        self.addresses = {it.address for it in [*function.parameters, *function.locals] if is_apart(it)}
        self.block(function.body, frozenset())

    def read(self, items):
        """The addresses that statements or expressions read."""
        found = (it.variable.address for it in nodes_of(items) if isinstance(it, Place))
        return frozenset(it for it in found if it in self.addresses)

    def block(self, statements, out):
        """What is read from the front of a block on, of which so much is read behind it."""
        for it in reversed(statements):
            self.behind[id(it)] = out
            out = self.one(it, out)
        return out

    def one(self, it, out):
        if isinstance(it, If):
            return self.block(it.then, out) | self.block(it.other, out) | self.read([it.condition])
        if isinstance(it, Loop):
            return self.loop(it, out)
        if isinstance(it, Break):
            return self.loops[-1]
        if isinstance(it, Return):
            return self.read([it.value] if it.value else [])
        if isinstance(it, CallStatement):
            return out | self.read([it.call])
        return self.assigned(it, out)

    def assigned(self, it, out):
        assert isinstance(it, Assign)
        if it.place.variable.address in self.addresses:
            return out - {it.place.variable.address} | self.read([it.value])
        return out | self.read([it.place, *([it.value] if it.value else [])])

    def loop(self, it, out):
        head = out | self.read([it.condition])
        self.loops.append(out)
        # (the second time sees what the next turn reads)
        for _ in range(2):
            head |= self.block(it.body, head)
        self.loops.pop()
        self.heads[id(it)] = head
        return head
