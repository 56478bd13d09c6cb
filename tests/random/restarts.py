"""Random programs whose `cobegin` statements begin anew, with branches that begin with loops.

Such a branch may take part in one tick twice: its old turn goes on, and its new one begins (docs/SEMANTICS.md, "First turns").
"""
from programs import Writer


class RestartWriter(Writer):
    """Writes such programs."""

    def pause(self, read, written, depth):
        if depth > 0 and self.chance() < 0.3:
            return self.restarting(read, written, depth - 1)
        return super().pause(read, written, depth)

    def pausing(self, read, written, depth):
        # (the body of an activity has the greatest depth)
        if depth == 3:
            read, written = read.inner(), written.inner()
            return " ".join([*self.some(read, written, 1), self.restarting(read, written, 2)])
        return super().pausing(read, written, depth)

    def when(self, read, written, depth):
        # (a reset in such a branch mostly fails rule Twice)
        keyword = "reset" if self.chance() < 0.1 else "abort"
        return f"when {self.truth(read)} {keyword} {self.pausing(read, written, depth)} end"

    def restarting(self, read, written, depth):
        """A loop over a `cobegin`, of which one branch begins with a loop."""
        first, second = self.split(written, 2)
        kind = "weak" if self.chance() < 0.8 else ""
        inner = read.inner()
        before = self.some(inner, first, 0) if self.chance() < 0.3 else []
        branch = " ".join([kind, *before, self.loop(inner, first, depth)])
        return f"repeat cobegin {branch} with {self.pausing(read, second, min(depth, 1))} end end"

    def loop(self, read, written, depth):
        body, kind = self.pausing(read, written, min(depth, 2)), self.chance()
        if kind < 0.45:
            return f"repeat {body} end"
        if kind < 0.7:
            return f"repeat {body} until {self.truth(read)} end"
        return f"while {self.truth(read)} repeat {body} end"
