"""A way through statements on which nothing pauses, for the rules Pause and Instant (docs/LANGUAGE.md, "Effects")."""
import tree
from effects import instant_all


def way_through(statements):
    """Where a list of statements, which may end in the tick in which it begins, goes on that way: for each statement on it a place, and what is
    to say of it, or nothing."""
    return [place for it in statements for place in way_of(it)]


def way_of(statement):
    """What one statement has on such a way."""
    if isinstance(statement, tree.If):
        return way_of_if(statement)
    if isinstance(statement, tree.Until):
        return [(head_of(statement), ""), *way_through(statement.body)]
    if isinstance(statement, tree.When):
        return [(head_of(statement), ""), *way_through(statement.body)]
    if isinstance(statement, tree.Cobegin):
        return [(head_of(statement), ""), *(it for body in ending(statement) for it in way_through(body))]
    return [(head_of(statement), "no turn" if isinstance(statement, tree.While) else "")]


def way_of_if(statement):
    """The tests up to the first arm that may end at once, and that arm."""
    found = []
    for at, (condition, body) in enumerate(statement.arms):
        place = statement.tests[at], condition.span[1]
        if instant_all(body):
            return [*found, (place, ""), *way_through(body)]
        found.append((place, "not taken"))
    return found + way_through(statement.other)


def ending(statement):
    """The branches that have to end for a `cobegin` to end."""
    strong = [body for weak, body in statement.branches if not weak]
    return strong or [next(body for _, body in statement.branches if instant_all(body))]


def head_of(statement):
    """The place of a statement without the statements in it."""
    start, end = statement.span
    if isinstance(statement, (tree.While, tree.When)):
        return start, statement.condition.span[1]
    return (start, start + len("repeat ")) if hasattr(statement, "body") or hasattr(statement, "branches") else (start, end)


def loops_of(statements):
    """The loops of a list whose body may end in the tick in which it begins."""
    for it in statements:
        if isinstance(it, (tree.Repeat, tree.Until, tree.While)) and instant_all(it.body):
            yield it
        yield from loops_of(inner(it))


def inner(statement):
    """The statements that stand in one."""
    if isinstance(statement, tree.If):
        return [it for _, body in statement.arms for it in body] + statement.other
    if isinstance(statement, tree.Cobegin):
        return [it for _, body in statement.branches for it in body]
    return statement.body if hasattr(statement, "body") else []


