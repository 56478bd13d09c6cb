"""What is told of a tick that trapped: the operation, why, and in a function the statements around it."""
import replay
import shared
import tree
from places import place_in, wrapped

GENERAL = ("The tick behind the last row trapped: a result or a cast outside its type, a zero divisor, an index outside its array, "
           "or a loop of a function with more than 65,536 turns.")


def named(names, values):
    """Names with their values."""
    return ", ".join(f"{name} = {str(value).lower()}" for name, value in zip(names, values)) or "nothing"


def explained(paths, rows):
    """What is told of a run of a source that trapped over rows."""
    _, steps = shared.walk_of(paths, rows)
    source, number = shared.Source(paths), len(steps)
    table = shared.table(rows, number)
    found = replay.replayed(source, table, steps)
    out = operation(source, found, number) if found and found.trap else statement(source, steps[-1][-1], number)
    return out + (wrapped(f"Tick {number} was given {named(table.names, table.ticks[number - 1])}.") if table.names else [])


def statement(source, step, number):
    """The statement at which the last step of a walk is; a loop with `until` can trap where it is tested alone."""
    start, end = source.acts[step].pieces[-1]
    return place_in(source, start, end, f"tick {number} trapped here") + wrapped(GENERAL)


def operation(source, found, number):
    """The operation that trapped, and the statements of the functions that were on the way to it."""
    trap, last = found.trap, found.watch.steps[-1]
    act = source.acts[last.start]
    where = trap.expression.span if trap.expression and trap.expression.span else trap.calls[0].span if trap.calls else act.pieces[-1]
    out = place_in(source, *where, f"tick {number} trapped here")
    for it in trap.calls[1:] if trap.expression is None else trap.calls:
        if not it.span[0] <= where[0] < it.span[1]:
            out += place_in(source, *head_of(it), "in the call here")
    start, end = act.pieces[-1]
    if not start <= where[0] < end:
        out += place_in(source, start, end, "in the call here")
    who = replay.instance_name(source, last.instance)
    return out + wrapped(why(source, trap, found.watch.latest)) + (wrapped(f"It was in {who}.") if last.instance.caller else [])


def why(source, trap, latest):
    """Why an operation trapped, with the values of its operands."""
    it, reason = trap.expression, str(trap)
    if isinstance(it, tree.Binary) and {id(it.left), id(it.right)} <= set(latest):
        return f"`{source.text(*it.span)}` is {latest[id(it.left)]} {it.operator} {latest[id(it.right)]} here: {reason}."
    if isinstance(it, (tree.Unary, tree.Conversion)) and id(it.operand) in latest:
        return f"`{source.text(*it.operand.span)}` is {latest[id(it.operand)]} here: {reason}."
    return f"{reason[:1].upper()}{reason[1:]}."


def head_of(statement):
    """The place of a statement without the statements in it."""
    start, end = statement.span
    inner = getattr(statement, "condition", None)
    return (start, inner.span[1] if inner and inner.span[0] > start else end)
