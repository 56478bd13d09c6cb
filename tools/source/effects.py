"""What statements read and may write, and whether they may end in the tick in which they begin.

All of this is told by the text alone. A part is a variable with the names of fields that lead to it; an index stands for the
whole array.
"""
import tree


def part_of(place):
    """The part that a place lies in."""
    names = []
    for step in place.steps:
        if isinstance(step, tree.Index):
            break
        names.append(step.name)
    return place.variable, tuple(names)


def overlap(first, second):
    """Whether one of two parts lies in the other; each begins with what it is a part of."""
    *owner, names = first
    *other_owner, other_names = second
    length = min(len(names), len(other_names))
    return owner == other_owner and names[:length] == other_names[:length]


def read_by(expression):
    """The parts that an expression reads. `prev` reads none, since what it gives stands before the tick begins."""
    if isinstance(expression, (tree.Number, tree.Constant, tree.Previous)):
        return []
    if isinstance(expression, tree.Place):
        return [part_of(expression)] + read_by_indices(expression)
    if isinstance(expression, (tree.Conversion, tree.Unary)):
        return read_by(expression.operand)
    if isinstance(expression, tree.Call):
        return read_by_all(expression.arguments)
    return read_by(expression.left) + read_by(expression.right)


def read_by_indices(place):
    return read_by_all(it.value for it in place.steps if isinstance(it, tree.Index))


def read_by_all(expressions):
    return [part for it in expressions for part in read_by(it)]


def reads(statement):
    """The parts that a statement without statements in it reads."""
    if isinstance(statement, tree.Assign):
        return read_by(statement.value) + read_by_indices(statement.place)
    if isinstance(statement, (tree.CallStatement, tree.Run)):
        return read_by_all(statement.inputs) + outputs(statement)
    assert isinstance(statement, (tree.Declare, tree.Return))
    return read_by(statement.value) if statement.value else []


def outputs(statement):
    """The parts that stand for the outputs of what is called."""
    return [part_of(it) for it in statement.outputs]


def target(statement):
    """The part that gets the result of what is run, if any."""
    return [part_of(statement.target)] if statement.target else []


def instant(statement):
    """Whether a statement may end in the tick in which it begins."""
    if isinstance(statement, (tree.Await, tree.Run, tree.Repeat)):
        return False
    if isinstance(statement, tree.If):
        return any(instant_all(body) for _, body in statement.arms) or instant_all(statement.other)
    if isinstance(statement, (tree.Until, tree.When)):
        return instant_all(statement.body)
    if isinstance(statement, tree.Cobegin):
        return ends_with(statement.branches, instant_all)
    return True


def instant_all(statements):
    return all(map(instant, statements))


def ends_with(branches, ends):
    """Whether branches have ended: all the strong ones, or some branch where none is strong."""
    strong = [it for weak, it in branches if not weak]
    return all(map(ends, strong)) if strong else any(ends(it) for _, it in branches)


def surface(statement):
    """The parts that a statement may write in the tick in which it begins."""
    if isinstance(statement, tree.Declare):
        return [(statement.variable, ())]
    if isinstance(statement, tree.Assign):
        return [part_of(statement.place)]
    if isinstance(statement, (tree.CallStatement, tree.Run)):
        return outputs(statement)
    if isinstance(statement, (tree.Await, tree.Return)):
        return []
    if isinstance(statement, tree.If):
        return surface_of_arms(statement, 0)
    if isinstance(statement, tree.Cobegin):
        return [part for _, body in statement.branches for part in surface_all(body)]
    return surface_all(statement.body)


def surface_of_arms(statement, first):
    """What an `if` may write from one of its arms on."""
    bodies = [body for _, body in statement.arms[first:]] + [statement.other]
    return [part for body in bodies for part in surface_all(body)]


def surface_all(statements):
    """What a list may write: nothing behind a statement that can't end at once."""
    found = []
    for it in statements:
        found += surface(it)
        if not instant(it):
            break
    return found
