"""The trace of a program over rows of inputs, as `run` prints it."""
import random

from meaning import Machine
from reader import Reader
from values import Trap


def shown(value):
    """A value as it stands in a trace."""
    return str(value).lower() if isinstance(value, bool) else str(value)


def read_row(line, variables):
    """The inputs that a row gives, behind the number of its tick."""
    fields = zip(line.split(",")[1:], variables)
    return [text == "true" if it.type == "bool" else int(text) for text, it in fields]


def trace(source, rows, seed):
    """The trace of a source that `check` accepts. The seed picks the order of steps."""
    entry = Reader(source).program()
    machine = Machine(entry, random.Random(seed))
    lines = [["tick", *(it.name for it in entry.outputs)]]
    for number, row in enumerate(rows.splitlines()[1:], 1):
        try:
            outputs = machine.tick(read_row(row, entry.inputs))
        except Trap:
            lines.append(["trap"])
            break
        lines.append([str(number), *map(shown, outputs)])
        if machine.ended():
            lines.append(["ended"])
            break
    return "".join(",".join(it) + "\n" for it in lines)
