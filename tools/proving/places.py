"""Finds where the operations of a C text stand in its sources.

A text has names and no lines. So an operation is sought in the unit of its function, by its operator and by what stands on both its sides. Where an
activity has several such, those count in the statements to which the operation's line leads.
"""
import bisect
import re

import cells
import leading
import shared
import tree
from reader import Reader
from shared import Fault

from .prelude import NAME, operator_of
from .text import Address, Binary, Call, Index, Literal, Loop, Not, Place, nodes_of

# what the emitter puts before a name: of a variable, of its value in the tick before, of a field, of an input or output
FRONT = re.compile(r"([vp])\d+_|[mio]_")
WORDS = {"and": "&&", "or": "||", "not": "!"}
LEFT_OUT = (tree.Unit, tree.Variable, tree.Struct, tree.Array)


# ---- how an expression is written, without types

def plain_of_c(it):
    """An expression of C as it would be in the source."""
    if isinstance(it, Literal):
        return str(it.value)
    if isinstance(it, (Place, Address)):
        return plain_place(it.place if isinstance(it, Address) else it)
    if isinstance(it, Not):
        return f"!({plain_of_c(it.operand)})"
    if isinstance(it, Binary):
        return joined(it.operator, [plain_of_c(it.left), plain_of_c(it.right)])
    if isinstance(it, Index):
        return f"[{plain_of_c(it.value)}]"
    operands = [plain_of_c(one) for one in it.arguments]
    if not NAME.fullmatch(it.name):
        return f"{it.name[2:]}({', '.join(operands)})"
    operator = operator_of(it.name)
    return f"({operands[0]} as {operator.type})" if operator.sign == "as" else joined(operator.sign, operands)


def joined(sign, operands):
    return f"({operands[0]} {sign} {operands[1]})" if len(operands) == 2 else f"{sign}({operands[0]})"


def plain_place(place):
    """A place of C as it would be in the source."""
    found = ""
    for it in place.path:
        if isinstance(it, Index):
            found += plain_of_c(it)
        elif FRONT.match(it):
            front = FRONT.match(it)
            name = it[front.end():]
            found += ("." if found else "prev " if front.group(1) == "p" else "") + name
        elif it not in ("m", "e", "o", "i", "s", "f"):
            found += ("." if found else "") + it
    return found


def plain_of_source(it):
    """An expression of a source in the same form."""
    if isinstance(it, (tree.Number, tree.Constant)):
        return str(int(it.value))
    if isinstance(it, tree.Place):
        steps = "".join(f".{step.name}" if isinstance(step, tree.Field) else plain_of_source(step) for step in it.steps)
        return it.variable.name + steps
    if isinstance(it, tree.Index):
        return f"[{plain_of_source(it.value)}]"
    if isinstance(it, tree.Previous):
        return f"prev {it.variable.name}"
    if isinstance(it, tree.Conversion):
        return f"({plain_of_source(it.operand)} as {it.type})"
    if isinstance(it, tree.Call):
        return f"{it.function.name}({', '.join(map(plain_of_source, it.arguments))})"
    operands = [it.operand] if isinstance(it, tree.Unary) else [it.left, it.right]
    return joined(WORDS.get(it.operator, it.operator), [plain_of_source(one) for one in operands])


def sign_of_c(it):
    """What tells operations of one kind from others."""
    if isinstance(it, Index):
        return "["
    operator = operator_of(it.name)
    return f"as {operator.type}" if operator.sign == "as" else operator.sign


def sign_of_source(it):
    if isinstance(it, tree.Index):
        return "["
    return f"as {it.type}" if isinstance(it, tree.Conversion) else it.operator


def nodes_in(it):
    """The operations of a source's tree, operands before their operators, as they are evaluated."""
    if isinstance(it, (list, tuple)):
        for one in it:
            yield from nodes_in(one)
        return
    if not hasattr(it, "__dict__") or isinstance(it, LEFT_OUT):
        return
    for one in vars(it).values():
        yield from nodes_in(one)
    if isinstance(it, (tree.Unary, tree.Binary, tree.Conversion, tree.Index)):
        yield it


# ---- places

class Sources:
    """The sources of a program, in order, as one text."""

    def __init__(self, paths):
        self.paths = paths
        parts = [shared.read(it) for it in paths]
        self.data = b"\n".join(parts)
        self.starts = [sum(len(it) + 1 for it in parts[:at]) for at in range(len(parts))]
        self.reader = Reader(self.data.decode("latin-1"))
        try:
            self.entry = self.reader.program()
        except shared.NO_SOURCE as fault:
            raise Fault(f"{', '.join(paths)}: no source that `blechc` accepts", 4) from fault

    def line(self, offset):
        """The line of a byte, behind the name of its file where there are several."""
        at = max(at for at, it in enumerate(self.starts) if it <= offset)
        line = self.data.count(b"\n", self.starts[at], offset) + 1
        return f"line {line}" if len(self.paths) == 1 else f"{self.paths[at]}, line {line}"

    def statement(self, offset):
        """The place of what acts in which a byte stands."""
        return next((it.start for it in self.reader.acts if any(start <= offset < end for start, end in it.pieces)), None)

    def text(self, start, end):
        return " ".join(shared.shown(self.data[start:end]).split())


class Spot:
    """Where an operation stands: what is written there, and the places that it may be."""

    def __init__(self, text, spans, lines):
        self.text, self.spans, self.lines = text, tuple(spans), lines

    def __str__(self):
        return f"{self.text} ({' or '.join(self.lines)})" if self.lines else self.text


class Places:
    """The places of the operations of a C text."""

    def __init__(self, program, sources, text):
        self.sources, self.found = sources, {}
        self.feeds = [at for at, it in enumerate(text) if it == "\n"]
        self.leads = leading.leads_of(cells.names_of(shared.Source(sources.paths), sources.paths[-1], text), text.split("\n"))
        for function in program.functions.values():
            unit = sources.reader.units.get(function.name[2:])
            if unit and function.name.startswith("a_"):
                self.match(function, unit)

    def spot(self, it):
        """Where an operation stands in the sources; as in C where it isn't found there."""
        return self.found.get(it) or Spot(plain_of_loop(it) if isinstance(it, Loop) else plain_of_c(it), (), [])

    def match(self, function, unit):
        """Finds the operations of a unit."""
        loops = [it for it in nodes_of(function.body) if isinstance(it, Loop)]
        acts = [it for it in self.sources.reader.acts if it.unit == unit.name and it.kind in ("repeat", "while")]
        for at, it in enumerate(loops):
            self.put(it, [acts[min(at, len(acts) - 1)].pieces[0]] if acts else [])
        operations = list(nodes_in(unit.body))
        for it in nodes_of(function.body):
            if isinstance(it, Index) or (isinstance(it, Call) and NAME.fullmatch(it.name)):
                self.match_one(it, operations, function)

    def match_one(self, it, operations, function):
        """Finds one operation, by all that it is made of, else by its operator alone."""
        alike = [one for one in operations if sign_of_source(one) == sign_of_c(it)]
        exact = [one for one in alike if plain_of_source(one) == plain_of_c(it)]
        if not exact and isinstance(it, Call):
            exact = [one for one in alike if len(alike) == 1]
        if len(exact) > 1:
            exact = self.one_of(it, exact, function)
        self.put(it, [one.span for one in exact])

    def one_of(self, it, exact, function):
        """Of several operations of the source that are alike those for which one of the text may stand."""
        same = [one for one in nodes_of(function.body) if type(one) is type(it) and plain_or_none(one) == plain_of_c(it)]
        line = self.line(it)
        starts = self.leads[line][1]
        if self.is_activity(function):
            exact = [one for one in exact if self.sources.statement(one.span[0]) in starts] or exact
            same = [one for one in same if self.line(one) == line]
        # (as many as in the text, in one order)
        return [exact[same.index(it)]] if len(same) == len(exact) else exact

    def is_activity(self, function):
        return self.sources.reader.units[function.name[2:]].kind == "activity"

    def line(self, it):
        """The line of the text, counted from 0, in which something stands."""
        return bisect.bisect_left(self.feeds, it.at)

    def put(self, it, spans):
        if not spans:
            return
        lines = list(dict.fromkeys(self.sources.line(start) for start, _ in spans))
        self.found[it] = Spot(self.sources.text(*spans[0]), spans, lines)


def plain_or_none(it):
    return plain_of_c(it) if isinstance(it, Index) or NAME.fullmatch(getattr(it, "name", "")) else None


def plain_of_loop(it):
    return f"while {plain_of_c(it.condition)}"
