"""Expressions about inputs and outputs: what is asked to hold in every tick, and what may be assumed of inputs.

Numbers are exact, so nothing overflows. A quotient is rounded towards zero, and by 0 it is 0, as what it leaves is. `prev(x)` is x at the end of the
tick before, and in the first tick 0 or false.
"""
import dataclasses
import re
from typing import Any

from shared import Fault

from . import prelude, ranges
from .text import SCALARS, Binary, Literal, Not, Place, Variable

# the status where an expression or a name in it doesn't fit
UNFIT = 4
TOKEN = re.compile(r"\s*(\d+|\w+|=>|==|!=|<=|>=|&&|\|\||[-+*/%()<>!])")
COMPARISONS = ("==", "!=", "<", "<=", ">", ">=")
node = dataclasses.dataclass(eq=False)


@node
class Number:
    """A number, or a truth value."""

    value: int
    truth: bool


@node
class Port:
    """An input or output, or what it was at the end of the tick before."""

    name: str
    previous: bool
    truth: bool


@node
class Operation:
    """An operator with its operands."""

    sign: str
    operands: list
    truth: bool


class Reader:
    """Reads an expression over the inputs and outputs of a program."""

    def __init__(self, text, program):
        self.text, self.program, self.at = text, program, 0
        self.ports = {**program.ports(program.inputs), **program.ports(program.outputs)}
        self.tokens = self.cut()

    def fault(self, what):
        return Fault(f"`{self.text}`: {what}", UNFIT)

    def cut(self):
        found, at, end = [], 0, len(self.text.rstrip())
        while at < end:
            it = TOKEN.match(self.text, at)
            if not it:
                raise self.fault(f"no token of an expression begins with `{self.text[at:].strip()[0]}`")
            found.append(it.group(1))
            at = it.end()
        return [*found, ""]

    def eats(self, *signs):
        """The next token, where it is one of some."""
        if self.tokens[self.at] not in signs:
            return None
        self.at += 1
        return self.tokens[self.at - 1]

    def whole(self):
        """The truth value that the whole text is."""
        found = self.implied()
        if self.tokens[self.at]:
            raise self.fault(f"`{self.tokens[self.at]}` isn't expected")
        if not found.truth:
            raise self.fault("it is a number, and a truth value is wanted")
        return found

    def operation(self, sign, operands, of_truth, truth):
        for it in operands:
            if it.truth != of_truth:
                raise self.fault(f"`{sign}` takes {'truth values' if of_truth else 'numbers'}")
        return Operation(sign, operands, truth)

    def implied(self):
        left = self.joined("||")
        if self.eats("=>"):
            return self.operation("=>", [left, self.implied()], True, True)
        return left

    def joined(self, sign):
        read = (lambda: self.joined("&&")) if sign == "||" else self.compared
        left = read()
        while self.eats(sign):
            left = self.operation(sign, [left, read()], True, True)
        return left

    def compared(self):
        left = self.summed(("+", "-"))
        sign = self.eats(*COMPARISONS)
        if not sign:
            return left
        right = self.summed(("+", "-"))
        if left.truth != right.truth or (left.truth and sign not in ("==", "!=")):
            raise self.fault(f"`{sign}` has operands of types that don't fit")
        return Operation(sign, [left, right], True)

    def summed(self, signs):
        read = (lambda: self.summed(("*", "/", "%"))) if "+" in signs else self.unary
        left = read()
        while True:
            sign = self.eats(*signs)
            if not sign:
                return left
            left = self.operation(sign, [left, read()], False, False)

    def unary(self):
        sign = self.eats("-", "!")
        if sign:
            return self.operation(sign, [self.unary()], sign == "!", sign == "!")
        if self.eats("("):
            found = self.implied()
            self.close()
            return found
        return self.operand()

    def close(self):
        if not self.eats(")"):
            raise self.fault("a `)` is missing")

    def operand(self):
        text = self.tokens[self.at]
        self.at += bool(text)
        if text.isdecimal():
            return Number(int(text), False)
        if text in ("true", "false"):
            return Number(int(text == "true"), True)
        if text == "prev" and self.eats("("):
            found = self.port(self.tokens[self.at], True)
            self.at += 1
            self.close()
            return found
        return self.port(text, False)

    def port(self, name, previous):
        if not re.match(r"[A-Za-z_]", name):
            raise self.fault(f"`{name}` isn't expected" if name else "it ends too early")
        if name not in self.ports:
            raise self.fault(f"`{name}` is no input or output: those are {', '.join(self.ports) or 'none'}")
        return Port(name, previous, self.program.types[self.ports[name]].name == "bool")


def read(text, program):
    """The expression of a text, which is a truth value."""
    return Reader(text, program).whole()


WORKS = {"+": "add", "-": "subtract", "*": "multiply", "&&": "both", "||": "either"}


def value(it, domain, port):
    """What an expression comes to over an arithmetic, where `port` gives the value of an input or output."""
    if isinstance(it, Number):
        return domain.constant(it.value, it.truth)
    if isinstance(it, Port):
        return port(it.name, it.previous)
    operands = [value(one, domain, port) for one in it.operands]
    if it.sign == "!":
        return domain.negation(*operands)
    if it.sign == "=>":
        return domain.either(domain.negation(operands[0]), operands[1])
    if it.sign in COMPARISONS:
        return prelude.compared(domain, it.sign, *operands)
    if it.sign in ("/", "%"):
        found = (domain.quotient if it.sign == "/" else domain.remainder)(*operands)
        return domain.choose(domain.equal(operands[1], domain.number(0)), domain.number(0), found)
    if len(operands) == 1:
        return domain.subtract(domain.number(0), *operands)
    return getattr(domain, WORKS[it.sign])(*operands)


def holds(it, port):
    """Whether an expression is true of numbers."""
    return value(it, ranges, lambda *asked: ranges.number(int(port(*asked)))) == ranges.TRUE


# ---- what ranges can be told of an assumption


def condition_of(it, program):
    """The expression as a condition of C on what stands in memory when a tick begins; nothing where it is none."""
    if isinstance(it, Number):
        return Literal(it.value, SCALARS["bool" if it.truth else "int64_t"], 0)
    if isinstance(it, Port):
        return place_of(it, program)
    parts = [condition_of(one, program) for one in it.operands]
    if it.sign == "&&":
        known = [one for one in parts if one]
        return Binary("&&", *parts, 0) if len(known) == 2 else known[0] if known else None
    if not all(parts):
        return None
    if it.sign == "!":
        return Not(parts[0], 0)
    if it.sign == "=>":
        return Binary("||", Not(parts[0], 0), parts[1], 0)
    return Binary(it.sign, *parts, 0) if it.sign in (*COMPARISONS, "||") else negative(it, parts)


def negative(it, parts):
    """A number behind a minus."""
    if it.sign == "-" and len(parts) == 1 and isinstance(parts[0], Literal):
        return Literal(-parts[0].value, parts[0].type, 0)
    return None


def place_of(it, program):
    """Where an input, or an output of the tick before, stands when a tick begins."""
    inputs, outputs = program.ports(program.inputs), program.ports(program.outputs)
    if it.previous == (it.name in inputs):
        return None
    address = inputs[it.name] if it.name in inputs else outputs[it.name]
    kind = program.types[address]
    return Place(Variable(it.name, kind, False, address), 0, [], kind, 0, [it.name])
