"""The tree of a program: its types, expressions, statements and units.

A basic type is its name, as `int32`. Trees are compared by identity, since the same text may stand at two places.
"""
import dataclasses
from typing import Any

node = dataclasses.dataclass(eq=False)


class Placed:
    """What stands somewhere in a text: the places of its first byte and of the byte behind its last, or nothing."""

    span = None


# ---- types


@node
class Array(Placed):
    """An array type."""

    length: int
    element: Any


@node
class Struct(Placed):
    """A struct type, with the type of each field."""

    name: str
    fields: dict


# ---- expressions


@node
class Variable(Placed):
    """A variable, an input or an output of a unit."""

    name: str
    type: Any


@node
class Number(Placed):
    """A number without a type of its own."""

    value: int


@node
class Constant(Placed):
    """A value with its type: `true`, `false`, or what a name of a constant stands for."""

    value: Any
    type: Any


@node
class Field(Placed):
    """A step of a place into a struct."""

    name: str


@node
class Index(Placed):
    """A step of a place into an array."""

    value: Any


@node
class Place(Placed):
    """A variable, or a part of one."""

    variable: Variable
    steps: list


@node
class Previous(Placed):
    """`prev` of a variable."""

    variable: Variable


@node
class Conversion(Placed):
    """`operand as type`."""

    type: str
    operand: Any


@node
class Call(Placed):
    """A call of a function, as an expression."""

    function: Any
    arguments: list


@node
class Unary(Placed):
    """An operator with one operand."""

    operator: str
    operand: Any


@node
class Binary(Placed):
    """An operator with two operands."""

    operator: str
    left: Any
    right: Any


# ---- statements


@node
class Declare(Placed):
    """`var` or `let`, with the value or without."""

    variable: Variable
    value: Any


@node
class Assign(Placed):
    """An assignment."""

    place: Place
    value: Any


@node
class CallStatement(Placed):
    """A call of a function, as a statement."""

    function: Any
    inputs: list
    outputs: list


@node
class Return(Placed):
    """`return`, with the value or without."""

    value: Any


@node
class Await(Placed):
    """`await`."""

    condition: Any


@node
class Run(Placed):
    """`run` of an activity, with the place of its result or without."""

    target: Any
    activity: Any
    inputs: list
    outputs: list


@node
class Cobegin(Placed):
    """`cobegin`: of each branch whether it is weak, and its statements."""

    branches: list


@node
class When(Placed):
    """`when`: the keyword is `abort` or `reset`."""

    keyword: str
    condition: Any
    body: list


@node
class Repeat(Placed):
    """`repeat` without an end."""

    body: list


@node
class Until(Placed):
    """`repeat .. until`."""

    condition: Any
    body: list


@node
class While(Placed):
    """`while`."""

    condition: Any
    body: list


@node
class If(Placed):
    """`if`: of each arm its condition and its statements, the statements behind `else`, and where each test stands."""

    arms: list
    other: list
    tests: list


@node
class Unit(Placed):
    """A function or an activity. Its variables are all that are declared in it, with its inputs and outputs."""

    kind: str
    name: str
    inputs: list
    outputs: list
    result: Any
    variables: list
    body: list


@node
class Act(Placed):
    """What acts by itself: a statement less the statements in it, or the test of an `elseif`.

    It has the kind and the name of its unit, the place where `blechc` says that it stands, the places of its pieces (a loop has
    one where it begins and one where it is tested), and the statement, where none stands in it.
    """

    kind: str
    unit_kind: str
    unit: str
    start: int
    pieces: list
    statement: Any
