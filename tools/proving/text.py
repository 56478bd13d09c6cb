"""Reads a C text of the subset (docs/C_SUBSET.md) into a program whose places in memory are numbers.

The text is taken as well formed, as `blechc` leaves it. No function calls itself, so each has its parameters and locals at addresses of its own.
"""
import collections
import dataclasses
import re
from typing import Any

from shared import Fault

node = dataclasses.dataclass(eq=False, repr=False)
Scalar = collections.namedtuple("Scalar", "name low high")
# the type of a member, how many of them it has (0 where it is no array), and the cells before it
Member = collections.namedtuple("Member", "type length offset")
TOKEN = re.compile(r"\s+|(\w+|==|!=|<=|>=|&&|\|\||.)", re.S)
LITERAL = re.compile(r"(U?)INT(8|16|32|64)_(C|MIN)")


def scalar_types():
    """The scalar types of C, and by their names in the prelude the types that those work on."""
    found = {"bool": Scalar("bool", 0, 1)}
    for width in (8, 16, 32, 64):
        found[f"int{width}_t"] = Scalar(f"i{width}", -(1 << width - 1), (1 << width - 1) - 1)
        found[f"uint{width}_t"] = Scalar(f"n{width}", 0, (1 << width) - 1)
    return found


SCALARS = scalar_types()


class Struct:
    """A struct of C: its members by name, and how many cells it has."""

    def __init__(self, name):
        self.name, self.members, self.size = name, {}, 0

    def add(self, name, kind, length):
        self.members[name] = Member(kind, length, self.size)
        self.size += size_of(kind) * max(1, length)


def size_of(kind):
    """How many cells a value of a type has."""
    return kind.size if isinstance(kind, Struct) else 1


def cells_of(kind, path):
    """The cells of a value of a type, each with its path and type."""
    if not isinstance(kind, Struct):
        yield path, kind
        return
    for name, it in kind.members.items():
        for at in range(max(1, it.length)):
            yield from cells_of(it.type, f"{path}.{name}[{at}]" if it.length else f"{path}.{name}")


# ---- expressions


@node
class Literal:
    """A number of a type; `true` is 1."""

    value: int
    type: Scalar
    at: int


@node
class Index:
    """An index of a place: how many elements there are, and how many cells apart they are."""

    kind: str
    value: Any
    length: int
    stride: int
    at: int


@node
class Place:
    """A part of a variable: the cells before it, and its indices."""

    variable: Any
    offset: int
    indices: list
    type: Any
    at: int
    # how it is written, for whom it is shown
    path: list


@node
class Address:
    """`&` and a place."""

    place: Place


@node
class Not:
    """`!` and an operand."""

    operand: Any
    at: int


@node
class Binary:
    """A comparison, `&&` or `||`."""

    operator: str
    left: Any
    right: Any
    at: int


@node
class Call:
    """A call of a function of the text, or of the prelude."""

    name: str
    arguments: list
    function: Any
    at: int


# ---- statements


@node
class Assign:
    """An assignment of a value. Without a value it clears the place."""

    place: Place
    value: Any
    at: int


@node
class CallStatement:
    """A call whose result is dropped."""

    call: Call
    at: int


@node
class If:
    """`if`."""

    condition: Any
    then: list
    other: list
    at: int


@node
class Loop:
    """`while`, whose turns are counted."""

    condition: Any
    body: list
    at: int


@node
class Break:
    """`break`."""

    at: int


@node
class Return:
    """`return`, with the value or without."""

    value: Any
    at: int


@node
class Variable:
    """A parameter or a local. A pointer has no address: what it points to is known where its function is called."""

    name: str
    type: Any
    pointer: bool
    address: int


@node
class Function:
    """A function: the type of its result, its parameters, its locals, its statements, and the addresses of its own cells."""

    name: str
    result: Any
    parameters: list
    locals: list
    body: list
    first: int
    last: int


class Program:
    """A C text: its structs and functions. The first cells of memory are those of the state, of the inputs and of the outputs."""

    def __init__(self):
        self.structs, self.functions, self.types, self.paths = {}, {}, [], []
        self.state = self.inputs = self.outputs = range(0)

    def allot(self, kind, path):
        """Gives addresses to a value of a type: the first of them."""
        first = len(self.types)
        for here, scalar in cells_of(kind, path):
            self.types.append(scalar)
            self.paths.append(here)
        return first

    def allot_objects(self):
        """Gives addresses to the three objects."""
        for name, part in (("state", "bl_state"), ("inputs", "bl_in"), ("outputs", "bl_out")):
            if part not in self.structs:
                raise Fault(f"no C text of blechc, for it has no struct {part}", 4)
            first = self.allot(self.structs[part], {"state": "s", "inputs": "i", "outputs": "o"}[name])
            setattr(self, name, range(first, len(self.types)))

    @property
    def kept(self):
        """The cells that stay from tick to tick."""
        return range(0, self.outputs.stop)

    def ports(self, part):
        """The inputs or outputs: each name with its address."""
        return {self.paths[at][4:]: at for at in part[1:]}


class Reader:
    """Reads a text from its front. `Fault` tells where it is none of the subset."""

    def __init__(self, text):
        self.text, self.at, self.program = text, 0, Program()
        start = re.search(r"^struct\b", text, re.M)
        if not start:
            raise Fault("no C text of blechc, for it has no struct", 4)
        found = [(it.group(1), it.start()) for it in TOKEN.finditer(text, start.start()) if it.group(1)]
        self.tokens = [text for text, _ in found] + [""]
        self.starts = [at for _, at in found] + [len(text)]
        self.names = {}

    # ---- tokens

    def next(self, ahead=0):
        return self.tokens[min(self.at + ahead, len(self.tokens) - 1)]

    def place(self):
        """Where the next token begins."""
        return self.starts[self.at]

    def eat(self, wanted=None):
        found = self.next()
        if not found or wanted not in (None, found):
            raise Fault(f"the C text has `{found}` at {self.place()}, where `{wanted or 'more'}` is wanted", 4)
        self.at += 1
        return found

    def eats(self, wanted):
        if self.next() != wanted:
            return False
        self.at += 1
        return True

    def all(self, *wanted):
        for it in wanted:
            self.eat(it)

    # ---- structs, functions

    def read(self):
        """The program of the whole text."""
        while self.next() == "struct":
            self.struct()
        self.program.allot_objects()
        while self.next():
            self.function()
        if not {"bl_init", "bl_tick"} <= self.program.functions.keys():
            raise Fault("no C text of blechc, for it has no bl_init and bl_tick", 4)
        return self.program

    def struct(self):
        self.eat("struct")
        found = Struct(self.eat())
        self.eat("{")
        while not self.eats("}"):
            kind, name, length = self.type(), self.eat(), 0
            if self.eats("["):
                length = int(self.eat())
                self.eat("]")
            self.eat(";")
            found.add(name, kind, length)
        self.eat(";")
        self.program.structs[found.name] = found

    def type(self):
        """A type; `void` is none."""
        name = self.eat()
        if name == "struct":
            name = self.eat()
            return self.known(self.program.structs, name)
        return None if name == "void" else self.known(SCALARS, name)

    def known(self, table, name):
        if name not in table:
            raise Fault(f"the C text has `{name}` before {self.place()}, which isn't declared", 4)
        return table[name]

    def function(self):
        self.eats("static")
        result = self.type()
        name, first = self.eat(), len(self.program.types)
        self.names = {}
        parameters = self.list(self.parameter)
        self.eat("{")
        variables = []
        while self.next() in SCALARS or self.next() == "struct":
            variables.append(self.local())
        body = self.statements()
        self.program.functions[name] = Function(name, result, parameters, variables, body, first, len(self.program.types))

    def list(self, read):
        """A list in parentheses."""
        self.eat("(")
        found = []
        while not self.eats(")"):
            if found:
                self.eat(",")
            found.append(read())
        return found

    def declare(self, kind, pointer):
        name = self.eat()
        address = None if pointer else self.program.allot(kind, name)
        self.names[name] = Variable(name, kind, pointer, address)
        return self.names[name]

    def parameter(self):
        kind = self.type()
        return self.declare(kind, self.eats("*"))

    def local(self):
        found = self.declare(self.type(), False)
        self.all(*(("=", "{", "0", "}", ";") if isinstance(found.type, Struct) else ("=", "0", ";")))
        return found

    # ---- statements

    def statements(self):
        """Statements up to the brace that closes them."""
        found = []
        while not self.eats("}"):
            found.append(self.statement())
        return found

    def statement(self):
        at, first = self.place(), self.next()
        if first == "if":
            return self.choice(at)
        if first == "{":
            return self.loop(at)
        if self.eats("break"):
            self.eat(";")
            return Break(at)
        if self.eats("return"):
            value = None if self.next() == ";" else self.expression()
            self.eat(";")
            return Return(value, at)
        if self.next(1) == "(" and first != "(":
            call = self.expression()
            self.eat(";")
            return CallStatement(call, at)
        return self.assignment(at)

    def assignment(self, at):
        place = self.variable()
        self.eat("=")
        if self.next() == "(" and self.next(1) == "struct":
            self.all("(", "struct")
            self.eat()
            self.all(")", "{", "0", "}", ";")
            return Assign(place, None, at)
        value = self.expression()
        self.eat(";")
        return Assign(place, value, at)

    def choice(self, at):
        self.all("if", "(")
        condition = self.expression()
        self.all(")", "{")
        then, other = self.statements(), []
        if self.eats("else"):
            self.eat("{")
            other = self.statements()
        return If(condition, then, other, at)

    def loop(self, at):
        self.all("{", "uint32_t")
        turn = self.eat()
        self.all("=", "0", ";", "while", "(")
        condition = self.expression()
        self.all(")", "{", turn, "=", "bl_turn", "(", turn, ")", ";")
        body = self.statements()
        self.eat("}")
        return Loop(condition, body, at)

    # ---- expressions

    def expression(self):
        at, first = self.place(), self.next()
        if first == "(":
            return self.bracketed(at)
        if first in ("true", "false"):
            return Literal(int(self.eat() == "true"), SCALARS["bool"], at)
        if LITERAL.fullmatch(first):
            return self.literal(at)
        if self.next(1) == "(":
            name = self.eat()
            return Call(name, self.list(self.argument), self.program.functions.get(name), at)
        return self.variable()

    def bracketed(self, at):
        """What begins with a parenthesis."""
        if self.next(1) == "*":
            return self.variable()
        self.eat("(")
        if self.eats("!"):
            found = Not(self.expression(), at)
        elif self.eats("-"):
            found = self.literal(at)
            found.value = -found.value
        else:
            left = self.expression()
            operator = self.eat()
            found = Binary(operator, left, self.expression(), at)
        self.eat(")")
        return found

    def literal(self, at):
        unsigned, width, form = LITERAL.fullmatch(self.eat()).groups()
        kind = SCALARS[f"{'u' if unsigned else ''}int{width}_t"]
        if form == "MIN":
            return Literal(kind.low, kind, at)
        self.eat("(")
        value = int(self.eat())
        self.eat(")")
        return Literal(value, kind, at)

    def argument(self):
        return Address(self.variable()) if self.eats("&") else self.expression()

    def variable(self):
        """A place."""
        at, pointer = self.place(), self.eats("(")
        if pointer:
            self.eat("*")
        found = self.known(self.names, self.eat())
        if pointer:
            self.eat(")")
        place = Place(found, 0, [], found.type, at, [found.name])
        while self.eats("."):
            self.member(place)
        return place

    def member(self, place):
        """One more member of a place."""
        name = self.eat()
        it = self.known(place.type.members, name) if isinstance(place.type, Struct) else self.known({}, name)
        place.offset += it.offset
        place.type = it.type
        place.path.append(name)
        if self.next() == "[":
            at = self.place()
            self.eat("[")
            kind = self.eat()
            self.eat("(")
            value = self.expression()
            self.eat(",")
            length = int(self.eat())
            self.all(")", "]")
            place.indices.append(Index(kind, value, length, size_of(it.type), at))
            place.path.append(place.indices[-1])


def program_of(text):
    """The program of a C text."""
    return Reader(text).read()


def parts_of(it):
    """The nodes that a node has in it, in the order of the text."""
    for name, value in vars(it).items():
        if name == "path":
            # (whose indices are told already)
            continue
        for part in value if isinstance(value, list) else [value]:
            if dataclasses.is_dataclass(part) and not isinstance(part, (Variable, Function)):
                yield part


def nodes_of(items):
    """All nodes of statements or expressions, in the order of the text."""
    waiting = list(reversed(items))
    while waiting:
        it = waiting.pop()
        yield it
        waiting.extend(reversed(list(parts_of(it))))
