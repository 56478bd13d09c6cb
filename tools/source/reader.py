"""Reads the text of a program that `check` has accepted: tokens, from these its tree, and where what acts in it stands.

No rule is looked at here: where the text is no program, this fails somehow. Where each byte of a source is one character of
the text, places are those that `blechc` tells.
"""
import collections
import re

import tree
from functions import Evaluator
from values import DEFAULT, type_of

BASIC = {"bool", *(f"{kind}{bits}" for kind in ("int", "nat", "bits") for bits in (8, 16, 32, 64))}
KEYWORDS = BASIC | set(
    "function activity returns return struct var let const if then elseif else end await run cobegin weak with when abort reset"
    " repeat until while prev as not and or true false".split()
)
Token = collections.namedtuple("Token", "text line start end")
TOKEN = re.compile(r"(?P<feed>\n)|[ \t\r]+|//[^\n]*|/\*(?P<comment>.*?)\*/|(?P<token>\w+|==|!=|<=|>=|<<|>>|.)", re.S)
# the operators with two operands, those that bind least first
LEVELS = [it.split() for it in ("or", "and", "== != < <= > >=", "|", "^", "&", "<< >>", "+ -", "* / %")]
# comparisons aren't chained
COMPARING = 2
BLOCK_ENDS = ("end", "elseif", "else", "with", "until", "")
# what a value can begin with behind `return`, besides names and numbers
VALUE_BEGINS = ("(", "-", "~", "not", "true", "false", "prev")


def tokens_of(text):
    """The tokens of a text, each with the number of its line and its place, and an empty one at the end."""
    found, line = [], 0
    for it in TOKEN.finditer(text):
        if it.group("token"):
            found.append(Token(it.group("token"), line, *it.span()))
        line += bool(it.group("feed")) + (it.group("comment") or "").count("\n")
    return found + [Token("", line, len(text), len(text))]


def number_of(text):
    """What a token of digits stands for, decimal, or by its front binary, octal or hexadecimal."""
    return int(text) if text.isdecimal() else int(text, 0)


class Tokens:
    """The tokens of a text, of which one is next."""

    def __init__(self, text):
        self.tokens, self.at = tokens_of(text), 0

    def next(self, ahead=0):
        return self.tokens[self.at + ahead].text

    def eat(self, wanted=None):
        """Goes over a token: its text."""
        found = self.next()
        assert wanted in (None, found), f"`{found}` stands where `{wanted}` is wanted, at token {self.at}"
        self.at += 1
        return found

    def eats(self, wanted):
        """Goes over a token where it is the wanted one."""
        if self.next() != wanted:
            return False
        self.at += 1
        return True

    def list(self, read):
        """A list in parentheses."""
        self.eat("(")
        found = []
        while not self.eats(")"):
            if found:
                self.eat(",")
            found.append(read())
        return found

    def begins_value(self):
        """Whether a value stands behind `return`: only what stands on the line of it is one."""
        text, line = self.tokens[self.at][:2]
        name = text and text not in KEYWORDS and (text[0].isalnum() or text[0] == "_")
        return line == self.tokens[self.at - 1].line and (name or text in VALUE_BEGINS)

    def place_from(self, first):
        """The place from a token to the last one that was gone over."""
        return self.tokens[first].start, self.tokens[self.at - 1].end

    def placed(self, first, found):
        """What was read from a token on, with its place."""
        found.span = self.place_from(first)
        return found

    def inner(self, first):
        """Where what begins with a token and was just gone over begins, less the parentheses around the whole of it."""
        last = self.at - 1
        while self.next(first - self.at) == "(" and self.closing(first) == last:
            first, last = first + 1, last - 1
        return self.tokens[first].start

    def closing(self, first):
        """The token that closes the parenthesis that a token opens."""
        depth, at = 1, first
        while depth:
            at += 1
            depth += (self.tokens[at].text == "(") - (self.tokens[at].text == ")")
        return at


class Names(Tokens):
    """Names and what they stand for, and what is read of names: types, places, parameters."""

    def __init__(self, text):
        super().__init__(text)
        self.structs, self.units, self.scopes, self.variables, self.constants, self.used = {}, {}, [{}], [], [], set()

    def found(self, name):
        """What a name of a constant or variable stands for."""
        found = next(scope[name] for scope in reversed(self.scopes) if name in scope)
        self.used.add(id(found))
        return found

    def declare(self, name, kind, place=None):
        variable = tree.Variable(name, kind)
        variable.span = place
        self.variables.append(variable)
        self.scopes[-1][name] = variable
        return variable

    def type(self):
        if self.eats("["):
            text = self.eat()
            length = number_of(text) if text[0].isdigit() else self.found(text).value
            self.eat("]")
            return tree.Array(length, self.type())
        name = self.eat()
        return name if name in BASIC else self.structs[name]

    def named_type(self):
        """A name, and behind a colon its type."""
        name = self.eat()
        self.eat(":")
        return name, self.type()

    def parameters(self):
        return self.list(self.parameter)

    def parameter(self):
        start, end = self.tokens[self.at].start, self.tokens[self.at].end
        return self.declare(*self.named_type(), (start, end))

    def path(self):
        """A place without indices."""
        first, variable, steps = self.at, self.found(self.eat()), []
        while self.eats("."):
            steps.append(self.field())
        return self.placed(first, tree.Place(variable, steps))

    def field(self):
        first = self.at
        return self.placed(first, tree.Field(self.eat()))


class Expressions(Names):
    """Reads expressions."""

    def expression(self, level=0):
        if level == len(LEVELS):
            return self.conversion()
        first, left = self.at, self.expression(level + 1)
        while self.next() in LEVELS[level]:
            operator = self.eat()
            left = self.placed(first, tree.Binary(operator, left, self.expression(level + 1)))
            if level == COMPARING:
                break
        return left

    def conversion(self):
        first, operand = self.at, self.unary()
        while self.eats("as"):
            operand = self.placed(first, tree.Conversion(self.eat(), operand))
        return operand

    def unary(self):
        first, text = self.at, self.next()
        if text == "-" and self.next(1)[:1].isdigit():
            self.eat()
            return self.placed(first, tree.Number(-number_of(self.eat())))
        if text in ("-", "~", "not"):
            return self.placed(first, tree.Unary(self.eat(), self.unary()))
        if self.eats("("):
            inner = self.expression()
            self.eat(")")
            return inner
        return self.placed(first, self.operand(text))

    def operand(self, text):
        if text in ("true", "false"):
            return tree.Constant(self.eat() == "true", "bool")
        if self.eats("prev"):
            return tree.Previous(self.found(self.eat()))
        if text[0].isdigit():
            return tree.Number(number_of(self.eat()))
        if self.next(1) == "(":
            return self.call()
        found = self.found(text)
        if isinstance(found, tree.Constant):
            self.eat()
            return tree.Constant(found.value, found.type)
        return self.place()

    def call(self):
        function, inputs = self.units[self.eat()], self.list(self.expression)
        if self.next() == "(" and self.next(1) == ")":
            self.list(self.path)
        return tree.Call(function, inputs)

    def place(self):
        """A place, with indices."""
        first, variable, steps = self.at, self.found(self.eat()), []
        while self.next() in (".", "["):
            if self.eat() == ".":
                steps.append(self.field())
            else:
                index = tree.Index(self.expression())
                self.eat("]")
                # (its place is that of what is indexed, too)
                steps.append(self.placed(first, index))
        return self.placed(first, tree.Place(variable, steps))


class Reader(Expressions):
    """Reads statements, units and the whole program. `acts` is what acts in it, in source order."""

    def __init__(self, text):
        super().__init__(text)
        self.acts, self.head = [], None

    def act(self, kind, first, start=None):
        """Tells that what was gone over from a token on acts by itself."""
        place = self.place_from(first)
        self.acts.append(tree.Act(kind, *self.head, place[0] if start is None else start, [place], None))
        return self.acts[-1]

    def program(self):
        """The entry of the program."""
        entry = None
        while self.next():
            if self.next() == "struct":
                self.struct()
            elif self.next() == "const":
                self.const()
            else:
                marked = self.eats("@")
                for it in ("[", "EntryPoint", "]") if marked else ():
                    self.eat(it)
                unit = self.unit()
                entry = unit if marked else entry
        return entry

    def struct(self):
        self.eat("struct")
        name, fields = self.eat(), {}
        while self.eats("var"):
            field, kind = self.named_type()
            fields[field] = kind
        self.eat("end")
        self.structs[name] = tree.Struct(name, fields)

    def const(self):
        self.eat("const")
        first, name = self.at, self.eat()
        place, kind = self.place_from(first), self.type() if self.eats(":") else None
        self.eat("=")
        value = self.expression()
        found = self.scopes[-1][name] = self.constant(kind, value)
        found.span, found.name = place, name
        self.constants.append(found)

    def constant(self, kind, value):
        """A constant of a written type, or of none, and of a value."""
        kind = kind or type_of(value) or DEFAULT
        return tree.Constant(Evaluator().value(value, kind), kind)

    def unit(self):
        # (`function` or `activity`)
        kind = self.eat()
        first, name, self.variables = self.at, self.eat(), []
        self.head, place = (kind, name), self.place_from(first)
        self.scopes.append({})
        inputs = self.parameters()
        outputs = self.parameters() if self.next() == "(" else []
        result = self.type() if self.eats("returns") else None
        unit = tree.Unit(kind, name, inputs, outputs, result, self.variables, self.statements())
        unit.span = place
        self.eat("end")
        self.scopes.pop()
        self.units[name] = unit
        return unit

    def block(self):
        """Statements with a scope of their own."""
        self.scopes.append({})
        found = self.statements()
        self.scopes.pop()
        return found

    def statements(self):
        found = []
        while self.next() not in BLOCK_ENDS:
            if self.next() == "const":
                self.const()
            else:
                found.append(self.statement())
        return found

    def statement(self):
        """A statement. One in which statements stand tells by itself what acts in it."""
        first = self.at
        around = {"cobegin": self.cobegin, "when": self.when, "repeat": self.repeat, "while": self.whiles, "if": self.ifs}
        if self.next() in around:
            return self.placed(first, around[self.eat()](first))
        kind, found = self.plain()
        self.act(kind, first).statement = found
        return self.placed(first, found)

    def plain(self):
        """A statement in which no statement stands, and what it is called."""
        readers = {"var": self.variable, "let": self.variable, "await": self.awaiting, "run": self.run, "return": self.returns}
        if self.next() in readers:
            kind = self.eat()
            return kind, readers[kind]()
        if self.next(1) == "(":
            return "call", tree.CallStatement(self.units[self.eat()], *self.arguments())
        place = self.place()
        self.eat("=")
        return "=", tree.Assign(place, self.expression())

    def arguments(self):
        """What inputs get, and the places that outputs stand for."""
        return self.list(self.expression), self.list(self.path) if self.next() == "(" else []

    def variable(self):
        first, name = self.at, self.eat()
        place, kind = self.place_from(first), self.type() if self.eats(":") else None
        value = self.expression() if self.eats("=") else None
        # (the name stands for the variable only behind its value)
        return tree.Declare(self.declare(name, kind or type_of(value) or DEFAULT, place), value)

    def awaiting(self):
        return tree.Await(self.expression())

    def run(self):
        target = None
        if self.next(1) != "(":
            target = self.path()
            self.eat("=")
        return tree.Run(target, self.units[self.eat()], *self.arguments())

    def cobegin(self, first):
        self.act("cobegin", first)
        branches = []
        while not branches or self.eats("with"):
            weak = self.eats("weak")
            branches.append((weak, self.block()))
        self.eat("end")
        return tree.Cobegin(branches)

    def ended(self, statement):
        self.eat("end")
        return statement

    def when(self, first):
        condition, keyword = self.expression(), self.eat()
        self.act("when", first)
        return self.ended(tree.When(keyword, condition, self.block()))

    def repeat(self, first):
        act, body, last = self.act("repeat", first), self.block(), self.at
        if not self.eats("until"):
            return self.ended(tree.Repeat(body))
        condition = self.expression()
        act.pieces.append(self.place_from(last))
        return self.ended(tree.Until(condition, body))

    def whiles(self, first):
        condition = self.expression()
        self.eat("repeat")
        self.act("while", first)
        return self.ended(tree.While(condition, self.block()))

    def ifs(self, first):
        arms, tests = [], []
        while not arms or self.eats("elseif"):
            keyword = self.at - 1
            condition = self.expression()
            # (the test of an `elseif` stands where its condition does)
            start = self.inner(keyword + 1) if arms else None
            self.eat("then")
            tests.append(self.act("elseif" if arms else "if", keyword, start).start)
            arms.append((condition, self.block()))
        return self.ended(tree.If(arms, self.block() if self.eats("else") else [], tests))

    def returns(self):
        return tree.Return(self.expression() if self.begins_value() else None)
