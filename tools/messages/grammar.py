"""The grammar of sources as one that tells, of a text that breaks it, what may stand at the first token that doesn't fit.

Each production is a function that goes over its tokens. What was asked for at the token at which it stops is what may stand there.
"""
from reader import BASIC, KEYWORDS, LEVELS, VALUE_BEGINS, tokens_of

COMPARISONS = set(LEVELS[2])
OPERATORS = {it for level in LEVELS for it in level} | {"as"}
# what a value, a statement and an item of the file can begin with
VALUES = {"a name", "a number", *VALUE_BEGINS}
STATEMENTS = {"a name", "var", "let", "const", "await", "run", "cobegin", "when", "repeat", "while", "if", "return"}
ITEMS = {"struct", "const", "@", "function", "activity"}
TYPES = BASIC | {"a name", "["}
# groups of what may stand somewhere, each told by one word
GROUPS = ((STATEMENTS, "a statement"), (VALUES, "a value"), (ITEMS, "an item of the file"), (TYPES, "a type"), (OPERATORS, "an operator"),
          (OPERATORS - COMPARISONS, "an operator that doesn't compare"), (BASIC, "a type word"))
OPENERS = ("function", "activity", "struct", "if", "cobegin", "when", "repeat", "while")


class Stop(Exception):
    """A token that can't stand where it stands."""


def kind_of(token):
    """What the grammar knows of a token."""
    text = token.text
    if text and (text[0].isalpha() or text[0] == "_") and text not in KEYWORDS:
        return "a name"
    return "a number" if text[:1].isdigit() else text


class Asker:
    """The tokens of a text, of which one is next; what was asked of it; and the blocks that are open, each by its first token."""

    def __init__(self, text):
        self.text = text
        self.tokens, self.at, self.asked, self.blocks = tokens_of(text), 0, set(), []
        # a block that seems to lack its `end`, and an `if` that stands directly behind an `else`
        self.suspect = self.chained = None

    def sees(self, *kinds):
        """Whether the next token is of one of these kinds, which may stand there."""
        self.asked.update(kinds)
        return kind_of(self.tokens[self.at]) in kinds

    def eats(self, *kinds):
        """Goes over the next token where it is of one of these kinds."""
        found = self.sees(*kinds)
        if found:
            self.at += 1
            self.asked = set()
        return found

    def eat(self, *kinds):
        """Goes over the next token, which has to be of one of these kinds."""
        if not self.eats(*kinds):
            raise Stop

    def opens(self):
        """Goes over the word that opens a block."""
        if self.tokens[self.at].text == "if" and self.at and self.tokens[self.at - 1].text == "else":
            self.chained = self.tokens[self.at]
        self.blocks.append(self.at)
        self.eat(self.tokens[self.at].text)

    def closes(self):
        """Goes over the `end` of the innermost block. One that stands further left than its block seems to be that of an outer one."""
        end = self.tokens[self.at]
        self.eat("end")
        first = self.tokens[self.blocks.pop()]
        if self.suspect is None and self.begins_line(end) and self.begins_line(first) and self.column(end) < self.column(first):
            self.suspect = first

    def begins_line(self, token):
        """Whether a token is the first one of its line."""
        return not self.front(token).strip()

    def column(self, token):
        """Where a token stands in its line."""
        return len(self.front(token))

    def front(self, token):
        """What stands before a token in its line."""
        return self.text[self.text.rfind("\n", 0, token.start) + 1:token.start]

    def list_of(self, read):
        """A list in parentheses."""
        self.eat("(")
        if not self.eats(")"):
            read()
            while self.eats(","):
                read()
            self.eat(")")


class Values(Asker):
    """Goes over types, places and expressions."""

    def type(self):
        while self.eats("["):
            self.eat("a number", "a name")
            self.eat("]")
            # (what an array holds)
        self.eat(*TYPES)

    def path(self):
        self.eat("a name")
        while self.eats("."):
            self.eat("a name")

    def steps(self):
        """What follows the name of a target."""
        while self.sees(".", "["):
            if self.eats("."):
                self.eat("a name")
            else:
                self.eat("[")
                self.expression()
                self.eat("]")

    def expression(self, level=0):
        if level == len(LEVELS):
            return self.cast()
        self.expression(level + 1)
        while self.eats(*LEVELS[level]):
            self.expression(level + 1)
            if level == 2:
                break
        return None

    def cast(self):
        while self.eats("-", "~", "not"):
            pass
        self.primary()
        while self.eats("as"):
            self.eat(*BASIC)

    def primary(self):
        self.asked.update(VALUES)
        if self.eats("("):
            self.expression()
            self.eat(")")
        elif self.eats("prev"):
            self.eat("a name")
        elif self.eats("a name"):
            if not self.sees("("):
                self.steps()
            else:
                self.list_of(self.expression)
                if self.eats("("):
                    self.eat(")")
        else:
            self.eat("a number", "true", "false")


class Grammar(Values):
    """Goes over statements and items."""

    def stopped(self):
        """The token at which the text can't go on, and nothing where it is a program."""
        try:
            while not self.sees(""):
                self.item()
        except Stop:
            return self.tokens[self.at]
        return None

    def item(self):
        if self.sees("struct"):
            self.opens()
            self.eat("a name")
            self.fields()
        elif self.sees("const"):
            self.constant()
        else:
            if self.eats("@"):
                for it in ("[", "a name", "]"):
                    self.eat(it)
            self.unit()

    def fields(self):
        self.field()
        while self.sees("var"):
            self.field()
        self.closes()

    def field(self):
        self.eat("var")
        self.parameter()

    def constant(self):
        self.eat("const")
        self.eat("a name")
        if self.eats(":"):
            self.type()
        self.eat("=")
        self.expression()

    def unit(self):
        if not self.sees("function", "activity"):
            raise Stop
        self.opens()
        self.eat("a name")
        self.list_of(self.parameter)
        if self.sees("("):
            self.list_of(self.parameter)
        if self.eats("returns"):
            self.type()
        self.block()
        self.closes()

    def parameter(self):
        self.eat("a name")
        self.eat(":")
        self.type()

    def block(self):
        while self.sees(*STATEMENTS):
            self.statement()

    def statement(self):
        word = self.tokens[self.at].text
        ways = {"var": self.variable, "let": self.let, "const": self.constant, "await": self.awaiting, "run": self.run, "return": self.returns,
                "cobegin": self.cobegin, "when": self.when, "repeat": self.repeat, "while": self.whiles, "if": self.ifs}
        ways.get(word, self.named)()

    def named(self):
        """An assignment or a call."""
        self.eat("a name")
        if self.sees("("):
            self.arguments()
            return
        self.steps()
        self.eat("=")
        self.expression()

    def arguments(self):
        self.list_of(self.expression)
        if self.sees("("):
            self.list_of(self.path)

    def variable(self):
        self.eat("var")
        self.eat("a name")
        if self.eats("="):
            self.expression()
            return
        self.eat(":")
        self.type()
        if self.eats("="):
            self.expression()

    def let(self):
        self.eat("let")
        self.eat("a name")
        if self.eats(":"):
            self.type()
        self.eat("=")
        self.expression()

    def awaiting(self):
        self.eat("await")
        self.expression()

    def run(self):
        self.eat("run")
        self.eat("a name")
        if not self.sees("("):
            while self.eats("."):
                self.eat("a name")
            self.eat("=")
            self.eat("a name")
        self.arguments()

    def returns(self):
        line = self.tokens[self.at].line
        self.eat("return")
        following = self.tokens[self.at]
        if following.line == line:
            self.asked.update(VALUES)
            if kind_of(following) in VALUES:
                self.expression()

    def cobegin(self):
        self.opens()
        while True:
            self.eats("weak")
            self.block()
            if not self.eats("with"):
                break
        self.closes()

    def when(self):
        self.opens()
        self.expression()
        self.eat("abort", "reset")
        self.block()
        self.closes()

    def repeat(self):
        self.opens()
        self.block()
        if self.eats("until"):
            self.expression()
        self.closes()

    def whiles(self):
        self.opens()
        self.expression()
        self.eat("repeat")
        self.block()
        self.closes()

    def ifs(self):
        self.opens()
        self.expression()
        self.eat("then")
        self.block()
        while self.eats("elseif"):
            self.expression()
            self.eat("then")
            self.block()
        if self.eats("else"):
            self.block()
        self.closes()


def listed(kinds):
    """What may stand somewhere, in words: groups first, then single words."""
    left, told = set(kinds), []
    for group, name in GROUPS:
        if group <= left:
            told.append(name)
            left -= group - ({"a name"} if name == "a statement" else set())
    if any(group <= kinds and "a name" in group for group, _ in GROUPS):
        left.discard("a name")
    words = [it if it.startswith("a ") else "the text's end" if not it else f"`{it}`" for it in sorted(left)]
    return told + words
