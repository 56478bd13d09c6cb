"""What a text that breaks the grammar, or has a byte of no token, most likely means."""
from grammar import COMPARISONS, ITEMS, OPERATORS, kind_of
from reader import BASIC, KEYWORDS

# bytes that begin no token, and what is written in their place
BYTES = {
    "!": "`!` is written `not`; `!=` is one sign, without a blank in it.",
    ";": "Statements have no `;` behind them: delete it. They may stand on one line.",
    '"': "There are no texts in the language: use numbers and constants.",
    "'": "There are no texts in the language: use numbers and constants.",
    "#": "There is no preprocessor: use `const`, and `link` for several files.",
    "?": "There is no `c ? a : b`: write `if c then x = a else x = b end`.",
    "\\": "A line needs no sign to go on: line ends have no meaning.",
    "$": "A name has letters, digits and `_`.",
    "`": "A name has letters, digits and `_`.",
}
# words of other languages, which are names here
FOREIGN = {
    "for": "There is no `for`: count in a variable, `while k < N repeat .. k = k + 1 end`, or `repeat .. until k == N end`.",
    "break": "There is no `break`: put what ends the loop into its `while` or `until`, or `return` from a function.",
    "continue": "There is no `continue`: put the rest of the body into an `if`.",
    "switch": "There is no `switch`: write `if .. then .. elseif .. then .. else .. end`.",
    "case": "There is no `case`: write `if .. then .. elseif .. then .. else .. end`.",
    "loop": "A loop is `repeat .. end`, `repeat .. until c end` or `while c repeat .. end`.",
    "do": "A loop is `while c repeat .. end`.",
    "elif": "It is written `elseif`.",
    "elsif": "It is written `elseif`.",
    "endif": "`endif` is written `end`, as the end of each block.",
    "goto": "There is no `goto`.",
    "print": "There is no output but those of the entry: the trace shows them.",
    "void": "A function without a result has no `returns`.",
    "def": "Units begin with `function` or `activity`.",
    "fn": "Units begin with `function` or `activity`.",
    "func": "Units begin with `function` or `activity`.",
    "wait": "It is written `await`.",
    "pause": "`pause` is written `await true`.",
    "emit": "An output is set by an assignment.",
    "null": "There is no `null`: a bool beside the value tells whether it is there.",
}
FOREIGN_TYPES = {"int": "int32", "uint": "nat32", "integer": "int32", "boolean": "bool", "byte": "nat8", "char": "nat8", "short": "int16",
                 "long": "int64", **{f"uint{it}": f"nat{it}" for it in (8, 16, 32, 64)}, **{f"u{it}": f"nat{it}" for it in (8, 16, 32, 64)},
                 **{f"i{it}": f"int{it}" for it in (8, 16, 32, 64)}, **{f"{sign}int{it}_t": f"{kind}{it}" for it in (8, 16, 32, 64)
                                                                      for sign, kind in (("", "int"), ("u", "nat"))}}


def of_byte(text, at):
    """What a byte that begins no token most likely means."""
    sign = text[at:at + 1]
    if text[at:at + 2] == "/*":
        return "The comment that begins here isn't closed: put `*/` behind it."
    if sign.isdigit():
        return "A word that begins with a digit is a number: decimal, `0x` and hexadecimal digits, or `0b` and binary ones."
    return BYTES.get(sign, "Delete it: outside of comments a source has ASCII letters, digits, `_` and the signs of the language alone.")


class Spot:
    """The token at which a text stops being a program, the tokens around it, what may stand there, and the open blocks."""

    def __init__(self, grammar):
        self.grammar, self.tokens, self.at, self.may = grammar, grammar.tokens, grammar.at, grammar.asked
        self.here, self.before, self.behind = self.word(0), self.word(-1), self.word(1)

    def word(self, way):
        """The text of a token near the place."""
        at = self.at + way
        return self.tokens[at].text if 0 <= at < len(self.tokens) else ""

    def alone(self, way):
        """The text of a token near the place that has a line of its own; nothing for any other one."""
        at = self.at + way
        near = [it.line for it in self.tokens[max(0, at - 1):at + 2]]
        return self.word(way) if near.count(self.tokens[at].line) == 1 else ""

    def touches(self):
        """Whether the next token stands directly behind this one."""
        return self.at + 1 < len(self.tokens) and self.tokens[self.at].end == self.tokens[self.at + 1].start


def of_foreign(spot):
    """Words of other languages."""
    for it in (spot.before, spot.here):
        if it in FOREIGN:
            return FOREIGN[it]
    for it in (spot.before, spot.here):
        if it in FOREIGN_TYPES:
            return f"The type is written `{FOREIGN_TYPES[it]}`, behind the name: `var x: {FOREIGN_TYPES[it]}`."
    return None


def of_operators(spot):
    """Operators of other languages."""
    here, behind = spot.here, spot.behind
    if here in OPERATORS and behind == "=" and spot.touches() and "=" in spot.may:
        return f"There is no `{here}=`: write `{spot.before} = {spot.before} {here} ..`."
    if here in ("+", "-") and behind == here and "=" in spot.may:
        return f"There is no `{here}{here}`: write `{spot.before} = {spot.before} {here} 1`."
    if here == spot.before and here in ("&", "|"):
        word = {"&": "and", "|": "or"}[here]
        return f"`{here}{here}` is written `{word}`; one `{here}` works on bits."
    if here == "=" and spot.before in ("<", ">", "=", "!"):
        return f"`{spot.before}=` is one sign, without a blank in it."
    if here == "=" and OPERATORS - COMPARISONS <= spot.may and "=" not in spot.may:
        return "`=` assigns, and `==` compares."
    if here in COMPARISONS and "+" in spot.may:
        return "Comparisons aren't chained: write `a < b and b < c`."
    if here == "not" and "a name" in spot.may and "==" not in spot.may:
        return "`not` binds tighter than a comparison's operand: write `not (a == b)` or `a != b`."
    return None


def of_parted(spot):
    """Branches that another word than `with` parts, as `and`, which may have been read as an operator."""
    blocks = spot.grammar.blocks
    if not blocks or spot.tokens[blocks[-1]].text != "cobegin":
        return None
    between = spot.here in ("and", "|") and "with" in spot.may
    if between or (spot.before == "and" and spot.here in STATEMENT_WORDS) or (spot.here == "=" and spot.alone(-2) == "and"):
        return f"The branches of a `cobegin` are parted by `with`, in place of `{spot.here if between else 'and'}`."
    return None


def of_runs(spot):
    """`run`, `prev`, outputs and parameters."""
    if spot.here == "run" and spot.before == "=":
        return f"`run` is a statement, and its target stands behind it: `run {spot.word(-2)} = {spot.behind}(..)(..)`."
    if spot.here in (".", "[") and spot.word(-2) == "prev":
        return f"`prev` stands before a whole scalar variable: keep `{spot.before}{spot.here}..` in a `var` of its own, and take `prev` of that."
    if spot.here == "[" and {".", ",", ")"} <= spot.may and "(" not in spot.may and "+" not in spot.may:
        return "An output is a variable or its fields, without an index: give a `var`, and copy it into the element after the call."
    if spot.here == "=" and {",", ")"} <= spot.may:
        return "A parameter has no initial value: an output of the entry begins at 0 or false, and every other one is the caller's."
    if spot.here in ("var", "let") and ITEMS <= spot.may:
        return "There are no variables outside of units: declare it in the activity that owns it, and hand it on by parameters."
    if spot.here in STATEMENT_WORDS and ITEMS <= spot.may:
        return "Statements stand in units: is there one `end` too many before it?"
    if spot.here == "run" and "a number" in spot.may:
        return "`run` is a statement, and no value: `run x = A(..)(..)` gives the result to x."
    return None


STATEMENT_WORDS = ("await", "run", "cobegin", "when", "repeat", "while", "if", "return")


def of_blocks(spot):
    """Words that a block lacks, or has too many of."""
    if spot.here in ("", *ITEMS) and "end" in spot.may and spot.grammar.blocks:
        return open_block(spot)
    if spot.here == "end" and ITEMS <= spot.may:
        return "One `end` too many: no block is open here."
    if spot.here in ("else", "elseif") and "end" in spot.may:
        return f"`{spot.here}` belongs to an `if`, and the block that is open here is {block_name(spot, spot.grammar.blocks[-1])}."
    if spot.here == "with" and "end" in spot.may:
        return f"`with` belongs to a `cobegin`, and the block that is open here is {block_name(spot, spot.grammar.blocks[-1])}."
    if spot.here == "until" and "end" in spot.may:
        return f"`until` belongs to a `repeat`, and the block that is open here is {block_name(spot, spot.grammar.blocks[-1])}."
    for it in ("then", "repeat", "abort"):
        if it in spot.may and "+" in spot.may:
            what = "`abort` or `reset`" if it == "abort" else f"`{it}`"
            return f"{what} is missing behind the condition."
    return None


def block_name(spot, at):
    """A block by its first word and its line."""
    token = spot.tokens[at]
    return f"the `{token.text}` of line {token.line + 1}"


def open_block(spot):
    """What is told where the text goes on, or ends, in an open block."""
    blocks, grammar = spot.grammar.blocks, spot.grammar
    told = f"An `end` is missing: {block_name(spot, blocks[-1])} is still open."
    if grammar.chained is not None:
        return f"{told} `else if` in line {grammar.chained.line + 1} begins an `if` that needs an `end` of its own; `elseif` needs none."
    if grammar.suspect is not None:
        return f"{told} By the indentation it is the `{grammar.suspect.text}` of line {grammar.suspect.line + 1} that lacks its own."
    return told


def of_names(spot):
    """Names and types."""
    if spot.here in BASIC and "var" in spot.may:
        name = spot.behind if kind_of(spot.tokens[spot.at + 1]) == "a name" else "x"
        return f"The type stands behind the name: `var {name}: {spot.here}`."
    if spot.here in BASIC and spot.before in ("var", "let", "const", "(", ","):
        return f"The type stands behind the name: `{spot.behind or 'x'}: {spot.here}`."
    if spot.here == ":" and {"=", "("} & spot.may and spot.before not in ("var", "let"):
        return f"A variable is declared by `var {spot.before}: ..`."
    if "a name" in spot.may and spot.here in KEYWORDS and not spot.may & {"+", "var"}:
        return f"`{spot.here}` is a word of the language, and no name."
    if spot.here == "." and spot.before.isdigit():
        return "Numbers are whole: scale them, as 15 tenths in place of 1.5."
    if "=" in spot.may and "(" in spot.may and spot.may <= {"=", "(", ".", "["}:
        return f"A statement that begins with `{spot.before}` goes on with `=` or with `(`."
    return None


def of_syntax(grammar):
    """What a text most likely means at the token at which the grammar stopped."""
    spot = Spot(grammar)
    for way in (of_parted, of_runs, of_operators, of_foreign, of_blocks, of_names):
        found = way(spot)
        if found:
            return found
    return "Look before the place: a missing `end`, `then`, `)` or `=` shows at the next token."
