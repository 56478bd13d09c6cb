"""What a rule's failure means in the source at hand: the types, what may stand there, a way without a pause, a name that is meant."""
import collections
import difflib
import re

import advice
import shared
import typed
import ways
from grammar import Grammar, listed
from reader import KEYWORDS, Reader
from typed import shown
from values import bounds

# what is told beside the rule: another label, sentences, a hint in place of the general one, and further places with labels
More = collections.namedtuple("More", "label told hint places", defaults=("", (), "", ()))
NEGATIVE = "A nat and a bits type have no negative numbers: take an int type."


class Text:
    """The text of a file that a rule refuses, and the texts of the files before it in front."""

    def __init__(self, data, behind, spans):
        self.spans = spans
        self.front = b"".join(shared.read(it) + b"\n" for it in behind).decode("latin-1")
        self.own = data.decode("latin-1")
        self.whole, self.way = self.front + self.own, len(self.front)

    def of(self, span):
        """What stands at a place of the file."""
        return " ".join(self.own[span[0]:span[1]].split())

    def read(self):
        """The reader of the text, whose rules up to the one that failed hold; nothing where it can't be read."""
        reader = Reader(self.whole)
        try:
            reader.program()
        except shared.NO_SOURCE:
            return None
        return reader

    def here(self, span):
        """A place of the whole text as one of the file; nothing where it stands in a file before."""
        return (span[0] - self.way, span[1] - self.way) if span[0] >= self.way else None


# ---- tokens

def of_lex(text, span):
    return More(hint=advice.of_byte(text.own, span[0]))


def of_profile(text, span):
    """What is written in place of something that the profile leaves out."""
    word = text.of(span)
    if word in ("{", "}"):
        return More(hint="An array or a struct has no literal: declare a `var`, and set its elements or fields one by one.")
    if re.fullmatch(r"\d+", word) or word.startswith("float"):
        return More(hint="Numbers are whole: scale them, as 15 tenths in place of 1.5.")
    if word.startswith("0o"):
        return More(hint=f"Write it decimal, {int(word[2:], 8)}, or hexadecimal, {hex(int(word[2:], 8))}.")
    if word == "suspend":
        return More(hint="Put the work into `if not c then .. end`, so that it stays as it is while c is true.")
    if word == "enum":
        return More(hint="Name the values by constants: `const OPEN: nat8 = 0`, `const SHUT: nat8 = 1`.")
    if word in ("module", "import"):
        return More(hint="A program of several files is linked: `blechc link first.blech second.blech`.")
    return More()


def of_syntax(text, span):
    """What may stand where the text stops being a program."""
    grammar = Grammar(text.own)
    token = grammar.stopped()
    if token is None or token.start != span[0]:
        return More(hint="Look before the place: a missing `end`, `then`, `)` or `=` shows at the next token.")
    here = "the text ends too early" if not token.text else f"`{token.text}` isn't expected here"
    blocks = [f"the `{grammar.tokens[it].text}` of line {grammar.tokens[it].line + 1}" for it in grammar.blocks[-1:]]
    told = f"Here may stand: {', '.join(listed(grammar.asked))}.{f' Open is {blocks[0]}.' if blocks else ''}"
    return More(here, [told], advice.of_syntax(grammar))


# ---- names

def of_unknown(text, span):
    """A name that is meant: one that is declared below, or one that is spelled alike."""
    name = text.of(span)
    below = re.search(rf"\b(?:function|activity|struct|const|var|let)\s+{name}\b", text.own[span[1]:])
    if below:
        line = text.own.count("\n", 0, span[1] + below.start()) + 1
        return More(hint=f"`{name}` is declared in line {line}, and seen behind that alone, in its block: move the declaration up.")
    if name in advice.FOREIGN_TYPES:
        return More(hint=f"The type is written `{advice.FOREIGN_TYPES[name]}`.")
    if name in advice.FOREIGN:
        return More(hint=advice.FOREIGN[name])
    words = {it for it in re.findall(r"[A-Za-z_]\w*", text.whole) if it != name and it not in KEYWORDS}
    alike = difflib.get_close_matches(name, sorted(words), 1, 0.75)
    return More(hint=f"Is `{alike[0]}` meant? Else declare `{name}` before this place and in a block around it.") if alike else More()


def of_kind(text, span):
    """A function that is run, or an activity that is called."""
    reader, name = text.read(), text.of(span)
    unit = reader.units.get(name) if reader else None
    runs = re.search(r"\brun\s+(?:([\w.]+)\s*=\s*)?$", text.own[:span[0]])
    if not unit or (unit.kind == "function") != bool(runs):
        return More()
    if unit.kind == "activity":
        return More(hint=f"`{name}` is an activity: write `run {name}(..)(..)`, as a statement.")
    if unit.result:
        return More(hint=f"`{name}` is a function: write `{runs.group(1) or 'x'} = {name}(..)`, without `run`.")
    return More(hint=f"`{name}` is a function: write `{name}(..)(..)`, without `run`.")


def of_arity(text, span):
    """The head of a unit that is called with another number of arguments."""
    reader = text.read()
    unit = reader.units.get(text.of(span)) if reader else None
    if not unit:
        return More()
    return More(told=[f"Its head is `{head_of(unit)}`: {counted(len(unit.inputs), 'input')} and {counted(len(unit.outputs), 'output')}."])


def counted(number, what):
    return f"{number} {what}{'s' * (number != 1)}"


def head_of(unit):
    """The head of a unit."""
    lists = [", ".join(f"{it.name}: {shown(it.type)}" for it in part) for part in (unit.inputs, unit.outputs)]
    result = f" returns {shown(unit.result)}" if unit.result else ""
    return f"{unit.kind} {unit.name} ({lists[0]})({lists[1]}){result}"


# ---- types

def of_type(text, span):
    """The types that don't fit."""
    found = failures_of(text).failures.get((span[0] + text.way, span[1] + text.way))
    return More(told=[found.told], hint=found.hint) if found else More()


def failures_of(text):
    """What is wrong with the types of a text; nothing where it can't be read."""
    judge = typed.Judge(text.whole)
    try:
        return judge.judge()
    except shared.NO_SOURCE:
        return judge.of


def of_literal(text, span):
    """The type of a number that isn't in its range."""
    kind = failures_of(text).literals.get((span[0] + text.way, span[1] + text.way))
    if not kind:
        return More()
    least, most = bounds(kind)
    hint = NEGATIVE if text.of(span).startswith("-") and least == 0 else ""
    return More(told=[f"Wanted is {kind} here, which goes from {least} to {most}."], hint=hint)


def of_prev(text, span):
    """What `prev` stands before."""
    name = re.sub(r"^prev\s*", "", text.of(span))
    return More(hint=f"Only a scalar `var` of this activity has a value before: keep `{name}` in a `var`, as `kept = {name}`, and write `prev kept`.")


def of_return(text, span):
    """A unit, a `return` or a call that rule Return names."""
    before = re.search(r"(\w+)\s*$", text.own[:span[0]])
    word, name = before.group(1) if before else "", text.of(span)
    if name.startswith("return"):
        return More(hint="A unit with `returns` has an expression behind each `return`, and one without has none; an activity has one, as its last statement.")
    if word == "function":
        return More(hint="A function has a result or outputs, not both; with a result each way through it ends with `return`, also where no `if` holds.")
    if word == "activity":
        return More(hint="An activity with a result ends with `return`, directly in its body.")
    reader = text.read()
    unit = reader.units.get(name) if reader else None
    if unit and unit.result:
        return More(hint=f"`{name}` gives a result, which a statement may not drop: write `x = {name}(..)`.")
    return More(hint=f"`{name}` gives no result: call it as a statement, with an output, or give it `returns`.")


# ---- branches

def of_conflict(text, _):
    """A `run` that writes what another branch writes."""
    if not any(re.match(r"run\b", text.of(it)) for it in text.spans[:2]):
        return More()
    return More(hint="The `run` writes its output: name a variable of its own there, and let one branch compute the value of it.")


# ---- pauses

def of_pause(text, span):
    """A way through the body of an activity on which nothing pauses."""
    reader = text.read()
    unit = reader.units.get(text.of(span)) if reader else None
    return More(places=shown_way(text, ways.way_through(unit.body)), told=told_way(unit.body)) if unit else More()


def of_instant(text, span):
    """A way through the body of a loop on which nothing pauses."""
    reader = text.read()
    start = span[0] + text.way
    for unit in reader.units.values() if reader else ():
        for loop in ways.loops_of(unit.body):
            if loop.span[0] == start:
                return More(places=shown_way(text, ways.way_through(loop.body)), told=told_way(loop.body))
    return More()


def shown_way(text, way):
    """The places of a way, with their labels."""
    own = [(text.here(place), note) for place, note in way if text.here(place)]
    return [(place, ("then" if at else "on this way nothing pauses") + f" ({note})" * bool(note)) for at, (place, note) in enumerate(own)]


def told_way(body):
    return [] if body else ["There is no statement in it."]


WAYS = {2: of_lex, 3: of_profile, 5: of_syntax, 7: of_unknown, 8: of_kind, 9: of_type, 10: of_literal, 13: of_arity, 14: of_prev, 15: of_return,
        18: of_pause, 19: of_conflict, 21: of_instant}


def of_rule(number, data, spans, behind=()):
    """What is told of a rule's failure beside its sentence, at places of a file behind others."""
    if number not in WAYS:
        return More()
    try:
        return WAYS[number](Text(data, behind, spans), spans[0])
    except (*shared.NO_SOURCE, shared.Fault):
        # (a file that isn't the one that the line speaks of shows nothing)
        return More()
