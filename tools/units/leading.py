"""What a line of a C text was made of: the statement of the source, by names of variables, callees and counters.

Expressions of C and of the source are written in one form, in which casts and sizes are left out. Equal forms belong together. Where a form
stands several times in an activity, a line is what may come before something that stands behind the line. In a function the order of the lines
tells, where both sides have the form as often.
"""
import collections
import re

import flow
import tree
from ways import inner

TOKEN = re.compile(r"\w+|==|!=|<=|>=|&&|\|\||.", re.S)
SIGNS = {"add": "+", "sub": "-", "mul": "*", "div": "/", "rem": "%", "and": "&", "or": "|", "xor": "^", "shl": "<<", "shr": ">>"}
WORDS = {"&&": "and", "||": "or"}
# a thing of the source that a line may lead to: its place, and the text of it
Lead = collections.namedtuple("Lead", "start text")


class NoForm(Exception):
    """It is no expression of the C subset."""


# ---- the form of C


class CForm:
    """Reads an expression or a place of the C subset: its form, and of each operand of `&&` and `||` the form, too."""

    def __init__(self, text):
        self.tokens, self.at, self.operands = [it for it in TOKEN.findall(text) if not it.isspace()], 0, []

    def next(self, ahead=0):
        at = self.at + ahead
        return self.tokens[at] if at < len(self.tokens) else ""

    def eat(self, wanted=None):
        found = self.next()
        if not found or wanted not in (None, found):
            raise NoForm
        self.at += 1
        return found

    def whole(self):
        """The form of all of it."""
        found = self.expression()
        if self.next():
            raise NoForm
        return found

    def expression(self):
        if self.next() == "&":
            self.eat()
        if self.next() != "(":
            return self.word()
        if self.next(1) == "*":
            return self.place()
        self.eat("(")
        if self.next() == "-":
            self.eat()
            found = f"-{self.word()}"
        elif self.next() == "!":
            self.eat()
            found = f"not {self.expression()}"
        else:
            found = self.binary()
        self.eat(")")
        return found

    def binary(self):
        left, sign = self.expression(), self.eat()
        right = self.expression()
        if sign in WORDS:
            self.operands += [left, right]
            # (a side that is only there so that no compiler warns)
            return left if (sign, right) == ("&&", "true") else f"({left} {WORDS[sign]} {right})"
        return f"({left} {sign} {right})"

    def word(self):
        name = self.next()
        limit = re.fullmatch(r"INT(\d+)_MIN", name)
        if limit:
            self.eat()
            return str(-(1 << int(limit.group(1)) - 1))
        if self.next(1) != "(":
            return self.place()
        self.eat()
        return self.called(name, self.arguments())

    def arguments(self):
        self.eat("(")
        found = []
        while self.next() != ")":
            found.append(self.expression())
            if self.next() != ")":
                self.eat(",")
        self.eat(")")
        return found

    @staticmethod
    def called(name, given):
        """The form of a call."""
        if re.fullmatch(r"U?INT\d+_C", name) or name.startswith(("bl_of_", "bl_ix_")):
            return given[0]
        found = re.fullmatch(r"bl_([a-z]+)_[inb]\d+", name)
        if not found:
            return f"{name[2:] if name.startswith('a_') else name}({', '.join(given)})"
        way = found.group(1)
        if way in SIGNS:
            return f"({given[0]} {SIGNS[way]} {given[1]})"
        return f"{'-' if way == 'neg' else '~'}{given[0]}"

    def place(self):
        """A variable with fields and indices, by its name in the source."""
        if self.next() == "(":
            self.eat()
            self.eat("*")
            root = self.eat()
            self.eat(")")
        else:
            root = self.eat()
        steps = []
        while self.next() in (".", "["):
            if self.eat() == ".":
                steps.append(self.eat())
            else:
                steps.append(f"[{self.expression()}]")
                self.eat("]")
        return named(root, steps)


def named(root, steps):
    """The name of a place of C in the source, as far as it has one."""
    if root in ("m", "i", "o") and steps:
        root, steps = steps[0], steps[1:]
    found = re.fullmatch(r"([vp])\d+_(\w+)|[io]_(\w+)", root)
    name = root if not found else f"prev {found.group(2)}" if found.group(1) == "p" else found.group(2) or found.group(3)
    told = ""
    for it in steps:
        told += it if it.startswith("[") else f".{it[2:]}" if it.startswith("m_") else "" if it == "e" else f".{it}"
    return name + told


# ---- the form of a source


def form_of(expression):
    """The form of an expression of a source."""
    if isinstance(expression, (tree.Number, tree.Constant)):
        return str(expression.value).lower()
    if isinstance(expression, tree.Place):
        return expression.variable.name + "".join(f".{it.name}" if isinstance(it, tree.Field) else f"[{form_of(it.value)}]" for it in expression.steps)
    if isinstance(expression, tree.Previous):
        return f"prev {expression.variable.name}"
    if isinstance(expression, tree.Conversion):
        return form_of(expression.operand)
    if isinstance(expression, tree.Call):
        return f"{expression.function.name}({', '.join(map(form_of, expression.arguments))})"
    if isinstance(expression, tree.Unary):
        return f"{'not ' if expression.operator == 'not' else expression.operator}{form_of(expression.operand)}"
    return f"({form_of(expression.left)} {expression.operator} {form_of(expression.right)})"


def forms_of(statement):
    """The forms that lines for one statement may have, each with the place that it leads to."""
    start = statement.span[0]
    if isinstance(statement, tree.Declare):
        zero = "false" if statement.variable.type == "bool" else "0"
        return [(f"{statement.variable.name} = {form_of(statement.value) if statement.value else zero}", start)]
    if isinstance(statement, tree.Assign):
        return [(f"{form_of(statement.place)} = {form_of(statement.value)}", start)]
    if isinstance(statement, tree.CallStatement):
        given = [form_of(it) for it in (*statement.inputs, *statement.outputs)]
        return [(f"{statement.function.name}({', '.join(given)})", start)]
    if isinstance(statement, tree.Return) and statement.value:
        return [(f"return {form_of(statement.value)}", start)]
    if isinstance(statement, tree.If):
        return [(f"if {form_of(condition)}", test) for (condition, _), test in zip(statement.arms, statement.tests)]
    condition = getattr(statement, "condition", None)
    return [(f"if {form_of(condition)}", start)] if condition is not None and not isinstance(condition, tree.Constant) else []


class Unit:
    """What the lines of the C function of a unit lead to."""

    def __init__(self, unit, names):
        self.unit, self.names, self.forms = unit, names, collections.defaultdict(list)
        for it in all_statements(unit.body):
            for form, start in forms_of(it):
                self.forms[form].append(start)
        self.rests = names.rests_of(unit) if unit.kind == "activity" else {}
        self.runs = names.runs_of(unit) if unit.kind == "activity" else {}

    def found(self, line):
        """The form of a line, and the places that it may lead to."""
        for pattern, way in ((r"\(\*f\)\.c(\d+) = UINT\d+_C\((\d+)\);", self.rest), (r"a_\w+\(&\(\*f\)\.(x\w+?)[,)].*;", self.run),
                             (r"\(\*f\)\.(x\w+) = \(struct \w+\)\{0\};", self.run)):
            match = re.fullmatch(pattern, line)
            if match:
                return line, way(*match.groups())
        form = form_of_line(line)
        if form is None:
            return line, []
        for it in form:
            if self.forms.get(it):
                return it, self.forms[it]
        resumes = re.findall(r"\b[wc](\d+) (==|>=|!=) UINT\d+_C\((\d+)\)", line)
        return line, [place for counter, sign, value in resumes[:1] for place in self.rest(counter, self.tested(counter, sign, value))]

    def tested(self, counter, sign, value):
        """The number that a test of a counter asks for: its greatest one, where that is what is left; nothing where it may be several."""
        most = max((it for one, it in self.rests if one == int(counter)), default=0)
        return int(value) + (sign == "!=") if sign == "==" or int(value) + (sign == "!=") == most else -1

    def rest(self, counter, value):
        found = self.rests.get((int(counter), int(value)))
        return [found[1].span[0]] if found and found[1] is not None else []

    def counters_of(self, start):
        """The counters at which a statement rests: several where first turns are copied."""
        return {counter for (counter, _), (_, statement) in self.rests.items() if statement is not None and statement.span[0] == start}

    def run(self, member):
        return [self.runs[member].span[0]] if member in self.runs else []


def all_statements(statements):
    """All statements of a list, those in them behind each, in source order."""
    for it in statements:
        yield it
        yield from all_statements(inner(it))


def form_of_line(line):
    """The forms that a line of a C function may stand for, the whole one first; nothing for a line that has none."""
    condition = re.fullmatch(r"(?:\} )?(?:else \{ )?(?:if|while) \((.*)\) \{", line)
    assigned = re.fullmatch(r"((?:\(\*\w+\)|\w)\S*(?: [^=]*\])?) = (.*);", line)
    returned = re.fullmatch(r"return (.*);", line)
    called = re.fullmatch(r"(a_\w+\(.*\));", line)
    try:
        if condition:
            form = CForm(condition.group(1))
            whole = form.whole()
            return [f"if {it}" for it in (whole, *form.operands)] + [f"if {whole[4:]}"] * whole.startswith("not ")
        if returned:
            return [f"return {CForm(returned.group(1)).whole()}"]
        if called:
            return [CForm(called.group(1)).whole()]
        if assigned:
            value = "0" if re.fullmatch(r"\(struct \w+\)\{0\}", assigned.group(2)) else CForm(assigned.group(2)).whole()
            return [f"{CForm(assigned.group(1)).whole()} = {value}"]
    except NoForm:
        return None
    return None


def leads_of(names, lines):
    """For each line of a text the places that it leads to, and the unit that it stands in."""
    # (an activity that nobody runs isn't in the text)
    there = [it for it in names.source.units.values() if it.kind != "activity" or f"f_{it.name}" in names.structs]
    units, unit, found = {it.name: Unit(it, names) for it in there}, None, []
    for line in lines:
        head = re.match(r"static .*?\ba_(\w+)\(", line)
        if head and line.endswith("{"):
            unit = units.get(head.group(1))
        elif re.match(r"(?:void|uint32_t) bl_\w+\(|struct ", line):
            unit = None
        form, places = unit.found(line.strip()) if unit and not head else ("", [])
        found.append((unit, form, places))
    told = ordered(found)
    for it in there:
        if it.kind == "activity":
            by_flow(units[it.name], lines, told, [at for at, (one, _, _) in enumerate(found) if one is units[it.name]])
    return [(unit.unit.name if unit else "", places) for (unit, _, _), places in zip(found, told)]


def ordered(found):
    """The places, in a function by the order of the lines, where a form stands as often as it has places."""
    counts, seen, out = collections.Counter((unit, form) for unit, form, places in found if places), collections.Counter(), []
    for unit, form, places in found:
        key = unit, form
        if len(places) > 1 and counts[key] == len(places) and unit.unit.kind != "activity":
            out.append([places[seen[key]]])
            seen[key] += 1
        else:
            out.append(places)
    return out


# ---- what comes next


def by_flow(unit, lines, told, own):
    """Leaves of the places of an activity's lines those behind which comes what stands behind the line, as far as there are such."""
    body, (branches, opened) = flow.Flow(unit.unit.body), branches_of([lines[at] for at in own])
    tested = {it for at, line in enumerate(own) if opened[at] for it in told[line]}
    sets = [re.match(r" *\(\*f\)\.c(\d+) = ", lines[at]) for at in own]
    for here in reversed(range(len(own))):
        places = told[own[here]]
        if len(places) < 2:
            continue
        # (a counter that has its value already isn't set once more, and the last one of several isn't asked for it)
        ahead, kept = {flow.END}, set(body.rests - tested)
        for at, line in enumerate(own):
            if at > here and may_meet(branches[at], branches[here]):
                ahead.update(told[line])
            elif at < here and ((opened[at], 0) in branches[here] if opened[at] else may_meet(branches[at], branches[here])):
                kept.update(it for it in told[line] if it in body.rests)
        changed = {int(sets[at][1]) for at in range(here, len(own)) if sets[at] and set(branches[at]) <= set(branches[here])}
        ahead |= {it for it in kept if not unit.counters_of(it) & changed}
        told[own[here]] = [it for it in places if body.behind(it) & ahead] or places


def branches_of(lines):
    """Of each line of a function the branches in which it stands, each by the number of its `if` and by its side, and the `if` that it begins."""
    within, closed, count, branches, opened = [], (0, 0), 0, [], []
    for line in lines:
        signs, before = re.findall(r"\belse\b|[{}]", line), ()
        for at, it in enumerate(signs):
            before = tuple(within)
            if it == "}":
                closed = within.pop() if within else (0, 0)
            elif it == "{" and at and signs[at - 1] == "else":
                within.append((closed[0], 1))
            elif it == "{":
                count += 1
                within.append((count, 0))
        opens = line.endswith("{") and not line.endswith("else {")
        branches.append(before if opens else tuple(within))
        opened.append(count if opens else 0)
    return branches, opened


def may_meet(one, other):
    """Whether one tick may execute two lines: not where they stand on different sides of an `if`."""
    sides = dict(one)
    return all(sides.get(it, side) == side for it, side in other)
