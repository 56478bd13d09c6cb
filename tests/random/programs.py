"""Random programs, and rows of inputs for them. A seed has one program.

Most of them are accepted. Some aren't, as where a branch declares a variable and a later one names it: a program that a rule
refuses is passed over.
"""
import random

# what numbers and functions the programs use; they keep values small, so that not every run traps
FUNCTIONS = (
    "function F (n: int32) returns int32 if n > 100 then return 100 elseif n < -100 then return -100 end return n end",
    "function G (n: int32)(o: int32) var k: int32 while k < n % 5 repeat k = k + 1 o = F(o + k) end end",
)


class Scope:
    """The names that a place may use: of numbers, of truth values, and of variables that `prev` may stand before."""

    def __init__(self, numbers, truths, previous=()):
        self.numbers, self.truths, self.previous = list(numbers), list(truths), list(previous)

    def inner(self):
        """A scope in this one: what is declared there is added to it alone."""
        return Scope(self.numbers, self.truths, self.previous)


class Activity:
    """An activity that is written, as a later one can run it."""

    def __init__(self, name, inputs, outputs, result):
        self.name, self.inputs, self.outputs, self.result = name, inputs, outputs, result


class Writer:
    """Writes a program. In what follows `read` has the names that may be read, and `written` those that may be written."""

    def __init__(self, seed):
        self.random, self.names, self.activities, self.text = random.Random(seed), 0, [], []

    def name(self, front):
        self.names += 1
        return f"{front}{self.names}"

    def chance(self):
        return self.random.random()

    def choice(self, *list_or_words):
        return self.random.choice(list_or_words[0] if len(list_or_words) == 1 else list_or_words)

    # ---- expressions

    def number(self, read, depth=0):
        """An expression of type int32."""
        kind = self.chance()
        if depth > 2 or kind < 0.35:
            return self.choice(read.numbers + ["1", "2", "3", "0", "-1"])
        if kind < 0.45 and read.previous:
            return "prev " + self.choice(read.previous)
        left = self.number(read, depth + 1) if kind < 0.55 else None
        if kind < 0.5:
            return f"F({left})"
        if kind < 0.55:
            # (a number that varies divides now and then, so that some runs trap)
            third = self.number(read, depth + 1) if self.chance() < 0.2 else "4"
            return f"({left} / {self.choice('2', '3', third)})"
        varies = self.chance() >= 0.5
        left = self.number(read, depth + 1)
        sign = self.choice("+-") if varies or self.chance() >= 0.4 else self.choice("+-*%")
        return f"({left} {sign} {self.number(read, depth + 1) if varies else self.choice('2', '3', '5')})"

    def truth(self, read, depth=0):
        """An expression of type bool."""
        kind = self.chance()
        if kind < 0.35 and read.truths:
            return self.choice(read.truths)
        if kind < 0.45:
            return "true"
        if kind < 0.9 or depth > 1:
            left, sign = self.number(read, depth + 1), self.choice("<", ">", "==", "!=", "<=", ">=")
            return f"{left} {sign} {self.number(read, depth + 1)}"
        left, sign = self.truth(read, depth + 1), self.choice("and", "or")
        return f"({left} {sign} not ({self.truth(read, depth + 1)}))"

    # ---- statements

    def simple(self, read, written):
        """Statements that write, or none where nothing may be written."""
        if written.numbers and (self.chance() < 0.75 or not written.truths):
            if self.chance() < 0.1:
                return [f"G({self.number(read)})({self.choice(written.numbers)})"]
            return [f"{self.choice(written.numbers)} = {self.number(read)}"]
        if written.truths:
            return [f"{self.choice(written.truths)} = {self.truth(read)}"]
        return []

    def some(self, read, written, depth):
        """Up to two statements, or what stands for them."""
        return [it for _ in range(self.random.randrange(3)) for it in self.statement(read, written, depth)]

    def pausing(self, read, written, depth):
        """Statements that surely pause."""
        read, written = read.inner(), written.inner()
        before = self.some(read, written, depth)
        pause = self.pause(read, written, depth)
        return " ".join([*before, pause, *self.some(read, written, depth)])

    def pause(self, read, written, depth):
        """A statement that surely pauses."""
        kind = self.chance()
        if kind < 0.45 or depth <= 0:
            return "await " + ("true" if self.chance() < 0.6 else self.truth(read))
        if kind < 0.55:
            return self.until(read, written, depth - 1)
        if kind < 0.62:
            return f"repeat {self.pausing(read, written, depth - 1)} end"
        if kind < 0.72:
            return self.when(read, written, depth - 1)
        if kind < 0.82 and self.activities:
            return self.run(read, written) or "await true"
        return self.cobegin(read, written, depth - 1, True)

    def until(self, read, written, depth):
        return f"repeat {self.pausing(read, written, depth)} until {self.truth(read)} end"

    def when(self, read, written, depth):
        condition, keyword = self.truth(read), self.choice("abort", "reset")
        return f"when {condition} {keyword} {self.pausing(read, written, depth)} end"

    def run(self, read, written):
        """A `run`, or nothing where too little may be written."""
        activity = self.choice(self.activities)
        room, outputs = len(written.numbers), activity.outputs
        if room < outputs + activity.result:
            return None
        # (no variable stands for two)
        names = self.random.sample(written.numbers, outputs + 1 if room > outputs else outputs)
        target = f"{names[outputs]} = " if activity.result and len(names) > outputs and self.chance() < 0.7 else ""
        inputs = ", ".join(self.number(read) for _ in range(activity.inputs))
        return f"run {target}{activity.name}({inputs})({', '.join(names[:outputs])})"

    def cobegin(self, read, written, depth, pauses):
        """A `cobegin`, which surely pauses where that is asked for."""
        count = self.choice(2, 2, 3)
        parts = self.split(written, count)
        pausing = self.random.randrange(count)
        weak = [self.chance() < 0.35 for _ in range(count)]
        if pauses:
            # (it pauses where a strong branch does)
            weak[pausing] = False
        branches = []
        for k, part in enumerate(parts):
            if (pauses and k == pausing) or self.chance() < 0.7:
                body = self.pausing(read, part, depth)
            else:
                body = " ".join(self.statement(read, part, 0))
            branches.append(("weak " if weak[k] else "") + body)
        return "cobegin " + " with ".join(branches) + " end"

    def split(self, written, count):
        """Deals out what may be written, since no two branches write the same."""
        parts = [Scope([], []) for _ in range(count)]
        for name in written.numbers:
            self.choice(parts).numbers.append(name)
        for name in written.truths:
            self.choice(parts).truths.append(name)
        return parts

    def statement(self, read, written, depth):
        """A list of one statement, or of none."""
        kind = self.chance()
        if kind < 0.55:
            return self.simple(read, written)
        if kind < 0.62:
            return [self.variable(read, written)]
        inner = read.inner(), written.inner()
        if kind < 0.75:
            return [self.branching(read, written, depth)]
        if depth <= 0:
            return []
        if kind < 0.82:
            return [f"while {self.truth(read)} repeat {self.pausing(*inner, depth - 1)} end"]
        if kind < 0.9:
            return [self.cobegin(*inner, depth - 1, self.chance() < 0.5)]
        return [self.when(*inner, depth - 1) if kind < 0.95 else self.until(*inner, depth - 1)]

    def variable(self, read, written):
        """Declares a variable."""
        name = self.name("v")
        value = self.number(read)
        read.numbers.append(name)
        written.numbers.append(name)
        if self.chance() < 0.4:
            read.previous.append(name)
        return f"var {name}: int32 = {value}"

    def branching(self, read, written, depth):
        """An `if`."""
        inner = read.inner(), written.inner()
        if depth <= 0 or self.chance() < 0.6:
            body = " ".join(self.statement(*inner, depth - 1))
        else:
            body = self.pausing(*inner, depth - 1)
        text = f"if {self.truth(read)} then {body} "
        if self.chance() < 0.3:
            text += f"elseif {self.truth(read)} then {self.arm(read, written, depth)} "
        if self.chance() < 0.5:
            text += f"else {self.arm(read, written, depth)} "
        return text + "end"

    def arm(self, read, written, depth):
        return " ".join(self.statement(read.inner(), written.inner(), depth - 1))

    # ---- activities and programs

    def activity(self):
        """Writes an activity that later ones can run."""
        inputs, outputs = self.parameters()
        name, result = self.name("A"), self.chance() < 0.4
        head = f"activity {name} ({typed(inputs)})({typed(outputs)})" + (" returns int32" if result else "")
        body, read = self.body(Scope(inputs + outputs, []), Scope(outputs, []))
        if result:
            body += f" return {self.number(read)}"
        self.text.append(f"{head} {body} end")
        self.activities.append(Activity(name, len(inputs), len(outputs), result))

    def parameters(self):
        """The names of the inputs and of the outputs."""
        return ["i1", "i2"][: self.choice(1, 2)], ["o1", "o2"][: self.choice(1, 2)]

    def entry(self):
        """Writes the activity that the environment drives, whose inputs and outputs are always the same."""
        # (picked and not used: without this a seed would have another program)
        self.parameters()
        inputs, outputs = ["i1", "i2"], ["o1", "o2", "o3"]
        head = f"@[EntryPoint] activity M ({typed(inputs)}, c: bool)({typed(outputs)}, q: bool)"
        body, _ = self.body(Scope(inputs + outputs, ["c", "q"]), Scope(outputs, ["q"]))
        self.text.append(f"{head} {body} end")

    def body(self, read, written):
        """The statements of an activity, which begin with its variables; and what may be read behind them."""
        names = [self.name("x") for _ in range(self.random.randrange(1, 4))]
        declared = [f"var {it}: int32" + (f" = {self.random.randrange(5)}" if self.chance() < 0.5 else "") for it in names]
        read.numbers += names
        read.previous += names
        written.numbers += names
        return " ".join([*declared, self.pausing(read, written, 3)]), read

    def program(self):
        """The text of the program."""
        self.text += FUNCTIONS
        for _ in range(self.random.randrange(3)):
            self.activity()
        self.entry()
        return "\n".join(self.text) + "\n"

    def rows(self, count):
        """Rows of inputs for it."""
        lines = ["tick,i1,i2,c"]
        for number in range(1, count + 1):
            first, second, truth = self.random.randrange(-4, 8), self.random.randrange(-4, 8), self.choice("true", "false")
            lines.append(f"{number},{first},{second},{truth}")
        return "\n".join(lines) + "\n"


def typed(names):
    return ", ".join(f"{it}: int32" for it in names)
