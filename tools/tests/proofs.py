"""Tests of tools/prove, which tools/tests/run and tools/tests/proved call."""
import os
import random
import re
import subprocess
import sys

from results import LIMIT, TOP

sys.path.insert(0, f"{TOP}/tools")

import shared
from proving import prelude, ranges, smt, terms, text, wishes
from proving.chain import replayed
from proving.study import Study

# the cells of a saved state behind its head
CELLS_AT = 10


# ---- the prelude

def ends_of(operator):
    """Numbers at the ends of a type and around 0."""
    near = {operator.low, operator.low + 1, operator.low + 2, -2, -1, 0, 1, 2, 3, 7, operator.width - 1, operator.width, operator.width + 1,
            operator.high // 2, operator.high // 2 + 1, operator.high - 1, operator.high}
    return sorted(it for it in near if operator.low <= it <= operator.high)


def whole(operator, values):
    """What a function of the prelude gives by whole-number arithmetic; nothing where it traps."""
    found = whole_number(operator, *values)
    if operator.kind == "b" and found is not None and operator.operator not in ("of_s", "of_u"):
        found %= 1 << operator.width
    return found if found is not None and operator.low <= found <= operator.high else None


def whole_number(operator, one, other=0):
    sign = operator.operator
    if sign in ("div", "rem"):
        if other == 0:
            return None
        quotient = abs(one) // abs(other) * (1 if (one < 0) == (other < 0) else -1)
        return quotient if sign == "div" else one - quotient * other
    works = {"add": lambda: one + other, "sub": lambda: one - other, "mul": lambda: one * other, "neg": lambda: -one, "not": lambda: ~one,
             "and": lambda: one & other, "or": lambda: one | other, "xor": lambda: one ^ other, "of_s": lambda: one, "of_u": lambda: one,
             "shl": lambda: one << other if other < operator.width else 0, "shr": lambda: one >> other if other < operator.width else 0}
    return works[sign]()


def functions():
    """The functions of the prelude that have a name with a type."""
    for kind, operators in (("i", "add sub mul div rem neg of_s of_u"), ("n", "add sub mul div rem of_s of_u"),
                            ("b", "add sub mul div rem neg not and or xor shl shr of_s of_u")):
        for width in (8, 16, 32, 64):
            for operator in operators.split():
                yield prelude.operator_of(f"bl_{operator}_{kind}{width}")


def operands_of(operator):
    """Operands at the ends of types."""
    if operator.operator in ("of_s", "of_u"):
        wide = prelude.operator_of("bl_add_i64" if operator.operator == "of_s" else "bl_add_n64")
        around = {it + more for it in (operator.low, operator.high) for more in (-1, 0, 1)} | set(ends_of(wide))
        return [(it,) for it in sorted(around) if wide.low <= it <= wide.high]
    ends = ends_of(operator)
    return [(it,) for it in ends] if operator.operator in ("neg", "not") else [(one, other) for one in ends for other in ends]


def check_prelude(results):
    """Each function of the prelude on numbers, as terms and as ranges, beside whole-number arithmetic."""
    for operator in functions():
        wrong = [it for it in operands_of(operator) if not fits_whole(operator, it)]
        results.tell(f"prove, {operator.name} on numbers", wrong[:3], [])


def fits_whole(operator, values):
    """Whether a function on numbers does what whole-number arithmetic says, by terms and by ranges."""
    wanted, made = whole(operator, values), terms.Terms()
    value, trap = operator.apply(made, [made.number(it) for it in values])
    reach, traps = operator.apply(ranges, [ranges.number(it) for it in values])
    if wanted is None:
        return trap is made.TRUE and traps == ranges.TRUE
    return trap is made.FALSE and value is made.number(wanted) and traps == ranges.FALSE and reach == (wanted, wanted)


def check_ranges(results, seed):
    """Functions of the prelude on ranges have what they give on numbers in them."""
    rolls = random.Random(seed)
    for operator in functions():
        wrong = [it for it in range(60) if not fits_ranges(operator, rolls)]
        results.tell(f"prove, {operator.name} on ranges", wrong[:3], [])


def fits_ranges(operator, rolls):
    """Whether what a function gives on numbers lies in what it gives on ranges that have them."""
    several = operands_of(operator)
    chosen = [rolls.choice(several) for _ in range(3)]
    reaches = [(min(it), max(it)) for it in zip(*chosen)]
    value, trap = operator.apply(ranges, reaches)
    for values in chosen:
        wanted = whole(operator, values)
        if not (trap[1] if wanted is None else not trap[0] and value[0] <= wanted <= value[1]):
            return False
    return True


def check_solver_prelude(results, solver):
    """The solver finds no other value of each function on numbers, and no other trap."""
    for operator in functions():
        made, claims = terms.Terms(), []
        several = operands_of(operator)
        variables = [made.variable(str(at), scalar_of(operator)) for at in range(len(several[0]))]
        value, trap = operator.apply(made, variables)
        for values in several:
            here = made.all(made.equal(it, made.number(number)) for it, number in zip(variables, values))
            wanted = whole(operator, values)
            holds = trap if wanted is None else made.both(made.negation(trap), made.equal(value, made.number(wanted)))
            claims.append(made.both(here, made.negation(holds)))
        answer = solver.ask([made.any(claims)], seconds=60)
        results.tell(f"prove, {operator.name} by {solver.kind}", answer.word, "unsat")


def scalar_of(operator):
    """The type of the operands of a function."""
    if operator.operator in ("of_s", "of_u"):
        return text.SCALARS["int64_t" if operator.operator == "of_s" else "uint64_t"]
    return text.Scalar(operator.type, operator.low, operator.high)


# ---- runs

def rows_of(program, rolls, literals, count=25):
    """Random rows: numbers at the ends of types and around the literals of the text."""
    rows = []
    for _ in range(count):
        row = []
        for at in program.inputs[1:]:
            kind = program.types[at]
            near = [it + more for it in literals for more in (-1, 0, 1)]
            ends = [kind.low, kind.low + 1, kind.high - 1, kind.high, *(it for it in near if kind.low <= it <= kind.high)]
            row.append(rolls.choice(ends) if rolls.random() < 0.8 else rolls.randint(kind.low, kind.high))
        rows.append(row)
    return rows


def literals_of(program):
    return sorted({it.value for function in program.functions.values() for it in text.nodes_of(function.body) if isinstance(it, text.Literal)} | {0})


def rows_text(program, rows):
    """Rows as a file has them."""
    lines = [["tick", *program.ports(program.inputs)]]
    for tick, row in enumerate(rows, 1):
        kinds = [program.types[at].name for at in program.inputs[1:]]
        lines.append([str(tick), *(str(bool(it)).lower() if kind == "bool" else str(it) for it, kind in zip(row, kinds))])
    return "".join(",".join(it) + "\n" for it in lines)


def trace_of(program, rows):
    """What the terms of the text say of rows: the outputs of each tick, and how the run ends."""
    ticks, chain = [], replayed(program, [], rows)
    outputs = program.outputs[1:]
    trapped = chain.trap is not None
    for it in chain.chain.outcomes[:-1] if trapped else chain.chain.outcomes:
        ticks.append([bool(it.cells[at].low) if program.types[at].name == "bool" else it.cells[at].low for at in outputs])
    ended = bool(chain.chain.outcomes) and not trapped and chain.chain.last.ended is chain.chain.terms.TRUE
    return ticks, "trap" if trapped else "ended" if ended else "", chain.trap


def call(words):
    done = subprocess.run(words, capture_output=True, timeout=LIMIT, stdin=subprocess.DEVNULL)
    return done.returncode, done.stdout


def state_of(program, data):
    """The numbers of a saved state."""
    found, at = [], CELLS_AT
    for cell in program.kept:
        kind = program.types[cell]
        size = 1 if kind.name == "bool" else (kind.high - kind.low).bit_length() // 8
        found.append(int.from_bytes(data[at:at + size], "big", signed=kind.low < 0))
        at += size
    return found


class Runs:
    """A text beside the program: its terms, its invariants and its bound over random rows."""

    def __init__(self, results, program, room, where, path):
        self.results, self.program, self.room, self.where, self.path = results, program, room, where, path
        with open(path, encoding="utf-8") as it:
            self.text = text.program_of(it.read())
        self.study = Study(self.text, seconds=10)
        self.literals = literals_of(self.text)

    def check(self, seed, times=5):
        """Random rows, so many times."""
        rolls = random.Random(seed)
        for at in range(times):
            rows = rows_of(self.text, rolls, self.literals)
            with open(f"{self.room}/rows.csv", "w", encoding="utf-8") as it:
                it.write(rows_text(self.text, rows))
            self.check_rows(f"{self.where}, rows {at}", rows)

    def check_rows(self, where, rows):
        _, out = call([self.program, "exec", self.path, f"{self.room}/rows.csv"])
        trace = shared.table_of("trace", out.decode())
        ticks, end, trap = trace_of(self.text, rows)
        self.results.tell(f"prove, {where}, terms beside exec", (ticks, end), (trace.ticks, trace.end))
        if trap is not None:
            self.results.tell(f"prove, {where}, what trapped may trap", trap in self.study.invariants.found.trapping, True)
        self.check_count(where)
        self.check_states(where, rows[:len(trace.ticks)], trace.end)

    def check_count(self, where):
        _, out = call([self.program, "count", self.path, f"{self.room}/rows.csv"])
        counts = [int(line.split(",")[1]) for line in out.decode().split()[1:] if "," in line]
        most = self.study.invariants.found.cost
        self.results.tell(f"prove, {where}, at most {most} statements", [it for it in counts if it > most], [])

    def check_states(self, where, rows, end):
        """The states behind the first rows, and behind all, lie in a part."""
        most = len(rows) - (end == "ended")
        for count in {0, 1, most // 2, most} if most >= 0 else ():
            if count > most:
                continue
            with open(f"{self.room}/some.csv", "w", encoding="utf-8") as it:
                it.write(rows_text(self.text, rows[:count]))
            status, out = call([self.program, "save", self.path, f"{self.room}/some.csv"])
            inside = status == 0 and self.study.invariants.has(state_of(self.text, out))
            self.results.tell(f"prove, {where}, the state behind tick {count}", (status, inside), (0, True))


# ---- verdicts

def cases_of(path):
    """The cases of a file: a name, the source, and what stands behind it."""
    with open(path, encoding="utf-8") as it:
        parts = re.split(r"^## ", it.read(), flags=re.M)[1:]
    for part in parts:
        name, _, rest = part.partition("\n")
        source = re.search(r"^-- source\n(.*?)(?=^-- )", rest, re.S | re.M).group(1)
        words = re.search(r"^-- words (.*)$", rest, re.M)
        status = int(re.search(r"^-- status (\d)$", rest, re.M).group(1))
        wanted = re.search(r"^-- told\n(.*)", rest, re.S | re.M).group(1).strip("\n").split("\n")
        yield name, source, words.group(1).split() if words else [], status, wanted


def check_case(results, program, room, case, solver):
    """One case, by one solver."""
    name, source, words, status, wanted = case
    path = f"{room}/source"
    with open(path, "w", encoding="utf-8") as it:
        it.write(source)
    asked = words if "--solver" in words else [*words, "--solver", solver]
    done = subprocess.run([f"{TOP}/tools/prove", "source", *asked], capture_output=True, text=True, timeout=4 * LIMIT, check=False, cwd=room,
                          env={**os.environ, "BLECHC_PROGRAM": program})
    lines = (done.stdout + done.stderr).split("\n")
    missing = [it for it in wanted if not any(line.startswith(it) for line in lines)]
    results.tell(f"prove, {name}, {solver}", (done.returncode, missing, lines if missing else []), (status, [], []))


def check_cases(results, program, room, solvers):
    """All cases: by each solver, and without one those that need none."""
    for case in cases_of(f"{TOP}/tools/tests/prove.txt"):
        chosen = solvers or (["none"] if "none" in case[2] or case[3] in (4, 6) else [])
        for solver in chosen:
            check_case(results, program, room, case, solver)


# ---- invariants that don't hold

def spoiled(study, rows):
    """Leaves a state out of the invariants that rows lead to: whether one was found."""
    for outcome in replayed(study.program, [], rows).chain.kept[1:]:
        state = [it.low for it in outcome]
        for part in study.invariants.parts.values():
            if all(low <= it <= high for it, (low, high) in zip(state, part)):
                for at, (value, (low, high)) in enumerate(zip(state, part)):
                    if low < high and at not in study.program.inputs:
                        part[at] = (low, value - 1) if value > low else (value + 1, high)
                        if not study.invariants.has(state):
                            return True
                        part[at] = (low, high)
    return False


def check_spoiled(results, program, room, name, solver):
    """The solver confirms the invariants, and refuses them without a state that is reached."""
    path = f"{room}/{name}.c"
    with open(path, "wb") as it:
        it.write(call([program, "build", f"{TOP}/examples/{name}/{name}.blech"])[1])
    with open(path, encoding="utf-8") as it:
        made = text.program_of(it.read())
    study = Study(made, solver=solver, seconds=10)
    results.tell(f"prove, {name}, invariants by {solver.kind}", study.confirm(), True)
    for seed in range(3):
        study = Study(made, solver=solver, seconds=10)
        if spoiled(study, rows_of(made, random.Random(seed), literals_of(made))):
            results.tell(f"prove, {name}, invariants without a state, seed {seed}, by {solver.kind}", study.confirm(), False)


# ---- the examples

def check_examples(results, program, room):
    """The terms, the ranges and the bounds of the examples, beside the program."""
    for name in ("blinker", "checksum", "crossing", "door", "dosing", "heater", "keypad", "lamp", "pump"):
        path = f"{room}/{name}.c"
        with open(path, "wb") as it:
            it.write(call([program, "build", f"{TOP}/examples/{name}/{name}.blech"])[1])
        Runs(results, program, room, name, path).check(1, 2)


def check_page(results, program, room):
    """The calls of docs/PROVE.md, and what they tell."""
    with open(f"{TOP}/docs/PROVE.md", encoding="utf-8") as it:
        page = it.read()
    setting = {**os.environ, "BLECHC_PROGRAM": program}
    for block in re.findall(r"```console\n(.*?)```", page, re.S):
        words, _, wanted = block.partition("\n")
        done = subprocess.run(["sh", "-c", words[2:]], capture_output=True, text=True, timeout=4 * LIMIT, check=False, cwd=TOP, env=setting)
        results.tell(f"docs/PROVE.md, {words}", without_costs(done.stdout), without_costs(wanted))


def without_costs(told):
    """Lines without the numbers of statements, which any change of the emitted text moves."""
    return re.sub(r"\d+ (statements|by blechc bound)", r"some \1", told)


def check(results, program, room):
    """All that stands here. Without a solver what needs none is tested."""
    check_prelude(results)
    check_ranges(results, 1)
    solvers = [it for it in map(smt.found_solver, smt.CALLS) if it]
    if not solvers:
        print("neither z3 nor cvc5 is there, and what needs one is passed over")
    for it in solvers:
        check_solver_prelude(results, it)
    check_examples(results, program, room)
    check_cases(results, program, room, [it.kind for it in solvers])
    for it in solvers[:1]:
        for name in ("crossing", "door", "dosing", "keypad"):
            check_spoiled(results, program, room, name, it)
        if it.kind == "z3":
            check_page(results, program, room)
