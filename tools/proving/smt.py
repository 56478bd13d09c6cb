"""Asks a solver: terms as SMT-LIB, in bit vectors as wide as their ranges need.

Each term is a name and an equation. With one nested expression in place of that z3 takes many times as long.
"""
import math
import re
import resource
import shutil
import subprocess

from .terms import cone

# how each solver is called, where the text comes from standard input
CALLS = {"z3": ["-in"], "cvc5": ["--lang=smt2", "--produce-models", "--bitblast=eager"]}
# a solver that gets too little of the machine is given up after so many times the seconds that it may work
PATIENCE = 30
PLAIN = {"add": "bvadd", "subtract": "bvsub", "multiply": "bvmul", "quotient": "bvsdiv", "remainder": "bvsrem", "bit_and": "bvand",
         "bit_or": "bvor", "bit_xor": "bvxor", "shift_right": "bvlshr"}
COMPARISONS = {"less": "bvslt", "at_most": "bvsle", "equal": "="}
TRUTHS = {"negation": "not", "both": "and", "either": "or", "equal": "=", "choose": "ite"}


def bits(value):
    """How many bits a number needs, its sign included."""
    return (value if value >= 0 else ~value).bit_length() + 1


def width(it):
    """How many bits a term has."""
    return max(bits(it.low), bits(it.high))


def literal(value, wide):
    return f"(_ bv{value % (1 << wide)} {wide})"


def name(it):
    """A term where it is used."""
    if it.operator != "constant":
        return f"t{it.number}"
    return ("true" if it.low else "false") if it.truth else literal(it.low, width(it))


def resized(text, wide, wanted):
    """A number of so many bits with other ones: longer by its sign, shorter without what doesn't matter."""
    if wide == wanted:
        return text
    return f"((_ sign_extend {wanted - wide}) {text})" if wide < wanted else f"((_ extract {wanted - 1} 0) {text})"


def wide(it, wanted):
    """A term with so many bits."""
    return literal(it.low, wanted) if it.operator == "constant" else resized(name(it), width(it), wanted)


def written(it):
    """The expression of a term whose operands have names."""
    if it.truth and it.operands and it.operands[-1].truth:
        return f"({TRUTHS[it.operator]} {' '.join(map(name, it.operands))})"
    if it.operator in COMPARISONS:
        most = max(map(width, it.operands))
        return f"({COMPARISONS[it.operator]} {' '.join(wide(one, most) for one in it.operands)})"
    if it.operator == "choose":
        return f"(ite {name(it.operands[0])} {wide(it.operands[1], width(it))} {wide(it.operands[2], width(it))})"
    return written_number(it)


def written_number(it):
    if it.operator == "fit":
        return wide(it.operands[0], width(it))
    if it.operator in ("wrap", "shift_left"):
        parts = [wide(one, it.detail) for one in it.operands]
        text = parts[0] if it.operator == "wrap" else f"(bvshl {' '.join(parts)})"
        return resized(f"((_ zero_extend 1) {text})", it.detail + 1, width(it))
    most = max(width(it), *map(width, it.operands))
    return resized(f"({PLAIN[it.operator]} {' '.join(wide(one, most) for one in it.operands)})", most, width(it))


def script(asserted, variables):
    """The text that asks whether there are values such that some terms hold, and for the values of variables."""
    lines = ["(set-option :produce-models true)", "(set-logic QF_BV)"]
    for it in cone([*asserted, *variables]):
        if it.operator == "constant":
            continue
        lines.append(f"(declare-fun t{it.number} () {'Bool' if it.truth else f'(_ BitVec {width(it)})'})")
        if it.operator == "variable":
            lines += [] if it.truth else [f"(assert (bvsle {literal(it.low, width(it))} t{it.number}))",
                                          f"(assert (bvsle t{it.number} {literal(it.high, width(it))}))"]
        else:
            lines.append(f"(assert (= t{it.number} {written(it)}))")
    lines += [f"(assert {name(it)})" for it in asserted]
    lines.append("(check-sat)")
    asked = [name(it) for it in variables if it.operator != "constant"]
    if asked:
        lines.append(f"(get-value ({' '.join(asked)}))")
    return "\n".join(lines) + "\n"


class Answer:
    """What a solver says: `sat`, `unsat` or `unknown`, and the values of the variables that were asked for."""

    def __init__(self, word, values):
        self.word, self.values = word, values


def value_of(text, it):
    """The number that a solver writes for a term."""
    if text in ("true", "false"):
        return int(text == "true")
    digits = re.match(r"#b([01]+)|#x([0-9a-f]+)|\(_ bv(\d+)", text)
    found = int(digits.group(1), 2) if digits.group(1) else int(digits.group(2), 16) if digits.group(2) else int(digits.group(3))
    return found - (1 << width(it)) if found >> width(it) - 1 else found


class Solver:
    """A solver that is called anew for each question."""

    def __init__(self, kind, path):
        self.kind, self.path = kind, path

    def ask(self, asserted, variables=(), seconds=10):
        """Whether some terms can hold at once, and with which values of variables."""
        if any(it.known and not it.low for it in asserted):
            return Answer("unsat", {})
        if seconds <= 0:
            return Answer("unknown", {})
        out = self.told(script(asserted, variables), seconds)
        word = out.split("\n", 1)[0].strip()
        if word not in ("sat", "unsat"):
            return Answer("unknown", {})
        return Answer(word, values_in(out, variables) if word == "sat" else {})

    def told(self, asked, seconds):
        """What the solver says, which may work for so many seconds."""
        most = max(1, math.ceil(seconds))
        try:
            ran = subprocess.run([self.path, *CALLS[self.kind]], input=asked, capture_output=True, text=True, timeout=PATIENCE * most, check=False,
                                 preexec_fn=lambda: resource.setrlimit(resource.RLIMIT_CPU, (most, most)))
            return ran.stdout
        except subprocess.TimeoutExpired:
            return "unknown"


def values_in(out, variables):
    """The values that a solver tells of variables."""
    told = dict(re.findall(r"\(t(\d+) (true|false|#[bx][0-9a-f]+|\(_ bv\d+ \d+\))\)", out))
    return {it: value_of(told[str(it.number)], it) if it.operator != "constant" else it.low for it in variables}


def found_solver(kind=None):
    """The solver of a name, or the first that is on the path; nothing where there is none."""
    for it in [kind] if kind else CALLS:
        path = shutil.which(it)
        if path:
            return Solver(it, path)
    return None
