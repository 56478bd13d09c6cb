"""What tools/prove does: reads its words, builds the text, asks, and tells the answers."""
import contextlib
import os
import tempfile

import shared
from shared import TRAPPED, Fault

from . import report, wishes
from .paths import TooLong
from .places import Places, Sources
from .smt import CALLS, found_solver
from .study import Disagreement, Study
from .terms import TooLarge
from .text import program_of

NO_SOLVER, UNFIT, UNKEEPABLE, BEYOND, OWN_FAULT = 3, 4, 5, 6, 7
# a program with more cells isn't tried
MOST_CELLS = 4000
VALUES = {"--assume": str, "--always": str, "--within": int, "--seconds": float, "--rows": str, "--solver": str}


class Words:
    """The words of a call."""

    def __init__(self, words, usage):
        self.paths, self.bound = [], False
        self.values = {it: [] for it in VALUES}
        waiting = list(words)
        while waiting:
            it = waiting.pop(0)
            if it == "--bound":
                self.bound = True
            elif it in VALUES and waiting:
                self.values[it].append(self.value(it, waiting.pop(0)))
            elif it.startswith("-"):
                raise Fault(usage.strip(), UNFIT)
            else:
                self.paths.append(it)
        if not self.paths:
            raise Fault(usage.strip(), UNFIT)

    def value(self, name, text):
        try:
            found = VALUES[name](text)
        except ValueError as fault:
            raise Fault(f"{name} {text}: a number is wanted", UNFIT) from fault
        if name in ("--within", "--seconds") and not found > 0:
            raise Fault(f"{name} {text}: a number above 0 is wanted", UNFIT)
        return found

    def one(self, name, otherwise=None):
        """The last value of a word."""
        return self.values[name][-1] if self.values[name] else otherwise


def built(paths):
    """The C text of sources."""
    try:
        return shared.answer(["build", *paths] if len(paths) == 1 else ["link", *paths])[0]
    except Fault as fault:
        raise Fault(str(fault), UNFIT) from fault


def solver_of(words):
    """The solver that is asked; nothing where none is wanted or there."""
    wanted = words.one("--solver")
    if wanted == "none":
        return None
    if wanted and wanted not in CALLS:
        raise Fault(f"--solver {wanted}: z3, cvc5 or none is wanted", UNFIT)
    found = found_solver(wanted)
    if wanted and not found:
        raise Fault(f"{wanted} isn't on the path: install it, or leave --solver out", NO_SOLVER)
    return found


class Job:
    """A call: its sources, their text, and what is asked."""

    def __init__(self, words):
        self.words, self.paths, self.folder = words, words.paths, words.one("--rows")
        self.text = built(self.paths)
        self.program = program_of(self.text)
        if self.program.kept.stop > MOST_CELLS:
            raise Fault(f"{self.paths[-1]}: it has {self.program.kept.stop} cells, and up to {MOST_CELLS} are tried", BEYOND)
        self.sources = Sources(self.paths)
        self.solver = solver_of(words)
        self.files = 0
        assumed, wished = ([(text, wishes.read(text, self.program)) for text in words.values[it]] for it in ("--assume", "--always"))
        if wished and not self.solver:
            raise Fault("--always needs a solver: install z3 or cvc5, so that it is on the path", NO_SOLVER)
        self.study = Study(self.program, assumed, wished, self.solver, words.one("--within", 40), words.one("--seconds", 20.0))
        self.places = Places(self.program, self.sources, self.text)
        if self.folder:
            os.makedirs(self.folder, exist_ok=True)

    def work(self):
        """Asks all and tells the answers: the status."""
        if self.solver:
            tick = self.study.unkeepable()
            if tick:
                raise Fault(f"no inputs keep what is assumed in tick {tick}, so everything would hold", UNKEEPABLE)
        self.study.work(self.confirm)
        lines, status = report.told(self)
        print("\n".join(lines))
        if not self.solver and not self.words.one("--solver"):
            print("no solver is on the path (z3 or cvc5): this is what ranges say, which nothing checked", flush=True)
            return NO_SOLVER
        return status

    def proved_bound(self):
        """What `blechc bound` says of a tick."""
        with file_of(self.text) as path:
            out, _ = shared.answer(["bound", path])
        return dict(line.split() for line in out.splitlines())["bl_tick"]

    # ---- rows

    def rows_text(self, rows):
        """Rows as a file has them."""
        inputs = self.program.ports(self.program.inputs)
        lines = [["tick", *inputs]]
        for tick, row in enumerate(rows, 1):
            values = [str(bool(value)).lower() if self.program.types[at].name == "bool" else str(value) for value, at in zip(row, inputs.values())]
            lines.append([str(tick), *values])
        return "".join(",".join(it) + "\n" for it in lines)

    def confirm(self, question):
        """Asks blechc whether found rows do what is said of them. What they don't is a fault of this tool."""
        self.files += 1
        name = f"{'trap' if question.operation is not None else 'breaks'}-{self.files}.csv"
        question.file = os.path.join(self.folder, name) if self.folder else None
        text = self.rows_text(question.rows)
        with file_of(text, question.file) as path:
            status, out, _ = shared.call(["run", *self.paths, path]) if len(self.paths) == 1 else self.executed(path)
        trace = shared.table_of(name, out.decode(errors="replace"))
        count = len(question.rows)
        if question.operation is not None:
            fits = status == TRAPPED and len(trace.ticks) == count - 1
        else:
            fits = len(trace.ticks) == count and not wishes.holds(question.wish, self.port_of(question.rows, trace))
        if not fits:
            raise Fault(f"a fault of this tool: blechc doesn't do with these rows what is said of them\n{text}", OWN_FAULT)
        question.by = "blechc run" if len(self.paths) == 1 else "blechc exec"

    def executed(self, rows):
        """What `exec` says of the linked text."""
        with file_of(self.text) as path:
            return shared.call(["exec", path, rows])

    def port_of(self, rows, trace):
        """What an input or output is at the end of the last tick, or of the one before."""
        inputs, outputs = list(self.program.ports(self.program.inputs)), list(self.program.ports(self.program.outputs))

        def port(name, previous):
            at = len(rows) - 1 - previous
            if at < 0:
                return 0
            return rows[at][inputs.index(name)] if name in inputs else trace.ticks[at][outputs.index(name)]
        return port


@contextlib.contextmanager
def file_of(text, path=None):
    """A file with a text: the one of a name, or one that goes when it isn't needed any more."""
    with tempfile.TemporaryDirectory() as room:
        path = path or f"{room}/text"
        with open(path, "w", encoding="utf-8") as it:
            it.write(text)
        yield path


def run(words, usage):
    """The status of a call."""
    job_words = Words(words, usage)
    try:
        return Job(job_words).work()
    except TooLong as fault:
        raise Fault(f"{job_words.paths[-1]}: one tick takes too long by ranges, which is beyond the limits", BEYOND) from fault
    except TooLarge as fault:
        raise Fault(f"{job_words.paths[-1]}: {fault}, which is beyond the limits", BEYOND) from fault
    except Disagreement as fault:
        raise Fault(f"a fault of this tool: {fault}: {fault.rows}", OWN_FAULT) from fault
