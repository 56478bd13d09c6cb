"""What acted in a tick, how its tests came out, and the statements that the value of one output came from."""
import collections

import replay
import shared
import tree
from effects import outputs, overlap, part_of, read_by_all, reads, target
from shared import Fault, shown
from traps import named
from ways import inner

# what stands at a place: the statement, and the condition where a test of it does
At = collections.namedtuple("At", "statement condition")


# ---- all that acted

def piece_of(source, start, outcome):
    """The piece of the source that acted: of a `repeat .. until` where it begins, or where it is tested."""
    pieces = source.acts[start].pieces
    return pieces[-1] if isinstance(outcome, bool) else pieces[0]


def grouped(source, pieces):
    """The pieces of what acted, in order: lists of pieces that stand on one line, each behind the one before."""
    groups = []
    for piece in pieces:
        last = groups[-1][-1] if groups else None
        if last and source.line(last[0][0])[1] == source.line(piece[0][0])[1] and last[0][1] <= piece[0][0]:
            groups[-1].append(piece)
        else:
            groups.append([piece])
    return groups


def marked(source, group, width):
    """A line of the source, carets under pieces of it, and how these came out."""
    number, begin, end = source.line(group[0][0][0])
    carets, at = "", begin
    for (start, stop), _ in group:
        carets += "".join("\t" if it == "\t" else " " for it in shown(source.data[at:start]))
        at = min(stop, end)
        carets += "^" * max(1, len(shown(source.data[start:at])))
    last = group[-1][0][1]
    more = f" (up to line {source.line(last - 1)[0]})" if last > end + 1 else ""
    told = ", ".join(str(it).lower() for _, it in group if it is not None)
    file = f"{source.paths[source.file(begin)]}:" if len(source.paths) > 1 else ""
    return [f"  {file}{number:{width}} | {shown(source.data[begin:end])}", f"  {'':{len(file) + width}} | {carets}{more}{f' {told}' if told else ''}"]


def all_marked(source, pieces):
    """The lines of all pieces."""
    groups = grouped(source, pieces)
    width = len(str(max((source.line(it[0][0][0])[0] for it in groups), default=1)))
    return [line for group in groups for line in marked(source, group, width)]


class Tick:
    """A tick of a run, with what `walk` and the replay tell of it."""

    def __init__(self, paths, rows, word):
        number = shared.whole_number(word, "tick") if word.isdecimal() else 0
        self.trace, self.steps = shared.walk_of(paths, rows, max(1, number))
        if not 0 < number <= len(self.steps):
            raise Fault(f"no tick {word}: the run has {len(self.steps)} ticks up to there, counted from 1")
        self.source, self.number = shared.Source(paths), number
        self.table = shared.table(rows, number)
        self.trapped = len(self.trace.ticks) < number
        self.history = History(self.source)
        self.replay = replay.replayed(self.source, self.table, self.steps, self.history)

    def head(self):
        """The line of its inputs and outputs."""
        told = "trap" if self.trapped else named(self.trace.names, self.trace.ticks[self.number - 1])
        return f"tick {self.number}: {named(self.table.names, self.table.ticks[self.number - 1])} -> {told}"

    def pieces(self):
        """The pieces of what acted, each with its outcome."""
        if self.replay:
            return [(piece_of(self.source, it.start, it.outcome), it.outcome) for it in self.history.steps]
        return [(piece, None) for step in self.steps[-1] for piece in self.source.acts[step].pieces]


def why(paths, rows, word, output=None):
    """What acted in a tick, in order, or what the value of an output came from."""
    tick = Tick(paths, rows, word)
    if output is not None:
        return sliced(tick, output)
    told = [tick.head(), *all_marked(tick.source, tick.pieces())]
    if tick.trapped and len(told) > 1:
        told[-1] += " trapped"
    return told if tick.replay else [*told, "(how tests came out isn't known: the interpreter of the tools took other steps)"]


# ---- what one output came from

class History(replay.Watch):
    """Keeps of all ticks what was written last, and of the last one which step read and wrote what."""

    def __init__(self, source):
        super().__init__()
        self.at, self.number, self.last, self.open = {}, 0, {}, []
        for unit in source.units.values():
            self.index(unit.body, None)

    def index(self, statements, parent):
        """Keeps what stands at each place, and in which list and statement."""
        for position, it in enumerate(statements):
            it.above, it.siblings, it.position = parent, statements, position
            self.at[it.span[0]] = At(it, getattr(it, "condition", None))
            if isinstance(it, tree.If):
                for start, (condition, _) in zip(it.tests, it.arms):
                    self.at[start] = At(it, condition)
            blocks = [body for _, body in it.branches] if isinstance(it, tree.Cobegin) else \
                [*[body for _, body in it.arms], it.other] if isinstance(it, tree.If) else [inner(it)]
            for block in blocks:
                self.index(block, it)

    def begin_tick(self):
        for part, at in self.open:
            self.last[part] = self.number, at, self.steps[at].start
        self.number, self.open = self.number + 1, []
        super().begin_tick()

    def step(self, instance, start):
        super().step(instance, start)
        self.open += [(home, len(self.steps) - 1) for home in self.written(instance, self.at[start].statement)]

    @staticmethod
    def written(instance, statement):
        """What a step at a statement may write: parts, each with the instance that owns it."""
        if isinstance(statement, tree.Declare):
            return [(instance, statement.variable, ())]
        if isinstance(statement, tree.Assign):
            return instance.homes([part_of(statement.place)])
        if isinstance(statement, tree.CallStatement):
            return instance.homes(outputs(statement))
        if isinstance(statement, tree.Run):
            callee = instance.callee(statement)
            return [(callee, it, ()) for it in statement.activity.inputs] + instance.homes(target(statement))
        return []

    def read(self, at):
        """What a step read."""
        step, here = self.steps[at], self.at[self.steps[at].start]
        statement = here.statement
        if here.condition is not None:
            return step.instance.read_by(here.condition)
        if isinstance(statement, tree.Run):
            return step.instance.homes(read_by_all(statement.inputs))
        if isinstance(statement, (tree.Assign, tree.CallStatement)) or (isinstance(statement, (tree.Declare, tree.Return)) and statement.value):
            return step.instance.homes(reads(statement))
        return []

    def deciders(self, at):
        """The steps before one that decided that it acts: the tests around it, and the waiting that ended before it."""
        step = self.steps[at]
        wanted, statement = {}, self.at[step.start].statement
        while statement is not None:
            wanted[id(statement.above)] = True
            for it in statement.siblings[:statement.position]:
                wanted[id(it)] = isinstance(it, (tree.Await, tree.Run))
            statement = statement.above
        caller = step.instance.statement
        for before in range(at):
            other = self.steps[before]
            around = other.instance is step.instance and wanted.get(id(self.at[other.start].statement)) and isinstance(other.outcome, bool)
            if around or (caller is not None and other.instance is step.instance.caller and self.at[other.start].statement is caller):
                yield before


def sliced(tick, name):
    """The statements of a tick that the value of an output came from, and where values from earlier ticks were set."""
    entry, history = tick.source.entry, tick.history
    variable = next((it for it in entry.outputs if it.name == name), None)
    if variable is None:
        raise Fault(f"no output {name}: the entry has {', '.join(it.name for it in entry.outputs) or 'none'}")
    if not tick.replay:
        raise Fault("the interpreter of the tools took other steps than `walk`, so nothing is told", 2)
    found, earlier = needed(history, (tick.replay.machine.instance, variable, ()))
    steps = [history.steps[it] for it in sorted(found)]
    told = [tick.head()]
    if not steps:
        told.append(f"no statement set {name} in this tick")
    told += all_marked(tick.source, [(piece_of(tick.source, it.start, it.outcome), it.outcome) for it in steps])
    return told + kept_lines(tick, earlier)


def needed(history, home):
    """The numbers of the steps that a value at the end of a tick came from, and the parts that were as an earlier tick left them."""
    found, earlier, left = set(), {}, [(home, len(history.steps))]
    seen = set()
    while left:
        part, before = left.pop()
        if (part, before) in seen:
            continue
        seen.add((part, before))
        writers = [at for written, at in history.open if at < before and overlap(written, part)]
        if not writers:
            earlier[part] = True
            continue
        at = writers[-1]
        if at in found:
            continue
        for it in (at, *history.deciders(at)):
            found.add(it)
            left += [(read, it) for read in history.read(it)]
        if not sets_all(history.at[history.steps[at].start].statement, part, [it for it, step in history.open if step == at]):
            # (what else is in the part was set before)
            left.append((part, at))
    return found, earlier


def sets_all(statement, part, written):
    """Whether a statement that writes parts sets all of a part: not where it sets an element or a field of it, or may leave some of it as it is."""
    if isinstance(statement, tree.CallStatement) or (isinstance(statement, tree.Assign) and any(isinstance(it, tree.Index) for it in statement.place.steps)):
        return False
    return any(overlap(it, part) and len(it[2]) <= len(part[2]) for it in written)


def kept_lines(tick, earlier):
    """Where values were set that an earlier tick left."""
    told = []
    for part in earlier:
        owner, variable, names = part
        name = f"{'.'.join([variable.name, *names])} of {replay.instance_name(tick.source, owner)}"
        if owner.caller is None and variable in owner.unit.inputs:
            continue
        found = max((at for it, at in tick.history.last.items() if overlap(it, part)), key=lambda at: at[:2], default=None)
        if found:
            number, _, start = found
            told.append(f"{name} was set in tick {number}: {tick.source.place(start)}: {tick.source.text(*tick.source.acts[start].pieces[-1])}")
        else:
            told.append(f"{name} is as it began, 0 or false")
    return list(dict.fromkeys(told))
