"""The cells of a C text, what each of them is in the source, and their values in each tick of a run.

This is the one reader of what a C text keeps from tick to tick. It goes by the names of structs, members and counters, and not by how functions
are laid out.
"""
import collections
import os
import re
import shutil
import struct
import subprocess
import tempfile

import shared
import resting
import tree
from shared import Fault

HEAD = b"BLSV1\n"
# a cell: its path and its type in C, and the struct and the member that it is
Cell = collections.namedtuple("Cell", "path type owner")
# a variable of a source, or a part of one: its name, its type, its cell, and whether the text keeps it
Signal = collections.namedtuple("Signal", "name type cell kept")
FORMATS = {"bool": "?", "int8_t": "b", "uint8_t": "B", "int16_t": "h", "uint16_t": "H", "int32_t": "i", "uint32_t": "I", "int64_t": "q", "uint64_t": "Q"}
COMPILERS = ("cc", "gcc", "clang", "tcc")


# ---- the cells of a text


def scalars(structs, name, path):
    """The scalar members of a struct, in order, each with its path and type."""
    for it in structs[name]:
        for here in [f"{path}.{it.name}[{at}]" for at in range(it.length)] or [f"{path}.{it.name}"]:
            if it.type in structs:
                yield from scalars(structs, it.type, here)
            else:
                yield Cell(here, it.type, (name, it.name))


def cells_of(structs):
    """The cells of a text: those of the state, of the inputs and of the outputs."""
    return [it for name, part in (("bl_state", "s"), ("bl_in", "i"), ("bl_out", "o")) for it in scalars(structs, name, part)]


def width_of(kind):
    """How many bytes a scalar of C has in a state."""
    return 1 if kind == "bool" else int("".join(it for it in kind if it.isdigit())) // 8


def number_of(kind, data):
    """The number that bytes are; nothing where a bool is neither."""
    if kind == "bool":
        return {0: False, 1: True}.get(data[0])
    return int.from_bytes(data, "big", signed=kind.startswith("int"))


def numbers_of(cells, path, data):
    """The numbers of a saved state. What is no state is told as `blechc` would."""
    head, values = HEAD + len(cells).to_bytes(4, "big"), []
    bad = next((at for at, it in enumerate(head) if data[at:at + 1] != bytes([it])), None)
    at = len(head)
    for _, kind, _ in cells if bad is None else []:
        part = data[at:at + width_of(kind)]
        value = number_of(kind, part) if len(part) == width_of(kind) else None
        if value is None:
            # (a bool that is neither is bad itself, and what is too short behind its last byte)
            bad = min(at, len(data)) if part and kind == "bool" else len(data)
            break
        values.append(value)
        at += len(part)
    if bad is None and at < len(data):
        bad = at
    if bad is not None:
        raise shared.explained(path, f"bad state: at {bad}", 2)
    return values


def counter_values(text):
    """The numbers that each counter is set to in a text, 0 included, by the struct and the member; nothing where a number is no literal."""
    found = collections.defaultdict(lambda: {0})
    for name, body in re.findall(r"^static void a_(\w+)\(struct f_\1 \*f.*?\) \{\n(.*?)^\}", text, re.S | re.M):
        for member, value in re.findall(r"\(\*f\)\.(c\d+) = (.*?);", body):
            number = re.fullmatch(r"UINT\d+_C\((\d+)\)", value)
            known = found[f"f_{name}", member]
            if number and known is not None:
                known.add(int(number.group(1)))
            else:
                found[f"f_{name}", member] = None
    return found


def counters_of(structs, text):
    """For each member of a struct of resting places that is a counter, the numbers that it may have; all counters of the text are there."""
    values = counter_values(text)
    return {(name, it.name): values[name, it.name] if (name, it.name) in values else {0}
            for name, members in structs.items() if name.startswith("f_") for it in members if re.fullmatch(r"c\d+", it.name)}


def check_counters(cells, values, counters, path):
    """Refuses a state with a counter that has a number to which the text never sets it."""
    for cell, value in zip(cells, values):
        allowed = counters.get(cell.owner)
        if allowed is not None and value not in allowed:
            told = ", ".join(map(str, sorted(allowed)))
            raise Fault(f"{path}: no state of this text: {cell.path} is {value}, and the text sets it to {told}")


# ---- what the cells of a text are


class Names:
    """What the cells of a text are in its source."""

    def __init__(self, source, structs, text):
        self.source, self.structs, self.text = source, structs, text
        self.counters = counters_of(structs, text)
        self.acts = {id(it.statement): it for it in source.acts.values() if it.statement}
        self.rests, self.runs = {}, {}

    def at(self, statement):
        """The line and the column of a statement."""
        return self.source.spot(self.acts[id(statement)].start)

    def text_of(self, statement):
        """A statement on one line, with its place."""
        return f"{self.source.text(*self.acts[id(statement)].pieces[0])} ({self.at(statement)})"

    def rests_of(self, unit):
        """What the values of the counters of an activity say, by counter and value, and the statement at which it rests.

        Several may say the same where first turns are copied.
        """
        if unit.name not in self.rests:
            found = {}
            for it in resting.layout_of(unit.body, self.numbers_of(unit)).places:
                if it.branch:
                    found[it.counter, it.value] = f"branch {it.branch} of the cobegin at {self.source.spot(it.statement.span[0])} has ended", None
                else:
                    found[it.counter, it.value] = f"rests at {self.text_of(it.statement)}", it.statement
            self.rests[unit.name] = found
        return self.rests[unit.name]

    def numbers_of(self, unit):
        """The counters of an activity with the values to which the text sets them."""
        return {(int(member[1:]), value) for (struct_name, member), values in self.counters.items() if struct_name == f"f_{unit.name}"
                for value in values or () if value}

    def runs_of(self, unit):
        """The `run` statements of an activity, by the name of their members in C."""
        if unit.name not in self.runs:
            members = [it for it in self.structs[f"f_{unit.name}"] if it.name.startswith("x")]
            runs = [it.statement for it in resting.Layout(unit.body).places if isinstance(it.statement, tree.Run)]
            if [it.type for it in members] != [f"f_{it.activity.name}" for it in runs]:
                raise Fault(f"{self.source.path}: not the source of this text: activity {unit.name} runs others in it")
            self.runs[unit.name] = {member.name: run for member, run in zip(members, runs)}
        return self.runs[unit.name]

    def kept(self, unit, member):
        """Whether a text sets a counter at all; one that nothing asks for it may leave as it is."""
        return self.counters[f"f_{unit.name}", member] != {0}

    def instances(self):
        """Each instance, from the entry on: its name, its activity, and its path in C behind `s.f`."""
        left = [(self.source.entry.name, self.source.entry, "")]
        while left:
            name, unit, path = left.pop(0)
            yield name, unit, path
            left += [(f"{name} > {self.at(run)} {run.activity.name}", run.activity, f"{path}.{member}")
                     for member, run in self.runs_of(unit).items()]

    def signals(self, cells):
        """The variables of all instances, with a signal for each scalar in them."""
        by_path = {it.path: at for at, it in enumerate(cells)}
        for name, unit, path in self.instances():
            front = f"{name.partition(' > ')[2]}." if path else ""
            own = [it for it in unit.variables if it not in unit.inputs and it not in unit.outputs]
            for variable in own:
                label = front + variable.name
                if sum(it.name == variable.name for it in own) > 1:
                    label += f"@{self.source.spot(variable.span[0])}"
                place = f"s.m{path}.v{unit.variables.index(variable)}_{variable.name}"
                for more, kind, c_path in parts_of(variable.type):
                    yield Signal(f"{label}{more}", kind, by_path.get(f"{place}{c_path}"), self.sets(unit, place))

    def sets(self, unit, place):
        """Whether the text sets a variable at all; one that nothing reads it may leave as it is."""
        member = place.rpartition(".")[2]
        body = re.search(rf"^static void a_{unit.name}\(.*?\) \{{\n(.*?)^\}}", self.text, re.S | re.M)
        return bool(body) and re.search(rf"\b{member}\b", body.group(1)) is not None


def parts_of(kind):
    """The scalars of a type: how the source names each behind its variable, its type, and how C does."""
    if isinstance(kind, tree.Struct):
        for field, inner in kind.fields.items():
            for more, scalar, path in parts_of(inner):
                yield f".{field}{more}", scalar, f".m_{field}{path}"
    elif isinstance(kind, tree.Array):
        for at in range(kind.length):
            for more, scalar, path in parts_of(kind.element):
                yield f"[{at}]{more}", scalar, f".e[{at}]{path}"
    else:
        yield "", kind, ""


def part_of(kind, members):
    """What the members behind a variable are in the source: fields and indices."""
    told = ""
    for it in members:
        if it.startswith("e["):
            told, kind = told + it[1:], kind.element
        else:
            told, kind = f"{told}.{it[2:]}", kind.fields[it[2:]]
    return told, kind


class Decoder:
    """Tells what each cell of one state is."""

    def __init__(self, names, cells, values):
        self.names, self.values = names, {it.path: value for it, value in zip(cells, values)}

    def port(self, path):
        """An input or output."""
        name = path.split(".")[1]
        kind = "input" if path[0] == "i" else "output"
        return "(fills up)" if name == "pad" else f"{kind} {name[2:]}"

    def counter(self, unit, path, member):
        """What a counter says."""
        rests, number, value = self.names.rests_of(unit), int(member[1:]), self.values[path]
        if not self.names.kept(unit, member):
            return "rests somewhere: the text doesn't keep it"
        if (number, value) in rests:
            return rests[number, value][0]
        if value:
            raise Fault(f"{self.names.source.path}: not the source of this text: activity {unit.name} has no place {value} there")
        return f"rests at no place of counter {number}"

    def runs(self, unit, path, run):
        """Whether an instance at a path in C rests at a `run`."""
        keys = [key for key, (_, it) in self.names.rests_of(unit).items() if it is run]
        return any(not self.names.kept(unit, f"c{counter}") or self.values[f"{path}.c{counter}"] == value for counter, value in keys)

    def told(self, path):
        """What a cell is."""
        if path[0] != "s":
            return self.port(path)
        part, *members = path.split(".")[1:]
        unit, name, here, live = self.names.source.entry, self.names.source.entry.name, "s.f", True
        while members[0][0] == "x":
            run = self.names.runs_of(unit)[members[0]]
            live = live and self.runs(unit, here, run)
            unit, name, here = run.activity, f"{name} > {self.names.at(run)} {run.activity.name}", f"{here}.{members.pop(0)}"
        if part == "f":
            what = self.counter(unit, path, members[0]) if live else "is not run"
            return f"{name}{':' * what.startswith('branch ')} {what}"
        variable = unit.variables[int(members[0][1:].partition("_")[0])]
        more, kind = part_of(variable.type, members[1:])
        return f"{name}: {variable.name}{more}, {kind}"


def names_of(source, text_path, text):
    """What the cells of a text are in a source, which has to be that of the text."""
    structs = shared.structs_of(text_path, text)
    ports = [[it.name for it in part] for part in (source.entry.inputs, source.entry.outputs)]
    same = ports == [[name for name, _ in shared.ports_of(structs, it)] for it in ("bl_in", "bl_out")]
    if not same or structs["bl_state"][0].type != f"f_{source.entry.name}":
        raise Fault(f"{source.path}: not the source of {text_path}: its entry differs")
    return Names(source, structs, text)


# ---- the values of all ticks

HARNESS = """#include <stdio.h>
#include <stdlib.h>
#define abort stopped
static void stopped(void);
#include "text.c"
static struct bl_state s;
static struct bl_in i;
static struct bl_out o;
static void stopped(void) { fflush(stdout); exit(0); }
#define GET(cell, kind) { kind it; if (fread(&it, sizeof it, 1, stdin) != 1) return 0; cell = it; }
#define PUT(cell, kind) { kind it = cell; (void)fwrite(&it, sizeof it, 1, stdout); }
int main(void) {
    uint32_t ended = 0;
    bl_init(&s);
    while (ended != 1) {
        uint8_t more;
        GET(more, uint8_t)
        (void)more;
@GETS@
        ended = bl_tick(&s, &i, &o);
@PUTS@
    }
    return 0;
}
"""


def compiler():
    """The C compiler that is there; nothing where none is. BLECHC_CC names another one, and is empty where none is to be taken."""
    named = os.environ.get("BLECHC_CC")
    if named is not None:
        return shutil.which(named) if named else None
    return next(filter(None, map(shutil.which, COMPILERS)), None)


class Run:
    """The values of the cells of a text at the end of each tick."""

    def __init__(self, text, structs, rows, count):
        self.text, self.structs, self.rows, self.count = text, structs, rows, count
        self.cells = cells_of(structs)
        self.ports = shared.ports_of(structs, "bl_in")

    def compiled(self, cc):
        """By a C compiler: a program that ticks, and writes all cells after each tick."""
        gets = "\n".join(f"        GET(i.i_{name}, {kind})" for name, kind in self.ports)
        puts = "\n".join(f"        PUT({it.path}, {it.type})" for it in self.cells)
        with tempfile.TemporaryDirectory() as room:
            shared.write(f"{room}/text.c", self.text)
            shared.write(f"{room}/cells.c", HARNESS.replace("@GETS@", gets).replace("@PUTS@", puts))
            made = subprocess.run([cc, "-w", "-O0", "-o", f"{room}/cells", f"{room}/cells.c"], capture_output=True, text=True, check=False)
            if made.returncode:
                raise Fault(f"{cc}: the C text doesn't compile\n{made.stderr.strip()}")
            out = subprocess.run([f"{room}/cells"], input=self.packed(), capture_output=True, check=False).stdout
        pattern = struct.Struct("=" + "".join(FORMATS[it.type] for it in self.cells))
        return list(pattern.iter_unpack(out[:len(out) - len(out) % pattern.size]))

    def packed(self):
        """The rows as the program reads them."""
        pattern = struct.Struct("=B" + "".join(FORMATS[kind] for _, kind in self.ports))
        return b"".join(pattern.pack(1, *row) for row in self.rows.ticks[:self.count])

    def saved(self):
        """By `blechc save` from tick to tick, where there is no C compiler. It doesn't tell the last tick of a run that ends."""
        found = []
        with tempfile.TemporaryDirectory() as room:
            shared.write(f"{room}/text.c", self.text)
            for at in range(self.count):
                row = ",".join(["1", *[str(it).lower() for it in self.rows.ticks[at]]])
                shared.write(f"{room}/row.csv", f"{','.join(['tick', *self.rows.names])}\n{row}\n")
                words = ["save", f"{room}/text.c", *([f"{room}/state"] if found else []), f"{room}/row.csv"]
                status, state, _ = shared.call(words)
                if status:
                    break
                shared.write(f"{room}/state", state)
                found.append(numbers_of(self.cells, f"{room}/state", state))
        return found

    def values(self):
        """The values of all cells at the end of each tick that doesn't trap."""
        cc = compiler()
        return self.compiled(cc) if cc else self.saved()


class Values:
    """The variables of a source's activities in each tick of a run: signals, and the cells of each tick."""

    def __init__(self, paths, rows_path):
        self.source = shared.Source(paths)
        self.trace = shared.trace_of(paths, rows_path)
        self.text = shared.built(paths).decode("latin-1")
        self.names = names_of(self.source, self.source.path, self.text)
        count = len(self.trace.ticks) + (self.trace.end == "trap")
        self.rows = shared.table(rows_path, count)
        run = Run(self.text, self.names.structs, self.rows, count)
        self.cells, self.ticks = run.cells, run.values()
        self.compare()
        self.signals = list(self.names.signals(self.cells))

    def compare(self):
        """Refuses values whose outputs aren't those of the trace."""
        outputs = [at for at, it in enumerate(self.cells) if it.path.startswith("o.o_")]
        for tick, (told, cells) in enumerate(zip(self.trace.ticks, self.ticks), 1):
            if told != [cells[at] for at in outputs]:
                raise Fault(f"tick {tick}: the compiled C text has other outputs than `blechc run`: is its compiler sound?")

    def column(self, signal):
        """The values of a signal; nothing for one that the text doesn't keep."""
        if signal.cell is None or not signal.kept:
            return []
        return [it[signal.cell] for it in self.ticks]

    def chosen(self, names):
        """The signals with such names; all that are kept where there are none."""
        if not names:
            return [it for it in self.signals if it.cell is not None and it.kept]
        found = []
        for name in names:
            some = [it for it in self.signals if name in (it.name, it.name.rpartition(".")[2].partition("[")[0], it.name.partition("[")[0])]
            if not some:
                raise Fault(f"no variable {name}: there are {', '.join(it.name for it in self.signals[:40]) or 'none'}")
            lost = [it.name for it in some if it.cell is None or not it.kept]
            if lost:
                raise Fault(f"{lost[0]}: the C text doesn't keep it")
            found += some
        return found

    def places(self, tick):
        """Where each instance that is run rests after a tick."""
        decoder = Decoder(self.names, self.cells, self.ticks[tick])
        found = []
        for name, unit, path in self.names.instances():
            spots = [spot_of(decoder, unit, f"s.f{path}", number) for number in range(max(1, resting.width(unit.body)))]
            found.append((name, " ".join(filter(None, spots)) if alive(decoder, self.source.entry, path) else ""))
        return found


def spot_of(decoder, unit, path, number):
    """The place at which a counter of an instance rests; nothing where it rests at none."""
    value = decoder.values.get(f"{path}.c{number}")
    found = decoder.names.rests_of(unit).get((number, value))
    return decoder.names.at(found[1]) if found and found[1] is not None else ""


def alive(decoder, entry, path):
    """Whether an instance is run."""
    unit, here = entry, "s.f"
    for member in path.split(".")[1:]:
        run = decoder.names.runs_of(unit)[member]
        if not decoder.runs(unit, here, run):
            return False
        unit, here = run.activity, f"{here}.{member}"
    return True
