"""Tests of the tools that show runs: tools/explain of a trap and of a tick, tools/view, tools/wave, tools/plot, tools/cover and tools/state."""
import collections
import contextlib
import html
import importlib.machinery
import importlib.util
import io
import os
import re
import sys
import xml.etree.ElementTree

import browser
from reread import data_of, dumped, spread
from results import TOP, ran, text_of, write

sys.path.append(f"{TOP}/tools")

import four
import shared
import variables

Told = collections.namedtuple("Told", "returncode stdout stderr")
EXAMPLES = [it for it in sorted(os.listdir(f"{TOP}/examples")) if os.path.isfile(f"{TOP}/examples/{it}/{it}.blech")]
# a program that ends, with an input of the widest type and an output of each kind
ENDING = """@[EntryPoint]
activity M (wide: nat64, go: bool)(o: int8, b: bits16, p: bool)
    p = true
    await go
    o = -1
    b = 0xFFFF
    await wide > 5
    p = false
end
"""
ENDING_ROWS = "tick,wide,go\n1,18446744073709551615,false\n2,0,true\n3,6,false\n4,what comes behind the end\n"
# one that traps where a loop is tested
UNTIL = "@[EntryPoint]\nactivity M (n: int32)()\n    repeat\n        await true\n    until 1 / n == 7 end\nend\n"
TRAP = """tick 8: demand = true, flow = 1 -> trap
  6 |         await demand
    |         ^^^^^^^^^^^^ true
  7 |         last = flow
    |         ^^^^^^^^^^^ 1
  8 |         total = total + flow
    |         ^^^^^^^^^^^^^^^^^^^^ trapped
"""


COVERED = f""" statements acted, 12 of 14 sides of conditions were taken
never {TOP}/examples/keypad/keypad.blech:33:9: return -1
never false {TOP}/examples/keypad/keypad.blech:28:11: rest != 0
never true {TOP}/examples/keypad/keypad.blech:32:8: keys == 0
"""


def loaded(tool):
    """The module that a tool is."""
    loader = importlib.machinery.SourceFileLoader(f"tools_{tool}", f"{TOP}/tools/{tool}")
    module = importlib.util.module_from_spec(importlib.util.spec_from_loader(loader.name, loader))
    loader.exec_module(module)
    return module


class Tools:
    """Calls of the tools with a program, in a folder."""

    def __init__(self, results, program, room):
        self.results, self.program, self.room = results, program, room
        self.setting = {**os.environ, "BLECHC_PROGRAM": program}
        self.modules = {it: loaded(it) for it in ("view", "wave", "plot", "cover", "state", "values", "test", "rows", "lines", "explain")}

    def call(self, tool, *words):
        """Calls a tool. Where it can be, it is called within this process, which takes less time."""
        runs = tool == "explain" and words[:1] != ("why",)
        if tool not in self.modules or not words or runs:
            return ran([f"{TOP}/tools/{tool}", *words], cwd=self.room, env=self.setting)
        out, told, folder = io.StringIO(), io.StringIO(), os.getcwd()
        os.chdir(self.room)
        os.environ["BLECHC_PROGRAM"] = self.program
        try:
            with contextlib.redirect_stdout(out), contextlib.redirect_stderr(told):
                status = shared.main(self.modules[tool].work, list(words), self.modules[tool].__doc__)
        finally:
            os.chdir(folder)
        return Told(status, out.getvalue(), told.getvalue())

    def good(self, tool, *words):
        """What a tool prints, which has nothing to say on standard error."""
        told = self.call(tool, *words)
        self.results.tell(f"tools/{tool} {' '.join(words)}", (told.returncode, told.stderr), (0, ""))
        return told.stdout

    def bad(self, status, line, tool, *words):
        """A call that tells a fault, which a line of standard error begins with."""
        told = self.call(tool, *words)
        there = any(it.startswith(line) for it in told.stderr.split("\n"))
        self.results.tell(f"tools/{tool} {' '.join(words)}", (told.returncode, there or told.stderr, told.stdout), (status, True, ""))


class Run:
    """A source with rows, and what the program makes of them: the trace, the steps of each tick, the C text."""

    def __init__(self, tools, source, rows):
        self.source, self.rows, self.trace = source, rows, f"{tools.room}/trace.csv"
        walked = ran([tools.program, "walk", source, rows, "0"])
        write(self.trace, walked.stdout)
        self.steps = [[int(it) for it in line.split()[2:]] for line in walked.stderr.split("\n") if line.startswith("tick ")]
        lines = [it.split(",") for it in walked.stdout.strip().split("\n")]
        self.end = lines.pop()[0] if lines[-1][0] in ("trap", "ended") else ""
        inputs = [it.split(",") for it in text_of(rows).strip().split("\n")][:len(self.steps) + 1]
        # (columns of values by name)
        self.columns = {column[0]: list(map(number_of, column[1:])) for table in (inputs, lines) for column in list(zip(*table))[1:]}
        self.ticks = len(lines) - 1


def number_of(field):
    return {"true": 1, "false": 0}.get(field) if field in ("true", "false") else int(field)


# ---- what the tools write, read again


def with_unknown(run):
    """The columns of a run, in which outputs are unknown in a tick that traps."""
    return {name: it + [None] * (len(run.steps) - len(it)) for name, it in run.columns.items()}


# ---- the tools over one run


def check_page(results, name, page, run):
    """The page of a run has its columns, its steps, and each piece of the source that acts once."""
    data = data_of(page)
    results.tell(f"{name}, page, no network", re.findall(r"\w+://|<link|src=", page), [])
    results.tell(f"{name}, page, columns", {it["name"]: spread(it) for it in data["signals"]}, run.columns)
    results.tell(f"{name}, page, end", (data["ticks"], data["end"]), (len(run.steps), run.end))
    pieces = dict(reversed(re.findall(r'<b data-a="(\d+)"[^>]*>(.*?)</b>', page)))
    source, wrong = text_of(run.source).encode(), []
    for steps, at in zip(run.steps, data["steps"]):
        # (the piece of the test of an `elseif` begins with that word, in front of its place)
        pairs = [(html.unescape(pieces[str(act)]), source[step:].decode()) for act, step in zip(data["patterns"][at], steps)]
        wrong += [it for it in pairs if not it[1].startswith(shared.without(it[0], "elseif").lstrip("( "))]
        wrong += [] if len(pairs) == len(steps) else [steps]
    results.tell(f"{name}, page, steps", wrong, [])


def check_waves(tools, name, run):
    """The dump and the picture of a run."""
    columns = dumped(tools.good("wave", run.trace, run.rows, run.source))
    wanted = with_unknown(run)
    wanted["trap"] = [int(run.end == "trap" and at == run.ticks) for at in range(len(run.steps))]
    wanted["ended"] = [int(run.end == "ended" and at == run.ticks - 1) for at in range(len(run.steps))]
    tools.results.tell(f"{name}, dump", columns, wanted)
    root = xml.etree.ElementTree.fromstring(tools.good("plot", run.trace, run.rows))
    lines = [it for it in root if it.tag.endswith("polyline")]
    red = [it for it in root if it.get("fill") == "#d1242f" and it.tag.endswith("rect")]
    drawn = [it for it in run.columns.values() if it]
    tools.results.tell(f"{name}, picture", (len(lines), len(red)), (len(drawn), int(run.end == "trap")))


def check_cover(tools, name, run, plain):
    """The numbers of lines: those on which a step stands are greater than 0, in a plain source."""
    told = dict(map(int, it) for it in re.findall(r"^DA:(\d+),(\d+)$", tools.good("cover", "--lcov", run.source, run.rows), re.M))
    data = text_of(run.source).encode()
    acted = {data.count(b"\n", 0, it) + 1 for steps in run.steps for it in steps}
    never = {line for line, count in told.items() if not count}
    tools.results.tell(f"{name}, lcov", (acted - set(told), acted & never if plain else set()), (set(), set()))
    text = tools.good("cover", run.source, run.rows)
    marked = {int(line): 0 if count == "#####" else int(count) for count, line in re.findall(r"^ *(\d+|#####) +(\d+) \|", text, re.M)}
    tools.results.tell(f"{name}, cover as text", marked, told)


def check_state(tools, name, run, plain):
    """A state shows the inputs and outputs of the last tick that leaves the run open; instances rest at what acts next, in a plain source."""
    open_ticks = run.ticks - (run.end == "ended")
    if not open_ticks:
        return
    rows, text, saved = (f"{tools.room}/{it}" for it in ("some.csv", "text.c", "saved"))
    write(rows, "\n".join(text_of(run.rows).split("\n")[:open_ticks + 1]) + "\n")
    write(text, ran([tools.program, "build", run.source]).stdout)
    with open(saved, "wb") as it:
        tools.results.tell(f"{name}, save", ran_into(it, [tools.program, "save", text, rows]), 0)
    told = tools.good("state", text, saved, run.source)
    got = {name: number_of(value) for value, name in re.findall(r"^\S+ +(\S+)  (?:input|output) (\w+)$", told, re.M)}
    tools.results.tell(f"{name}, state", got, {name: it[open_ticks - 1] for name, it in run.columns.items()})
    rests = {tuple(map(int, it)) for it in re.findall(r"rests at .* \((\d+):(\d+)\)$", told, re.M)}
    data = text_of(run.source)
    acts = {place_of(data, it) for it in run.steps[open_ticks]} if open_ticks < len(run.steps) else rests
    tools.results.tell(f"{name}, state, where it rests", rests - acts if plain else set(), set())
    bare = tools.good("state", text, saved)
    tools.results.tell(f"{name}, state without a source", [it.split() for it in bare.split("\n")], [it.split()[:2] for it in told.split("\n")])


def ran_into(file, words):
    """The status of a call that writes into a file."""
    return ran(["sh", "-c", 'exec "$0" "$@" >&%d' % file.fileno(), *words], pass_fds=[file.fileno()]).returncode


def place_of(text, offset):
    """The line and the column of an offset in a text of ASCII."""
    return text.count("\n", 0, offset) + 1, offset - text.rfind("\n", 0, offset)


def check_run(tools, name, source, rows, plain=True):
    """All tools over one run. A plain source has one statement on a line, and nothing in it is dropped while it rests."""
    run = Run(tools, source, rows)
    check_page(tools.results, name, tools.good("view", source, rows), run)
    check_waves(tools, name, run)
    check_cover(tools, name, run, plain)
    check_state(tools, name, run, plain)


# ---- single cases


def check_traps(tools):
    """What is told of a trap by each command, and of one tick."""
    pump, rows = (f"{TOP}/examples/pump/{it}" for it in ("pump.blech", "rows.csv"))
    place = (f"{pump}:8:17: tick 8 trapped here\n  8 |         total = total + flow\n    |                 {'^' * 12}\n"
             "`total + flow` is 2147483647 + 1 here: 2147483648 isn't within int32, which goes from -2147483648 to\n2147483647.\n"
             "Tick 8 was given demand = true, flow = 1.\n")
    for words in (("run", pump, rows), ("walk", pump, rows, "7")):
        told = tools.call("explain", *words)
        tools.results.tell(f"explain {words[0]} of a trap", (told.returncode, told.stderr.endswith(place) or told.stderr), (6, True))
    write(f"{tools.room}/until.blech", UNTIL)
    write(f"{tools.room}/until.csv", "tick,n\n1,1\n2,0\n")
    told = tools.call("explain", "run", "until.blech", "until.csv")
    tools.results.tell("explain run of a trap at `until`", told.stderr.split("\n")[0], "until.blech:5:11: tick 2 trapped here")
    write(f"{tools.room}/pump.c", ran([tools.program, "build", pump]).stdout)
    told = tools.call("explain", "exec", "pump.c", rows)
    tools.results.tell("explain exec of a trap", (told.returncode, "Hint: `tools/explain run P ROWS`" in told.stderr), (6, True))
    told = ran([f"{TOP}/tools/explain", "run", pump, "/dev/stdin"], env=tools.setting, input=text_of(rows))
    wanted = 6, "The tick behind the last row trapped"
    tools.results.tell("explain run of rows that can't be read again", (told.returncode, told.stderr.split(":")[0]), wanted)
    tools.results.tell("explain why, a trap", tools.good("explain", "why", pump, rows, "8"), TRAP)
    tools.bad(2, "no tick 9: the run has 8 ticks", "explain", "why", pump, rows, "9")
    tools.bad(2, "no tick x", "explain", "why", pump, rows, "x")
    told = tools.call("explain", "gen", "3000")
    tools.results.tell("explain gen", (told.returncode, told.stderr.split("\n")[0]), (11, "gen 3000: too large: 3000"))
    tools.results.tell("explain gen 3", tools.good("explain", "gen", "3").split("\n")[-2], "last 103")


def check_bad(tools):
    """What is told of words and files that don't fit."""
    pump, rows, trace = (f"{TOP}/examples/pump/{it}" for it in ("pump.blech", "rows.csv", "trace.csv"))
    write(f"{tools.room}/pump.c", ran([tools.program, "build", pump]).stdout)
    write(f"{tools.room}/refused.blech", "@[EntryPoint]\nactivity M ()(o: int32)\n    var o: bool\n    await true\nend\n")
    write(f"{tools.room}/short.csv", "tick,demand,flow\n1,true,1\n")
    write(f"{tools.room}/words.csv", "tick,o\n1,one\n")
    write(f"{tools.room}/state", b"BLSV1\n\0\0\0\1\1")
    for tool, more in (("view", ()), ("cover", ()), ("explain", ("1",))):
        why = ("why",) if tool == "explain" else ()
        tools.bad(1, "refused.blech:3:9: rule 6 Duplicate: declared again", tool, *why, "refused.blech", rows, *more)
        tools.bad(5, "short.csv:1:1: bad line", tool, *why, f"{TOP}/examples/lamp/lamp.blech", "short.csv", *more)
        tools.bad(3, "none: read fault", tool, *why, "none", rows, *more)
    for tool in ("view", "wave", "plot", "cover", "state"):
        tools.bad(2, f"    tools/{tool} ", tool)
    for tool in ("wave", "plot"):
        tools.bad(2, "none: No such file", tool, "none")
        tools.bad(2, "words.csv:2: `one` is no whole number", tool, "words.csv")
        tools.bad(2, "short.csv: no rows of", tool, trace, "short.csv")
        tools.bad(2, f"{pump}:1: this is no header", tool, pump)
    tools.bad(2, f"{pump}: its entry has", "wave", trace, f"{TOP}/examples/pump/rows.csv".replace("pump", "heater"), pump)
    write(f"{tools.room}/empty.blech", "")
    for path in ("empty.blech", "pump.c", "short.csv"):
        tools.bad(2, f"{path}: no source that `blechc check` accepts", "wave", trace, f"{TOP}/examples/pump/rows.csv", path)
    tools.bad(2, "state: byte 9: in the number of cells", "state", "pump.c", "state")
    tools.bad(2, f"{pump}: no C text of blechc", "state", pump, "state")
    ran(["sh", "-c", '"$0" save pump.c short.csv > good', tools.program], cwd=tools.room)
    tools.bad(2, f"{TOP}/examples/lamp/lamp.blech: not the source of pump.c", "state", "pump.c", "good", f"{TOP}/examples/lamp/lamp.blech")


def check_sums(tools):
    """The numbers of several files of rows are added, and statements of functions and sides of conditions are counted."""
    pump = [f"{TOP}/examples/pump/{it}" for it in ("pump.blech", "rows.csv", "rows.csv")]
    tools.results.tell("cover of rows twice", re.findall(r"^DA:.*", tools.good("cover", "--lcov", *pump), re.M), ["DA:5,10", "DA:6,24", "DA:7,10", "DA:8,10", "DA:9,8"])
    told = tools.good("cover", *(f"{TOP}/examples/keypad/{it}" for it in ("keypad.blech", "rows.csv")))
    tools.results.tell("cover of functions and conditions", told.split("29 of 30")[1], COVERED)


def check_widths(tools):
    """The types of a dump: without a source 64 bits, of which the first is the sign."""
    write(f"{tools.room}/wide.csv", "tick,o,p\n1,-1,true\n2,9223372036854775807,false\n")
    told = dumped(tools.good("wave", "wide.csv"))
    tools.results.tell("a dump without types", (told["o"], told["p"]), ([-1, 2**63 - 1], [1, 0]))
    tools.results.tell("a dump of no ticks", len(dumped(tools.good("wave", f"{tools.room}/none.csv"))), 3)


def check_page_of_docs(tools):
    """The calls of docs/BENCH.md show what stands there, where a line `...` stands for any lines; its pictures are small."""
    room = f"{tools.room}/docs"
    os.mkdir(room)
    for name, target in (("tools", f"{TOP}/tools"), ("examples", f"{TOP}/examples"), ("blechc", tools.program)):
        os.symlink(target, f"{room}/{name}")
    setting = {**tools.setting, "PATH": f"{room}:{os.environ['PATH']}"}
    page = text_of(f"{TOP}/docs/BENCH.md")
    for block in re.findall(r"^```console\n(.*?)^```", page, re.S | re.M):
        for line, shown in re.findall(r"^\$ (.*)\n((?:(?!\$ ).*\n)*)", block, re.M):
            told = ran(["sh", "-c", f"{line} 2>&1"], cwd=room, env=setting).stdout
            pattern = "".join("(?:.*\n)*" if it == "...\n" else re.escape(it) for it in shown.splitlines(True))
            tools.results.tell(f"docs/BENCH.md, {line}", shown if re.fullmatch(pattern, told) else told, shown)
    crossing = [f"{TOP}/examples/crossing/{it}.csv" for it in ("trace", "rows")]
    tools.results.tell("docs/pictures/plot.svg", tools.good("plot", *crossing), text_of(f"{TOP}/docs/pictures/plot.svg"))
    for name in re.findall(r"\]\((pictures/.*?)\)", page):
        tools.results.tell(f"docs/{name}", 0 < os.path.getsize(f"{TOP}/docs/{name}") <= 60 * 1024, True)


def check(results, program, room):
    """All of these tests."""
    tools = Tools(results, program, room)
    for name in EXAMPLES:
        check_run(tools, name, f"{TOP}/examples/{name}/{name}.blech", f"{TOP}/examples/{name}/rows.csv")
    write(f"{room}/ending.blech", ENDING)
    write(f"{room}/ending.csv", ENDING_ROWS)
    write(f"{room}/none.csv", "tick,o\n")
    check_run(tools, "a run that ends", f"{room}/ending.blech", f"{room}/ending.csv")
    check_traps(tools)
    check_bad(tools)
    check_widths(tools)
    check_sums(tools)
    variables.check(tools)
    four.check(tools)
    check_page_of_docs(tools)
    browser.check(tools)
