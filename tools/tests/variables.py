"""Tests of what the tools tell of variables, tests and ticks: tools/values, tools/explain why, tools/test, tools/rows, tools/plant, several files."""
import csv
import io
import json
import re
import sys

import rests
from results import HERE, TOP, ran, text_of, there, write

sys.path.append(f"{TOP}/tools")

import shared
import replay

FURNACE = [f"{TOP}/examples/furnace/{it}" for it in ("parts.blech", "burner.blech", "main.blech", "rows.csv")]
CHARGER = [f"{HERE}/charger/{it}" for it in ("charger.blech", "rows.csv", "trace.csv", "plant.py")]
LONGEST = ("crossing", "keypad", "dosing")
# an activity whose variable lives in three instances, two of them at once, and a variable that is declared twice
INSTANCES = """activity Count (by: int32)(o: int32)
    var sum: int32 = 0
    repeat
        await true
        sum = sum + by
        o = sum
    until sum > 6 end
end

@[EntryPoint]
activity M (i: int32)(o: int32, p: int32)
    if i > 0 then
        var x: int32 = i
        o = x
    end
    var x: int32 = 7
    cobegin
        run Count(i)(o)
    with
        run Count(2)(p)
    end
    o = x
    await true
end
"""
SLICE = """tick 3: demand = false, flow = 900 -> last = 1500, total = 1500, strokes = 1
no statement set total in this tick
total of Pump was set in tick 2: {pump}:8:9: total = total + flow
"""
PLANT = """class Plant:
    def __init__(self):
        self.tenths = 180

    def inputs(self):
        return {"cold": self.tenths < 190, "warm": self.tenths > 210, "more": 5}

    def outputs(self, valve, heat, starts):
        self.tenths += heat if valve else -6
"""
BAD_PLANTS = (("class Plant:\n    def inputs(self):\n        return {}\n", "tick 1: the plant gives nothing"),
              ("class Plant:\n    def inputs(self):\n        return {'cold': 1, 'warm': True, 'more': 0}\n", "cold = 1 is no bool"),
              ("class Plant:\n    def inputs(self):\n        return 1 / 0\n", "bad.py:3: ZeroDivisionError"),
              ("class Plant\n", "SyntaxError"))


def example(name):
    return [f"{TOP}/examples/{name}/{it}" for it in (f"{name}.blech", "rows.csv", "trace.csv")]


# ---- values

def wanted_values(source, rows):
    """The variables of all instances at the end of each tick, by the interpreter of the tools."""
    run = replay.Replay(source)
    for row in rows.ticks:
        outputs = run.tick(row)
        if outputs is None:
            return
        yield dict(of_instance(source, run.machine.instance, ""))
        if run.machine.ended():
            return


def of_instance(source, instance, front):
    """The variables of an instance that has begun, and of those that it runs."""
    unit = instance.unit
    own = [it for it in unit.variables if it not in unit.inputs and it not in unit.outputs]
    for variable in own:
        twice = sum(it.name == variable.name for it in own) > 1
        name = f"{front}{variable.name}{f'@{source.spot(variable.span[0])}' if twice else ''}"
        yield from scalars(name, instance.now[variable])
    for statement, callee in instance.called.items():
        spot = f"{source.spot(statement.span[0])} {callee.unit.name}"
        yield from of_instance(source, callee, f"{front[:-1]} > {spot}." if front else f"{spot}.")


def scalars(name, value):
    """The scalars of a value, with their names."""
    if isinstance(value, dict):
        for field, inner in value.items():
            yield from scalars(f"{name}.{field}", inner)
    elif isinstance(value, list):
        for at, inner in enumerate(value):
            yield from scalars(f"{name}[{at}]", inner)
    else:
        yield name, str(value).lower()


def table_of(text):
    """The lines of a table by the names of their columns."""
    return list(csv.DictReader(io.StringIO("".join(it for it in text.splitlines(True) if it.strip() not in ("trap", "ended")))))


def check_values(tools, name, sources, rows):
    """The values that the C text keeps are those that the interpreter has."""
    source = shared.Source(sources)
    got = table_of(tools.good("values", *sources, rows))
    wanted = list(wanted_values(source, shared.table(rows, len(got))))
    wrong = [(at, key, value, line.get(key)) for at, (line, tick) in enumerate(zip(got, wanted), 1) for key, value in tick.items()
             if key in line and line[key] != value]
    tools.results.tell(f"{name}, values", (wrong[:5], len(got), bool(got)), ([], len(wanted), True))
    return got


def check_instances(tools):
    """Variables of several instances, and two of one name."""
    write(f"{tools.room}/instances.blech", INSTANCES)
    write(f"{tools.room}/instances.csv", "tick,i\n" + "".join(f"{it},{it}\n" for it in range(1, 9)))
    got = check_values(tools, "instances", [f"{tools.room}/instances.blech"], f"{tools.room}/instances.csv")
    names = ["x@13:13", "x@16:9", "18:9 Count.sum", "20:9 Count.sum"]
    tools.results.tell("values, names of variables", [it for it in got[0] if it != "tick"], names)
    told = tools.good("values", "instances.blech", "instances.csv", "sum", "--places", "--ports")
    tools.results.tell("values, places", table_of(told)[0]["M rests at"], "18:9 20:9")
    tools.bad(2, "no variable nothing: there are x@13:13", "values", "instances.blech", "instances.csv", "nothing")
    fast = tools.good("values", "instances.blech", "instances.csv")
    slow = ran([f"{TOP}/tools/values", "instances.blech", "instances.csv"], cwd=tools.room, env={**tools.setting, "BLECHC_CC": ""}).stdout
    lines = slow.split("\n")
    tools.results.tell("values without a C compiler", fast.startswith("\n".join(lines[:-2])) and len(lines) > 5 or slow, True)


def check_shown(tools):
    """Variables in a page, a dump and a picture."""
    source, rows, trace = example("crossing")
    page = json.loads(re.search(r'^<script type="application/json" id="data">(.*)</script>$', tools.good("view", "--all", source, rows), re.M)[1])
    kinds = [it["kind"] for it in page["signals"]]
    tools.results.tell("view --all", (kinds.count("variable"), page["signals"][-1]["name"]), (6, "67:9 Pause.passed"))
    tools.results.tell("wave --signal", "55_9_Pause_passed" in tools.good("wave", trace, rows, source, "--signal", "55:9 Pause.passed"), True)
    tools.results.tell("plot --all", tools.good("plot", trace, rows, source, "--all").count('stroke="#8250df"'), 6)
    tools.bad(2, "for variables P is needed", "wave", trace, rows, "--all")


# ---- ticks

def check_why(tools):
    """Each test tells how it came out; a tick is told though the rows behind it are bad; an output has its statements."""
    source, rows, _ = example("pump")
    write(f"{tools.room}/behind.csv", text_of(rows).replace("7,false", "seven,false"))
    told = tools.good("explain", "why", source, "behind.csv", "2")
    tools.results.tell("why, a bad row behind the tick", re.findall(r"\^ (\w+)$", told, re.M), ["true", "1500", "1500", "1"])
    tools.results.tell("why, an output", tools.good("explain", "why", source, rows, "3", "total"), SLICE.format(pump=source))
    told = tools.good("explain", "why", source, rows, "4", "total")
    tools.results.tell("why, what an output came from", re.findall(r"^ +(\d+) \|", told, re.M), ["6", "8"])
    tools.bad(2, "no output sum: the entry has last, total, strokes", "explain", "why", source, rows, "4", "sum")


def check_test(tools):
    """The first tick that differs, and a file of JUnit."""
    source, rows, trace = example("pump")
    write(f"{tools.room}/other.csv", text_of(trace).replace("3,1500,1500,1", "3,1500,1501,1"))
    tools.results.tell("test, a good trace", tools.good("test", source, rows, trace), f"{rows}: as {trace}\n")
    told = ran([f"{TOP}/tools/test", "--junit", "junit.xml", source, rows, trace, rows, "other.csv"], cwd=tools.room, env=tools.setting)
    tools.results.tell("test, a trace that differs", (told.returncode, "tick 3 differs" in told.stdout, "differ: total" in told.stdout), (1, True, True))
    tools.results.tell("test, junit", re.findall(r'tests="(\d)" failures="(\d)"', text_of(f"{tools.room}/junit.xml")), [("2", "1")])
    tools.bad(2, f"{rows}: a test is two files", "test", source, rows)


def check_rows(tools):
    """Random rows are good rows, the same for one seed, and within their ranges."""
    source = example("heater")[0]
    words = (source, "40", "--range", "more=3..9", "--chance", "cold=100", "--hold", "warm=4")
    first, again, other = (tools.good("rows", *words, "--seed", it) for it in "112")
    write(f"{tools.room}/random.csv", first)
    more = {int(it["more"]) for it in table_of(first)}
    tools.results.tell("rows, a seed", (first == again, first == other, min(more) >= 3, max(more) <= 9, "false" in {it["cold"] for it in table_of(first)}),
                       (True, False, True, True, False))
    tools.results.tell("rows, run", ran([tools.program, "run", source, "random.csv"], cwd=tools.room).returncode, 0)
    for word, line in (("more=9..3", "`more=9..3`: more is int32"), ("less=1..2", "`less=1..2` names no input"), ("cold=0..1", "cold is a bool")):
        tools.bad(2, line, "rows", source, "3", "--range", word)


def check_plant(tools):
    """A closed loop: its rows give the same trace again; a plant that doesn't fit is told with its line."""
    source = example("heater")[0]
    write(f"{tools.room}/room.py", PLANT)
    told = tools.call("plant", source, "room.py", "30", "--rows", "kept.csv")
    again = ran([tools.program, "run", source, "kept.csv"], cwd=tools.room).stdout
    tools.results.tell("plant, a loop", (told.returncode, told.stdout == again, told.stdout.count("\n")), (0, True, 31))
    for text, line in BAD_PLANTS:
        write(f"{tools.room}/bad.py", text)
        told = tools.call("plant", source, "bad.py", "3")
        tools.results.tell(f"plant, {line}", (told.returncode, line in told.stderr or told.stderr), (2, True))


# ---- several files

def check_files(tools):
    """The tools that take one source take several, and tell places with their files."""
    *sources, rows = FURNACE
    trace = f"{TOP}/examples/furnace/trace.csv"
    check_values(tools, "furnace", sources, rows)
    tools.results.tell("furnace, test", tools.good("test", *sources, rows, trace), f"{rows}: as {trace}\n")
    told = tools.call("explain", "run", *sources, rows)
    tools.results.tell("furnace, explain run", (told.returncode, told.stdout), (0, text_of(trace)))
    told = tools.good("explain", "why", *sources, rows, "3")
    tools.results.tell("furnace, why", f"{sources[1]}:10 |         tries = tries + 1" in told or told, True)
    told = tools.good("cover", *sources, rows)
    tools.results.tell("furnace, cover", f"never {sources[0]}:17:9: return COLDEST" in told or told, True)
    page = tools.good("view", "--all", *sources, rows)
    tools.results.tell("furnace, view", [it in page for it in ("burner.blech</div>", "main.blech</div>", "Light.tries")], [True] * 3)
    write(f"{tools.room}/furnace.c", ran([tools.program, "link", *sources]).stdout)
    # (the run ends with its last row, and a run that has ended has no state)
    write(f"{tools.room}/front.csv", "".join(text_of(rows).splitlines(True)[:6]))
    ran(["sh", "-c", '"$0" save furnace.c front.csv > furnace.state', tools.program], cwd=tools.room)
    told = tools.good("state", "furnace.c", "furnace.state", *sources)
    tools.results.tell("furnace, state", "burner.blech:21:9 Light: tries, nat8" in told or told, True)
    write(f"{tools.room}/bad.blech", text_of(sources[1]).replace("tries = tries + 1", "tries = tries + true"))
    tools.bad(1, "bad.blech:10:17: rule 9 Type", "view", sources[0], "bad.blech", sources[2], rows)


def check_absent(tools):
    """A file that isn't there is the one that is named, whichever it is; each tool prints its help, and refuses an option that it doesn't have."""
    source, rows, trace = example("pump")
    for tool, words in (("view", (source, "nope.csv")), ("cover", (source, "nope.csv")), ("explain", ("why", source, "nope.csv", "1")),
                        ("values", (source, "nope.csv")), ("test", (source, "nope.csv", trace)), ("explain", ("run", source, "nope.csv"))):
        told = tools.call(tool, *words)
        tools.results.tell(f"{tool}, no such rows", (told.returncode in (2, 3), told.stderr.startswith("nope.csv:") or told.stderr), (True, True))
    for tool in ("explain", "view", "wave", "plot", "state", "cover", "values", "test", "rows", "plant", "lines", "unit"):
        told = tools.call(tool, "--help")
        tools.results.tell(f"{tool} --help", (told.returncode, f"    tools/{tool} " in told.stdout, told.stderr), (0, True, ""))
        if tool != "explain":
            told = tools.call(tool, "--none")
            tools.results.tell(f"{tool} --none", (told.returncode, told.stderr[:14]), (2, "no such option"))


def check_charger(tools):
    """A controller of some 270 lines."""
    source, rows, trace, plant = CHARGER
    check_values(tools, "charger", [source], rows)
    tools.results.tell("charger, test", tools.good("test", source, rows, trace), f"{rows}: as {trace}\n")
    told = tools.call("plant", source, plant, "40")
    tools.results.tell("charger, plant", told.stdout, text_of(trace))
    tools.results.tell("charger, remarks", tools.good("explain", "check", "--remarks", source), "accepted\n")


def check(tools):
    """All of these tests."""
    if there("gcc"):
        for name in LONGEST:
            check_values(tools, name, example(name)[:1], example(name)[1])
        check_instances(tools)
        several = [(it, example(it)[:1], example(it)[1]) for it in LONGEST]
        rests.check(tools, [*several, ("furnace", FURNACE[:3], FURNACE[3]), ("charger", CHARGER[:1], CHARGER[1])])
        check_shown(tools)
        check_files(tools)
        check_charger(tools)
    check_why(tools)
    check_test(tools)
    check_rows(tools)
    check_plant(tools)
    check_absent(tools)
