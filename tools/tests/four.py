"""Takes four controllers through every tool: the three longest examples, and one of 270 lines. Of what each tool says one telling fact is compared.

The facts are worked out by hand from the source and its rows. Names and numbers of the C text are read from it.
"""
import collections
import csv
import io
import os
import re
import shutil

import browser
import units
from reread import data_of, dumped, spread
from results import HERE, TOP, ran, text_of, there, write

# A controller, its folder, and the facts. `acts` is a statement: its line, its text, and the ticks in which it acts. `variable` has its values in the
# first ticks. `rests` is what tools/state tells behind a tick. `why` is a tick, an output, and lines that are told. `ranges` bound random rows.
# `holds` are words of tools/prove. `plant` is a plant with an output and its values in the first ticks.
Controller = collections.namedtuple("Controller", "name folder acts variable rests why never ranges holds plant")
CROSSING = Controller(
    "crossing", f"{TOP}/examples/crossing", (52, "cars = AMBER", [6, 21]), ("49:13 Pause.passed", [0, 1, 2, 3, 4, 4, 4]),
    (6, r"Crossing rests at run Pause\(AMBER_TICKS\)\(\) \(53:9\)"), (6, "cars", ["52 |         cars = AMBER", "^^^^^^^^^^^^ 3"]), "50:19: lamp", (),
    ("--always", "walk => cars == 0"),
    ("        return {'button': self.told.get('green', 0) >= 6}\n",
     "        self.told['green'] = self.told.get('green', 0) + 1 if told['cars'] == 2 else 0\n", "cars", [2] * 6 + [3, 3, 0, 0]))
KEYPAD = Controller(
    "keypad", f"{TOP}/examples/keypad", (50, "last = Lowest(pressed)", [7, 11, 12]), ("held", [0] * 6 + [4] * 4 + [5, 13]),
    (7, r"Keypad rests (?:at await true \(52:9\)|somewhere.*)"), (12, "last", ["50 |             last = Lowest(pressed)", "^^^^^^^^^^^^^^^^^^^^^^ 3"]),
    "28:11: rest != 0", (), ("--always", "last >= -1 && last <= 3"),
    ("        return {'raw': 0 if self.told.get('keys', 0) & 4 else 4}\n", "        self.told = told\n", "keys", [0, 0, 4, 4, 4, 0, 0, 0, 4, 4, 4, 0]))
DOSING = Controller(
    "dosing", f"{TOP}/examples/dosing", (44, "stirrer = true", [6, 11]), ("plant.left.given", [0, 0, 80, 160, 240, 320]),
    (5, r"Dosing rests at run Dose\(wanted_left, flow_left\)\(plant\.left\) \(33:13\)\n.*  Dosing: branch 2 of the cobegin at 32:9 has ended"),
    (5, "batch", ["^ 240", "^ 360", "plant.right.given of Dosing was set in tick 4: "]), "31:15: start", (),
    ("--always", "stirrer => !valve_left && !valve_right"),
    ("        return {'start': True, 'wanted_left': 250, 'flow_left': 100 * self.told.get('valve_left', 0), 'wanted_right': 100,\n"
     "                'flow_right': 50 * self.told.get('valve_right', 0)}\n", "        self.told = told\n", "batch", [0, 0, 150, 300, 400, 400]))
SMALL = " && ".join(f"{it} >= 0 && {it} <= 5000" for it in "abcd")
CHARGER = Controller(
    "charger", f"{HERE}/charger", (264, "seconds = seconds + 1", list(range(6, 13))),
    ("267:21 Tried > 220:17 Charge > 194:5 Precharge > 142:9 Clock.passed", [0, 0, 0, 0, 0, 1, 2, 3]),
    (8, r"Charger > 267:21 Tried rests at await true \(216:17\)"), (6, "current", ["146 |             current = Towards(current, SLOW)", "^ 100"]),
    "131:13: stable = stable + 1", [f"{it}=2900..4300" for it in "abcd"],
    ("--assume", SMALL, "--always", "phase == 0 => current == 0", "--always", "phase <= 6"), None)
FOUR = (CROSSING, KEYPAD, DOSING, CHARGER)
PLANT = "class Plant:\n    def __init__(self):\n        self.told = {{}}\n\n    def inputs(self):\n{}\n    def outputs(self, **told):\n{}"
# so many ticks are taken: `walk` needs a tenth of a second for each of the charger's
MOST = {"charger": 12}
STOPS = 'break {file}:{line}\ncommands\nsilent\nprintf "stops in %d\\n", tick\ncontinue\nend\nrun\n'
MODES = (("--state",), ("--whole",), ("--prelude", "--abort"), ("--trap-lines", "--state"))
CMAKE = """cmake_minimum_required(VERSION 3.13)
project(firmware C)
enable_testing()
include({top}/tools/cmake/blechc.cmake)
{controllers}
add_executable(firmware main.c)
target_link_libraries(firmware PRIVATE {names})
"""


def files(tools, it):
    """The source, the rows and the trace of a controller, of which all ticks are taken or the first ones."""
    found = [f"{it.folder}/{name}" for name in (f"{it.name}.blech", "rows.csv", "trace.csv")]
    if it.name not in MOST:
        return found
    for path in found[1:]:
        write(f"{tools.room}/{it.name}_{os.path.basename(path)}", "".join(text_of(path).splitlines(True)[:MOST[it.name] + 1]))
    return [found[0], *(f"{tools.room}/{it.name}_{os.path.basename(path)}" for path in found[1:])]


def column(text, name):
    """The values of a column of a table, as numbers."""
    return [{"true": 1, "false": 0}.get(line[name]) if line[name] in ("true", "false") else int(line[name])
            for line in csv.DictReader(io.StringIO(text)) if line["tick"].isdecimal()]


class Taken:
    """A controller that is taken through the tools."""

    def __init__(self, tools, it):
        self.tools, self.it = tools, it
        self.source, self.rows, self.trace = files(tools, it)
        self.line, self.text, self.ticks = it.acts
        self.c = f"{tools.room}/{it.name}.c"
        write(self.c, ran([tools.program, "build", self.source]).stdout)
        self.ports = [(name, column(text_of(path), name)) for path in (self.rows, self.trace) for name in text_of(path).split("\n")[0].split(",")[1:]]

    def tell(self, what, got, wanted):
        self.tools.results.tell(f"{self.it.name}, {what}", got, wanted)

    def good(self, tool, *words):
        return self.tools.good(tool, *words)

    def explained(self):
        """tools/explain: each command passes on what the program says, the statement acts in its ticks alone, and an output has its statements."""
        state = f"{self.it.name}.state"
        ran(["sh", "-c", f'"$0" save {self.c} "$1" > {state}', self.tools.program, self.rows], cwd=self.tools.room)
        wanted = text_of(self.trace)
        for words, told in ((("check", "--remarks", self.source), "accepted\n"), (("run", self.source, self.rows), wanted),
                            (("walk", self.source, self.rows, "3"), wanted), (("exec", self.c, self.rows), wanted), (("build", self.source), text_of(self.c)),
                            (("resume", self.c, state, self.rows), None), (("count", self.c, self.rows), None), (("bound", self.c), None)):
            got = self.tools.call("explain", *words)
            self.tell(f"explain {words[0]}", (got.returncode, got.stdout if told else got.stdout.count("\n") > 2), (0, told or True))
        first, line = self.ticks[0], f"{self.line} | "
        acted = [any(it.lstrip().startswith(line) for it in self.good("explain", "why", self.source, self.rows, str(at)).split("\n"))
                 for at in (first - 1, first)]
        self.tell("explain why", acted, [False, True])
        tick, output, lines = self.it.why
        told = self.good("explain", "why", self.source, self.rows, str(tick), output)
        self.tell("explain why of an output", [it for it in lines if it not in told], [])

    def valued(self):
        """tools/values and tools/state: a variable, all ports, and a place."""
        name, wanted = self.it.variable
        told = self.good("values", self.source, self.rows, name, "--ports", "--places")
        self.tell("values", column(told, name)[:len(wanted)], wanted)
        self.tell("values --ports", [(it, column(told, it)) for it, _ in self.ports], self.ports)
        self.tell("values --names", f"{name}: " in self.good("values", self.source, self.rows, name, "--names"), True)
        tick, place = self.it.rests
        write(f"{self.tools.room}/front.csv", "".join(text_of(self.rows).splitlines(True)[:tick + 1]))
        ran(["sh", "-c", f'"$0" save {self.c} front.csv > front.state', self.tools.program], cwd=self.tools.room)
        told = self.good("state", self.c, "front.state", self.source)
        self.tell("state", bool(re.search(place, told)) or told, True)

    def shown(self):
        """tools/view, tools/wave and tools/plot: all ports and the variable, also in tools/plot and tools/wave of the lines of tools/values."""
        name, wanted = self.it.variable
        page = self.good("view", "--all", self.source, self.rows)
        write(f"{self.tools.room}/{self.it.name}.html", page)
        signals = {it["name"]: spread(it) for it in data_of(page)["signals"]}
        self.tell("view --all", ([(it, signals[it]) for it, _ in self.ports], signals[name][:len(wanted)]), (self.ports, wanted))
        dump = dumped(self.good("wave", self.trace, self.rows, self.source, "--signal", name))
        self.tell("wave", ([(it, dump[it]) for it, _ in self.ports], dump[re.sub(r"\W", "_", name)][:len(wanted)]), (self.ports, wanted))
        picture = self.good("plot", self.trace, self.rows, self.source, "--signal", name)
        self.tell("plot", (picture.count("<polyline"), [it for it, _ in self.ports if f">{it}</text>" not in picture]), (len(self.ports) + 1, []))
        write(f"{self.tools.room}/values.csv", self.good("values", self.source, self.rows, name, "--ports"))
        self.tell("plot of values", self.good("plot", "values.csv").count("<polyline"), len(self.ports) + 1)

    def covered(self):
        """tools/cover: how often the statement acted, in each of three forms, and a side that was never taken."""
        text, lcov, page = (self.good("cover", *option, self.source, self.rows) for option in ((), ("--lcov",), ("--html",)))
        self.tell("cover", (re.findall(rf"^ *(\d+) +{self.line} \|", text, re.M), self.it.never in text), ([str(len(self.ticks))], True))
        self.tell("cover --lcov", f"DA:{self.line},{len(self.ticks)}\n" in lcov, True)
        self.tell("cover --html", re.findall(rf">{len(self.ticks)}<.*{re.escape(self.text)}", page) != [], True)

    def tested(self):
        """tools/test, tools/rows and tools/plant: the trace, one with a wrong end, random rows by source and by text, a closed loop."""
        room, trace = self.tools.room, text_of(self.trace).rstrip("\n")
        write(f"{room}/wrong.csv", trace[:trace.rindex(",")] + (",77\n" if trace[-1].isdecimal() else f",{str(trace[-5:] != ',true').lower()}\n"))
        told = self.tools.call("test", self.source, self.rows, self.trace, self.rows, "wrong.csv", "--junit", "junit.xml")
        last = len(trace.split("\n")) - 1
        self.tell("test", (told.returncode, told.stdout.startswith(f"{self.rows}: as {self.trace}\n"), f"tick {last} differs" in told.stdout), (1, True, True))
        self.tell("test --junit", 'tests="2" failures="1"' in text_of(f"{room}/junit.xml"), True)
        words = [part for it in self.it.ranges for part in ("--range", it)]
        write(f"{room}/random.csv", self.good("rows", self.source, "60", "--seed", "7", *words))
        write(f"{room}/told.csv", ran([self.tools.program, "exec", self.c, f"{room}/random.csv"]).stdout)
        self.tell("rows", self.good("test", self.source, "random.csv", "told.csv"), "random.csv: as told.csv\n")
        if self.it.plant is None:
            told = self.tools.call("plant", self.source, f"{self.it.folder}/plant.py", str(MOST[self.it.name]), "--rows", "kept.csv")
            self.tell("plant", (told.stdout, text_of(f"{room}/kept.csv")), (text_of(self.trace), text_of(self.rows)))
            return
        inputs, outputs, name, wanted = self.it.plant
        write(f"{room}/plant.py", PLANT.format(inputs, outputs))
        told = self.tools.call("plant", self.source, "plant.py", str(len(wanted)))
        self.tell("plant", column(told.stdout, name) if told.returncode == 0 else told.stderr, wanted)

    def led(self):
        """tools/lines: a line of the text leads to the statement; a debugger stops there in the ticks in which it acts, and in no other."""
        table = list(csv.DictReader(io.StringIO(self.good("lines", self.source))))
        lines = text_of(self.c).split("\n")
        led = [lines[int(it["line"]) - 1] for it in table if re.fullmatch(rf".*:{self.line}:\d+", it["place"])]
        word = re.match(r"\w+", self.text)[0]
        self.tell("lines", bool(led) and all(re.search(rf"\b(?:v\d+|o)_{word}\b", it) for it in led) or led, True)
        listing = self.good("lines", "--listing", self.source)
        self.tell("lines --listing", (re.sub(r"  /\* .* \*/$", "", listing, flags=re.M), f": {self.text} */" in listing), (text_of(self.c), True))
        name = f"{self.it.name}_gdb"
        write(f"{self.tools.room}/{name}.c", self.good("lines", "--gdb", self.source))
        write(f"{self.tools.room}/{name}_main.c", self.main(f"{name}.c"))
        words = ["gcc", "-std=c99", "-Wall", "-Wno-unused-function", "-Wno-unused-parameter", "-Werror", "-g", "-O0", "-o", name, f"{name}_main.c"]
        self.tell("lines --gdb", ran(words, cwd=self.tools.room).stderr, "")
        if there("gdb"):
            write(f"{self.tools.room}/stops", STOPS.format(file=os.path.basename(self.source), line=self.line))
            told = ran(["gdb", "-nx", "-batch", "-x", "stops", name], cwd=self.tools.room)
            stops = sorted({int(it) for it in re.findall(r"^stops in (\d+)$", told.stdout, re.M)})
            self.tell("lines --gdb, stops", stops or told.stdout + told.stderr, self.ticks)

    def main(self, text):
        """A program that ticks over the rows; `tick` is the number of the tick."""
        inputs = self.ports[:len(text_of(self.rows).split("\n")[0].split(",")) - 1]
        ticks = [f"    tick = {at + 1}; i = (struct bl_in){{{', '.join(['0', *[str(values[at]) for _, values in inputs]])}}}; (void)bl_tick(&s, &i, &o);"
                 for at in range(len(inputs[0][1]))]
        return "\n".join([f'#include "{text}"', '#line 1 "main.c"', "static struct bl_state s;", "static struct bl_in i;", "static struct bl_out o;",
                          "int tick;", "int main(void)", "{", "    bl_init(&s);", *ticks, "    return 0;", "}", ""])

    def proved(self):
        """tools/prove: nothing traps, the properties hold, and no tick over the rows executes more statements than the bound says."""
        told = ran([f"{TOP}/tools/prove", self.source, *self.it.holds, "--bound"], env=self.tools.setting).stdout
        asked = [it for word, it in zip(self.it.holds, self.it.holds[1:]) if word == "--always"]
        held = [it for it in asked if f"always {it}: holds in every tick" in told]
        self.tell("prove", (held, bool(re.search(r"\d+ never traps?, 0 can trap, (?:1 safe for a number of ticks, )?0 unknown", told)) or told), (asked, True))
        found = re.search(r"a tick executes at most (\d+) statements.*; (\d+) by blechc bound", told)
        bound = ran([self.tools.program, "bound", self.c]).stdout.split()[-1]
        most = max(column(ran([self.tools.program, "count", self.c, self.rows]).stdout, "statements"))
        self.tell("prove --bound", found and (most <= int(found[1]) <= int(found[2]), found[2]), (True, bound))

    def seen(self):
        """The page in a browser: the statement is marked in a tick in which it acts, and in the one before it isn't; waves are drawn."""
        room = self.tools.room
        picture = f"{room}/{self.it.name}.png"
        pages = [browser.seen(room, f"{room}/{self.it.name}.html#{at}", "--dump-dom", f"--screenshot={picture}") for at in (self.ticks[0] - 1, self.ticks[0])]
        marks = [re.findall(r'class="on">(.*?)</b>', it) for it in pages]
        self.tell("view in a browser", ([self.text in it for it in marks], all(marks)), ([False, True], True))
        if not os.path.isfile(picture):
            browser.seen(room, f"{room}/{self.it.name}.html#{self.ticks[0]}", f"--screenshot={picture}")
        colours = browser.colours_of(picture)
        drawn = [sum(colours.get(it, 0) for it in some) > 100 for some in ([browser.MARK], [browser.WAVE, browser.OUTPUT])]
        self.tell("view in a browser, marks and waves", drawn, [True, True])


# ---- all four in one image


def check_unit(tools, mode):
    """One image of the units of all four, whose self-tests pass; with --trap-lines the line of a trap leads to its statement."""
    room, lines = f"{tools.room}/units{''.join(mode)}", "--trap-lines" in mode
    os.makedirs(room)
    heads, calls = [], []
    for it in FOUR:
        _, rows, trace = files(tools, it)
        told = ran([f"{TOP}/tools/unit", it.name, "--text", f"{tools.room}/{it.name}.c", "--to", room, "--test", rows, trace, *mode])
        tools.results.tell(f"{it.name}, unit {' '.join(mode)}", (told.returncode, told.stderr), (0, ""))
        heads += [f'#include "{it.name}_unit.h"', f'#include "{it.name}_test.h"']
        calls += [f'    printf("%u ", (unsigned){it.name}_test());']
        calls += [f'    printf("%u ", (unsigned){it.name}_trap_line());'] if lines else []
    if lines:
        # (the sum of the cells: 0 + 1, and then the greatest number)
        calls += ["    charger_reset();", '    printf("%d ", charger_step(false, 0, 1, INT32_MAX, 0, 0) == CHARGER_TRAPPED);',
                  '    printf("%u", (unsigned)charger_trap_line());']
    write(f"{room}/main.c", "\n".join(["#include <stdio.h>", *heads, "int main(void)", "{", *calls, "    return 0;", "}", ""]))
    names = [f"{it.name}_{kind}.c" for it in FOUR for kind in ("unit", "test")]
    done = ran(["gcc", *units.FLAGS, "-I", tools.room, "-o", "image", "main.c", *names], cwd=room)
    told = ran([f"{room}/image"]).stdout.split() if done.returncode == 0 else done.stderr
    if lines and len(told) == 10:
        table = csv.DictReader(io.StringIO(tools.good("lines", files(tools, CHARGER)[0])))
        told[-1:] = [it["statement"] for it in table if it["line"] == told[-1]]
    tools.results.tell(f"four units {' '.join(mode)}", told, ["0"] * 8 + ["1", "pack.sum = pack.sum + pack.cells[k]"] if lines else ["0"] * 4)


def check_cmake(tools):
    """A project of CMake with all four: it builds, and their tests pass."""
    room = f"{tools.room}/four"
    os.makedirs(room)
    names = [it.name for it in FOUR]
    controllers = ["blechc_controller({0} SOURCES {1} STATE PRELUDE TEST {2} {3})".format(it.name, *files(tools, it)) for it in FOUR]
    write(f"{room}/CMakeLists.txt", CMAKE.format(top=TOP, controllers="\n".join(controllers), names=" ".join(names)))
    asked = [f'#include "{it}_test.h"' for it in names]
    write(f"{room}/main.c", "\n".join([*asked, "int main(void)", "{", f"    return (int)({' + '.join(f'{it}_test()' for it in names)});", "}", ""]))
    done = ran(["sh", "-c", f"cmake -S . -B made -DBLECHC={tools.program} && cmake --build made && made/firmware && (cd made && ctest)"], cwd=room)
    tools.results.tell("four controllers by cmake", "100% tests passed, 0 tests failed out of 4" in done.stdout or done.stdout[-600:] + done.stderr, True)


def check(tools):
    """All of these tests."""
    taken = [Taken(tools, it) for it in FOUR]
    ways = [Taken.explained, Taken.covered, Taken.tested]
    compiled, solver, seen = there("gcc"), any(map(shutil.which, ("z3", "cvc5"))), there("chromium")
    ways += [Taken.valued, Taken.shown, Taken.led] * compiled + [Taken.proved] * solver + [Taken.seen] * (compiled and seen)
    for way in ways:
        for it in taken:
            way(it)
    for mode in MODES if compiled else ():
        check_unit(tools, mode)
    if there("cmake"):
        check_cmake(tools)
