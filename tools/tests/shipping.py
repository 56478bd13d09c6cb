"""Tests of what the tools write for a firmware: options of tools/unit, states that are refused, lines of C that lead back, CMake, boards, VS Code."""
import json
import os
import re
import sys

import units
from results import TOP, ran, text_of, there, write

sys.path.append(f"{TOP}/tools")

import cells
import shared

PUMP = [f"{TOP}/examples/pump/{it}" for it in ("pump.blech", "rows.csv", "trace.csv")]
UNIT, LINES = f"{TOP}/tools/unit", f"{TOP}/tools/lines"
# each byte of a state is changed to each other value: none of these is taken, and the state itself is
RESTORE = """#include "pump_unit.h"
#include <stdio.h>
int main(void)
{
    static uint8_t bytes[PUMP_SAVED];
    int taken = 0;
    pump_reset();
    (void)pump_step(true, 5);
    (void)pump_save(bytes);
    for (uint32_t k = 0u; k < PUMP_SAVED; k++) {
        for (int change = 1; change < 256; change++) {
            bytes[k] = (uint8_t)(bytes[k] ^ change);
            taken += pump_restore(bytes);
            bytes[k] = (uint8_t)(bytes[k] ^ change);
        }
    }
    printf("%d %d\\n", taken, pump_restore(bytes));
    return 0;
}
"""
# a trap tells the line of the text, and before it none
TRAPPED = """#include "pump_unit.h"
#include "pump_test.h"
#include <stdio.h>
int main(void)
{
    const unsigned before = (unsigned)pump_trap_line();
    printf("%u %u ", before, (unsigned)pump_test());
    pump_reset();
    (void)pump_step(true, 0);
    (void)pump_step(true, 2147483647);
    (void)pump_step(true, 1);
    printf("%u\\n", (unsigned)pump_trap_line());
    return 0;
}
"""
TWO = """#include "pump_unit.h"
#include "blinker_unit.h"
#include <stdio.h>
int main(void)
{
    pump_reset();
    blinker_reset();
    printf("%d %d\\n", (int)pump_step(true, 1), (int)blinker_step(true));
    return 0;
}
"""
CMAKE = """cmake_minimum_required(VERSION 3.13)
project(firmware C)
enable_testing()
include({top}/tools/cmake/blechc.cmake)
blechc_controller(pump SOURCES {0} STATE LINES TEST {1} {2})
add_executable(firmware main.c)
target_link_libraries(firmware PRIVATE pump)
"""
UNUSED = "@[EntryPoint]\nactivity M ()(o: bool)\n    o = true await false\nend\n"
# two statements are alike, and so are two that wait: what stands behind each tells them apart, where branches of an `if` hold them
ALIKE = """@[EntryPoint]
activity M (a: bool)(x: int32)
    repeat
        await a
        x = 0
        await a
        x = 0
        await true
    end
end
"""
ALIKE_C = """    if (((*f).c0 == UINT8_C(1))) {
        if ((*v0_a)) {
            (*v1_x) = INT32_C(0);
            (*f).c0 = UINT8_C(2);
        }
    } else { if (((*f).c0 == UINT8_C(2))) {
        if ((*v0_a)) {
            (*v1_x) = INT32_C(0);
            (*f).c0 = UINT8_C(3);
        }
    } else {
        (*f).c0 = UINT8_C(1);
    }}
}
"""
ALIKE_PLACES = ["4:9", "4:9", "5:9", "6:9", "6:9", "6:9", "7:9", "8:9", "4:9"]
INDENTS = (("@[EntryPoint]", False), ("activity M ()(o: int32)", True), ("    if a then b = 1 end", False), ("    if a then b = 1 end // so", False),
           ("    if a then", True), ("    repeat await true until c end", False), ("struct P var x: int8 end", False), ("with weak", True))


class Room:
    """A folder with the text of the pump."""

    def __init__(self, results, program, folder):
        self.results, self.program, self.folder = results, program, folder
        for name in ("pump", "blinker"):
            write(f"{folder}/{name}.c", ran([program, "build", f"{TOP}/examples/{name}/{name}.blech"]).stdout)

    def unit(self, *words):
        """Calls tools/unit."""
        return ran([UNIT, *words], cwd=self.folder)

    def made(self, name, main, *files):
        """What a program of some units prints."""
        write(f"{self.folder}/{name}.c", main)
        done = ran(["gcc", *units.FLAGS, "-o", name, f"{name}.c", *files], cwd=self.folder)
        return ran([f"{self.folder}/{name}"]).stdout if done.returncode == 0 else done.stderr


def check_restore(room):
    """A state of which one byte is changed is refused, by the unit; one whose counter can't be, by tools/state, too."""
    told = room.unit("pump", "--state")
    room.results.tell("unit, a changed state", room.made("restore", RESTORE, "pump_unit.c") if not told.stderr else told.stderr, "0 1\n")
    text = text_of(f"{room.folder}/pump.c")
    structs = shared.structs_of("pump.c", text)
    at = 10 + [it.path for it in cells.cells_of(structs)].index("s.f.c0")
    ran(["sh", "-c", f'"$0" save pump.c {room.folder}/none.csv > state', room.program], cwd=room.folder)
    with open(f"{room.folder}/state", "rb") as it:
        state = bytearray(it.read())
    state[at] = 77
    write(f"{room.folder}/state", bytes(state))
    told = ran([f"{TOP}/tools/state", "pump.c", "state"], cwd=room.folder)
    room.results.tell("state, a counter that can't be", (told.returncode, "s.f.c0 is 77, and the text sets it to" in told.stderr), (2, True))


def check_whole(room):
    """A unit with its text in it, one with a shared prelude, and one that tells the line of a trap."""
    os.rename(f"{room.folder}/pump.c", f"{room.folder}/kept.txt")
    for words in (("--whole",), ("--prelude",), ("--whole", "--abort")):
        told = room.unit("pump", "--text", "kept.txt", "--to", ".", *words)
        room.results.tell(f"unit {' '.join(words)}", told.stderr, "")
        room.unit("blinker", *words)
        got = room.made("two", TWO, "pump_unit.c", "blinker_unit.c")
        room.results.tell(f"unit {' '.join(words)}, two units", got, "0 0\n")
    os.rename(f"{room.folder}/kept.txt", f"{room.folder}/pump.c")
    told = room.unit("pump", "--trap-lines", "--state", "--test", *PUMP[1:])
    line = trap_line(text_of(f"{room.folder}/pump.c"))
    room.results.tell("unit --trap-lines", told.stderr or room.made("trapped", TRAPPED, "pump_unit.c", "pump_test.c"), f"0 0 {line}\n")


def trap_line(text):
    """The line of the text that adds to the total."""
    return next(at for at, it in enumerate(text.split("\n"), 1) if re.search(r"total\b.* = bl_add_i32\(", it))


def check_clash(room):
    """Two units whose functions would have one name are refused."""
    write(f"{room.folder}/a.blech", "@[EntryPoint]\nactivity A ()(b_reset: bool)\n    await true\nend\n")
    for name in ("a", "a_b"):
        write(f"{room.folder}/{name}.c", ran([room.program, "build", f"{room.folder}/a.blech"]).stdout)
    first, second = room.unit("a"), room.unit("a_b")
    told = "./a_unit.h: it declares `a_b_reset`, too, so this unit needs another NAME than a_b\n"
    room.results.tell("unit, names that clash", (first.returncode, second.returncode, second.stderr), (0, 2, told))


def check_lines(results, program):
    """Each statement of an example has a line of C, and each line that sets, calls or tests leads to one that names the same."""
    for name in ("pump", "crossing", "keypad", "door", "dosing"):
        path = f"{TOP}/examples/{name}/{name}.blech"
        told = ran([LINES, path], env={**os.environ, "BLECHC_PROGRAM": program})
        source = shared.Source(path)
        places = set(re.findall(rf",{re.escape(path)}:(\d+:\d+),", told.stdout))
        lacks = [source.spot(it.start) for it in source.acts.values() if needs_line(it) and source.spot(it.start) not in places]
        results.tell(f"lines, {name}", (lacks, told.stderr), ([], ""))


def check_unused(results, program, folder):
    """An activity that nobody runs isn't in the text, and no line leads to it."""
    write(f"{folder}/unused.blech", "activity A ()()\n    await true\nend\n" + UNUSED)
    told = ran([LINES, "unused.blech"], cwd=folder, env={**os.environ, "BLECHC_PROGRAM": program})
    results.tell("lines, an activity that nobody runs", (set(re.findall(r"^\d+,(\w+),.*:(\d+):", told.stdout, re.M)), told.stderr), ({("M", "6")}, ""))


def check_alike(results, program, folder):
    """Lines that are alike lead to one statement each."""
    write(f"{folder}/alike.blech", ALIKE)
    text = ran([program, "build", f"{folder}/alike.blech"]).stdout
    write(f"{folder}/alike.c", re.sub(r"(^static void a_M.*?\n).*?^}\n", lambda it: it[1] + ALIKE_C, text, flags=re.S | re.M))
    told = ran([LINES, "--text", "alike.c", "alike.blech"], cwd=folder, env={**os.environ, "BLECHC_PROGRAM": program})
    places = re.findall(r"^\d+,M,.*?:(\d+:\d+),", told.stdout, re.M)
    results.tell("lines, statements that are alike", (places, told.stderr), (ALIKE_PLACES, ""))


def needs_line(act):
    """Whether something that acts has a line of its own in any text: a loop without a test, a `cobegin` and a `when` needn't."""
    return act.kind in ("=", "call", "run", "await", "if", "elseif", "until")


def check_listings(results, program, folder):
    """A listing is the text with comments, and one for a debugger is taken by a C compiler."""
    setting = {**os.environ, "BLECHC_PROGRAM": program}
    text = ran([program, "build", PUMP[0]]).stdout
    listing = ran([LINES, "--listing", PUMP[0]], env=setting).stdout
    results.tell("lines --listing, the text", re.sub(r"  /\* .* \*/$", "", listing, flags=re.M), text)
    shown = re.findall(r"^ +(\S.*/\* \d+:\d+: .* \*/)$", text_of(f"{TOP}/docs/EMBEDDING.md"), re.M)
    there_too = [it for it in shown if it in map(str.strip, listing.split("\n"))]
    results.tell("lines --listing, as docs/EMBEDDING.md has it", (there_too, len(shown)), (shown, 2))
    write(f"{folder}/gdb.c", ran([LINES, "--gdb", PUMP[0]], env=setting).stdout)
    results.tell("lines --gdb", ran(["gcc", "-std=c99", "-g", "-c", "-o", "gdb.o", "gdb.c"], cwd=folder).stderr, "")


def check_cmake(results, program, folder):
    """A library of CMake with its test."""
    room = f"{folder}/cmake"
    os.makedirs(room)
    write(f"{room}/CMakeLists.txt", CMAKE.format(*PUMP, top=TOP))
    write(f"{room}/main.c", TRAPPED)
    done = ran(["sh", "-c", f"cmake -S . -B made -DBLECHC={program} && cmake --build made && (cd made && ctest)"], cwd=room)
    got = ran([f"{room}/made/firmware"]).stdout if done.returncode == 0 else done.stdout[-800:] + done.stderr
    results.tell("cmake", (got[:4], "100% tests passed" in done.stdout), ("0 0 ", True))


def check_board(results, program, folder):
    """The list of a board has the controllers that are asked for, one's own among them."""
    own = f"{folder}/lift"
    os.makedirs(own)
    write(f"{own}/lift.blech", text_of(PUMP[0]))
    write(f"{own}/rows.csv", text_of(PUMP[1]))
    words = ["make", "-C", f"{TOP}/examples/board", f"BLECHC={program}", f"BUILD={folder}/board"]
    files = [f"{folder}/board/{it}" for it in ("controllers.h", "lift_table.c", "lamp_table.c", "lift_unit.c", "lamp_unit.c")]
    done = ran([*words, f"CONTROLLERS={own} ../lamp", *files])
    listed = re.findall(r"&(\w+)_controller", text_of(files[0])) if done.returncode == 0 else done.stderr
    results.tell("board, one's own controller", listed, ["lift", "lamp"])
    ran([*words, "NAMES=pump", files[0]])
    results.tell("board, some names", re.findall(r"&(\w+)_controller", text_of(files[0])), ["pump"])


def check_script(results, program, folder):
    """The script for tools that compile each file of a folder, as the page has it, makes a unit that needs no other file."""
    room = f"{folder}/script"
    for it in ("blech", "src", "bin"):
        os.makedirs(f"{room}/{it}")
    script = re.search(r"```python\n(# blechc_units\.py\n.*?)```", text_of(f"{TOP}/docs/EMBEDDING.md"), re.S).group(1)
    write(f"{room}/blechc_units.py", script)
    write(f"{room}/blech/pump.blech", text_of(PUMP[0]))
    os.symlink(program, f"{room}/bin/blechc")
    os.symlink(f"{TOP}/tools", f"{room}/tools")
    told = ran(["python3", "blechc_units.py"], cwd=room, env={**os.environ, "PATH": f"{room}/bin:{os.environ['PATH']}"})
    done = ran(["gcc", *units.FLAGS, "-c", "-o", "pump.o", "src/pump_unit.c"], cwd=room) if there("gcc") else told
    results.tell("the script of docs/EMBEDDING.md", told.stderr + done.stderr, "")


def check_traces(results, program, folder):
    """The makefile of the page runs the tests of all controllers that have traces beside them."""
    room = f"{folder}/traces"
    os.makedirs(room)
    write(f"{room}/units.mk", re.search(r"```make\n(# units\.mk\n.*?)```", text_of(f"{TOP}/docs/EMBEDDING.md"), re.S).group(1))
    for path, name in zip(PUMP, ("pump.blech", "pump_rows.csv", "pump_trace.csv")):
        write(f"{room}/{name}", text_of(path))
    done = ran(["make", "-s", "-f", "units.mk", f"TOOLS={TOP}/tools", "test"], cwd=room, env={**os.environ, "BLECHC_PROGRAM": program})
    results.tell("units.mk, test", done.stdout + done.stderr, "pump_rows.csv: as pump_trace.csv\n")
    results.tell("units.mk, junit", 'failures="0"' in text_of(f"{room}/pump_junit.xml"), True)


def check_editor(results):
    """VS Code indents behind what begins a block and doesn't end it, and takes the lines of tools/explain."""
    with open(f"{TOP}/editors/vscode/language-configuration.json", encoding="utf-8") as it:
        pattern = json.load(it)["indentationRules"]["increaseIndentPattern"]
    results.tell("editors/vscode, indentation", [(line, bool(re.match(pattern, line))) for line, _ in INDENTS], list(INDENTS))
    with open(f"{TOP}/editors/vscode/package.json", encoding="utf-8") as it:
        package = json.load(it)
    matcher = package["contributes"]["problemMatchers"][0]["pattern"]["regexp"]
    results.tell("editors/vscode, problems", re.match(matcher, "a/pump.blech:8:17: rule 9 Type: the types").groups()[:3], ("a/pump.blech", "8", "17"))
    results.tell("editors/vscode, who publishes it", bool(package["publisher"]) and os.path.isfile(f"{TOP}/editors/vscode/README.md"), True)


def check(results, program, folder):
    """All of these tests."""
    folder = f"{folder}/shipping"
    os.makedirs(folder)
    check_editor(results)
    check_lines(results, program)
    check_unused(results, program, folder)
    check_alike(results, program, folder)
    check_script(results, program, folder)
    if there("gcc"):
        room = Room(results, program, folder)
        write(f"{folder}/none.csv", "tick,demand,flow\n1,true,1\n")
        check_restore(room)
        check_whole(room)
        check_clash(room)
        check_listings(results, program, folder)
    if there("make"):
        check_board(results, program, folder)
        check_traces(results, program, folder)
    if there("cmake"):
        check_cmake(results, program, folder)
