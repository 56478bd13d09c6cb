"""Tests of tools/unit, which tools/tests/run calls: units of all examples in one image, and of a source with ports that C can't name."""
import importlib.machinery
import importlib.util
import os
import re
import subprocess
import sys
import zlib

from results import LIMIT, TOP, ran, text_of, there, write

UNIT = f"{TOP}/tools/unit"
FLAGS = ["-std=c99", "-Wall", "-Wextra", "-Wpedantic", "-Wshadow", "-Wconversion", "-Werror"]
# (a jump out of a tick has to stand optimizing)
COMPILERS = {"gcc": ["-O1"], "clang": ["-O2"]}
# (cppcheck reads no headers of the system)
MACROS = [f"-D{sign}INT{width}_C(c)=c{end}" for sign, ends in (("", ("", "", "", "LL")), ("U", ("", "", "U", "ULL")))
          for width, end in zip((8, 16, 32, 64), ends)]
# the ports are words of C or of the unit, and the run ends
ODD = """@[EntryPoint]
activity Odd (switch: bool, int: int64, put: nat8, int_: bits16,
              int8_t: bool, bl_tick: bool, _it: bool, INT8_C: int8)(step: int64, save: bool, total: bits16, class: nat8)
    await switch
    step = int
    save = true
    total = total + int_
    class = put
    if int8_t or bl_tick or _it or INT8_C > 0 then
        step = 0
    end
    await switch
end
"""
ODD_MAIN = """#include "odd_unit.h"
#include <stdio.h>

static void show(enum odd_run run)
{
    printf("%d %lld %d %d %d\\n", (int)run, (long long)odd_step_(), odd_save_(), odd_total(), odd_class());
}

int main(void)
{
    static uint8_t bytes[ODD_SAVED];
    odd_reset();
    show(odd_step(true, 1, 2, 3, false, false, false, 0));
    show(odd_step(false, 1, 2, 3, false, false, false, 0));
    show(odd_step(true, INT64_MIN, 255, 65535, false, false, false, 0));
    printf("%d ", odd_save(bytes));
    show(odd_step(true, 7, 7, 7, false, false, false, 0));
    show(odd_step(true, 8, 8, 8, false, false, false, 0));
    printf("%d ", odd_save(bytes));
    printf("%d ", odd_restore(bytes));
    show(odd_step(false, 9, 9, 9, false, false, false, 0));
    show(odd_step(true, 9, 9, 9, false, false, false, 0));
    odd_reset();
    show(odd_step(true, 9, 9, 9, false, false, false, 0));
    return 0;
}
"""
ODD_TOLD = """0 0 0 0 0
0 0 0 0 0
0 -9223372036854775808 1 65535 255
1 1 -9223372036854775808 1 65535 255
1 -9223372036854775808 1 65535 255
0 1 0 -9223372036854775808 1 65535 255
1 -9223372036854775808 1 65535 255
0 0 0 0 0
"""
# two controllers: one traps between two steps of the other, stays so, and begins anew
TWO = """static void two(void)
{
    static uint8_t bytes[PUMP_SAVED];
    pump_reset();
    blinker_reset();
    for (int32_t tick = 1; tick <= 4; tick++) {
        enum pump_run run = pump_step(true, INT32_MAX);
        enum blinker_run other = blinker_step(true);
        printf("%d%d%d ", (int)run, (int)other, (int)pump_save(bytes));
    }
    pump_reset();
    printf("%d", (int)pump_step(true, 0));
    printf("%d", (int)pump_step(true, 5));
    printf(" %ld\\n", (long)pump_total());
}
"""
TWO_TOLD = "001 001 200 200 00 5"


def tool():
    """The tool as a module."""
    sys.path.append(f"{TOP}/tools")
    loader = importlib.machinery.SourceFileLoader("unit_tool", UNIT)
    found = importlib.util.module_from_spec(importlib.util.spec_from_loader("unit_tool", loader))
    loader.exec_module(found)
    return found


def told_by(unit, words):
    """What the tool tells of words, without a process of its own: nothing where it writes the files."""
    try:
        unit.work(words)
    except unit.Fault as fault:
        return f"{fault.status} {fault}"
    return ""


def examples():
    """The names of the examples."""
    return sorted(it for it in os.listdir(f"{TOP}/examples") if os.path.isfile(f"{TOP}/examples/{it}/{it}.blech"))


def shown_outputs(name, text, names):
    """The statement that prints the outputs of a controller."""
    asked = "".join(f", (long long){names.outputs[port]}()" for port, _ in text.outputs)
    return f'    printf("{name}{" %lld" * len(text.outputs)}\\n"{asked});'


def check_of(unit, name, room):
    """The C function that tests an example: by its self-test, and by stopping it after half of its rows and going on."""
    folder = f"{TOP}/examples/{name}"
    text = unit.Text(f"{room}/{name}.c")
    names = unit.Names(name, text)
    steps, last = unit.steps_of(text, f"{folder}/rows.csv", f"{folder}/trace.csv")
    calls = [f"    (void){name}_step({', '.join(inputs)});" for inputs, _ in steps]
    # (a tick that traps leaves outputs that are no row)
    calls = calls[:-1] if last == "TRAPPED" else calls
    half, show = len(calls) // 2, shown_outputs(name, text, names)
    write(f"{room}/{name}_half.csv", "".join(text_of(f"{folder}/rows.csv").splitlines(True)[:half + 1]))
    return "\n".join([
        f"static void check_{name}(void)", "{", f"    static uint8_t bytes[{name.upper()}_SAVED];", f"    {name}_reset();", *calls[:half],
        f'    printf("{name} %u %d ", (unsigned){name}_test(), {name}_save(bytes));', f"    {name}_reset();", *calls[:half],
        f'    printf("%d ", {name}_save(bytes));', '    for (uint32_t k = 0u; k < sizeof bytes; k++) {', '        printf("%02x", bytes[k]);',
        "    }", '    printf("\\n");', *calls[half:], show, f"    {name}_reset();", f'    printf("%d ", {name}_restore(bytes));', *calls[half:],
        show, "    bytes[0] ^= 1u;", f'    printf("%d\\n", {name}_restore(bytes));', "}", ""])


def set_out(program, unit, room):
    """Writes the texts of the examples, their units and a program around them."""
    lines = []
    for name in examples():
        folder = f"{TOP}/examples/{name}"
        write(f"{room}/{name}.c", ran([program, "build", f"{folder}/{name}.blech"]).stdout)
        told = told_by(unit, [name, "--text", f"{room}/{name}.c", "--state", "--test", f"{folder}/rows.csv", f"{folder}/trace.csv"])
        lines += [told] if told else [check_of(unit, name, room)]
    heads = [f'#include "{name}_{kind}.h"' for name in examples() for kind in ("unit", "test")]
    calls = [f"    check_{name}();" for name in examples()]
    write(f"{room}/nine_main.c", "\n".join(["#include <stdio.h>", *heads, "", *lines, TWO, "int main(void)", "{", *calls, "    two();",
                                            "    return 0;", "}", ""]))


def wanted_of(program, unit, name, room):
    """What the program has to print of an example."""
    text = unit.Text(f"{room}/{name}.c")
    saved = subprocess.run([program, "save", f"{room}/{name}.c", f"{room}/{name}_half.csv"], capture_output=True, timeout=LIMIT).stdout
    last = text_of(f"{TOP}/examples/{name}/trace.csv").split("\n")
    fields = [it for it in last if it[:1].isdigit()][-1].split(",")[1:]
    outputs = " ".join([name, *["01"[it == "true"] if it in ("true", "false") else it for it in fields]])
    check_sum = zlib.crc32(text.number + saved).to_bytes(4, "big")
    return f"{name} 0 1 1 {(text.number + check_sum + saved).hex()}\n{outputs}\n1 {outputs}\n0\n"


def made(compiler, room, name, units):
    """Compiles and links units, and gives what the program prints, or what the compiler says."""
    done = ran([compiler, *COMPILERS[compiler], *FLAGS, "-o", name, *units], cwd=room)
    return ran([f"{room}/{name}"]).stdout if done.returncode == 0 else done.stderr


def check_all(results, program, compilers, unit, room):
    """Units of all examples in one image: their self-tests, their states, and a trap that only stops its own."""
    set_out(program, unit, room)
    units = ["nine_main.c"] + [f"{name}_{kind}.c" for name in examples() for kind in ("unit", "test")]
    wanted = "".join(wanted_of(program, unit, name, room) for name in examples()) + TWO_TOLD + "\n"
    for compiler in compilers:
        results.tell(f"tools/unit, all examples, {compiler}", made(compiler, room, "nine", units), wanted)


def check_odd(results, program, compilers, room):
    """A unit of a source whose ports are words of C."""
    write(f"{room}/odd.blech", ODD)
    write(f"{room}/odd.c", ran([program, "build", f"{room}/odd.blech"]).stdout)
    write(f"{room}/odd_main.c", ODD_MAIN)
    told = ran([UNIT, "odd", "--text", f"{room}/odd.c", "--state"])
    results.tell("tools/unit, odd ports", told.stdout + told.stderr, "")
    for compiler in compilers:
        results.tell(f"tools/unit, odd ports, {compiler}", made(compiler, room, "odd", ["odd_main.c", "odd_unit.c"]), ODD_TOLD)


def check_differing(results, compilers, room):
    """A self-test tells the tick that differs; a unit with `--abort` has no jump."""
    trace = text_of(f"{TOP}/examples/pump/trace.csv")
    write(f"{room}/other.csv", trace.replace("5,-1000,2147480500,3", "5,-1000,2147480501,3"))
    ran([UNIT, "pump", "--abort", "--test", f"{TOP}/examples/pump/rows.csv", "other.csv"], cwd=room)
    write(f"{room}/one_main.c", '#include "pump_test.h"\nint main(void) { return (int)pump_test(); }\n')
    results.tell("tools/unit --abort", "setjmp" in text_of(f"{room}/pump_unit.c"), False)
    for compiler in compilers[:1]:
        done = ran([compiler, *FLAGS, "-o", "one", "one_main.c", "pump_unit.c", "pump_test.c"], cwd=room)
        results.tell("tools/unit, a trace that differs", done.stderr or ran([f"{room}/one"]).returncode, 5)


def check_words(results, unit, room):
    """What is told of words and files that ask for nothing."""
    ended = ran([UNIT, "int"])
    results.tell("tools/unit, a fault", (ended.returncode, ended.stdout, ended.stderr[:17]), (2, "", "`int` is no NAME:"))
    write(f"{room}/big.csv", "tick,demand,flow\n1,true,2147483648\n")
    write(f"{room}/one.csv", "tick,last,total,strokes\n1,0,0,0\n")
    os.chdir(room)
    for words, told in (([], "a NAME is missing"), (["none"], "none.c: No such file"), (["pump", "--sate"], "no such option: --sate"),
                        (["pump", "--test", "big.csv"], "--test needs two names of files"), (["pump", "lamp"], "one NAME too many: lamp"),
                        (["pump", "--test", "big.csv", "one.csv"], "big.csv: tick 1: `2147483648` isn't from -2147483648 to 2147483647"),
                        (["pump", "--test", "one.csv", "one.csv"], "one.csv: its first line has to be tick,demand,flow"),
                        (["a", "--text", "odd.blech"], "odd.blech: no C text of blechc"),
                        (["pump", "--to", "nowhere"], "nowhere/pump_unit.h: No such")):
        results.tell(f"tools/unit {' '.join(words)}", told_by(unit, words)[:len(told) + 2], f"2 {told}")
    os.chdir(TOP)


def check_headers(results, compilers, room):
    """The headers are taken by C++ too."""
    write(f"{room}/heads.cc", "".join(f'#include "{it}"\n' for it in sorted(os.listdir(room)) if re.fullmatch(r"\w+_(unit|test)\.h", it)))
    for compiler in [it for it in compilers if it == "clang"]:
        words = [compiler, "-x", "c++", "-Wall", "-Wextra", "-Werror", "-fsyntax-only", "heads.cc"]
        results.tell("tools/unit, headers in C++", ran(words, cwd=room).stderr, "")


def check_misra(results, room):
    """Cppcheck tells of a unit the rules that the page says it tells."""
    told = ran(["cppcheck", "--addon=misra", "--max-configs=1", "-D__GNUC__", *MACROS, "odd_unit.c"], cwd=room).stderr
    listed = re.search(r"tells of a unit by `tools/unit` the rules (.*?),? and no\s+others", text_of(f"{TOP}/docs/EMBEDDING.md"), re.S)
    rules = sorted(set(re.findall(r"^odd_unit\.[ch]:.*misra-c2012-([0-9.]+)", told, re.M)))
    results.tell("EMBEDDING.md, MISRA C of a unit by tools/unit", rules, sorted(re.findall(r"\d+\.\d+", listed.group(1))) if listed else [])


def check(results, program, room):
    """All tests of tools/unit, in a folder of their own."""
    os.makedirs(f"{room}/units")
    room = f"{room}/units"
    compilers, unit = [it for it in ("gcc", "clang") if there(it)], tool()
    check_all(results, program, compilers, unit, room)
    check_odd(results, program, compilers, room)
    check_headers(results, compilers, room)
    check_words(results, unit, room)
    check_differing(results, compilers, room)
    if there("cppcheck"):
        check_misra(results, room)
