"""Tests of examples/harness.c, which tools/tests/run calls: it reads rows, and refuses those that are bad, as `exec` does."""
import re
import subprocess

from results import LIMIT, TOP, there, write

FLAGS = ["-std=c99", "-Wall", "-Wextra", "-Werror", "-Wno-unused-function", "-Wno-unused-parameter", "-Wno-parentheses-equality"]
SOURCE = """@[EntryPoint]
activity Each (on: bool, a: int8, b: nat16, c: bits64, d: int64, last: bool)(count: int64, low: bits64, seen: bool)
    repeat
        await last or on
        count = d + (a as int64)
        low = c
        seen = last
    end
end
"""
HEAD = "tick,on,a,b,c,d,last"
GOOD = "1,true,1,2,3,4,false"
TOLD = b"tick,count,low,seen\n1,0,0,false\n"
# what stands behind a good header and a good row: good rows, and rows of which the first is bad
GOODS = [
    "", "2,true,1,2,3,4,true\r", "2,false,1,2,3,4,true\r\n3,false,1,2,3,4,true\r\n4,true,1,1,1,1,false\r", "\r\r\r\n\n\r2,true,1,2,3,4,true\r\r",
    "02,true,-128,65535,18446744073709551615,9223372036854775807,true", "2,true,-0,-0,3,-9223372036854775808,true",
    "2,true,1,2,3,000000000000000000000000000000000000004,true",
]
BADS = [
    "2,true,1,2\r,3,4,true", "2,true,abc,2,3,4,true", "2,true,,2,3,4,true", "2,true,-,2,3,4,true", "2,true,1x,2,3,4,true", "2,true,+1,2,3,4,true",
    "2,true, 1,2,3,4,true", "2,true,1,2,3,4,True", "2,1,1,2,3,4,true", "2,true,1,2,3,4,true ", "2,true,128,2,3,4,true", "2,true,-129,2,3,4,true",
    "2,true,1,65536,3,4,true", "2,true,1,-1,3,4,true", "2,true,1,2,18446744073709551616,4,true", "2,true,1,2,-18446744073709551615,4,true",
    "2,true,-1,2,3,9223372036854775808,true", "2,true,0,2,3,-9223372036854775809,true", "2,true,1,2,3,0000000000000000000000000000000000000004,true",
    "3,true,1,2,3,4,true", "x,true,1,2,3,4,true", "2,true,1,2,3,4", "2,true,1,2,3,4,true,", "2,true,1,2,3,4,true,5", "2", ",",
]
HEADERS = ["", "\n", "tick", HEAD + ",x", HEAD.replace("last", "lest"), "tock" + HEAD[4:]]


def columns_of(text):
    """The lists of columns that the harness asks for."""
    lines = []
    for macro, struct, prefix in (("INPUTS", "bl_in", "i_"), ("OUTPUTS", "bl_out", "o_")):
        body = re.search(rf"struct {struct} \{{(.*?)\}};", text, re.S).group(1)
        lines.append(f"#define {macro}(COLUMN)" + "".join(f" COLUMN({it}, {name})" for it, name in re.findall(rf"(\w+) {prefix}(\w+);", body)))
    return "\n".join(lines) + "\n"


def set_out(program, room):
    """Writes a text with its columns."""
    write(f"{room}/each.blech", SOURCE)
    built = subprocess.run([program, "build", f"{room}/each.blech"], capture_output=True, timeout=LIMIT, text=True)
    write(f"{room}/each.c", built.stdout)
    write(f"{room}/each_columns.h", columns_of(built.stdout))
    return built.stderr


def told(words, rows):
    """The status and the standard output of a call."""
    done = subprocess.run(words, input=rows, capture_output=True, timeout=LIMIT)
    return done.returncode, done.stdout


def check(results, program, room):
    """The harness beside `exec`, over good and bad rows."""
    if not there("gcc"):
        return
    results.tell("examples/harness.c, its source", set_out(program, room), "")
    words = ["gcc", *FLAGS, '-DTEXT="each.c"', '-DCOLUMNS="each_columns.h"', "-I", room, "-o", f"{room}/each", f"{TOP}/examples/harness.c"]
    results.tell("examples/harness.c, gcc", subprocess.run(words, capture_output=True, timeout=LIMIT, text=True).stderr, "")
    for rows in [f"{HEAD}\n{GOOD}\n{it}" for it in GOODS]:
        write(f"{room}/each.csv", rows)
        wanted = told([program, "exec", f"{room}/each.c", f"{room}/each.csv"], b"")
        results.tell(f"examples/harness.c over {rows!r}", told([f"{room}/each"], rows.encode()), wanted)
    for rows, shown in [(f"{HEAD}\n{GOOD}\n{it}\n", TOLD) for it in BADS] + [(f"{it}\n{GOOD}\n", TOLD[:20]) for it in HEADERS]:
        results.tell(f"examples/harness.c over {rows!r}", told([f"{room}/each"], rows.encode()), (5, shown))
