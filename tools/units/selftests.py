"""The C of a self-test, which runs rows on a board and compares with the trace."""
import os

from shared import Fault, table
from texts import range_of


def ticks_of(path, ports):
    """The table of a file of rows or of a trace, whose columns have to be the ports."""
    found = table(path)
    if found.names != [name for name, _ in ports]:
        raise Fault(f"{path}: its first line has to be {','.join(['tick', *[name for name, _ in ports]])}")
    return found


def literal_of(path, tick, kind, value):
    """A value of a tick as C writes it."""
    if (kind == "bool") != isinstance(value, bool):
        raise Fault(f"{path}: tick {tick}: `{value}` is no value of type {kind}")
    if kind == "bool":
        return "true" if value else "false"
    least, most = range_of(kind)
    if not least <= value <= most:
        raise Fault(f"{path}: tick {tick}: `{value}` isn't from {least} to {most}")
    word = kind[:-2].upper()
    return f"{word}_MIN" if value == least < 0 else f"{word}_C({value})" if value >= 0 else f"(-{word}_C({-value}))"


def literals_of(path, tick, ports, values):
    """The values of a tick as C writes them."""
    return [literal_of(path, tick, kind, value) for (_, kind), value in zip(ports, values)]


def steps_of(text, rows, trace):
    """The steps of the self-test: for each the literals of its inputs and outputs; and what the last one answers."""
    told, asked = ticks_of(trace, text.outputs), ticks_of(rows, text.inputs)
    ticks = len(told.ticks) + (told.end == "trap")
    if ticks == 0:
        raise Fault(f"{trace}: it has no tick")
    if len(asked.ticks) < ticks:
        raise Fault(f"{trace}: it has {ticks} ticks, and {rows} has {len(asked.ticks)} rows")
    zeros = ["false" if kind == "bool" else "0" for _, kind in text.outputs]
    steps = []
    for at in range(ticks):
        outputs = literals_of(trace, at + 1, text.outputs, told.ticks[at]) if at < len(told.ticks) else zeros
        steps.append((literals_of(rows, at + 1, text.inputs, asked.ticks[at]), outputs))
    return steps, {"": "GOES_ON", "trap": "TRAPPED", "ended": "ENDED"}[told.end]


def test_header(names):
    """NAME_test.h"""
    name, capital = names.name, names.capital
    return "\n".join([f"/* {name}_test.h: a self-test of {name}_unit.c, written by tools/unit. */", f"#ifndef {capital}_TEST_H",
                      f"#define {capital}_TEST_H", "#include <stdint.h>", "", "#ifdef __cplusplus", 'extern "C" {', "#endif", "",
                      f"uint32_t {name}_test(void); /* 0: the trace came, else the first tick that differs; it begins and ends with a reset */",
                      "", "#ifdef __cplusplus", "}", "#endif", "#endif", ""])


def test_of(text, names, rows, trace):
    """NAME_test.c"""
    name, capital, (steps, last) = names.name, names.capital, steps_of(text, rows, trace)
    fields = [(kind, f"i_{port}") for port, kind in text.inputs] + [(kind, f"o_{port}") for port, kind in text.outputs]
    fields = fields or [("uint8_t", "pad")]
    table = ",\n".join("        {" + ", ".join([*inputs, *outputs] or ["0u"]) + "}" for inputs, outputs in steps)
    asked = ", ".join(f"row.i_{port}" for port, _ in text.inputs)
    same = " && ".join(f"({names.outputs[port]}() == row.o_{port})" for port, _ in text.outputs) or "true"
    return "\n".join([
        f"/* {name}_test.c: a self-test of {name}_unit.c over {os.path.basename(rows)}, written by tools/unit. */",
        f'#include "{name}_test.h"', f'#include "{name}_unit.h"', "",
        "#ifdef __AVR__ /* tables stay in flash */", "#include <avr/pgmspace.h>", "#define IN_FLASH PROGMEM",
        "#define FETCH(row, place) (void)memcpy_P(&(row), &(place), sizeof(row))",
        "#else", "#define IN_FLASH", "#define FETCH(row, place) (row) = (place)", "#endif", "",
        f"struct {name}_row {{", *[f"    {kind} {field};" for kind, field in fields], "};", "",
        f"uint32_t {name}_test(void)", "{", f"    static const struct {name}_row rows[{len(steps)}] IN_FLASH = {{", table, "    };",
        "    uint32_t failed = 0u;", f"    {name}_reset();",
        f"    for (uint32_t at = 0u; (at < {len(steps)}u) && (failed == 0u); at++) {{", f"        struct {name}_row row;",
        f"        const enum {name}_run wanted = (at == {len(steps) - 1}u) ? {capital}_{last} : {capital}_GOES_ON;", "        bool same;",
        "        FETCH(row, rows[at]);", f"        same = ({name}_step({asked}) == wanted);",
        f"        if (same && (wanted != {capital}_TRAPPED)) {{", f"            same = {same};", "        }",
        *([] if text.inputs or text.outputs else ["        (void)row;"]),
        "        if (!same) {", "            failed = at + 1u;", "        }", "    }", f"    {name}_reset();", "    return failed;", "}", ""])
