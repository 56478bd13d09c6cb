"""How the text comes into a unit: by an include, whole, behind a prelude that several units share, or with the line of a trap."""
import os
import re

from shared import Fault

PRELUDE = "blechc_prelude.h"
# what an operation of the prelude takes, by the front of its name
TWO, ONE = ("add", "sub", "mul", "div", "rem"), ("neg",)
TYPES = {f"{sign}{width}": f"{front}int{width}_t" for sign, front in (("i", ""), ("n", "u"), ("b", "u")) for width in (8, 16, 32, 64)}
# the operations that never trap
SAFE = re.compile(r"bl_(?:add|sub|mul|neg)_b\d+")


def signature_of(name):
    """The type of the result and of the arguments of a function of the prelude; nothing where it can't trap."""
    fixed = {"bl_turn": ("uint32_t", ["uint32_t"]), "bl_ix_s": ("uint32_t", ["int64_t", "uint32_t"]), "bl_ix_u": ("uint32_t", ["uint64_t", "uint32_t"])}
    if name in fixed:
        return fixed[name]
    found = re.fullmatch(r"bl_(of_s|of_u|[a-z]+)_([inb]\d+)", name)
    if not found or SAFE.fullmatch(name):
        return None
    way, kind = found.groups()
    if way in ("of_s", "of_u"):
        return TYPES[kind], ["int64_t" if way == "of_s" else "uint64_t"]
    return (TYPES[kind], [TYPES[kind]] * (2 if way in TWO else 1)) if way in TWO + ONE else None


def placed_calls(text, name):
    """The functions and macros that keep the line of each operation of the text that may trap."""
    lines = ["/* the line of the text of the operation that was begun last */", "static uint32_t trap_line = 0u;", ""]
    used = [it for it in sorted(set(re.findall(r"\bbl_\w+(?=\()", text.body))) if signature_of(it)]
    for it in used:
        result, kinds = signature_of(it)
        parameters = ", ".join(f"{kind} {letter}" for kind, letter in zip(kinds, "ab"))
        given = ", ".join("ab"[:len(kinds)])
        lines += [f"static {result} {name}_{it}(uint32_t line, {parameters})", "{", "    trap_line = line;", f"    return {it}({given});", "}", "",
                  f"#define {it}({given}) {name}_{it}((uint32_t)__LINE__, {', '.join(f'({one})' for one in given.split(', '))})", ""]
    return lines


def prelude_header(text):
    """The prelude of a text as a header that the units of several controllers share."""
    return "\n".join([f"/* {PRELUDE}: the prelude of C texts of blechc, written by tools/unit. `abort` is what the unit names so before it. */",
                      "#ifndef BL_PRELUDE_H", "#define BL_PRELUDE_H", text.prelude.rstrip("\n"), "#endif", ""])


def text_lines(text, name, wants):
    """The lines of a unit in which its text comes."""
    base = os.path.basename(text.path)
    if not (wants.whole or wants.prelude or wants.lines):
        return [f'#include "{base}"', ""]
    first = text.prelude.count("\n") + 1
    lines = [f'#include "{PRELUDE}"' if wants.prelude else text.prelude.rstrip("\n"), ""]
    if wants.lines:
        # (the numbers of lines are those of the text, which is kept beside the unit or not)
        lines += [*placed_calls(text, name), f'#line {first} "{base}"']
    return [*lines, text.body.rstrip("\n"), ""]


def resumed(lines, file):
    """The lines of a unit, with the number of its own line behind each text whose lines are counted otherwise."""
    out, other = [], False
    for it in lines:
        for line in it.split("\n"):
            out.append(line)
            other = other or line.startswith("#line ")
        if other and it.startswith("static struct {"):
            out[-1:-1] = [f'#line {len(out) + 1} "{file}"']
            other = False
    return out


def check(text):
    """Refuses a text whose prelude isn't one that can be split off."""
    if "static void bl_trap(void)" not in text.prelude:
        raise Fault(f"{text.path}: it has no prelude before its structs")
