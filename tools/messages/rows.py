"""What is wrong with a line of rows."""
import re

import shared
from reader import Reader
from values import bounds

C_TYPES = {"bool": "bool", **{f"int{it}_t": f"int{it}" for it in (8, 16, 32, 64)}, **{f"uint{it}_t": f"nat{it}" for it in (8, 16, 32, 64)}}


def inputs_of(paths):
    """The names and types of the inputs of a source, or of a C text; nothing where the files show none."""
    if not paths:
        return None
    data = b"\n".join(shared.read(it) for it in paths).decode("latin-1")
    if "struct bl_in {" in data:
        return [(name, C_TYPES[kind]) for name, kind in shared.ports_of(shared.structs_of(paths[0], data), "bl_in")]
    try:
        return [(it.name, it.type) for it in Reader(data).program().inputs]
    except shared.NO_SOURCE:
        return None


def text_of(line):
    return line.rstrip(b"\r").decode(errors="replace")


def is_blank(line):
    return line.strip(b"\r") in (b"", b"\xef\xbb\xbf")


def fault_of_header(line, ports):
    """What is wrong with the first record."""
    if ports is None:
        return "This is the header: it has to be `tick` and the names of the inputs, in the order of the entry's head."
    return f"This is the header, and has to be `{','.join(['tick', *[name for name, _ in ports]])}`."


def fault_of_value(name, kind, field):
    """What is wrong with a value; nothing where it may stand."""
    if kind == "bool":
        return None if field in ("true", "false") else f"`{field}` for {name} has to be `true` or `false`{', without blanks' * (field != field.strip())}."
    if not re.fullmatch(r"-?[0-9]{1,39}", field):
        what = "a whole number" if kind else "a whole number, `true` or `false`"
        fits = kind is None and field in ("true", "false")
        return None if fits else f"`{field}` for {name} is no {what[2:] if what.startswith('a ') else what}; blanks count."
    if kind is None:
        return None
    least, most = bounds(kind)
    return None if least <= int(field) <= most else f"`{field}` for {name} isn't within {kind}, which goes from {least} to {most}."


def bad_field(fields, names, ports):
    """The number of the first field that is wrong, counted from 0, and what is wrong; nothing where none is."""
    kinds = dict(ports or [])
    for at, (name, field) in enumerate(zip(names[1:], fields[1:]), 1):
        told = fault_of_value(name, kinds.get(name), field)
        if told:
            return at, told
    return None, "A value doesn't fit the type of its input."


def fault_of(lines, number, ports=None):
    """What is wrong with a line, and which of its fields it is; the lines and the inputs alone show it."""
    if number > len(lines):
        return "The file has no header: its first line is `tick` and the names of the inputs." if ports is None else fault_of_header(b"", ports), None
    line = lines[number - 1]
    records = [at for at, it in enumerate(lines[:number - 1], 1) if not is_blank(it)]
    if number > 1000000:
        return "A file of rows has at most 1,000,000 lines.", None
    if len(line) > 65536:
        return "A line has at most 65,536 bytes.", None
    if not records:
        return fault_of_header(line, ports), None
    if b'"' in line or b"\r" in line[:-1]:
        return "A quote or a carriage return stands in it: rows need neither.", None
    fields, names = text_of(line).split(","), text_of(lines[records[0] - 1]).split(",")
    if len(fields) != len(names):
        return f"It has {len(fields)} fields, and the header {len(names)}: {','.join(names)}.", None
    if not re.fullmatch(f"0*{len(records)}", fields[0]):
        return f"Its tick has to be {len(records)}: ticks count from 1, a row for each.", 0
    at, told = bad_field(fields, names, ports)
    return told, at


def column_of(line, at):
    """Where the field of a number stands in a line: its first byte and the one behind its last."""
    fields = line.rstrip(b"\r").split(b",")
    start = sum(len(it) + 1 for it in fields[:at])
    return start, start + max(1, len(fields[at]))
