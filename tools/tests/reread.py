"""Reads again what the tools write: the data of a page, and a value change dump."""
import json
import re


def data_of(page):
    """The data of a page."""
    return json.loads(re.search(r'^<script type="application/json" id="data">(.*)</script>$', page, re.M)[1])


def spread(signal):
    """The values of a signal of a page, one for each tick."""
    values, at, kept = [], 0, 0
    for more, value in zip(signal["times"], signal["values"]):
        at += more
        values += [kept] * (at - len(values))
        kept = int(value)
    return values + [kept] * (signal["end"] - len(values))


def dumped(text):
    """The values of each signal of a dump, one for each time; nothing where one is unknown."""
    signals = {short: (name, kind == "integer", int(width)) for kind, width, short, name in re.findall(r"^\$var (\w+) (\d+) (\S+) (\w+)", text, re.M)}
    now, columns = {}, {name: [] for name, _, _ in signals.values()}
    for part in re.findall(r"^(#\d+|[01x]\S+|b\S+ \S+)$", text[text.index("$enddefinitions"):], re.M):
        if part[0] == "#":
            for short, (name, _, _) in signals.items() if now else ():
                columns[name] += [now[short]] * (int(part[1:]) - len(columns[name]) - 1)
            continue
        value, short = part[1:].split() if part[0] == "b" else (part[0], part[1:])
        name, signed, width = signals[short]
        number = None if value == "x" else int(value, 2)
        now[short] = number - (1 << width) if number is not None and signed and number >> width - 1 else number
    return columns
