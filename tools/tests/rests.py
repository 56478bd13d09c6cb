"""Tests of where activities rest, which tools/state and tools/values --places tell by the numbers of a C text."""
import csv
import io
import re
import sys

from results import TOP, ran, write

sys.path.append(f"{TOP}/tools")

import shared
import cells
import meaning
import replay
import resting

HEAD = "@[EntryPoint]\nactivity M (a: bool, b: bool, c: bool)(x: int32, y: int32)\n"
# Each has a source, the rows as the inputs that are true, and behind each tick the values of the entry's counters and what they say, as worked out
# by hand: places in source order, the end of a branch before what stands in it, counted from 1 for each counter. E1 is the end of a branch 1.
CASES = (
    ("a loop in a weak branch that begins anew", HEAD + """    repeat
        cobegin weak
            repeat
                x = x + 1
                await true
            end
        with
            await c
        end
    end
end
""", ((" ", (2, 2), "7:17 10:13"), (" ", (3, 2), "7:17 10:13"), (" ", (3, 2), "7:17 10:13"), ("c", (2, 2), "7:17 10:13"), ("c", (2, 2), "7:17 10:13"),
      (" ", (3, 2), "7:17 10:13"))),
    ("a loop that isn't copied", HEAD + """    repeat
        cobegin
            repeat
                x = x + 1
                await true
            until a end
        with
            await c
        end
    end
end
""", ((" ", (2, 2), "7:17 10:13"), (" ", (2, 2), "7:17 10:13"), ("a", (1, 2), "E1 10:13"), (" ", (1, 2), "E1 10:13"), ("c", (2, 2), "7:17 10:13"))),
    ("weak branches that end", HEAD + """    repeat
        cobegin weak
            repeat
                x = x + 1
                await true
            until a end
        with weak
            await b
            await b
        with
            await c
        end
    end
end
""", ((" ", (2, 2, 2), "7:17 10:13 13:13"), ("b", (3, 3, 2), "7:17 11:13 13:13"), ("a", (1, 3, 2), "E1 11:13 13:13"), ("b", (1, 1, 2), "E1 E2 13:13"),
      ("c", (2, 2, 2), "7:17 10:13 13:13"), ("a", (1, 2, 2), "E1 10:13 13:13"))),
    ("a `while` that ends a branch", HEAD + """    repeat
        cobegin
            while a repeat
                await true
                await true
            end
        with
            await b
        end
    end
end
""", (("a", (2, 2), "6:17 10:13"), (" ", (3, 2), "7:17 10:13"), ("a", (4, 2), "6:17 10:13"), ("b", (5, 1), "7:17 E2"), ("a", (4, 1), "6:17 E2"),
      ("a", (5, 1), "7:17 E2"), (" ", (1, 2), "E1 10:13"), ("a", (1, 2), "E1 10:13"), ("ab", (2, 2), "6:17 10:13"))),
    ("branches in a branch", HEAD + """    repeat
        cobegin weak
            repeat
                cobegin weak
                    repeat
                        x = x + 1
                        await true
                    end
                with
                    await b
                end
            end
        with
            await c
        end
    end
end
""", ((" ", (3, 2, 2), "9:25 12:21 16:13"), (" ", (4, 2, 2), "9:25 12:21 16:13"), ("b", (6, 4, 2), "9:25 12:21 16:13"),
      (" ", (7, 4, 2), "9:25 12:21 16:13"), ("b", (6, 4, 2), "9:25 12:21 16:13"), ("c", (3, 2, 2), "9:25 12:21 16:13"))),
    ("a loop behind what may end at once, in an arm", HEAD + """    repeat
        cobegin weak
            if a then
                repeat
                    x = x + 1
                    await true
                end
            else
                await b
            end
            await b
        with
            await c
        end
    end
end
""", (("a", (2, 2), "8:21 15:13"), (" ", (3, 2), "8:21 15:13"), ("c", (4, 2), "11:17 15:13"), ("b", (5, 2), "13:13 15:13"), ("b", (1, 2), "E1 15:13"),
      ("ac", (2, 2), "8:21 15:13"))),
    ("a `run` in a loop of a branch", "activity Step ()(x: int32)\n    x = x + 1\n    await true\nend\n\n" + HEAD + """    repeat
        cobegin weak
            repeat
                run Step()(x)
            end
        with
            await c
        end
    end
end
""", ((" ", (2, 2), "11:17 14:13"), (" ", (3, 2), "11:17 14:13"), ("c", (2, 2), "11:17 14:13"), (" ", (3, 2), "11:17 14:13"))),
)


# a loop that turns once, and an `await` that is never reached: a text that drops both sets no number beyond those of the activity without copies
DEAD = HEAD + """    repeat
        cobegin weak
            repeat
                x = x + 1
                await true
            until true end
            repeat
                await b
            end
            await a
        with
            await c
        end
    end
end
"""


def rows_of(ticks):
    """The rows in which so named inputs are true."""
    lines = [",".join([str(at), *[str(name in names).lower() for name in "abc"]]) for at, (names, *_) in enumerate(ticks, 1)]
    return "\n".join(["tick,a,b,c", *lines, ""])


# ---- by the interpreter


def rests_of(source, control, instance, found):
    """Adds where a control tree rests to what is found, which has for each instance its places and the ends of branches."""
    here = found.setdefault(replay.instance_name(source, instance), [])
    if isinstance(control, meaning.Wait):
        here.append(source.spot(control.statement.span[0]))
    elif isinstance(control, meaning.Seq):
        rests_of(source, control.first, instance, found)
    elif isinstance(control, meaning.Guard):
        rests_of(source, control.body, instance, found)
    elif isinstance(control, meaning.Run):
        here.append(source.spot(control.statement.span[0]))
        rests_of(source, control.body, control.callee, found)
    elif isinstance(control, meaning.Par):
        for number, (_, branch) in enumerate(control.branches, 1):
            here += [f"E{number}"] * (branch is meaning.NIL)
            rests_of(source, branch, instance, found)
    return found


# ---- by the text


def told_of(lines):
    """The same by what is told of counters, without those that a text doesn't keep."""
    found = {}
    for line in lines:
        name, rests, place, ended = re.fullmatch(
            r"(.*?):? (?:is not run|rests (somewhere).*|rests at no place.*|rests at .* \(([^()]*)\)|branch (\d+) of the cobegin at \S+ has ended)",
            line).groups()
        if " is not run" not in line:
            found.setdefault(name, []).extend([place] if place else [f"E{ended}"] if ended else [rests] if rests else [])
    return found


def counters_of(values, tick):
    """What is told of each counter behind a tick, in order."""
    decoder = cells.Decoder(values.names, values.cells, values.ticks[tick])
    return [decoder.told(it.path) for it in values.cells if it.path.startswith("s.f")]


def check_rests(results, name, sources, rows):
    """In each tick all instances rest where the interpreter has them; a text may keep no counter of one that has one place alone."""
    values = cells.Values(sources, rows)
    run, wrong = replay.Replay(values.source), []
    for at in range(len(values.ticks)):
        if run.tick(values.rows.ticks[at]) is None or run.machine.ended():
            break
        wanted = rests_of(values.source, run.machine.tree, run.machine.instance, {})
        got = told_of(counters_of(values, at))
        wrong += [(at + 1, it, wanted.get(it), got.get(it)) for it in sorted({*wanted, *got})
                  if "somewhere" not in got.get(it, []) and sorted(wanted.get(it, [])) != sorted(got.get(it, []))]
    results.tell(f"{name}, where it rests", wrong[:5], [])
    return values


# ---- all of it


def check_case(tools, name, source, ticks):
    """A small source: what its counters are and say behind each tick, by tools/state and tools/values."""
    write(f"{tools.room}/rest.blech", source)
    write(f"{tools.room}/rest.csv", rows_of(ticks))
    write(f"{tools.room}/rest.c", ran([tools.program, "build", f"{tools.room}/rest.blech"]).stdout)
    values = check_rests(tools.results, name, [f"{tools.room}/rest.blech"], f"{tools.room}/rest.csv")
    got, counters = [], [it for it in values.cells if re.fullmatch(r"s\.f\.c\d+", it.path)]
    for at, (names, _, _) in enumerate(ticks):
        write(f"{tools.room}/front.csv", rows_of(ticks[:at + 1]))
        ran(["sh", "-c", '"$0" save rest.c front.csv > rest.state', tools.program], cwd=tools.room)
        told = re.findall(r"^s\.f\.c\d+ +(\d+)  (.*)$", tools.good("state", "rest.c", "rest.state", "rest.blech"), re.M)
        got.append((names, tuple(int(value) for value, _ in told), " ".join(told_of(it for _, it in told)["M"])))
    tools.results.tell(f"{name}, state", (got, len(counters)), (list(ticks), len(ticks[0][1])))
    table = csv.DictReader(io.StringIO(tools.good("values", "rest.blech", "rest.csv", "--places", "--ports")))
    tools.results.tell(f"{name}, values", [it["M rests at"] for it in table], [re.sub(r"E\d ?", "", told).strip() for _, _, told in ticks])


def check_dead(tools):
    """The places of a text that has all numbers, and of one without those that are never reached, with copies and without."""
    write(f"{tools.room}/dead.blech", DEAD)
    write(f"{tools.room}/dead.csv", rows_of((" ", "b", "c", "b")))
    source = check_rests(tools.results, "what is never reached", [f"{tools.room}/dead.blech"], f"{tools.room}/dead.csv").source
    for numbers, wanted in (({(0, 2), (0, 4)}, "10:17"), ({(0, 2), (0, 3)}, "12:13"), ({(0, 1), (0, 2), (0, 3), (0, 4), (0, 5)}, "10:17")):
        layout = resting.layout_of(source.entry.body, numbers | {(1, 1), (1, 2)})
        told = [source.spot(it.statement.span[0]) for it in layout.places if (it.counter, it.value) == (0, 4)]
        tools.results.tell(f"the numbers {sorted(numbers)}", told, [wanted])


def check(tools, several):
    """All of these tests; several are runs of larger sources: their names, files and rows."""
    for name, source, ticks in CASES:
        check_case(tools, name, source, ticks)
    check_dead(tools)
    for name, sources, rows in several:
        check_rests(tools.results, name, sources, rows)
