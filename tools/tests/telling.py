"""Tests of what tools/explain tells beside a rule's sentence, over the cases of tests/rules and over single sources."""
import glob
import importlib.machinery
import importlib.util
import os
import re
import sys

from results import TOP, ran, write

sys.path.append(f"{TOP}/tools")

# (it knows where the modules below stand)
import shared

import advice
import hints
import typed
from grammar import Grammar

UNIT = "@[EntryPoint]\nactivity M (i: int32, b: bool)(o: int32)\n    {}\n    await true\nend\n"
# what a body has that the grammar refuses, and what the hint has to say
SYNTAX = (
    ("if b then o = 1 else if i > 3 then o = 2 end", "`elseif` needs none"), ("o += 1", "write `o = o + ..`"), ("o++", "write `o = o + 1`"),
    ("for k = 1", "There is no `for`"), ("break", "There is no `break`"), ("o = run A(i)()", "`run o = A(..)(..)`"),
    ("o = prev p.x", "a `var` of its own"), ("Set(i)(p[0])", "without an index"), ("if b && b then o = 1 end", "written `and`"),
    ("if b || b then o = 1 end", "written `or`"), ("if o = 1 then o = 2 end", "`==` compares"), ("int32 x = 5", "`var x: int32`"),
    ("while b do o = 1 end", "`while c repeat .. end`"), ("if b o = 1 end", "`then` is missing"), ("o = 1 < 2 < 3", "aren't chained"),
    ("x: int32 = 5", "A variable is declared by `var x: ..`"), ("var end: int32", "a word of the language"), ("elif b then", "written `elseif`"),
    ("pause", "`pause` is written `await true`"), ("if b then o = 1 endif", "`endif` is written `end`"),
    ("cobegin await b end and", "Look before the place"), ("cobegin run A()() and run B()() end", "parted by `with`, in place of `and`"),
    ("cobegin o = 1 and run B()() end", "parted by `with`"), ("cobegin\n o = 1\nand\n p = 1\nend", "parted by `with`"),
    ("cobegin run A()() || run B()() end", "in place of `|`"), ("cobegin o = i and b = b end", "`==` compares"),
)
OPEN = (("activity M ()\n    if b then\n        repeat\n            await true\n    end\nend\n", "the `repeat` of line 3 that lacks its own"),
        ("var g: int32\nactivity M ()\n    await true\nend\n", "no variables outside of units"),
        ("activity M ()(o: int32 = 0)\n    await true\nend\n", "A parameter has no initial value"),
        ("activity M ()\n    await true\nend\nend\n", "One `end` too many"))
# a body, the rule, what stands at its place, a sentence that is told, and the hint
RULES = (
    ("o = b as int32", "rule 9 Type", "b as int32", "`b` is bool, and `as` goes", "A bool is no number"),
    ("var s: [2]int32 var t: [2]int32 if s == t then o = 1 end", "rule 9 Type", "s == t", "`s` is [2]int32, `t` is [2]int32", "not compared"),
    ("var f: nat8 const FLOORS: int32 = 5 if f < FLOORS then o = 1 end", "rule 9 Type", "f < FLOORS", "`f` is nat8, `FLOORS` is int32", "write `as`"),
    ("o = -i & 3", "rule 9 Type", "-i & 3", "`&` takes bits types alone", "bits type"),
    ("var n: nat8 = -1", "rule 10 Literal", "-1", "Wanted is nat8 here", "no negative numbers"),
    ("o = {1, 2}", "rule 3 Profile", "{", "", "has no literal"),
    ("o = i;", "rule 2 Lex", ";", "", "delete it"),
    ("if !b then o = 1 end", "rule 2 Lex", "!", "", "written `not`"),
    ("var total: int32 o = totl", "rule 7 Unknown", "totl", "", "Is `total` meant?"),
    ("o = later var later: int32", "rule 7 Unknown", "later", "", "`later` is declared in line 3"),
)
RETURNED = "struct P\n    var x: int32\nend\nfunction F () returns P\n    var p: P\n    return p\nend\n"
# a text, a rule, the places that the program names, and the hint
PLACES = (
    ("function F ()(o: int32)\nend\n" + UNIT.format("run F()(o)"), "rule 8 Kind", ("F()", "F ()"), "`F` is a function: write `F(..)(..)`, without `run`."),
    ("function F () returns int32\n    return 1\nend\n" + UNIT.format("run o = F()()"), "rule 8 Kind", ("F()", "F ()"), "write `o = F(..)`, without"),
    ("activity F ()(o: int32)\n    await true\nend\n" + UNIT.format("F()(o)"), "rule 8 Kind", ("F()", "F ()"), "write `run F(..)(..)`, as a"),
    ("struct F\n    var x: int32\nend\n" + UNIT.format("run F()(o)"), "rule 8 Kind", ("F()", "F\n"), "A call needs a function"),
)
DROPPED = "function F () returns int32\n    return 1\nend\n" + UNIT.format("F()")


def cases():
    """The cases of tests/rules: the file of each source, and the line that the program has to write."""
    loader = importlib.machinery.SourceFileLoader("tests_run", f"{TOP}/tests/run")
    module = importlib.util.module_from_spec(importlib.util.spec_from_loader(loader.name, loader))
    sys.modules[loader.name] = module
    loader.exec_module(module)
    for path in sorted(glob.glob(f"{TOP}/tests/rules/*.txt")):
        for case in module.cases_in(path):
            yield module, case


def written(module, case, room):
    """The source of a case as the program gets it; nothing where it has none."""
    if not case.of("source") or not case.of("err"):
        return None
    trial = module.Trial(case, None, b"", f"{room}/case")
    trial.add(case.of("source"))
    with open(f"{trial.folder}/source", encoding="latin-1", newline="") as it:
        return it.read()


def first_place(text):
    """The first place at which a source has a wrong type."""
    failures = typed.Judge(text).judge().failures
    return min(failures) if failures else None


def stop_of(text):
    """The token at which the grammar stops."""
    token = Grammar(text).stopped()
    return token and (token.start, token.end)


def more_of(text, number, place):
    """Whether something is told of a rule's failure beside its sentence."""
    found = hints.of_rule(number, text.encode("latin-1"), [place])
    return bool(found.told or found.places)


def check_cases(results, room):
    """Each case that breaks Syntax, Type or Literal is told with its types or tokens, at the place that the program names."""
    wrong, counts = [], {5: 0, 9: 0, 10: 0, 18: 0, 21: 0}
    for at, (module, case) in enumerate(cases()):
        os.makedirs(f"{room}/{at}")
        text = written(module, case, f"{room}/{at}")
        found = re.match(r"rule (5|9|10|18|21) \w+ (\d+)-(\d+)", case.of("err").bare()) if text is not None else None
        if not found:
            continue
        number, *place = map(int, found.groups())
        counts[number] += 1
        got = stop_of(text) if number == 5 else first_place(text) if number == 9 else tuple(place)
        if got != tuple(place) or not more_of(text, number, tuple(place)):
            wrong.append((case.where, tuple(place), got))
    results.tell("messages, the cases of tests/rules", wrong, [])
    results.tell("messages, how many cases there are", [counts[it] > least for it, least in ((5, 40), (9, 900), (10, 20), (18, 10), (21, 20))], [True] * 5)


def told(explain, room, text, line):
    """What tools/explain tells of a line about a text, on one line."""
    write(f"{room}/told.blech", text)
    return " ".join(ran([explain, f"{room}/told.blech", line]).stdout.split())


def check_syntax(results):
    """What everybody types is told outright."""
    texts = [(UNIT.format(body), hint) for body, hint in SYNTAX] + list(OPEN)
    for text, hint in texts:
        grammar = Grammar(text)
        got = advice.of_syntax(grammar) if grammar.stopped() else "no error"
        results.tell(f"messages, {text!r}", hint in got or got, True)


def check_rules(results, explain, room):
    """Hints go by what failed."""
    for body, rule, place, sentence, hint in RULES:
        text = UNIT.format(body)
        start = text.index(place, text.index("\n    "))
        got = told(explain, room, text, f"{rule} {start}-{start + len(place)}")
        results.tell(f"messages, {body}", (sentence in got and hint in got) or got, True)
    for text, rule, places, hint in PLACES:
        spans = " ".join(f"{start}-{start + 1}" for start in map(text.index, places))
        got = told(explain, room, text, f"{rule} {spans}")
        results.tell(f"messages, {text!r}", hint in got or got, True)
    start = RETURNED.index("F (")
    got = told(explain, room, RETURNED, f"rule 9 Type {start}-{start + 1}")
    results.tell("messages, a struct as a result", "Make it an output" in got or got, True)
    start = DROPPED.rindex("F()")
    got = told(explain, room, DROPPED, f"rule 15 Return {start}-{start + 1}")
    results.tell("messages, a dropped result", "write `x = F(..)`" in got or got, True)


def check_calls(results, program, explain, room):
    """Rows, pauses and remarks, with the program."""
    setting = {**os.environ, "BLECHC_PROGRAM": program}
    write(f"{room}/p.blech", UNIT.format("var lost: nat8\n    if lost >= 0 then o = 1 / 0 end"))
    got = ran([explain, "check", "--remarks", "p.blech"], cwd=room, env=setting).stdout
    for place, remark in (("2:13", "nothing uses the input `i`"), ("2:23", "nothing uses the input `b`"), ("4:8", "this is true for each value"),
                          ("4:27", "this always traps: the divisor is zero")):
        results.tell(f"remarks, {remark}", f"p.blech:{place}: remark: {remark}" in got or got, True)
    write(f"{room}/rows.csv", "tick,i,b\n1,5,1\n")
    for rows, hint in (("tick,i,b\n1,5,1\n", "rows.csv:2:5: bad line"), ("tick,i,b\n1,5,1\n", "`1` for b has to be `true` or `false`."),
                       ("tick,b,i\n", "has to be `tick,i,b`."), ("tick,i,b\n1,2147483648,true\n", "isn't within int32, which goes from -2147483648")):
        write(f"{room}/rows.csv", rows)
        got = ran([explain, "run", "p.blech", "rows.csv"], cwd=room, env=setting).stderr
        results.tell(f"messages, {rows!r}", hint in " ".join(got.split()) or got, True)
    write(f"{room}/q.blech", "@[EntryPoint]\nactivity M (b: bool)(o: int32)\n    o = 1\n    if b then\n        await true\n    end\nend\n")
    got = ran([explain, "check", "q.blech"], cwd=room, env=setting).stderr
    way = re.findall(r"^q\.blech:(\d+:\d+): ((?:on this way nothing pauses|then).*)$", got, re.M)
    results.tell("messages, a way without a pause", way, [("3:5", "on this way nothing pauses"), ("4:5", "then (not taken)")])


def check(results, program, explain, room):
    """All of these tests; those that need no program where there is none."""
    room = f"{room}/telling"
    os.makedirs(room)
    check_cases(results, room)
    check_syntax(results)
    check_rules(results, explain, room)
    if program:
        check_calls(results, program, explain, room)
