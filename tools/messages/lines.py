"""What a line means that `blechc` wrote on standard error: the place that it names, the sentence of the documentation, and a hint."""
import collections
import re

import hints
import rows
from places import place, wrapped
from shared import TOP, Fault, read

# where the cells of a saved state begin
CELLS_AT = 10
# what a line is about beside its file: the files whose inputs the rows have, the files before it in a program of several, and the words of the call
About = collections.namedtuple("About", "inputs_of behind words", defaults=((), (), ()))

# for each rule what its place and its further places are, and a hint; the last word stands for all places behind it
RULES = {
    1: (["the first byte too many"], "A source holds one controller. Long tables are the usual cause: read them as inputs, or compute them."),
    2: (["no token"], ""),
    3: (["left out of the profile"], "Floats, units, modules and enums aren't compiled: use whole numbers and constants, and `link` for several files."),
    4: (["one too much"], "Give the inner part a name: move it to a function or an activity, or its value to a variable."),
    5: (["not expected here"], ""),
    6: (["declared again", "declared first"], "Rename one of the two. An inner block may use the name of an outer one."),
    7: (["not declared here"], "Declare it before this place and in a block around it; units call and run only what stands above them."),
    8: (["of another kind than is needed", "declared here"], "A call needs a function, `run` an activity, a type a struct, a length a constant."),
    9: (["the types don't fit"], "No type is converted by itself: write `as` and the type that is wanted."),
    10: (["not in the range of its type"], "Give the declaration a wider type, or the number `as` a type that has it."),
    11: (["written here", "declared here"], "Inputs, `let` and `const` aren't written. Copy the value to a `var`, or make the parameter an output."),
    12: (["no constant"], "Use literals, other constants and operators alone, which don't overflow; a length is from 1 to 65536."),
    13: (["another number of arguments"], "Compare the two lists with the unit's head: first the inputs, then the outputs."),
    14: (["no such `prev`"], "Only a scalar `var` of this activity has a value before: copy a parameter or a field to a `var` first."),
    15: (["here"], "A function with a result ends each of its ways with `return`; an activity has one, as its last statement."),
    16: (["in a function"], "A function ends within its tick. Make the unit an activity, and `run` it."),
    17: (["here"], "Write @[EntryPoint] before one activity, whose parameters are scalars and which has no result."),
    18: (["may end where it begins"], "To act in every tick, write `repeat .. await true end` around the body, below the variables that keep a value "
         "or are read by `prev`. To act once, let each way through the body meet an `await` or a `run`."),
    19: (["writes", "writes it too", "declared here"], "Let one branch write it. Give each branch a variable or a field of its own, and join them in a third."),
    20: (["overlaps", "with this one"], "Give each output a variable of its own, and copy after the call."),
    21: (["may turn without a pause"], "Put `await true` into the body, on each way through it, or move the loop to a function."),
    22: (["may act twice in a tick", "then"],
         "Put `await true` behind the `cobegin` that a loop begins anew (docs/LANGUAGE.md, \"Twice, and how to repair it\")."),
    23: (["writes what is read", "which lets this wait", "then"],
         "Read the value of the tick before with `prev`, or write before you read (docs/LANGUAGE.md, \"Cycle, and how to repair it\")."),
    24: (["too many"], "Each `run` statement counts once for each instance of its activity: use a loop or an array in place of copies."),
    25: (["too large"], "Shorten the arrays, or keep what is large outside and hand it in by rows."),
}
# the rules that docs/HOWTO.md has a section on, "Repair" and the rule's name
REPAIRED = ("Pause", "Conflict", "Instant", "Twice", "Cycle")
# lines that name no place: what they say, and a hint
PLAIN = {
    "read fault": ("A file couldn't be opened or read.", "Look at its name and its rights."),
    "no memory": ("The system refused memory.", "Free some, or raise the limit of the process."),
    "too large": ("A C text has more bytes, or needs more cells, than `exec` takes, or `gen` is asked for more than 2,000 stages "
                  "(docs/FORMATS.md, \"Commands\").", "Compile the text: a C compiler takes it."),
    "usage": ("The words ask for no job.", "A word may not be empty nor begin with `-`: write ./-name for such a file."),
}
# a hint on words that ask for no job, where one of them is `-o`
NO_OUT = "`-o` is a word of the script `tools/blechc` alone: write `> OUT` in place of `-o OUT`."


def paragraphs(page):
    """The paragraphs of a page of docs/, each on one line."""
    text = read(f"{TOP}/docs/{page}").decode()
    return [" ".join(it.split()) for it in re.split(r"\n\s*\n", text)]


def first_of(page, beginning):
    """The first paragraph that begins so."""
    for it in paragraphs(page):
        if it.startswith(beginning):
            return it
    raise Fault(f"docs/{page} has no paragraph that begins with: {beginning}")


def sentence_of(number):
    """The sentence of docs/LANGUAGE.md on a rule."""
    table = read(f"{TOP}/docs/LANGUAGE.md").decode()
    row = re.search(rf"^\| {number} \| (\w+) \| (.*?) \| .*\|$", table, re.M)
    if not row:
        raise Fault(f"docs/LANGUAGE.md has no rule {number}")
    name, where = row.groups()
    if where == "see below":
        return first_of("LANGUAGE.md", f"*{name}* ").replace("*", "")
    if "*Types*" in where:
        return first_of("LANGUAGE.md", "Where rule Type fails").replace("Where rule Type fails", "Type fails here", 1)
    return f"{name} fails where: {where}."


# ---- lines

def explain_rule(path, line, about):
    """A rule that refuses a source."""
    found = re.fullmatch(r"rule (\d+) (\w+)((?: \d+-\d+)+)", line)
    if not found or int(found.group(1)) not in RULES:
        raise Fault(f"no line of blechc: {line}")
    number, name, data = int(found.group(1)), found.group(2), read(path)
    labels, hint = RULES[number]
    spans = [tuple(map(int, it)) for it in re.findall(r"(\d+)-(\d+)", found.group(3))]
    more = hints.of_rule(number, data, spans, about.behind)
    out = []
    for at, (start, end) in enumerate(spans):
        label = labels[min(at, len(labels) - 1)]
        out += place(path, data, start, end, f"rule {number} {name}: {more.label or label}" if at == 0 else label)
    for (start, end), label in more.places:
        out += place(path, data, start, end, label)
    for it in more.told:
        out += wrapped(it)
    # (where the types are told, the list of all that they may be needn't be)
    sentence = f"Rule {number}, {name}: docs/LANGUAGE.md, \"Types\"." if number == 9 and more.told else f"Rule {number}, {sentence_of(number)}"
    repair = wrapped(f"A source of this kind and its repair: docs/HOWTO.md, \"Repair {name}\".") if name in REPAIRED else []
    return out + wrapped(sentence) + wrapped(f"Hint: {more.hint or hint}") + repair


def explain_subset(path, offset):
    """A C text that isn't one of the subset."""
    data = read(path)
    label = "not of the C subset" if offset < len(data) else "the text ends too early"
    hint = "`exec` takes what `build` writes, byte for byte: run it on that file before it is edited or preprocessed."
    return [*place(path, data, offset, offset + 1, label), *wrapped(first_of("C_SUBSET.md", "A text that spells no file fails")),
            *wrapped(f"Hint: {hint}")]


def explain_rows(path, number, about):
    """A bad line of rows."""
    data = read(path)
    lines = data.split(b"\n")
    if lines[-1] == b"":
        lines.pop()
    start = sum(len(it) + 1 for it in lines[:number - 1])
    length = len(lines[number - 1]) if number <= len(lines) else 1
    told, field = rows.fault_of(lines, number, rows.inputs_of(about.inputs_of))
    first, last = (0, length) if field is None else rows.column_of(lines[number - 1], field)
    return [*place(path, data, start + first, start + last, "bad line"), *wrapped(first_of("FORMATS.md", "The first record is")),
            *wrapped(f"Hint: {told}")]


def explain_face(path, offset):
    """A text that is no interface."""
    data = read(path)
    label = "no interface from here on" if offset < len(data) else "the interface ends too early"
    hint = "Let `face` write the interface of its source anew: no line of it has a body, a mark or an expression."
    return [*place(path, data, offset, offset + 1, label), *wrapped(first_of("FORMATS.md", "Any other text stops being an interface")),
            *wrapped(f"Hint: {hint}")]


def explain_bad_face(path, number):
    """An interface that can't stand behind those before it."""
    hint = "Name the interfaces in the order of their files, each one once, and let `face` write those anew whose sources changed."
    return [f"{path}: interface {number} can't stand behind those before it", *wrapped("What it declares clashes with them or with itself, or "
            "isn't declared before it (docs/FORMATS.md, \"Interfaces\")."), *wrapped(f"Hint: {hint}")]


def explain_state(path, offset):
    """Bytes that are no saved state."""
    data = read(path)
    first = max(0, offset - 8)
    front = data[first:offset].hex(" ")
    here = f"{data[offset]:02x}" if offset < len(data) else "end"
    part = "in the first line, BLSV1" if offset < 6 else "in the number of cells" if offset < CELLS_AT else "in or behind the cells"
    hint = "The state is of another text, or wasn't written whole: save it by the text that goes on with it."
    row = f"  {first} | {front} "
    return [f"{path}: byte {offset}: {part}", (row if front else f"  {first} | ") + here,
            " " * len(row if front else f"  {first} | ") + "^" * len(here), *wrapped(first_of("FORMATS.md", "A malformed state is rejected")),
            *wrapped(f"Hint: {hint}")]


def explain(path, line, about=About()):
    """What a line about a file means, as lines."""
    rule = re.sub(r"^file \d+ (?=rule )", "", line)
    if rule.startswith("rule "):
        return explain_rule(path, rule, about)
    found = re.fullmatch(r"rows: line (\d+)", line)
    if found:
        return explain_rows(path, int(found.group(1)), about)
    for pattern, way in ((r"not subset: at (\d+)", explain_subset), (r"bad state: at (\d+)", explain_state),
                         (r"not face: file \d+ at (\d+)", explain_face), (r"not face: file (\d+)", explain_bad_face)):
        found = re.fullmatch(pattern, line)
        if found:
            return way(path, int(found.group(1)))
    key = line.split(":")[0]
    if key not in PLAIN:
        raise Fault(f"no line of blechc: {line}")
    what, hint = PLAIN[key]
    if key == "usage" and "-o" in about.words:
        hint = NO_OUT
    return [f"{path}: {line}", *wrapped(what), *wrapped(f"Hint: {hint}")]
