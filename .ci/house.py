"""What `.ci/docs` asks of the code itself: that nothing is there for nobody, and that lists of files are those of a search."""
import collections
import glob
import re

# the laws on which the theorem stands are called below this function
THEOREM = "builds_are_correct"
# the kind of statement by which files that distinguish the kinds of statements are found
KIND = "When"
TABLE = ("docs/ARCHITECTURE.md", "## Adding a statement", "## The gate")
TABLE_HEAD = "| Crate | Code | Definitions | Proofs |\n|---|---|---|---|\n"
# public functions that no code calls, for the tests that call them and for programs to come: each with a line in this page
KEPT = ("docs/CONVENTIONS.md", "## Functions that only tests call")


def text_of(path):
    with open(path, encoding="utf-8") as it:
        return it.read()


def section_of(page, heading):
    """A section of a page, from its heading to the next one of its level."""
    level = heading.split(" ")[0]
    found = re.search(rf"^{re.escape(heading)}\n(.*?)(?=^{level} |\Z)", text_of(page), re.M | re.S)
    return found[1] if found else ""


def files(kind):
    """The files of the crates with this ending, without what a check makes."""
    return [it for it in sorted(glob.glob(f"crates/*/*/**/*.{kind}", recursive=True)) if "/out/" not in it]


def crate_of(path):
    return path.split("/")[1]


def without_comments(text):
    return re.sub(r"(//|-- ).*", "", text)


def import_faults():
    """The imports with a name a line."""
    for path in files("antt"):
        for number, line in enumerate(text_of(path).split("\n"), 1):
            if re.match(r"(pub )?use [^{}]*\.\{$", line):
                yield f"{path}:{number}: an import with a name a line"


def is_law(text, end):
    """Whether the function whose name ends there takes and gives nothing, so that its contract is all there is of it."""
    return bool(re.compile(r"\(\)(?! ->)").match(text, end))


def public_functions(code):
    """The public functions of code that do something, each by its crate, file and name."""
    for path, text in code.items():
        if re.search(r"_tests$|_laws", crate_of(path)):
            continue
        for found in re.finditer(r"^ *pub fn (\w+)", text, re.M):
            if not is_law(text, found.end()) and not path.endswith("laws.rt"):
                yield crate_of(path), path, found[1]


def unused_faults():
    """The public functions that no code names, and no line of the page of such functions."""
    code = {path: without_comments(text_of(path)) for path in files("rt")}
    used = collections.Counter()
    for path, text in code.items():
        if not crate_of(path).endswith("_tests"):
            used.update(re.findall(r"\w+", text))
    kept = set(re.findall(r"`(\w+)`", section_of(*KEPT)))
    for crate, path, name in public_functions(code):
        if used[name] < 2 and name not in kept:
            yield f"{path}: no code calls {name}"


def bodies():
    """The words of each function's text, by its name; those of functions of one name together."""
    found = collections.defaultdict(set)
    for path in files("rt"):
        if crate_of(path).endswith("_tests"):
            continue
        parts = re.split(r"^ *(?:pub )?fn (\w+)", without_comments(text_of(path)), flags=re.M)
        for name, text in zip(parts[1::2], parts[2::2]):
            found[name].update(re.findall(r"\w+", text))
    return found


def called_below(top):
    """The names of functions that a function reaches by calls."""
    words, reached, left = bodies(), {top}, [top]
    while left:
        for name in words[left.pop()]:
            if name in words and name not in reached:
                reached.add(name)
                left.append(name)
    return reached


def step_faults():
    """The laws that the steps of the proof cite and that the theorem doesn't call."""
    reached = called_below(THEOREM)
    for page, heading in (("docs/THEOREM.md", "## Why it holds"), ("docs/ARCHITECTURE.md", "## How a statement becomes C")):
        for names, path in re.findall(r"((?:`\w+`(?:,| and)?\s+)+)in\s+`(crates/[\w/]+\.rt)`", section_of(page, heading)):
            for name in re.findall(r"\w+", names.replace(" and", "")):
                if name not in reached:
                    yield f"{page}: {THEOREM} doesn't call {name} of {path}"


def rows_of_kinds():
    """The rows of the table of files that name the kind of statement, by crate in the order of crates.txt."""
    found = collections.defaultdict(lambda: {"src": [], "specs": [], "proofs": []})
    for path in files("rt") + files("antt"):
        if not crate_of(path).endswith("_tests") and re.search(rf"\b{KIND}\b", without_comments(text_of(path))):
            _, crate, part, name = path.split("/", 3)
            found[crate][part].append(f"`{name}`")
    order = re.findall(r"^(bl_\w+)", text_of("crates.txt"), re.M)
    return "".join(f"| `{crate}` | " + " | ".join(", ".join(it) for it in found[crate].values()) + " |\n" for crate in order if crate in found)


def table_of_kinds():
    """The page of the table, and its text with the table as the search gives it."""
    page, start, end = TABLE
    text = text_of(page)
    head = text.index(TABLE_HEAD, text.index(start)) + len(TABLE_HEAD)
    return page, text[:head] + rows_of_kinds().replace("|  |", "| |").replace("|  |", "| |") + "\n" + text[text.index(end) :]


def table_faults():
    page, text = table_of_kinds()
    if text != text_of(page):
        yield f"{page}: the table of files that name {KIND} isn't what a search gives: run .ci/docs --write"


def faults():
    """All that is there for nobody, and the list that isn't what a search gives."""
    yield from import_faults()
    yield from unused_faults()
    yield from step_faults()
    yield from table_faults()
