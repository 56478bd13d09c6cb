"""What the tools beside the compiler share: the program that they call, sources, rows and traces, and the structs of a C text."""
import bisect
import collections
import contextlib
import csv
import os
import re
import shutil
import subprocess
import sys
import tempfile

# (no folder of compiled modules is left behind)
sys.dont_write_bytecode = True

TOOLS = os.path.dirname(os.path.realpath(__file__))
TOP = os.path.dirname(TOOLS)
sys.path.extend([TOOLS, *(f"{TOOLS}/{it}" for it in ("source", "messages", "units"))])
# (the greatest depth of a source takes about 3,000 calls of its reader)
sys.setrecursionlimit(20000)

from reader import Reader

REFUSED, TRAPPED = 1, 6
# how a line of tools/blechc begins that isn't one of the program
NOTICE = "tools/blechc: "
# which word of a command, counted from its front or its end, is the file that a line speaks of
ROWS_AT = {"run": 2, "walk": 2, "exec": 2, "count": 2, "save": -1, "resume": 3}
# how many words of a command name files, where it isn't all of them
FILES = {"gen": 0, "drive": 1, "walk": 2}
SOURCES = (".blech", ".blc")
# what a reader of sources comes to where it is given none
NO_SOURCE = (AssertionError, AttributeError, LookupError, RecursionError, StopIteration, TypeError, ValueError)


class Fault(Exception):
    """What is told in place of a result, and the status that goes with it."""

    def __init__(self, text, status=2):
        super().__init__(text)
        self.status = status


def main(work, words, help_text, alone=False):
    """The status of a tool that does its work on words: that of a fault where there is one, which is told on standard error.

    A tool that works `alone` needs no words; any other one tells its help where there are none.
    """
    try:
        if words in (["-h"], ["--help"]):
            print(by_installed_names(help_text.strip()))
            return 0
        if not words and not alone:
            raise Fault(help_text.strip())
        return work(words) or 0
    except Fault as fault:
        print(by_installed_names(str(fault)), file=sys.stderr)
        return fault.status
    except BrokenPipeError:
        # (whoever reads has enough; nothing more is written when the tool ends)
        os.dup2(os.open(os.devnull, os.O_WRONLY), sys.stdout.fileno())
        return 0


def by_installed_names(text):
    """A text of a tool, in which the tools and the docs have the names that they have here: where they are installed, blechc-NAME and whole paths."""
    if os.path.isdir(f"{TOP}/crates"):
        return text
    docs = os.path.normpath(f"{TOP}/../../share/doc/blechc")
    text = re.sub(r"(?<![\w/.])docs/(\w+\.md)\b", lambda it: f"{docs}/{it[1]}", text)
    # (that script isn't installed)
    return re.sub(r"(?<![\w/.])tools/(?!blechc\b)([a-z]+)\b(?![./]\w)", r"blechc-\1", text)


def options_of(words, known):
    """The words that are no options, and the values of each option: a list of them, with True for one that takes none.

    `known` says of each option by how many words it is followed.
    """
    plain, found, left = [], {}, list(words)
    while left:
        word = left.pop(0)
        if word not in known:
            if word.startswith("-") and word != "-":
                raise Fault(f"no such option: {word}; the options are {', '.join(sorted(known)) or 'none'}")
            plain.append(word)
            continue
        if len(left) < known[word]:
            raise Fault(f"{word} needs {known[word]} more word{'s' * (known[word] > 1)}")
        values = [left.pop(0) for _ in range(known[word])]
        found.setdefault(word, []).append(True if not values else values[0] if len(values) == 1 else tuple(values))
    return plain, found


def whole_number(word, what, least=1):
    """The number that a word is."""
    if not word.isdecimal() or int(word) < least:
        raise Fault(f"`{word}` is no {what}: a whole number from {least} on")
    return int(word)


def read(path):
    """The bytes of a file."""
    try:
        with open(path, "rb") as it:
            return it.read()
    except OSError as fault:
        raise Fault(f"{path}: {fault.strerror}") from fault


def write(path, data):
    """Writes a file, of bytes or of a text."""
    try:
        with open(path, "wb") as it:
            it.write(data if isinstance(data, bytes) else data.encode())
    except OSError as fault:
        raise Fault(f"{path}: {fault.strerror}") from fault


def without(text, front="", end=""):
    """A text without such a front and such an end, where it has them."""
    text = text[len(front):] if front and text.startswith(front) else text
    return text[:-len(end)] if end and text.endswith(end) else text


# ---- calls of the program


def own_program():
    """Where the program of these tools is: where the gate leaves it in the repository, or where tools/install puts it."""
    return f"{TOP}/crates/blechc/out/blechc" if os.path.isdir(f"{TOP}/crates") else os.path.normpath(f"{TOP}/../../bin/blechc")


def found_program(but=None):
    """The program that BLECHC_PROGRAM names, or that of these tools, or that of the path; none where there is none but the one to be left out."""
    named = os.environ.get("BLECHC_PROGRAM")
    if named and not shutil.which(named):
        raise Fault(f"{named}: no program, though BLECHC_PROGRAM names it: name a built blechc there, or unset it")
    found = [it for it in map(shutil.which, (*([named] if named else []), own_program(), "blechc")) if it]
    return next((it for it in found if but is None or os.path.realpath(it) != but), None)


def program():
    """The program that is called; without a built one, in the repository, one without proofs. If there is none, a fault says what to do."""
    found = found_program()
    if not found:
        # (it stands above this module)
        import unproved
        found = unproved.program()
    return found


def call(words):
    """Calls the program: its status, its standard output, and the lines of its standard error."""
    ran = subprocess.run([program(), *words], stdin=subprocess.DEVNULL, capture_output=True, check=False)
    lines = ran.stderr.decode(errors="replace").split("\n")
    return ran.returncode, ran.stdout, [it for it in lines if it and not it.startswith(NOTICE)]


def file_of(words, line):
    """The file of a call that a line on standard error speaks of."""
    at = 1
    if line == "read fault":
        return unreadable(words)
    if line.startswith("rows:"):
        at = ROWS_AT.get(words[0], 1)
    elif line.startswith("bad state:"):
        at = 2
    elif line.startswith("file "):
        # (of `link`, whose files are counted from 1)
        at = number_of(line)
    elif line.startswith("not face: file "):
        # (of `face`, whose interfaces stand behind the source)
        at = 1 + number_of(line)
    return words[at] if -len(words) <= at < len(words) else words[-1]


def number_of(line):
    """The number of the file that a line names."""
    found = re.match(r"(?:not face: )?file (\d+)\b", line)
    return int(found.group(1)) if found else 1


def unreadable(words):
    """The first file of a call that can't be read, and else the first one."""
    named = words[1:][:FILES.get(words[0])] or words
    for it in named:
        try:
            with open(it, "rb") as file:
                file.read(1)
        except OSError:
            return it
    return named[0]


def explained(path, line, status, inputs_of=(), behind=()):
    """The fault that a line about a file tells, as tools/explain explains it."""
    # (it stands above this module)
    import lines
    try:
        return Fault("\n".join(lines.explain(path, line, lines.About(tuple(inputs_of), tuple(behind)))), status)
    except Fault:
        return Fault(f"{path}: {line}", status)


def answer(words, names=()):
    """What a call of the program that ends well, or with a trap, has on standard output and error; any other end is a fault.

    `names` are pairs of a file that was made for the call, and of the file that it stands for.
    """
    status, out, lines = call(words)
    if status not in (0, TRAPPED):
        line, names = lines[-1] if lines else f"status {status}", dict(names)
        path = file_of(words, line)
        raise explained(names.get(path, path), line, status, words[1:2] if line.startswith("rows:") else ())
    return out.decode(errors="replace"), lines


# ---- versions


def told_by(*words):
    """What a command of the path prints; nothing where it isn't there, or fails."""
    ran = subprocess.run(words, capture_output=True, text=True, check=False) if shutil.which(words[0]) else None
    return ran.stdout.strip() if ran and ran.returncode == 0 else ""


def commit():
    """The commit of this repository, with a mark where files were edited."""
    found = told_by("git", "-C", TOP, "rev-parse", "--short=12", "HEAD")
    edited = found and told_by("git", "-C", TOP, "status", "--porcelain", "--untracked-files=no")
    return found + ("+changes" if edited else "")


def found_in(path, pattern):
    """What the first group of a pattern finds in a file of this repository; nothing where the file isn't there."""
    found = re.search(pattern, read(f"{TOP}/{path}").decode(), re.S | re.M) if os.path.isfile(f"{TOP}/{path}") else None
    return found[1] if found else ""


def format_of(heading):
    """The number of a format: that of the first row of its table in CHANGES.md."""
    return found_in("CHANGES.md", rf"^## {heading}\n.*?^\| (\d+) \|")


def version():
    """What this blechc is, by the names of the things: as tools/install wrote it, or as this repository has it. README.md names a toolchain, too."""
    kept = f"{TOP}/VERSION"
    if os.path.isfile(kept):
        return dict(line.split(": ", 1) for line in read(kept).decode().splitlines())
    found = {"commit": commit(), "toolchain": told_by("rt", "version") or found_in("README.md", r"`rt version`: ([^)]*)\)"),
             "C format": format_of("The C text"), "state format": format_of("Saved states")}
    return {name: value or "unknown" for name, value in found.items()}


def version_line(found):
    """A version on one line."""
    return f"blechc {found['commit']}, C format {found['C format']}, {found['toolchain']}"


# ---- sources


def sources_of(words):
    """The files of a source, which is the first word and those behind it that end in .blech or .blc, and the further words."""
    count = 1
    while count < len(words) and words[count].endswith(SOURCES):
        count += 1
    return words[:count], words[count:]


@contextlib.contextmanager
def one_file(paths):
    """The file of a source: it itself, or one in which several files are joined, for as long as it is needed."""
    if len(paths) == 1:
        yield paths[0]
        return
    with tempfile.TemporaryDirectory() as room:
        write(f"{room}/joined.blech", joined(paths))
        yield f"{room}/joined.blech"


def joined(paths):
    """The text of a source: that of its file, or of several, each followed by a line feed."""
    return read(paths[0]) if len(paths) == 1 else b"".join(read(it) + b"\n" for it in paths)


def judged(paths):
    """Raises the fault with which `link` refuses the files of a source."""
    status, _, lines = call(["link", *paths])
    if status:
        line = lines[-1] if lines else f"status {status}"
        path = file_of(["link", *paths], line)
        at = paths.index(path) if path in paths else 0
        raise explained(path, line, status, behind=paths[:at])


def built(paths):
    """The C text of a source."""
    if len(paths) > 1:
        judged(paths)
        return call(["link", *paths])[1]
    return answer(["build", *paths])[0].encode()


@contextlib.contextmanager
def rows_of(path, most):
    """A file with so many ticks of a file of rows, and that file itself where all are wanted."""
    if most is None:
        yield path
        return
    with tempfile.TemporaryDirectory() as room:
        write(f"{room}/rows.csv", b"\n".join(first_lines(read(path).split(b"\n"), most + 1)) + b"\n")
        yield f"{room}/rows.csv"


def first_lines(lines, records):
    """The lines up to the one with which so many records are there."""
    count = 0
    for at, line in enumerate(lines, 1):
        count += line.strip(b"\r") not in (b"", b"\xef\xbb\xbf")
        if count == records:
            return lines[:at]
    return lines[:-1] if lines and not lines[-1] else lines


def walk_of(paths, rows, most=None):
    """The trace of a source over rows, and the steps of each tick; over so many ticks alone where that is said."""
    if len(paths) > 1:
        judged(paths)
    with one_file(paths) as path, rows_of(rows, most) as some:
        names = {path: paths[0], some: rows}
        status, out, lines = call(["walk", path, some, "0"])
        if status not in (0, TRAPPED):
            line = lines[-1] if lines else f"status {status}"
            wrong = file_of(["walk", path, some, "0"], line)
            raise explained(names.get(wrong, wrong), line, status, paths if line.startswith("rows:") else ())
    return table_of("the trace", out.decode(errors="replace")), steps_of(lines)


def trace_of(paths, rows):
    """The trace of a source over rows, which are told where they are bad."""
    if len(paths) > 1:
        judged(paths)
    with one_file(paths) as path:
        status, out, lines = call(["run", path, rows])
        if status not in (0, TRAPPED):
            line = lines[-1] if lines else f"status {status}"
            wrong = file_of(["run", path, rows], line)
            raise explained({path: paths[0]}.get(wrong, wrong), line, status, paths if line.startswith("rows:") else ())
    return table_of("the trace", out.decode(errors="replace"))


class Source:
    """A source that the program accepts: its files, bytes, its entry, its units by name, and what acts in it by the place that `walk` tells."""

    def __init__(self, paths):
        self.paths = [paths] if isinstance(paths, str) else list(paths)
        self.path, self.data = self.paths[-1], joined(self.paths)
        # (so places are bytes; what isn't ASCII stands in comments alone)
        reader = Reader(self.data.decode("latin-1"))
        try:
            self.entry = reader.program()
        except NO_SOURCE:
            self.entry = None
        if not self.entry:
            raise Fault(f"{self.path}: no source that `blechc check` accepts")
        self.reader, self.units = reader, reader.units
        self.acts = {it.start: it for it in reader.acts}
        self.feeds = [at for at, it in enumerate(self.data) if it == 10]
        self.begins = [0]
        for it in self.paths[:-1]:
            self.begins.append(self.begins[-1] + len(read(it)) + 1)

    def file(self, offset):
        """The number of the file in which a byte stands, counted from 0."""
        return bisect.bisect_right(self.begins, offset) - 1

    def line(self, offset):
        """The number of the line of its file in which a byte stands, and where it begins and ends."""
        at = bisect.bisect_left(self.feeds, offset)
        first = bisect.bisect_left(self.feeds, self.begins[self.file(offset)])
        return at + 1 - first, self.feeds[at - 1] + 1 if at else 0, self.feeds[at] if at < len(self.feeds) else len(self.data)

    def column(self, offset):
        """The column of a byte: how many characters of its line end with it."""
        return len(shown(self.data[self.line(offset)[1]:offset])) + 1

    def place(self, offset):
        """The place of a byte: its file, line and column."""
        return f"{self.paths[self.file(offset)]}:{self.line(offset)[0]}:{self.column(offset)}"

    def spot(self, offset):
        """The line and column of a byte, behind the name of its file where there are several."""
        front = f"{os.path.basename(self.paths[self.file(offset)])}:" if len(self.paths) > 1 else ""
        return f"{front}{self.line(offset)[0]}:{self.column(offset)}"

    def text(self, start, end):
        """What stands from one byte to another, on one line."""
        return " ".join(shown(self.data[start:end]).split())


def shown(data):
    """Bytes as they are shown: one sign for each character."""
    text = data.decode(errors="replace")
    return "".join(it if it.isprintable() or it == "\t" else "\N{REPLACEMENT CHARACTER}" for it in text.rstrip("\r"))


# ---- rows and traces


class Table:
    """Rows or a trace: the names of its columns, the values of each tick (numbers and bools), and how it ends."""

    def __init__(self, names, ticks, end=""):
        self.names, self.ticks, self.end = names, ticks, end

    def column(self, at):
        """The values of a column."""
        return [it[at] for it in self.ticks]


def value_of(field):
    """The value that a field is."""
    if field in ("true", "false"):
        return field == "true"
    if not re.fullmatch(r"-?[0-9]{1,39}", field):
        raise ValueError(field)
    return int(field)


def fields_of(line):
    """The fields of a line."""
    try:
        return next(csv.reader([line]))
    except csv.Error:
        return [line]


def records_of(text):
    """The records of a file of rows or of a trace, each with the number of its line (docs/FORMATS.md, "Rows")."""
    for number, line in enumerate(text.split("\n"), 1):
        line = without(line, "\N{BYTE ORDER MARK}", "\r")
        if line:
            yield number, fields_of(line)


def values_of(number, fields, tick, count):
    """The values of a record, which has to have a number of its tick and a count of values. Else a fault tells what doesn't fit."""
    if len(fields) != count + 1:
        raise Fault(f"{number}: it has {len(fields)} fields, and the header {count + 1}")
    try:
        found, *values = map(value_of, fields)
    except ValueError as fault:
        raise Fault(f"{number}: `{fault}` is no whole number, `true` or `false`") from fault
    if isinstance(found, bool) or found != tick:
        raise Fault(f"{number}: its tick has to be {tick}, and is `{fields[0]}`")
    return values


def table_of(path, text, most=None):
    """The table that a text is, with so many ticks at most. A fault tells the first line that doesn't fit."""
    records = records_of(text)
    number, names = next(records, (1, [""]))
    if names[0] != "tick":
        raise Fault(f"{path}:{number}: this is no header, which is `tick` and names")
    ticks, end = [], ""
    for number, fields in records:
        if len(ticks) == most:
            break
        if end:
            raise Fault(f"{path}:{number}: a line stands behind `{end}`")
        if fields in (["trap"], ["ended"]):
            end = fields[0]
            continue
        try:
            ticks.append(values_of(number, fields, len(ticks) + 1, len(names) - 1))
        except Fault as fault:
            raise Fault(f"{path}:{fault}") from fault
    return Table(names[1:], ticks, end)


def table(path, most=None):
    """The table of a file of rows, or of a trace. What stands behind the rows of a run doesn't matter, so a run tells how many are read."""
    return table_of(path, read(path).decode(errors="replace"), most)


def run_of(trace_path, rows_path=None):
    """The run that a trace and its rows show: the inputs, none without the rows, up to the last tick, a trapping one included, and the trace."""
    trace = table(trace_path)
    if rows_path is None:
        return Table([], []), trace
    count = len(trace.ticks) + (trace.end == "trap")
    rows = table(rows_path, count)
    if len(rows.ticks) < count or rows.end:
        raise Fault(f"{rows_path}: no rows of {trace_path}, which has {count} ticks: here are {rows.end or len(rows.ticks)}")
    return rows, trace


def steps_of(lines):
    """The steps of each tick that `walk` tells: the offsets of their places, in order."""
    return [[int(it) for it in line.split(":")[1].split()] for line in lines if line.startswith("tick ")]


# ---- the structs of a C text

Member = collections.namedtuple("Member", "type name length")


def structs_of(path, text):
    """The structs of a C text that `build` wrote, by name, each with its members; the length of what is no array is 0."""
    found = {}
    for name, body in re.findall(r"^struct (\w+) \{\n(.*?)^\};", text, re.S | re.M):
        members = re.findall(r"^ *(?:struct )?(\w+) (\w+)(?:\[(\d+)\])?;$", body, re.M)
        found[name] = [Member(kind, member, int(length or 0)) for kind, member, length in members]
    for it in ("bl_state", "bl_in", "bl_out"):
        if it not in found:
            raise Fault(f"{path}: no C text of blechc, for it has no struct {it}")
    return found


def ports_of(structs, name):
    """The inputs (of `bl_in`) or outputs (of `bl_out`) of a C text, each by its name and its C type."""
    return [(it.name[2:], it.type) for it in structs[name][1:]]
