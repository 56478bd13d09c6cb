"""Random programs cut into files, and what `link` must say of them.

The rules judge each file behind the files before it. So a file is refused as the text of these files and the file itself is, behind
which an entry point stands unless it is the last one (docs/LANGUAGE.md, "Files and interfaces"). What is told is worked out by `check`
of such texts, which knows nothing of files.
"""
import random
import re

# the last rules that a file keeps by itself, that of marks, and those that are asked of the whole
SYNTAX, ENTRY, FRAMES, CELLS = 5, 17, 24, 25
STUB = "@[EntryPoint] activity Stub ()() await true end"
# the head of an activity, and what follows it
ACTIVITY = re.compile(r"((?:@\[EntryPoint\] )?activity \w+ \([^)]*\)\([^)]*\)(?: returns int32)?) (.*)", re.S)
NAME, TYPE = re.compile(r"\b[a-zA-Z]\d*\b"), re.compile(r"\bint32\b|\bbool\b|\b[235]\b")
WORD = re.compile(r"\b[A-Za-z]\w*\b|\b[0-9]+\b|[-+*/%<>=!]+|[()\[\],:.]")


# ---- a program in files


class Cutter:
    """Cuts a program whose items stand on lines of their own, with declarations more, and maybe with a fault."""

    def __init__(self, source, seed):
        self.random, self.items = random.Random(seed), source.splitlines()

    def files(self):
        """The texts of the files, in order."""
        self.declare()
        count = self.random.randrange(2, 5)
        cuts = sorted(self.random.randrange(len(self.items)) for _ in range(count - 1))
        parts = [self.items[start:end] for start, end in zip([0, *cuts], [*cuts, len(self.items)])]
        texts = [self.spaced(it) for it in parts]
        return self.faulty(texts) if self.random.random() < 0.6 else texts

    def spaced(self, items):
        """The items of a file, with comments and blanks here and there, and with or without a line feed at its end."""
        front, between = self.random.choice(["", "\n", "// a file\n", "/* a\nfile */ "]), self.random.choice([" ", "\n", "\n\n"])
        return front + between.join(items) + self.random.choice(["", "", "\n", " // the end"])

    def declare(self):
        """Adds constants, a struct and a function of it, and uses them; constants of blocks, too."""
        self.items[:0] = [f"const K{k}: int32 = {self.random.randrange(1, 9)}" for k in range(self.random.randrange(3))]
        known = [it.split()[1].rstrip(":") for it in self.items if it.startswith("const")]
        if self.random.random() < 0.5:
            self.items.insert(len(known), "struct P var a: int32 var b: [2]bool end")
            self.items.insert(len(known) + 1, "function H (p: P) returns int32 const Q: int32 = 2 return p.a % Q end")
        has_struct = any(it.startswith("struct") for it in self.items)
        for at, item in enumerate(self.items):
            found = ACTIVITY.fullmatch(item)
            if found:
                self.items[at] = f"{found.group(1)} {self.begun(known, has_struct)}{self.named(found.group(2), known)}"

    def begun(self, known, has_struct):
        """What a body begins with beside its own statements."""
        parts = [f"const B: int32 = {self.random.choice(['1', '7', *known])}"] * (self.random.random() < 0.4)
        if has_struct and self.random.random() < 0.5:
            parts += ["var p: P p.a = 5 p.b[1] = H(p) > 1"]
        return "".join(f"{it} " for it in parts)

    def named(self, body, known):
        """The body with constants in place of some numbers."""
        pick = self.random
        return re.sub(r"\b[235]\b", lambda it: pick.choice(known) if known and pick.random() < 0.3 else it.group(), body)

    def faulty(self, texts):
        """The files with one thing otherwise."""
        kind, at = self.random.randrange(12), self.random.randrange(len(texts))
        if kind == 0:
            self.random.shuffle(texts)
        elif kind == 1 and len(texts) > 2:
            del texts[at]
        elif kind == 2:
            texts.insert(at, texts[self.random.randrange(len(texts))])
        elif kind == 3:
            texts = [it.replace("@[EntryPoint] ", "") for it in texts]
        elif kind == 4:
            texts[at] = re.sub(r"(?<!\] )\bactivity A", "@[EntryPoint] activity A", texts[at], count=1)
        elif kind in (5, 6):
            texts[at] = self.mistaken(texts[at], " ".join(texts), WORD, kind == 5)
        elif kind == 7:
            texts[at] = re.sub(r"await true|run A\w+", self.once("o1 = 1"), texts[at])
        else:
            texts[at] = self.mistaken(texts[at], " ".join(texts), NAME if kind < 10 else TYPE, False)
        return texts

    def once(self, other):
        """What `re.sub` puts in place of what it finds: another text in place of some of it."""
        return lambda it: other if self.random.random() < 0.3 else it.group()

    def mistaken(self, text, all_texts, words, deletes):
        """The text without one of such words, or with another one of the program in its place."""
        there = list(words.finditer(text))
        if not there:
            return text
        found = self.random.choice(there)
        other = "" if deletes else self.random.choice(words.findall(all_texts) + ["bool", "nat8"] * (words is TYPE))
        return text[: found.start()] + other + text[found.end() :]


# ---- what is told of files


class Line:
    """A line that tells a rule, its place and further places."""

    def __init__(self, text):
        _, number, self.name, *places = text.split()
        self.rule, self.places = int(number), [tuple(map(int, it.split("-"))) for it in places]


def joined(files):
    """The files as one text: each is followed by a line feed."""
    return "".join(f"{it}\n" for it in files)


def told(rule, name, places):
    return f"rule {rule} {name} " + " ".join(f"{start}-{end}" for start, end in places)


def fault_of_file(check, files, number):
    """The line that tells why a file is refused behind the files before it, or nothing. `check` gives the line of a text."""
    text, last = files[number - 1], number == len(files)
    alone = check(text)
    if alone and Line(alone).rule <= SYNTAX:
        return alone
    offset = len(joined(files[: number - 1]))
    line = check(joined(files[: number - 1]) + text + ("" if last else f"\n{STUB}"))
    found = Line(line) if line else None
    if not found or found.rule == FRAMES or (last and found.rule == CELLS):
        return None
    if found.rule == ENTRY and not last:
        # (of the text the mark of the stub is told, since it is the second one)
        found.places = [(offset + it.start(1), offset + it.end(1)) for it in re.finditer(r"@\[EntryPoint\] activity (\w+)", text)][:1]
    return told(found.rule, found.name, [(start - offset, end - offset) for start, end in found.places if start >= offset])


def fault_of(check, files):
    """The line with which `link` refuses the files, or nothing."""
    for number in range(1, len(files) + 1):
        line = fault_of_file(check, files, number)
        if line:
            return f"file {number} {line}"
    line = check(joined(files))
    if not line:
        return None
    found = Line(line)
    number = max(it for it in range(1, len(files) + 1) if len(joined(files[: it - 1])) <= found.places[0][0])
    offset = len(joined(files[: number - 1]))
    return f"file {number} " + told(found.rule, found.name, [tuple(it - offset for it in found.places[0])])
