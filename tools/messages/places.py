"""How a place in a text is shown: its file, line and column, the line, and carets."""
import textwrap

from shared import by_installed_names, shown

WIDTH = 100


def line_of(data, offset):
    """The number of the line in which a byte stands, and where it begins and ends."""
    begin = data.rfind(b"\n", 0, offset) + 1
    end = data.find(b"\n", offset)
    return data.count(b"\n", 0, offset) + 1, begin, len(data) if end < 0 else end


def place(path, data, start, end, label):
    """Shows the place from one byte to another: file, line and column, then the line with carets."""
    start, end = min(start, len(data)), min(end, len(data))
    number, begin, line_end = line_of(data, start)
    before, here = shown(data[begin:start]), shown(data[start:max(start, min(end, line_end))])
    line = before + here + shown(data[max(start, min(end, line_end)):line_end])
    cut = max(0, len(before) - WIDTH)
    gutter = " " * len(str(number))
    blank = "".join("\t" if it == "\t" else " " for it in before[cut:])
    more = ""
    if end > line_end + 1:
        more = f" (up to line {line_of(data, end - 1)[0]})"
    carets = "^" * max(1, min(len(here), WIDTH))
    return [f"{path}:{number}:{len(before) + 1}: {label}{more}",
            f"  {number} | {line[cut:cut + 2 * WIDTH]}",
            f"  {gutter} | {blank}{carets}"]


def place_in(source, start, end, label):
    """Shows a place of a source that may have several files."""
    file = source.file(start)
    first = source.begins[file]
    last = source.begins[file + 1] if file + 1 < len(source.begins) else len(source.data)
    return place(source.paths[file], source.data[first:last], start - first, end - first, label)


def wrapped(text):
    """The lines of a text, with the names of tools and docs that they have here."""
    return textwrap.wrap(by_installed_names(text), WIDTH, break_long_words=False, break_on_hyphens=False)
