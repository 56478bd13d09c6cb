"""Looks at the pages of tools/view by chromium, where it is installed."""
import os
import re
import struct
import zlib

from results import TOP, ran, there, write

# no window, and no rights that a container lacks
FLAGS = ["--headless", "--no-sandbox", "--disable-gpu", "--disable-dev-shm-usage", "--force-device-scale-factor=1", "--window-size=700,300"]
MARK, TRAP, WAVE, OUTPUT = (255, 226, 138), (209, 36, 47), (7, 87, 184), (10, 125, 51)
# a stand-in for the program, since `walk` takes about a millisecond for each tick: a long run with many signals
LONG, SIGNALS = 20000, 40
SOURCE = "@[EntryPoint]\nactivity M ()({outputs})\n    repeat\n        o0 = 1\n        await true\n        o0 = 2\n        await true\n    end\nend\n"
STAND_IN = """#!/usr/bin/env python3
import sys
print(",".join(["tick", *[f"o{{at}}" for at in range({signals})]]))
for tick in range(1, {count} + 1):
    print(",".join([str(tick), str(2 - tick % 2), *[str(tick * at % 1000 // (1 + at % 3)) for at in range(1, {signals})]]))
    print(f"tick {{tick}}: {{('{even}', '{odd}')[tick % 2]}}", file=sys.stderr)
"""
# a page opens within so many milliseconds
LIMIT = 2000


def seen(room, page, *flags):
    """Opens a page with a browser of its own: what that prints."""
    words = ["chromium", *FLAGS, f"--user-data-dir={room}/browser", *flags, f"file://{page}"]
    return ran(words, env={**os.environ, "HOME": room}).stdout


def unfiltered(kind, line, above, size):
    """A line of a picture, as its filter keeps it, made plain."""
    for at in range(len(line)):
        left, up = line[at - size] if at >= size else 0, above[at]
        if kind == 4:
            corner = above[at - size] if at >= size else 0
            guess = left + up - corner
            best = min((left, up, corner), key=lambda it: abs(guess - it))
        else:
            best = (0, left, up, (left + up) // 2)[kind]
        line[at] = (line[at] + best) & 255
    return line


def colours_of(path):
    """The colours of a picture (PNG), with the number of points that have each."""
    with open(path, "rb") as it:
        data = it.read()
    width, _, _, kind = struct.unpack(">IIBB", data[16:26])
    size, at, packed = {2: 3, 6: 4}[kind], 8, b""
    while at < len(data):
        length, name = struct.unpack(">I4s", data[at:at + 8])
        packed += data[at + 8:at + 8 + length] if name == b"IDAT" else b""
        at += 12 + length
    plain, stride, above, found = zlib.decompress(packed), 1 + width * size, bytearray(width * size), {}
    for start in range(0, len(plain), stride):
        above = unfiltered(plain[start], bytearray(plain[start + 1:start + stride]), above, size)
        for point in range(0, len(above), size):
            colour = tuple(above[point:point + 3])
            found[colour] = found.get(colour, 0) + 1
    return found


def check_trap(tools):
    """The page of a trap: what acted is marked, what trapped is red, and waves are drawn."""
    page, picture = f"{tools.room}/pump.html", f"{tools.room}/pump.png"
    write(page, tools.good("view", f"{TOP}/examples/pump/pump.blech", f"{TOP}/examples/pump/rows.csv"))
    told = seen(tools.room, page, "--dump-dom", f"--screenshot={picture}")
    marks = re.findall(r'<b data-a="\d+"[^>]* class="([a-z ]+)">(.*?)</b>', told)
    tools.results.tell("a page, marks", marks, [("on", "await demand"), ("on", "last = flow"), ("on trap", "total = total + flow")])
    tools.results.tell("a page, how it ends", "tick 8 trapped" in told, True)
    if not os.path.isfile(picture):
        seen(tools.room, page, f"--screenshot={picture}")
    colours = colours_of(picture)
    tools.results.tell("a page, colours", [colours.get(it, 0) > 100 for it in (MARK, TRAP, WAVE)], [True] * 3)


def check_long(tools):
    """A long run with many signals opens at once, at the tick that its address names."""
    source, page, program = f"{tools.room}/long.blech", f"{tools.room}/long.html", f"{tools.room}/stand-in"
    text = SOURCE.format(outputs=", ".join(f"o{it}: int32" for it in range(SIGNALS)))
    write(source, text)
    write(program, STAND_IN.format(count=LONG, signals=SIGNALS, odd=text.index("o0 = 1"), even=text.index("o0 = 2")))
    os.chmod(program, 0o755)
    write(f"{tools.room}/long.csv", "tick\n" + "".join(f"{it}\n" for it in range(1, LONG + 1)))
    told = ran([f"{TOP}/tools/view", source, "long.csv"], cwd=tools.room, env={**os.environ, "BLECHC_PROGRAM": program})
    write(page, told.stdout)
    told = seen(tools.room, f"{page}#12346", "--dump-dom")
    opened = int((re.search(r'data-opened="(\d+)"', told) or [0, LIMIT])[1])
    if opened >= LIMIT and os.getloadavg()[0] > (os.cpu_count() or 1):
        # (the clock goes on while other processes have the processor)
        print(f"the machine is busy, so it isn't judged that a page took {opened} milliseconds to open")
    else:
        tools.results.tell("a page of 20,000 ticks and 40 signals opens in two seconds", opened < LIMIT or opened, True)
    tools.results.tell("a page of 20,000 ticks, marks", re.findall(r'class="on">(.*?)</b>', told), ["o0 = 2"])


def check(tools):
    """All of these tests."""
    if there("chromium"):
        check_trap(tools)
        check_long(tools)
