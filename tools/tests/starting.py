"""Tests of what a newcomer meets, which tools/tests/run calls: tools/blechc, an installation, the manual page, versions, and commands of README.md."""
import hashlib
import os
import re
import shutil
import stat
import subprocess
import tempfile

from results import HERE, TOP, ran, text_of, there, write

LAMP, ROWS, TRACE = (f"{TOP}/examples/lamp/{it}" for it in ("lamp.blech", "rows.csv", "trace.csv"))
PUMP = f"{TOP}/examples/pump"
# a stand-in for the toolchain: its program is a call of one that is there; it notes each call in a file, and takes the program away at the end
TOOLCHAIN = """#!/usr/bin/env python3
import os, shutil, subprocess, sys, tempfile, time
words = sys.argv[1:]
if words[0] == "version":
    sys.exit(print("a stand-in"))
with open("{log}", "a") as log:
    log.write("compiled\\n")
room = tempfile.mkdtemp(dir=os.environ["TMPDIR"])
with open(room + "/program", "w") as it:
    it.write('#!/bin/sh\\nexec {program} "$@"\\n')
os.chmod(room + "/program", 0o755)
status = subprocess.run([room + "/program", *words[words.index("--") + 1:]]).returncode
for _ in range(400):
    # (a link to it is made meanwhile)
    if os.stat(room + "/program").st_nlink > 1:
        break
    time.sleep(0.05)
shutil.rmtree(room)
print(f"run=ended status={status} runners=1 proved=no", file=sys.stderr)
sys.exit(status)
"""
# words that ask for no job: FILE is a source, and WHOLE a number that a word may have at most
NO_JOBS = """
make FILE|check|check FILE FILE|check -FILE|check -|-o FILE|run FILE|run FILE FILE FILE|walk FILE FILE|walk FILE FILE +1|walk FILE FILE 0x1
walk FILE FILE 18446744073709551616|gen|gen 0|gen 4294967296|gen -1|gen 1_0|gen 3 3|drive FILE 1|drive FILE 1000001 tank|drive FILE 1 sink
drive FILE 1 4294967296|link FILE|face|save FILE|save FILE FILE FILE FILE|resume FILE FILE|help check|Check FILE|version FILE|count FILE|bound
"""
# words that ask for one, of which the first file isn't there
JOBS = """
check none|build none|check check|run none none|walk none FILE 000|walk none FILE 18446744073709551615|walk none FILE 00000000000000000000000000007
exec none FILE|bound none|count none FILE|drive none 1000000 tank|drive none 0 4294967295 ramp 7|face none|face none FILE FILE|link none FILE
save none FILE|save none FILE FILE|resume none FILE FILE
"""


def runnable(path, text):
    """Writes a program."""
    write(path, text)
    os.chmod(path, 0o755)


# ---- pages


def console_blocks(page):
    """The blocks of a page with calls: for each call the line, and what is shown below it."""
    for block in re.findall(r"^```console\n(.*?)^```", page, re.S | re.M):
        yield re.findall(r"^\$ (.*)\n((?:(?!\$ ).*\n)*)", block, re.M)


def check_block(results, name, calls, room, setting):
    """The calls of a block one after another, each in the folder to which those before it have gone. A line `...` stands for any lines."""
    folder = room
    for line, shown in calls:
        if line.startswith("cd "):
            folder = os.path.join(folder, line[3:])
            continue
        told = ran(["sh", "-c", f"{line} 2>&1"], cwd=folder, env=setting).stdout
        pattern = "".join("(?:.*\n)*" if it == "...\n" else re.escape(it) for it in shown.splitlines(True))
        results.tell(f"{name}, {line}", shown if re.fullmatch(pattern, told) else told, shown)


def set_out(program, room):
    """A folder with the tools and the examples, and a setting in which the program is on the path."""
    os.makedirs(f"{room}/bin")
    os.symlink(f"{TOP}/tools", f"{room}/tools")
    shutil.copytree(f"{TOP}/examples", f"{room}/examples")
    os.symlink(program, f"{room}/bin/blechc")
    return {**os.environ, "BLECHC_PROGRAM": program, "PATH": f"{room}/bin:{os.environ['PATH']}"}


def check_readme(results, program, room):
    """The calls of README.md show what stands there, and the page is short."""
    os.makedirs(room)
    setting, page = set_out(program, room), text_of(f"{TOP}/README.md")
    for calls in console_blocks(page):
        check_block(results, "README.md", calls, room, setting)
    built = ran([program, "build", f"{PUMP}/pump.blech"]).stdout
    results.tell("README.md, the C text of its first command", text_of(f"{room}/pump.c"), built)
    for line in re.findall(r"^    ((?:blechc|make) .*)$", text_of(f"{TOP}/examples/README.md"), re.M):
        told = ran(["sh", "-c", line], cwd=room, env=setting)
        results.tell(f"examples/README.md, {line}", (told.returncode, bool(told.stdout)), (0, ">" not in line))
    results.tell("README.md, its pictures", [it for it in re.findall(r"\]\(([^)]*)\)", page) if not os.path.isfile(f"{TOP}/{it}")], [])
    results.tell("README.md, at most 120 lines", page.count("\n") <= 120, True)
    commands = {it for row in re.findall(r"^\| (`.*?) \|", page, re.M) for it in re.findall(r"`([a-z]+) [A-Z]", row)}
    named = set(re.findall(r"^\| `([a-z]+) [A-Z]", text_of(f"{TOP}/docs/FORMATS.md"), re.M))
    results.tell("README.md, its commands", named - commands, {"gen"})


# ---- tools/blechc


def check_call(results, program, room):
    """tools/blechc with a program: its words, output and status pass, from any folder and by any name."""
    tool, setting = f"{TOP}/tools/blechc", {**os.environ, "BLECHC_PROGRAM": program}
    told = ran([tool, "run", LAMP, ROWS], cwd=room, env=setting)
    results.tell("tools/blechc run", (told.returncode, told.stdout, told.stderr), (0, text_of(TRACE), ""))
    told = ran([tool, "check", ROWS], cwd=room, env=setting)
    results.tell("tools/blechc check, refused", (told.returncode, told.stderr), (1, "rule 5 Syntax 0-4\n"))
    told = ran([tool, "--help"], cwd=room, env=setting)
    results.tell("tools/blechc --help", (told.returncode, "build P" in told.stdout), (0, True))
    named = set(re.findall(r"^\| `([a-z]+) [A-Z]", text_of(f"{TOP}/docs/FORMATS.md"), re.M))
    results.tell("tools/blechc --help, its commands", set(re.findall(r"^    ([a-z]+) [A-Z]", ran([tool, "--help"]).stdout, re.M)), named)
    told = ran([tool, "--version"], cwd=room, env=setting)
    results.tell("tools/blechc --version", told.stdout, ran([f"{TOP}/tools/version"]).stdout)
    write(f"{room}/no_program", "a text")
    os.chmod(f"{room}/no_program", 0o755)
    told = ran([tool, "check", LAMP], cwd=room, env={**os.environ, "BLECHC_PROGRAM": f"{room}/no_program"})
    results.tell("tools/blechc, a program that can't run", (told.returncode, told.stderr),
                 (2, f"{room}/no_program: Exec format error: no program that runs here\n"))
    told = ran([tool, "check", LAMP], cwd=room, env={**os.environ, "BLECHC_PROGRAM": f"{room}/none"})
    results.tell("tools/blechc, a program that isn't there", (told.returncode, told.stderr),
                 (2, f"{room}/none: no program, though BLECHC_PROGRAM names it: name a built blechc there, or unset it\n"))


def copied_tools(room):
    """A repository in which nothing is built, and the setting without a program."""
    os.makedirs(f"{room}/fresh/crates/blechc/src")
    write(f"{room}/fresh/crates.txt", "# crates\nblechc:\n")
    write(f"{room}/fresh/crates/blechc/src/main.rt", "a source\n")
    shutil.copytree(f"{TOP}/tools", f"{room}/fresh/tools", ignore=shutil.ignore_patterns("tests", "__pycache__"))
    os.makedirs(f"{room}/path")
    for name in ("python3", "env", "sh"):
        os.symlink(shutil.which(name), f"{room}/path/{name}")
    setting = {k: v for k, v in os.environ.items() if k != "BLECHC_PROGRAM"}
    return f"{room}/fresh/tools", {**setting, "PATH": f"{room}/path", "XDG_CACHE_HOME": f"{room}/cache"}


def own_lines(told):
    """What a call told on standard error, without the lines of tools/blechc itself."""
    return "".join(it for it in told.splitlines(True) if not it.startswith("tools/blechc: "))


def check_words(results, program, tools, setting):
    """Wrong words and a first file that isn't there get the program's answers before anything is compiled: there is no toolchain here."""
    calls = [[LAMP if word == "FILE" else word for word in it.split()] for it in re.split(r"[|\n]", (NO_JOBS + JOBS).strip()) if it]
    calls += [[], [""], ["check", ""], ["check", b"\xff"], ["link", *[LAMP] * 65], ["link", "none", *[LAMP] * 63], ["gen", "\u0663"], ["check", TOP],
              ["link", TOP, LAMP]]
    for words in calls:
        told, wanted = ran([f"{tools}/blechc", *words], env=setting), ran([program, *words])
        results.tell(f"tools/blechc {words[:4]}, before it is built", (told.returncode, told.stdout, own_lines(told.stderr)),
                     (wanted.returncode, "", wanted.stderr))
        results.tell(f"tools/blechc {words[:4]}, its own line", told.stderr.startswith("tools/blechc: "), True)
        built = ran([f"{tools}/blechc", *words], env={**setting, "BLECHC_PROGRAM": program})
        results.tell(f"tools/blechc {words[:4]}, with a program", (built.returncode, built.stderr), (told.returncode, told.stderr))
    told = ran(["sh", "-c", f"{tools}/blechc check 2>&-"], env=setting)
    results.tell("tools/blechc, no standard error", (told.returncode, told.stdout), (4, ""))
    if os.geteuid():
        write(f"{tools}/locked", "")
        os.chmod(f"{tools}/locked", 0)
        told = ran([f"{tools}/blechc", "check", f"{tools}/locked"], env=setting)
        results.tell("tools/blechc, a file that can't be read", (told.returncode, own_lines(told.stderr)), (3, "read fault\n"))


def check_unproved(results, program, room):
    """tools/blechc without a program: what it says without a toolchain, and what it has the toolchain do."""
    tools, setting = copied_tools(room)
    check_words(results, program, tools, setting)
    for name in ("blechc", "explain"):
        told = ran([f"{tools}/{name}", "check", LAMP], env=setting)
        results.tell(f"tools/{name}, no toolchain", (told.returncode, told.stdout, told.stderr.startswith("no blechc and no Rattle toolchain")),
                     (2, "", True))
    shutil.copy(f"{room}/pump.c", f"{room}/fresh/pump.c")
    told = ran([f"{tools}/unit", "pump"], cwd=f"{room}/fresh", env=setting)
    line = "blechc unknown, C format unknown, unknown"
    results.tell("tools/unit of tools alone", (told.returncode, told.stderr, line in text_of(f"{room}/fresh/pump_unit.h")), (0, "", True))
    for front in ('[ "$1" = version ] && exit 0\n', ""):
        runnable(f"{room}/path/rt", f"#!/bin/sh\n{front}echo no memory >&2\nexit 1\n")
        broken = ran([f"{tools}/blechc", "check", LAMP], cwd=room, env=setting)
        results.tell("tools/blechc, a toolchain that fails", (broken.returncode, "no memory" in broken.stderr, "rt selftest" in broken.stderr),
                     (2, True, True))
    results.tell("tools/blechc, a toolchain that fails, what is left", os.listdir(f"{room}/cache/blechc"), ["lock"])
    runnable(f"{room}/path/rt", TOOLCHAIN.replace("{program}", program).replace("{log}", f"{room}/log"))
    full = ran([f"{tools}/blechc", "check", LAMP], env={**setting, "XDG_CACHE_HOME": LAMP})
    results.tell("tools/blechc, a cache that can't be written", (full.returncode, full.stderr.startswith(LAMP), "XDG_CACHE_HOME=" in full.stderr),
                 (2, True, True))
    check_kept(results, tools, setting, room)
    # (that names no program but this script again)
    check_unproved_calls(results, tools, {**setting, "BLECHC_PROGRAM": f"{tools}/blechc"}, room)
    check_explained(results, tools, setting)


def check_kept(results, tools, setting, room):
    """A program without proofs is compiled once for each state of the sources, by one of several calls at once, and four are kept."""
    words, pipe = [f"{tools}/blechc", "check", LAMP], subprocess.PIPE
    calls = [subprocess.Popen(words, env=setting, stdout=pipe, stderr=pipe, text=True) for _ in range(3)]
    told = [it.communicate() for it in calls]
    results.tell("tools/blechc, three at once", [it[0] for it in told], ["accepted\n"] * 3)
    results.tell("tools/blechc, three at once, compiled", text_of(f"{room}/log"), "compiled\n")
    results.tell("tools/blechc, what it says of compiling", sum("compiles one without proofs" in it[1] for it in told), 1)
    again = ran([f"{tools}/blechc", "check", LAMP], env=setting)
    line = "tools/blechc: no built blechc: runs one without proofs, which is kept (.ci/run builds it with proofs)\n"
    results.tell("tools/blechc, kept", (again.stdout, again.stderr, text_of(f"{room}/log")), ("accepted\n", line, "compiled\n"))
    for at in range(5):
        write(f"{room}/fresh/crates/blechc/src/main.rt", f"another source {at}\n")
        ran([f"{tools}/blechc", "check", LAMP], env=setting)
    kept = [it for it in os.listdir(f"{room}/cache/blechc") if it != "lock"]
    results.tell("tools/blechc, other sources", (text_of(f"{room}/log"), len(kept), all(it.startswith("blechc-") for it in kept)),
                 ("compiled\n" * 6, 4, True))


def check_unproved_calls(results, tools, setting, room):
    """Calls of a program without proofs, of files in other folders, of pipes, and of a file that isn't there behind the first."""
    shutil.copy(LAMP, f"{room}/my lamp.blech")
    linked = [f"{TOP}/examples/furnace/{it}.blech" for it in ("parts", "burner", "main")]
    for words, status, shown in ((["run", "my lamp.blech", ROWS], 0, text_of(TRACE)), (["walk", LAMP, ROWS, "7"], 0, text_of(TRACE)),
                                 (["run", f"{PUMP}/pump.blech", f"{PUMP}/rows.csv"], 6, text_of(f"{PUMP}/trace.csv")),
                                 (["link", *linked], 0, None), (["gen", "3"], 0, None), (["run", LAMP, LAMP], 5, "tick,on\n"),
                                 (["run", LAMP, "none"], 3, "tick,on\n")):
        told = ran([f"{tools}/blechc", *words], cwd=room, env=setting)
        notice = told.stderr.startswith("tools/blechc: no built blechc: runs one without proofs")
        results.tell(f"tools/blechc {words[0]} without a program", (told.returncode, notice, told.stdout if shown is not None else bool(told.stdout)),
                     (status, True, shown if shown is not None else True))
    told = ran([f"{tools}/blechc", "check", ROWS], cwd=room, env=setting)
    results.tell("tools/blechc check without a program, what it says of a rule", told.stderr.splitlines()[1:],
                 ["rule 5 Syntax 0-4", f"tools/blechc: tools/explain check {ROWS} shows where, and what to do"])
    told = ran([f"{tools}/blechc", "run", LAMP, "/dev/stdin"], cwd=room, env=setting, input=text_of(ROWS))
    results.tell("tools/blechc without a program, rows from a pipe", (told.returncode, told.stdout), (0, text_of(TRACE)))


def check_explained(results, tools, setting):
    """What tools/explain shows of a program without proofs: a trap, and a rule with the section that repairs it."""
    told = ran([f"{tools}/explain", "run", f"{PUMP}/pump.blech", f"{PUMP}/rows.csv"], env=setting)
    results.tell("tools/explain without a program", (told.returncode, "pump.blech:8:17: tick 8 trapped here" in told.stderr), (6, True))
    results.tell("tools/explain without a program, its own line", told.stderr.startswith("tools/blechc: no built blechc"), True)


# ---- -o


def check_out(results, program, room):
    """-o of tools/blechc: the file is whole or as it was, and nothing is left beside it."""
    tool, setting, folder = f"{TOP}/tools/blechc", {**os.environ, "BLECHC_PROGRAM": program}, f"{room}/out"
    os.makedirs(folder)
    built = ran([program, "build", LAMP]).stdout
    for words in (["build", LAMP, "-o", "lamp.c"], ["build", "-o", "lamp.c", LAMP], ["-o", "lamp.c", "build", LAMP]):
        told = ran([tool, *words], cwd=folder, env=setting)
        results.tell(f"tools/blechc {words[0]} -o", (told.returncode, told.stdout, told.stderr, text_of(f"{folder}/lamp.c")), (0, "", "", built))
        os.remove(f"{folder}/lamp.c")
    write(f"{folder}/lamp.c", "as it was")
    os.chmod(f"{folder}/lamp.c", 0o640)
    told = ran([tool, "build", ROWS, "-o", "lamp.c"], cwd=folder, env=setting)
    results.tell("tools/blechc -o, refused", (told.returncode, told.stderr, text_of(f"{folder}/lamp.c")), (1, "rule 5 Syntax 0-4\n", "as it was"))
    told = ran([tool, "build", LAMP, "-o", "lamp.c"], cwd=folder, env=setting)
    results.tell("tools/blechc -o, a file anew", (told.returncode, text_of(f"{folder}/lamp.c"), stat.S_IMODE(os.stat(f"{folder}/lamp.c").st_mode)),
                 (0, built, 0o640))
    results.tell("tools/blechc -o, what is left", os.listdir(folder), ["lamp.c"])
    told = ran([tool, "build", LAMP, "-o", "/dev/stdout"], cwd=folder, env=setting)
    results.tell("tools/blechc -o, a device", (told.returncode, told.stdout), (0, built))
    for out, why in (("none/lamp.c", "no such folder"), (folder, "a folder")):
        told = ran([tool, "build", LAMP, "-o", out], cwd=folder, env=setting)
        line = f"tools/blechc: {out}: {why}: name a file in a folder that is there and may be written\n"
        results.tell(f"tools/blechc -o, {why}", (told.returncode, told.stdout, told.stderr), (4, "", line))
    for words in (["run", LAMP, ROWS, "-o", "trace.csv"], ["build", LAMP, "-o"], ["build", LAMP, "-o", ""], ["-o", "lamp.c"]):
        told = ran([tool, *words], cwd=folder, env=setting)
        results.tell(f"tools/blechc {words[0]} .. {words[-1]}", (told.returncode, told.stdout, own_lines(told.stderr)), (2, "", ran([program]).stderr))


# ---- versions


def check_versions(results, program, room):
    """tools/version, and its line in the header of a unit."""
    lines = ran([f"{TOP}/tools/version"]).stdout.splitlines()
    results.tell("tools/version, its lines", [it.split(": ")[0] for it in lines], ["commit", "toolchain", "C format", "state format"])
    line = ran([f"{TOP}/tools/version", "--line"]).stdout.strip()
    results.tell("tools/version --line", all(it.split(": ")[1] in line for it in lines[:3]), True)
    told = ran([f"{TOP}/tools/version", "all"])
    results.tell("tools/version, other words", (told.returncode, told.stdout), (2, ""))
    write(f"{room}/pump.c", ran([program, "build", f"{PUMP}/pump.blech"]).stdout)
    told = ran([f"{TOP}/tools/unit", "pump"], cwd=room)
    results.tell("tools/unit, the version in its header", (told.returncode, f'#define PUMP_BLECHC "{line}"\n' in text_of(f"{room}/pump_unit.h")), (0, True))


def check_format(results, program):
    """The C texts of the examples are those of the number that CHANGES.md has: other texts need another number."""
    folders = sorted(it for it in os.listdir(f"{TOP}/examples") if os.path.isfile(f"{TOP}/examples/{it}/{it}.blech"))
    texts = "".join(ran([program, "build", f"{TOP}/examples/{it}/{it}.blech"]).stdout for it in folders)
    number = re.search(r"^C format: (\d+)$", ran([f"{TOP}/tools/version"]).stdout, re.M)[1]
    results.tell("the C texts of the examples, by the number of their format: where they have changed, CHANGES.md gets a row with a new number, "
                 "and tools/tests/c_format.txt this line", f"{number} {hashlib.sha256(texts.encode()).hexdigest()}\n", text_of(f"{HERE}/c_format.txt"))


# ---- the installation


def check_installed(results, program, room):
    """An installation in an empty folder: each tool runs from any folder, and nothing is left of it once it is taken away."""
    prefix, elsewhere = f"{room}/prefix", f"{room}/elsewhere"
    os.makedirs(elsewhere)
    told = ran([f"{TOP}/tools/install", prefix], cwd=elsewhere, env={**os.environ, "BLECHC_PROGRAM": program})
    results.tell("tools/install", (told.returncode, told.stderr), (0, ""))
    served = os.path.lexists(f"{prefix}/bin/blech_ls")
    results.tell("tools/install, what it says of the server", "without blech_ls" in told.stdout, not served)
    modes = [stat.S_IMODE(os.stat(f"{prefix}/{it}").st_mode) for it in ("bin/blechc", "bin/blechc-explain", "lib/blechc/docs/HOWTO.md")]
    results.tell("tools/install, who may call and read it", modes, [0o755, 0o755, 0o644])
    below = [os.path.join(folder, it) for folder, folders, names in os.walk(prefix) for it in (*folders, *names)]
    files = [it for it in below if os.path.islink(it) or os.path.isfile(it)]
    listed = text_of(f"{prefix}/lib/blechc/FILES").splitlines()
    results.tell("tools/install, its list", sorted(os.path.relpath(it, prefix) for it in files), sorted(listed))
    setting = {k: v for k, v in os.environ.items() if k != "BLECHC_PROGRAM"}
    check_tools(results, f"{prefix}/bin", elsewhere, {**setting, "PATH": f"{prefix}/bin:{os.environ['PATH']}"})
    again = ran([f"{TOP}/tools/install", prefix], env={**os.environ, "BLECHC_PROGRAM": program})
    results.tell("tools/install once more", (again.returncode, text_of(f"{prefix}/lib/blechc/FILES").splitlines()), (0, listed))
    write(f"{prefix}/bin/other", "mine")
    told = ran([f"{TOP}/tools/uninstall", prefix])
    left = [os.path.join(folder, it) for folder, folders, names in os.walk(prefix) for it in (*folders, *names)]
    results.tell("tools/uninstall", (told.returncode, left), (0, [f"{prefix}/bin", f"{prefix}/bin/other"]))


def check_tools(results, folder, room, setting):
    """The installed tools, called by their names from another folder."""
    source, rows, trace = (f"{PUMP}/{it}" for it in ("pump.blech", "rows.csv", "trace.csv"))
    write(f"{room}/pump.c", ran(["blechc", "build", source], env=setting).stdout)
    ran(["sh", "-c", f"head -3 {rows} > some.csv; blechc save pump.c some.csv > state"], cwd=room, env=setting)
    calls = {"explain": (["run", source, rows], 6, "tick 8 trapped here"), "view": ([source, rows], 0, "<!doctype html>"),
             "wave": ([trace, rows, source], 0, "$enddefinitions"), "plot": ([trace, rows], 0, "<svg"), "state": (["pump.c", "state", source], 0, "Pump rests"),
             "cover": ([source, rows], 0, "5 of 5 statements acted"), "unit": (["pump", "--state"], 0, ""), "version": ([], 0, "C format: ")}
    for name, (words, status, shown) in calls.items():
        told = ran([f"blechc-{name}", *words], cwd=room, env=setting)
        results.tell(f"blechc-{name}, installed", (told.returncode, shown in told.stdout + told.stderr), (status, True))
    for name in sorted(it for it in os.listdir(folder) if it.startswith("blechc-") and it[7:] not in calls):
        told = ran([name], cwd=room, env=setting)
        # (tools/prove has a status of its own for words that don't fit)
        results.tell(f"{name}, installed, without words", (told.returncode in (0, 2, 4), "Traceback" in told.stderr), (True, False))
        told = ran([name, "--help"], cwd=room, env=setting)
        results.tell(f"{name} --help, installed", (told.returncode, f"{name} " in told.stdout, told.stderr), (0, True, ""))
    write(f"{room}/once.blech", "@[EntryPoint]\nactivity M ()(o: int32)\n    o = 1\nend\n")
    told = ran(["blechc-explain", "check", "once.blech"], cwd=room, env=setting).stderr
    page = re.search(r"its repair:\s(\S+/HOWTO\.md)", told)
    results.tell("blechc-explain, the page that it names", page and os.path.isfile(page[1]) or told, True)
    told = ran(["blechc-plot"], cwd=room, env=setting)
    results.tell("blechc-plot, its help names it", "blechc-plot TRACE" in told.stderr, True)
    if there("man"):
        told = ran(["man", f"{folder}/../share/man/man1/blechc.1"], env={**setting, "MANPAGER": "cat", "MANWIDTH": "100"})
        results.tell("man blechc", (told.returncode, "EXIT STATUS" in told.stdout), (0, True))


def check_refused_install(results, program, room):
    """Folders into which nothing can be installed, and nothing to install: a sentence, and nothing is written."""
    setting, file = {**os.environ, "BLECHC_PROGRAM": program}, f"{room}/file"
    write(file, "")
    told = ran([f"{TOP}/tools/install", f"{file}/prefix"], env=setting)
    results.tell("tools/install into a file", (told.returncode, "name a folder that you may write" in told.stderr, "Traceback" in told.stderr), (2, True, False))
    os.makedirs(f"{room}/full/share")
    write(f"{room}/full/share/man", "a file where a folder has to be")
    told = ran([f"{TOP}/tools/install", f"{room}/full"], env=setting)
    left = sorted(it for _, folders, names in os.walk(f"{room}/full") for it in (*folders, *names))
    results.tell("tools/install where a file is in the way", (told.returncode, left), (2, ["man", "share"]))
    if os.geteuid():
        os.makedirs(f"{room}/locked")
        os.chmod(f"{room}/locked", stat.S_IRUSR | stat.S_IXUSR)
        told = ran([f"{TOP}/tools/install", f"{room}/locked"], env=setting)
        results.tell("tools/install into a folder that can't be written", (told.returncode, os.listdir(f"{room}/locked")), (2, []))
    for words in ([], ["a", "b"]):
        told = ran([f"{TOP}/tools/install", *words], env=setting)
        results.tell(f"tools/install {words}", (told.returncode, "tools/install PREFIX" in told.stderr), (2, True))
    told = ran([f"{TOP}/tools/install", "--help"], env=setting)
    results.tell("tools/install --help", (told.returncode, "tools/install PREFIX" in told.stdout), (0, True))
    told = ran([f"{TOP}/tools/uninstall", f"{room}/full"])
    results.tell("tools/uninstall of nothing", (told.returncode, "nothing is installed there" in told.stderr), (2, True))


def check_alone(results):
    """What needs no program."""
    told = ran([f"{TOP}/.ci/manual"])
    results.tell(".ci/manual", (told.returncode, told.stdout), (0, "docs/blechc.1 is what docs/FORMATS.md gives\n"))
    # bl_lex stands on bl_tree, and its wrong bodies wait for its proof; bl_io stands on nothing
    with tempfile.NamedTemporaryFile("w", suffix=".tsv") as counts:
        counts.write("crate\tproof\ttests\tedits\nbl_tree\t60\t0\t0\nbl_lex\t60\t0\t60\nbl_io\t120\t0\t0\n")
        counts.flush()
        told = ran([f"{TOP}/.ci/costs", "clock", "2", "1", counts.name])
        lines = told.stdout.splitlines()
        results.tell(".ci/costs clock", (told.returncode, lines[:1], lines[2:]), (0, ["5 processor minutes; the longest chain takes 3"],
                     ["2 processors: 3 minutes by the clock", "1 processors: 5 minutes by the clock"]))


def check(results, program, room):
    """All of these tests."""
    room = f"{room}/starting"
    os.makedirs(room)
    check_readme(results, program, f"{room}/readme")
    check_call(results, program, room)
    check_out(results, program, room)
    check_versions(results, program, room)
    check_unproved(results, program, room)
    check_format(results, program)
    check_installed(results, program, room)
    check_refused_install(results, program, room)
