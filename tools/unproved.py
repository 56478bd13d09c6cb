"""A blechc without proofs: the Rattle toolchain compiles it from the sources of this repository, and it is kept for later calls."""
import contextlib
import fcntl
import functools
import hashlib
import os
import shutil
import stat
import subprocess
import sys
import tempfile
import time

import shared
from shared import Fault

# the program whose crates are compiled
CRATE = "blechc"
# what the toolchain calls it for: a call of about a second, in which its program is found, and whose answer says that it is whole
ASKED, ANSWER = ["gen", "3"], b"stages 3\nticks 100\nsum 5350\nlast 103\n"
# a limit of the toolchain on that call, in seconds; and the least that it takes for its interpreter, which can't run this program
SECONDS, STEPS = "600", "1"
# how often it is looked for, in seconds
EVERY = 0.02
# how many programs of other sources are kept
OTHERS = 3
NO_TOOLCHAIN = """no blechc and no Rattle toolchain (the command `rt`). One of these helps:
  - install the toolchain (README.md, "Try it"), and call this script again, or `.ci/run`, which builds blechc
  - put a built blechc on the path, or name it: BLECHC_PROGRAM=/where/it/is/blechc
"""


@functools.lru_cache(maxsize=None)
def program():
    """The program of these sources, which is compiled where none is kept. A line on standard error says that it isn't proved."""
    if not os.path.isdir(f"{shared.TOP}/crates/{CRATE}"):
        raise Fault(f"no blechc: {shared.own_program()} isn't there. Install it anew, put a built one on the path, or name one by BLECHC_PROGRAM=..")
    toolchain = shutil.which("rt")
    if not toolchain:
        raise Fault(NO_TOOLCHAIN)
    folder = cache()
    kept = f"{folder}/blechc-{sum_of(toolchain)}"
    if os.access(kept, os.X_OK):
        notice("no built blechc: runs one without proofs, which is kept (.ci/run builds it with proofs)")
        with contextlib.suppress(OSError):
            os.utime(kept)
        return kept
    try:
        os.makedirs(folder, exist_ok=True)
        with alone(folder):
            if not os.access(kept, os.X_OK):
                make(toolchain, folder, kept)
    except OSError as fault:
        raise unusable(folder, fault) from fault
    except KeyboardInterrupt:
        raise Fault(f"{shared.NOTICE}stopped", 130) from None
    return kept


def notice(text):
    """Tells one line that isn't one of the program."""
    print(f"{shared.NOTICE}{text}", file=sys.stderr, flush=True)


# ---- where it is kept


def cache():
    """The folder of the user's in which programs are kept."""
    named = os.environ.get("XDG_CACHE_HOME", "")
    # (a path that isn't absolute counts as none)
    return f"{named if os.path.isabs(named) else os.path.expanduser('~/.cache')}/blechc"


def unusable(folder, fault):
    """What is told where no program can be kept."""
    return Fault(f"{folder}: {fault.strerror}: this folder is to keep a blechc without proofs. Name another one for it: XDG_CACHE_HOME=/folder")


def crates_below(name):
    """A crate and those that it stands on, in the order of their names."""
    with open(f"{shared.TOP}/crates.txt", encoding="utf-8") as it:
        lines = [line.partition(":") for line in it if line.strip() and not line.startswith("#")]
    uses = {front.split()[0]: end.split() for front, _, end in lines}
    found, left = set(), [name]
    while left:
        crate = left.pop()
        if crate in uses and crate not in found:
            found.add(crate)
            left += uses[crate]
    return sorted(found)


def sources():
    """The files that are compiled, by their paths."""
    for crate in crates_below(CRATE):
        for folder, folders, names in os.walk(f"{shared.TOP}/crates/{crate}/src"):
            folders.sort()
            yield from (os.path.join(folder, it) for it in sorted(names))


def sum_of(toolchain):
    """A name for what is compiled: a check sum of the sources, with their paths, and of the toolchain's line."""
    with subprocess.Popen([toolchain, "version"], stdout=subprocess.PIPE) as version:
        made = hashlib.sha256()
        for path in ("crates.txt", *(os.path.relpath(it, shared.TOP) for it in sources())):
            data = shared.read(f"{shared.TOP}/{path}")
            made.update(f"{path} {len(data)}\n".encode() + data)
        line = version.communicate()[0]
    if version.returncode:
        raise Fault(f"{shared.NOTICE}`rt version` failed. `rt selftest` says whether the toolchain is well")
    made.update(line)
    return made.hexdigest()[:20]


@contextlib.contextmanager
def alone(folder):
    """No other call compiles meanwhile: two at once would take twice the memory."""
    with open(f"{folder}/lock", "w", encoding="utf-8") as it:
        try:
            fcntl.flock(it, fcntl.LOCK_EX | fcntl.LOCK_NB)
        except OSError:
            notice("waits for another call, which compiles blechc")
            fcntl.flock(it, fcntl.LOCK_EX)
        yield


# ---- how it is made


def make(toolchain, folder, kept):
    """Has the toolchain compile the program, and keeps it."""
    notice("no built blechc: compiles one without proofs, which takes minutes, and keeps it for later calls (.ci/run builds it with proofs)")
    # (a call that was killed may have left these)
    for it in os.listdir(folder):
        if it.startswith("making-"):
            shutil.rmtree(f"{folder}/{it}", ignore_errors=True)
    with tempfile.TemporaryDirectory(dir=folder, prefix="making-") as room:
        os.replace(caught(toolchain, room), kept)
    others = [f"{folder}/{it}" for it in os.listdir(folder) if it.startswith("blechc-") and f"{folder}/{it}" != kept]
    for it in sorted(others, key=os.path.getmtime, reverse=True)[OTHERS:]:
        os.remove(it)


def caught(toolchain, room):
    """The program of a call by the toolchain, which itself keeps none: a second link to the file, made while the call lasts."""
    os.makedirs(f"{room}/work")
    words = [toolchain, "try", "--seconds", SECONDS, "--steps", STEPS, "--", *ASKED]
    with open(f"{room}/told", "wb") as told:
        tried = subprocess.Popen(words, cwd=f"{shared.TOP}/crates/{CRATE}", env={**os.environ, "TMPDIR": f"{room}/work"}, stdin=subprocess.DEVNULL,
                                 stdout=subprocess.DEVNULL, stderr=told)
    found = watched(tried, room)
    whole = next((it for it in found if answers(it)), None)
    if not whole:
        told = shared.read(f"{room}/told").decode(errors="replace")
        raise Fault(f"{told}{shared.NOTICE}the toolchain made no program. `rt selftest` says whether it is well; README.md, \"Try it\", what it needs")
    return whole


def watched(tried, room):
    """The programs that stood in the folder of a call until it ended, each by a link of its own."""
    found = []
    try:
        while tried.poll() is None:
            for path, number in runnable(f"{room}/work"):
                with contextlib.suppress(FileExistsError, FileNotFoundError):
                    os.link(path, f"{room}/{number}")
                    found.append(f"{room}/{number}")
            time.sleep(EVERY)
    finally:
        if tried.poll() is None:
            tried.terminate()
            tried.wait()
    return found


def runnable(folder):
    """The files below a folder that may be run, each with the number of its file."""
    found = []
    for inner, _, names in os.walk(folder):
        for path in (f"{inner}/{it}" for it in names):
            # (the toolchain removes them at any time)
            with contextlib.suppress(FileNotFoundError):
                its = os.lstat(path)
                found += [(path, its.st_ino)] if stat.S_ISREG(its.st_mode) and its.st_mode & stat.S_IXUSR else []
    return found


def answers(path):
    """Whether a file is the whole program."""
    try:
        return subprocess.run([path, *ASKED], stdin=subprocess.DEVNULL, capture_output=True, check=False).stdout == ANSWER
    except OSError:
        return False
