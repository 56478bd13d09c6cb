"""What the tests beside the compiler share: what passed and failed, files, and calls."""
import importlib.machinery
import importlib.util
import os
import shutil
import subprocess
import sys

HERE = os.path.dirname(os.path.abspath(__file__))
TOP = os.path.dirname(os.path.dirname(HERE))
# no call takes as many seconds, on a busy machine either
LIMIT = 300
# how much of a text is printed
SHOWN = 2000


class Results:
    """What passed and what failed."""

    def __init__(self):
        self.passed = self.failed = 0

    def tell(self, what, got, wanted):
        """Compares what came with what must come."""
        if got == wanted:
            self.passed += 1
            return True
        self.failed += 1
        print(f"{what}: FAILED\n-- wanted\n{str(wanted)[:SHOWN]}\n-- got\n{str(got)[:SHOWN]}")
        return False


def text_of(path):
    with open(path, encoding="utf-8") as it:
        return it.read()


def write(path, text):
    with open(path, "wb") as it:
        it.write(text if isinstance(text, bytes) else text.encode())


def ran(words, **more):
    """A call, with its output as text."""
    return subprocess.run(words, capture_output=True, timeout=LIMIT, text=True, **more)


def there(tool):
    """Whether a tool can be called; says so where it can't."""
    if shutil.which(tool):
        return True
    print(f"{tool} isn't there, and what needs it is passed over")
    return False


def reader_of_cases():
    """What tests/run defines, which reads the cases."""
    loader = importlib.machinery.SourceFileLoader("tests_run", f"{TOP}/tests/run")
    module = importlib.util.module_from_spec(importlib.util.spec_from_loader(loader.name, loader))
    sys.modules[loader.name] = module
    loader.exec_module(module)
    return module
