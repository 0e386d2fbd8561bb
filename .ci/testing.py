"""What the tests in Python share: the repository, its commands as modules, and the count of what holds. It is no test itself."""

import importlib.machinery
import importlib.util
import os
import subprocess
import sys

ROOT = os.path.dirname(os.path.dirname(os.path.abspath(__file__)))
GRIPCHECK = os.path.join(ROOT, "target", "bin", "gripcheck")
NAME = os.path.basename(sys.argv[0])
counts = {"passed": 0, "failed": 0}


def module(path):
    """A command of bin as a module."""
    sys.path.insert(0, os.path.join(ROOT, "bin"))  # for command.py, which it imports
    name = os.path.basename(path)
    loader = importlib.machinery.SourceFileLoader(name, path)
    loaded = importlib.util.module_from_spec(importlib.util.spec_from_loader(name, loader))
    loader.exec_module(loaded)
    return loaded


def content(*path):
    with open(os.path.join(ROOT, *path), "rb") as file:
        return file.read()


def hold(what, right, seen):
    """One test: what was seen is printed if it is not right."""
    counts["passed" if right else "failed"] += 1
    if not right:
        print(f"{NAME}: {what} FAILED: {str(seen)[:1000]}")


def build():
    """Has GRIPCHECK proved and built, where that has not been done."""
    subprocess.run([os.path.join(ROOT, "bin", "prove"), "gripcheck"], check=True)


def end():
    """The last line, and the exit status."""
    print(f"{counts['passed']} passed, {counts['failed']} failed")
    return 1 if counts["failed"] else 0
