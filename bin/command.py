"""What the commands in Python share: their help, what they read, what they write, and how they fail. It is no command itself.

A command ends with 2, and says why on standard error, where it was called in another way than its help says, where something cannot be read, and where
standard output is closed or full.
"""

import os
import sys

NAME = "bin/" + os.path.basename(sys.argv[0])
ROOT = os.path.dirname(os.path.dirname(os.path.realpath(__file__)))


def say(message):
    if sys.stderr is not None:
        print(f"{NAME}: {message}", file=sys.stderr)


def fail(message):
    say(message)
    sys.exit(2)


def arguments(text):
    """The command's arguments. Where they ask for help, or nothing could be written, this is the end; text is the help, a command's own docstring."""
    if sys.stdout is None:
        fail("standard output is closed")
    if sys.argv[1:] in (["--help"], ["-h"]):
        write(text.strip())
        sys.exit(0)
    return sys.argv[1:]


def read(files):
    """The bytes of the one file that is named, or of standard input where none is."""
    try:
        with open(files[0] if files else 0, "rb") as file:
            return file.read()
    except OSError as error:
        fail(f"cannot read {files[0] if files else 'standard input'}: {error.strerror}")


def write(text):
    try:
        print(text, flush=True)
    except OSError as error:
        os.dup2(os.open(os.devnull, os.O_WRONLY), 1)  # so that Python does not try again as it ends
        fail(f"it could not be written: {error.strerror}")
