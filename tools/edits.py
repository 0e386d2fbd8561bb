#!/usr/bin/env python3
"""Says whether each edit of crates/X/must-fail still fits the text: each old text stands once in its file, once those before it are made, and
what refuses it (refused-by) is there: a function of the crate, or a law or a case of any crate's proofs.

usage: python3 tools/edits.py
The last line is 'N texts, M wrong'. Exit status: 0 none is wrong; 1 one is.
"""
import glob
import os
import re
import sys

ROOT = os.path.dirname(os.path.dirname(os.path.abspath(__file__)))


def read(path):
    with open(path, encoding="utf-8") as file:
        return file.read()


def sections(path):
    """The edits of a file: name, what refuses each, and the triples of file, old and new text."""
    found = []
    for line in read(path).split("\n"):
        key, _, rest = line.partition(": ")
        if key == "edit":
            found.append((rest, [], []))
        elif key == "refused-by":
            found[-1][1].extend(rest.split())
        elif key == "file":
            file = rest.strip()
        elif key == "old":
            old = rest
        elif line.startswith("new:"):
            found[-1][2].append((file, old, line[4:].removeprefix(" ")))
    return found


def main():
    laws = "\n".join(read(p) for p in glob.glob(f"{ROOT}/crates/*/proofs/**/*.antt", recursive=True))
    count = wrong = 0
    for path in sorted(glob.glob(f"{ROOT}/crates/*/must-fail/*.edit")):
        crate, texts = os.path.dirname(os.path.dirname(path)), {}
        code = "\n".join(read(p) for p in glob.glob(f"{crate}/src/*.rt"))
        for edit, by, pairs in sections(path):
            said = []
            for file, old, new in pairs:
                count += 1
                text = texts.get(file) or read(f"{crate}/{file}")
                if text.count(old) != 1:
                    said.append(f"{file} has it {text.count(old)} times: {old}")
                texts[file] = text.replace(old, new)
            for name in by:
                last = re.escape(name.split("/")[-1])
                is_law = pairs and pairs[0][0].startswith("specs/")
                if not re.search(rf"^ *(?:(?:abbrev|unfoldable|pub) )*{last} :" if is_law else rf"\bfn {last}\b", laws if is_law else code, re.M):
                    said.append(f"refused-by names {name}, which is not there")
            wrong += len(said)
            for it in said:
                print(f"{os.path.relpath(path, ROOT)}: {edit}: {it}")
    print(f"{count} texts, {wrong} wrong")
    return 1 if wrong else 0


if __name__ == "__main__":
    sys.exit(main())
