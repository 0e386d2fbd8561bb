"""The wrong programs that the proofs refuse (crates/X/must-fail/programs_N.edit), to be made and run.

Usage: python3 oracle/programs.py FOLDER CRATE/NAME: makes this one in FOLDER/crates, a copy of the crates.
Exit status: 0; 2 there is no such program, or its lines do not stand in the copy.
"""
import glob
import os
import sys

ROOT = os.path.dirname(os.path.dirname(os.path.abspath(__file__)))


def programs(crates):
    """Those of the crates by name, CRATE/NAME: what each makes wrong, and its edits, of a file the old and the new lines."""
    found = {}
    for crate in crates:
        for name in sorted(glob.glob(os.path.join(ROOT, "crates", crate, "must-fail", "programs_*.edit"))):
            with open(name, encoding="utf-8") as f:
                for line in f.read().split("\n"):
                    key, _, rest = line.partition(": ")
                    if key == "edit":
                        program = found[crate + "/" + rest] = {"name": crate + "/" + rest, "what": "", "edits": []}
                    elif line.startswith("# ") and found:
                        program["what"] = program["what"] or line[2:]
                    elif key == "file":
                        file = "crates/%s/%s" % (crate, rest)
                    elif key == "old":
                        program["edits"].append({"file": file, "old": [rest], "new": []})
                    elif key == "new":
                        program["edits"][-1]["new"].append(rest)
    return found


def edited(program, folder=ROOT):
    """The program's files as they stand below the folder, with its edits made: name and text of each. A ValueError says what stands in the way."""
    texts = {}
    for edit in program["edits"]:
        name = edit["file"]
        if name not in texts:
            with open(os.path.join(folder, name), encoding="utf-8") as f:
                texts[name] = f.read()
        old, new = "\n".join(edit["old"]), "\n".join(edit["new"])
        if texts[name].count(old) != 1:
            raise ValueError("%s: its old text occurs %d times in %s" % (program["name"], texts[name].count(old), name))
        texts[name] = texts[name].replace(old, new)
    return texts.items()


def main():
    folder, name = sys.argv[1:]
    known = programs([name.split("/")[0]])
    try:
        if name not in known:
            raise ValueError("there is no such wrong program: " + name)
        for file, text in edited(known[name], folder):
            with open(os.path.join(folder, file), "w", encoding="utf-8") as f:
                f.write(text)
    except ValueError as wrong:
        print(wrong, file=sys.stderr)
        sys.exit(2)
    print("%s: %s" % (name, known[name]["what"]))


if __name__ == "__main__":
    main()
