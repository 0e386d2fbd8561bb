# Writes the port as one Rust file: the promises and the ghost lines are left out, and each crate becomes a module.
# Usage: strip.py CRATES OUT [--library CRATE ..]
# For the slips, with main.rs behind it; and with --library, of the crates that are named, the last one with its exports, for comparisons that have a
# library compiled and not proved. Nothing here is part of the port, and what it writes proves nothing.
import os
import re
import sys

CRATES = sys.argv[4:] or ["math", "model", "geometry", "text"]


CLAUSE = re.compile(r"^[ \t]*(?:requires|ensures)\b[^{\n]*\{", re.M)
GHOST = re.compile(r"^[ \t]*ghost \w+ ?[:=] ?\{", re.M)


def braces_out(text, start):
    """Leaves out what begins as `start` says, with the braces that it opens, which may nest, and a comma or semicolon behind a ghost member."""
    out = []
    at = 0
    while True:
        m = start.search(text, at)
        if m is None:
            out.append(text[at:])
            return "".join(out)
        out.append(text[at:m.start()])
        depth = 1
        i = m.end()
        while depth > 0:
            if text[i] == "{":
                depth += 1
            elif text[i] == "}":
                depth -= 1
            i += 1
        if start is GHOST and text[i:i + 1] in (";", ","):
            i += 1
        if text[i:i + 1] == "\n":
            i += 1
        at = i


def rust_of(text, crate):
    text = re.sub(r"^[ \t]*ghost use [^;]*;[ \t]*\n", "", text, flags=re.M)
    text = braces_out(braces_out(text, CLAUSE), GHOST)
    text = re.sub(r"\bcrate::", "crate::" + crate + "::", text)
    text = re.sub(r"^([ \t]*)use (" + "|".join(CRATES) + r")::", r"\1use crate::\2::", text, flags=re.M)
    text = re.sub(r"(?<![\w:])(" + "|".join(CRATES) + r")::(?=\w+::)", r"crate::\1::", text)
    equal = set(re.findall(r"^#\[derive\([^)\n]*\bPartialEq\b.*\n(?:pub(?:\(crate\))? )?(?:struct|enum) (\w+)", text, flags=re.M))
    text = re.sub(r"^[ \t]*#!?\[(derive|tactic)\b.*\n", "", text, flags=re.M)

    def derived(m):
        return "#[derive(Clone, Copy%s)]\n%s" % (", PartialEq" if m[2] in equal else "", m[0])

    text = re.sub(r"^(pub(?:\(crate\))? )?(?:struct|enum) (\w+)", derived, text, flags=re.M)
    return text


def content(src, name, crate):
    with open(os.path.join(src, name), encoding="utf-8") as f:
        return rust_of(f.read(), crate)


def main():
    crates, out = sys.argv[1], sys.argv[2]
    parts = ["#![allow(warnings)]\n"]
    for crate in CRATES:
        src = os.path.join(crates, crate, "src")
        parts.append("pub mod " + crate + " {\n")
        parts.append(re.sub(r"^(pub )?mod \w+;\n", "", content(src, "lib.rt", crate), flags=re.M))
        for name in sorted(os.listdir(src)):
            if name != "lib.rt" and name.endswith(".rt"):
                parts.append("pub mod " + name[:-3] + " {\n" + content(src, name, crate) + "}\n")
        parts.append("}\n")
    if sys.argv[3:4] != ["--library"]:
        here = os.path.dirname(os.path.abspath(__file__))
        with open(os.path.join(here, "main.rs"), encoding="utf-8") as f:
            parts.append(f.read())
    with open(out, "w", encoding="utf-8") as f:
        f.write("".join(parts))


main()
