#!/usr/bin/env python3
"""Brings the names of this repository's own definitions and lemmas to the spelling of today's Rattle. It was run once, behind port.py, at the top of the repository.

usage: python3 tools/spelling.py [--say]       --say: writes nothing, prints old and new names

Words are in snake case (isHex becomes is_hex). A dash stays where it joins two names (length-put: both are functions), and else it is an underscore (first-is becomes
first_is); at a capital, as in right-C14 or Nn-dec, it stays. getD is get_or. A lemma that would have the name of a definition gets _lem. Types, modules, constructors of
enums, names that are local to a proof, and everything of src/ keep their names.
"""
import glob
import os
import re
import subprocess
import sys

DECLARED = re.compile(r"^( *)(?:(?:abbrev|unfoldable|pub|instance)\s+)*(?:(record|data|mod|module|use|import)\s+)?([^\s(){}:;,.]+)((?:\s*(?:\([^)]*\)|\{[^}]*\}))*)\s+:(?= |$)", re.M)
TOKEN = re.compile(r"[^\s(){}\[\];,.\"`|<>=:/\\#&!?$%]+")
KIT = os.path.dirname(subprocess.run(["rt", "doc"], capture_output=True, text=True, check=True).stdout.split()[0])


def read(path):
    with open(path, encoding="utf-8") as file:
        return file.read()


def antt():
    return sorted(p for kind in ("specs", "proofs") for p in glob.glob(f"crates/*/{kind}/**/*.antt", recursive=True))


def of_function(path):
    return os.path.basename(path) in ("Proof.antt", "Invariants.antt", "Answers.antt")


def declared(path):
    """What a file declares at its own level: definitions, lemmas, fields and members of its modules, and not what stands behind a `where`."""
    found = set()
    hidden = None
    for line in read(path).split("\n"):
        indent = len(line) - len(line.lstrip(" "))
        if not line.strip():
            continue
        if hidden is not None and indent > hidden:
            continue
        hidden = None
        if re.match(r" *where\b", line) or (re.search(r"\bwhere$", line) and not re.match(r" *(?:pub )?(record|data|module)\b", line)):
            hidden = indent - 1 if re.match(r" *where\b", line) else indent
            continue
        m = DECLARED.match(line)
        if m and m.group(2) not in ("mod", "module", "use", "import") and not line.lstrip().startswith("--"):
            found.add(m.group(3))
    return found


def kit_words():
    words = set()
    for root in ("logic", "antt", "core/specs", "std/specs", "std_alloc/specs"):
        for p in glob.glob(f"{KIT}/rattle/{root}/**/*.antt", recursive=True):
            for m in re.finditer(r"^ *(?:(?:abbrev|unfoldable|pub)\s+)+([a-z][a-z0-9_]*)\s+:", read(p), re.M):
                words.add(m.group(1))
    return words


def snake(chunk):
    chunk = chunk.replace("getD", "get_or").replace("get_d", "get_or")
    if chunk[:1].isupper() or not re.search(r"[a-z]", chunk):
        return chunk
    chunk = re.sub(r"([A-Z]+)", lambda m: "_" + m.group(1).lower(), chunk)
    return re.sub(r"__+", "_", chunk)


def renamed():
    specs = set().union(*(declared(p) for p in antt() if "/specs/" in p))
    lemmas = set().union(*(declared(p) for p in antt() if "/proofs/" in p and not of_function(p)))
    goals = set().union(*(declared(p) for p in antt() if of_function(p)))
    source = set(re.findall(r"\bfn (\w+)", "\n".join(read(p) for p in glob.glob("crates/*/src/**/*.rt", recursive=True))))
    words = {snake(n) for n in specs if "-" not in n and n[:1].islower()} | {n for n in source | kit_words() if len(n) > 1}
    for plain in ("is", "of", "at", "by", "in", "to", "le", "lt", "ge", "long", "same", "fine", "one", "two", "zero", "left", "right", "none", "some", "low", "high", "first", "second", "last", "number", "numbers", "holds", "known", "kept", "done", "back", "there", "here", "inside", "begin", "end", "turn", "own", "all"):
        words.discard(plain)
    new = {}
    for name in sorted(specs | lemmas):
        if name in goals and name not in specs:
            continue
        if name.startswith("◌") or name.endswith("◌"):
            continue
        chunks = [snake(c) for c in name.split("-")] if name.strip("-") else [name]
        made = chunks[0]
        for before, after in zip(chunks, chunks[1:]):
            joins = (before in words and after in words and name not in specs) or before[:1].isupper() or after[:1].isupper() or not before or not after
            made += ("-" if joins else "_") + after
        made = made.replace("′", "'")
        if made != name:
            new[name] = made
    return specs, lemmas, new


def settled():
    """Old and new names; and the lemmas that had a definition's new name already, which stand aside in the files that speak of them."""
    specs, lemmas, new = renamed()
    aside = {}
    taken = {n for n in specs if n not in new}
    for name in sorted(n for n in new if n in specs):
        assert new[name] not in taken, name
        taken.add(new[name])
    for name in sorted(n for n in lemmas if n not in specs and n not in new):
        if name in taken:
            aside[name] = name + "_lem"
        taken.add(aside.get(name, name))
    for name in sorted(n for n in new if n not in specs):
        while new[name] in taken:
            new[name] += "_lem"
        taken.add(new[name])
    return specs, lemmas, new, aside


def stand_aside(aside):
    for name, made in aside.items():
        homes = [p for p in antt() if "/proofs/" in p and not of_function(p) and re.search(rf"^(pub )?{name} :", read(p), re.M)]
        for home in homes:
            module = home.split("/proofs/")[1][:-5].replace("/", ".")
            importing = re.compile(rf"^(pub )?use Rattle\.{home.split('/')[1]}\.proofs\.{re.escape(module)}\.\{{[^}}]*\b{name}\b", re.M)
            for path in antt():
                text = read(path)
                if path == home or importing.search(text):
                    with open(path, "w", encoding="utf-8") as file:
                        file.write(re.sub(rf"(?<![\w.'-]){name}(?![\w'-])", made, text))


def texts():
    yield from antt()
    for pattern in ("crates/*/must-fail/**/*.edit", "crates/*/src/**/*.rt"):
        yield from sorted(glob.glob(pattern, recursive=True))
    for pattern in ("*.md", "docs/*.md", "bench/*.md", "oracle/**/*.md"):
        yield from sorted(p for p in glob.glob(pattern, recursive=True) if os.path.basename(p) != "PORT.md")


def turned(path, text, new):
    def word(m):
        return new.get(m.group(0), m.group(0))
    if path.endswith(".antt"):
        return TOKEN.sub(word, text)
    if path.endswith(".edit"):
        return TOKEN.sub(word, text)
    camel = {k: v for k, v in new.items() if re.search(r"[a-z][A-Z]|-", k)}
    if path.endswith(".md"):
        return re.sub(r"`[^`\n]*`", lambda q: TOKEN.sub(lambda m: camel.get(m.group(0), m.group(0)), q.group(0)), text)
    # In the code: ghost imports, clauses and ghost fields.
    out, inside, depth = [], False, 0
    for line in text.split("\n"):
        if not inside and re.match(r"\s*(ghost use|requires|ensures|ghost)\b", line):
            inside, depth = True, 0
        if inside:
            depth += line.count("{") - line.count("}")
            line = TOKEN.sub(word, line)
            inside = depth > 0
        elif re.match(r"\s*//", line):
            line = TOKEN.sub(lambda m: camel.get(m.group(0), m.group(0)), line)
        out.append(line)
    return "\n".join(out)


def main():
    specs, lemmas, new, aside = settled()
    if "--say" in sys.argv:
        for name in sorted(new):
            print(("word " if name in specs else "lemma"), name, new[name])
        for name in sorted(aside):
            print("aside", name, aside[name])
        return
    stand_aside(aside)
    for path in list(texts()):
        text = read(path)
        made = turned(path, text, new)
        if made != text:
            with open(path, "w", encoding="utf-8") as file:
                file.write(made)


if __name__ == "__main__":
    main()
