#!/usr/bin/env python3
"""Spells this repository's own definitions and lemmas as today's Rattle does: words in snake case, types in camel case. It was run once, at
the top, right behind the kit's port.py, and is kept so that a reader can make the same tree from the commit before it.

usage: tools/port_names.py         over every crate

A name is the repository's own where a file of specs/, a file of lemmas in proofs/ or a ghost item of src/ declares it. Those of a
function's own proof (Proof.antt, Answers.antt, Invariants.antt), which Rattle makes, stay, and so do names that a library has too.
"""
import os
import re
import subprocess
import sys
import tempfile

NAME = r'[^\s(){}.;,@"«»]+'
WORDS = r"(?:(?:pub|abbrev|unfoldable|opaque|record|data|mutual|ghost) )*"
DECLARED = re.compile(r"(?m)^ *" + WORDS + "(" + NAME + r")(?: (?:\{[^{}\n]*\}|\([^()\n]*\)))* :(?!:)")
OPENED = re.compile(r"(?m)^ *(?:abbrev pub|abbrev|unfoldable pub|pub|pub record|pub data) (" + NAME + r")(?= |$)")
BINDERS = re.compile(r"[({]((?:[a-z][^\s(){}.;,@\"«»:]* )+): ")
USE = re.compile(r"\buse ([^\s;{]+)(?:\{([^}]*)\})?")
OF_A_FUNCTION = ("Proof.antt", "Answers.antt", "Invariants.antt")
# two names that would fall together with one that stands
APART = {"one-more": "one_more_than", "is-made": "was_made"}


def files():
    for folder, folders, names in os.walk("crates"):
        folders[:] = sorted(f for f in folders if f not in ("out", "refused", "must-fail") or "proofs" in folder)
        for name in sorted(names):
            if name.endswith((".antt", ".rt")):
                yield os.path.join(folder, name)


def read(path):
    with open(path, encoding="utf-8") as it:
        return it.read()


def in_snake_case(name):
    if name in APART:
        return APART[name]
    name = name.replace("getD", "get_or").replace("getElem?", "get_elem")
    if name[0].isupper():
        return "".join(word[0].upper() + word[1:] for word in name.split("-"))
    return re.sub(r"(?<=[a-z])[A-Z](?=[a-z])", lambda m: "_" + m[0].lower(), name).replace("-", "_")


def main():
    declared, of_libraries = set(), set()
    for path in files():
        text = re.sub(r"--.*|//.*", "", read(path))
        for at, items in USE.findall(text):
            steps = at.rstrip(".").split(".")
            if steps[0] == "Rattle" and os.path.isdir("crates/" + steps[1]) or path.endswith(".rt") and "::" in at:
                continue
            of_libraries.update(w for item in items.split(",") for w in item.split()) if items else of_libraries.add(steps[-1])
        if path.endswith(".antt") and os.path.basename(path) not in OF_A_FUNCTION:
            declared.update(DECLARED.findall(text))
            declared.update(OPENED.findall(text))
            declared.update(w for found in BINDERS.findall(text) for w in found.split())
        elif path.endswith(".rt"):
            declared.update(re.findall(r"\bghost (" + NAME + r"):", text))
    table = {n: in_snake_case(n) for n in declared if re.match("[A-Za-z]", n) and n not in of_libraries}
    table = {old: new for old, new in table.items() if old != new and "·" not in old}
    for old, new in table.items():
        if new in declared or list(table.values()).count(new) > 1:
            print("falls together: %s as %s" % (old, new))
    kit = os.path.dirname(subprocess.run(["rt", "doc"], capture_output=True, text=True, check=True).stdout.strip())
    script = os.path.join(kit, "port", "notes", "2026-11-18-names-are-in-snake-case", "snake.py")
    with tempfile.NamedTemporaryFile("w", suffix=".tsv") as rows:
        rows.writelines("%s\t%s\n" % row for row in sorted(table.items()))
        rows.flush()
        turn = [sys.executable, script, "--table", rows.name, "--only", "antt,rt"]
        made = [p for p in files() if os.path.basename(p) in OF_A_FUNCTION]
        subprocess.run(turn + sorted(set(files()) - set(made)), check=True)
        # in a function's own proof the first name behind these heads is Rattle's
        subprocess.run(turn + ["--skip-behind", "goal,c,w,l,g,tie"] + made, check=True)


if __name__ == "__main__":
    main()
