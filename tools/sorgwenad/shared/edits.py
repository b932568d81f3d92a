"""Edits of the tree's crates as files, in the form that `rt must-fail` reads, with one word more (`crate:`).

    crate: definitions          the crate, where it is not the one that the edit stands in
    file: src/faults.rt         a file of the crate, under src/, specs/ or proofs/
    old:     if flags > 1 {     a text that stands in it once
    new:     if flags > 3 {     what takes its place; more pairs, and more files, may follow

A line that begins with none of these words is a remark.
"""
import os

from sorgwenad.shared import tree


class Bad(Exception):
    """An edit that can't be put in."""


def pairs(path, crate):
    """The replacements, in order: crate, file, old, new."""
    name, old, out = None, None, []
    for line in tree.read(path).split("\n"):
        head, _, text = line.partition(":")
        text = text[1:] if text.startswith(" ") else text
        if head == "crate":
            crate = text
        elif head == "file":
            name = text
        elif head == "old":
            old = text
        elif head == "new":
            if not crate or not name or not old or ".." in name.split("/") or name.split("/")[0] not in ("src", "specs", "proofs"):
                raise Bad("a `new:` without a crate, a file under src/, specs/ or proofs/, or an `old:`")
            out.append((crate, name, old, text))
            old = None
    if not out:
        raise Bad("no `old:` and `new:` pair")
    return out


def changes_code(path, crate):
    """Whether an edit changes code; one that can't be read is taken for one that does, so that it is tried and shown to be bad."""
    try:
        return any(name.startswith("src/") for _, name, _, _ in pairs(path, crate))
    except Bad:
        return True


def changing_code(crates):
    """The edits of these crates that must be refused and change code: their files by CRATE/NAME."""
    found = {}
    for crate in crates:
        folder = os.path.join(tree.ROOT, "crates", crate, "refused")
        for file in sorted(os.listdir(folder)) if os.path.isdir(folder) else []:
            path = os.path.join(folder, file)
            if file.endswith(".edit") and changes_code(path, crate):
                found["%s/%s" % (crate, file[:-5])] = path
    return found


def apply(path, crate, crates):
    """Puts the edit into the crates below that folder, and gives the files as they were, for `undo`."""
    before = {}
    try:
        for at, name, old, new in pairs(path, crate):
            file = os.path.join(crates, at, name)
            if not os.path.isfile(file):
                raise Bad("no file %s of the crate %s" % (name, at))
            text = tree.read(file)
            before.setdefault(file, text)
            if text.count(old) != 1:
                raise Bad("the text stands %d times in %s: %s" % (text.count(old), name, old))
            tree.write(file, text.replace(old, new))
        if all(tree.read(file) == text for file, text in before.items()):
            raise Bad("it changes nothing")
    except Bad:
        undo(before)
        raise
    return before


def apply_to_sources(path, crate, crates):
    """Puts what the edit changes in the sources into the crates below that folder, which have their sources alone."""
    for at, name, old, new in pairs(path, crate):
        if name.startswith("src/"):
            file = os.path.join(crates, at, name)
            text = tree.read(file)
            if text.count(old) != 1:
                raise Bad("the text stands %d times in %s: %s" % (text.count(old), name, old))
            tree.write(file, text.replace(old, new))


def undo(before):
    for file, text in before.items():
        tree.write(file, text)
