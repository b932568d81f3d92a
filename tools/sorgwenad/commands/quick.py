"""Builds a program with no proof, in half a minute, and runs it on standard input and output with the words behind it and its exit status.

    tools/run quick listing <papers/p1.book
    tools/run rust pages --program $(tools/run quick --path listing)

The program is kept as target/unproved/PROGRAM and built again when a source of it has changed. A line on standard error reports that it is
unproved: `rt run` in crates/PROGRAM proves it, and leaves the proved program as out/PROGRAM there.
"""
import argparse
import os
import shutil
import sys

from sorgwenad.shared import tree, unproved
from sorgwenad.shared.command import parser
from sorgwenad.shared.sources import copy_of_the_sources, programs, stamp

KEPT = os.path.join(tree.ROOT, "target", "unproved")


def built(name):
    """The path of the program, built where it is not there or its sources have changed."""
    path, kept_stamp, now = os.path.join(KEPT, name), os.path.join(KEPT, name + ".stamp"), stamp(name)
    if os.access(path, os.X_OK) and os.path.exists(kept_stamp) and tree.read(kept_stamp) == now:
        return path
    os.makedirs(KEPT, exist_ok=True)
    with tree.folder() as folder:
        copy_of_the_sources(folder)
        program, text = unproved.build(name, folder, folder)
        if not program:
            tree.stop("%s can't be built:\n%s" % (name, text[-3000:]))
        # another run may be using the one that is there
        shutil.copy(program, path + ".new")
    os.replace(path + ".new", path)
    tree.write(kept_stamp, now)
    return path


def main(words):
    p = parser(__doc__)
    p.add_argument("--path", action="store_true", help="print where the program is and do not run it")
    p.add_argument("program", metavar="PROGRAM", help=", ".join(programs()))
    p.add_argument("words", nargs=argparse.REMAINDER, metavar="WORD", help="for the program; a first -- is left out")
    a = p.parse_args(words)
    if a.program not in programs():
        print("tools/run quick: no program %s; there are %s" % (a.program, ", ".join(programs())), file=sys.stderr)
        return 2
    path = built(a.program)
    if a.path:
        print(path)
        return True
    print("quick: %s is built with no proof: a wrong result is not ruled out; rt run in crates/%s proves it" % (
        a.program, a.program), file=sys.stderr, flush=True)
    os.execv(path, [path] + a.words[a.words[:1] == ["--"]:])
