"""Plants faults in the code and expects `tools/run rust calls` to find them.

The proof refuses each of these faults (`tools/run edits` shows that); this shows that the comparison with the Rust would find them too, had
the proof let them through. A fault is an edit of crates/control, search or forest, from its folder refused/, that changes the code. For
each, in a copy of the crates outside the tree, `replay` is built with no proof, and `tools/run rust calls` compares it with the oracle.
It has to end with a difference, which is shown. Without a fault, built the same way, there has to be none; that is tried first.
Without --only: the three of cases/faults_code.py. Prints a line a fault; status 0 only if all is as expected.
"""
import os
import re
import subprocess
import time

from sorgwenad.shared import edits, tree, unproved
from sorgwenad.shared.command import parser, processors, with_jobs, with_oracle
from sorgwenad.shared.oracle import find_oracle
from sorgwenad.shared.tables import rows

CRATES = ("control", "search", "forest")


def run_beside(program, a):
    """The status of `rust calls`, and what it printed."""
    words = [tree.RUN, "rust", "calls", "--program", program, "--oracle", find_oracle(a.oracle), "--quiet"]
    words += ["--calls", str(a.calls), "--jobs", str(a.jobs), "--seconds", "60"]
    run = subprocess.run(words, capture_output=True, text=True)
    return run.returncode, run.stdout + run.stderr


def first_difference(text):
    """The seed and profile, and of the two lines that differ what stands around the first difference."""
    where = re.search(r"^DIFFERS: oracle gen (\d+) \d+ (\w+): (.*)$", text, re.M)
    if not where:
        return ""
    shown = "seed %s, profile %s, %s" % where.groups()
    lines = re.search(r"^the Rust: (.*)\nreplay:   (.*)$", text, re.M)
    if not lines:
        return shown
    at = max(0, len(os.path.commonprefix(lines.groups())) - 50)
    rust, ours = (line[at:at + 120] for line in lines.groups())
    return "%s\n    the Rust: ..%s\n    replay:   ..%s" % (shown, rust, ours)


def tried(name, path, folder, a):
    """What is not as expected, if anything, and what is to be printed."""
    room = os.path.join(folder, name.replace("/", "-"))
    tree.copy_of_the_crates(room)
    try:
        if path:
            edits.apply(path, name.split("/")[0], os.path.join(room, "crates"))
    except edits.Bad as bad:
        return "BAD EDIT: %s" % bad, ""
    program, text = unproved.build("replay", room, room)
    if not program:
        return "it can't be built:\n" + text[-2000:], ""
    status, text = run_beside(program, a)
    tree.write(os.path.join(room, "log"), text)
    difference = first_difference(text)
    if not path:
        return ("a difference without a fault:\n" + text[-3000:] if status != 0 else ""), "no difference"
    if status == 0 or not difference:
        return "NOT FOUND: " + text[-300:], ""
    return "", "found: " + difference


def parsed(words):
    p = with_oracle(with_jobs(parser(__doc__), processors()))
    p.add_argument("--only", nargs="+", metavar="CRATE/NAME", help="these faults alone")
    p.add_argument("--all", action="store_true", help="every edit of the three crates that changes code")
    p.add_argument("--list", action="store_true", help="print the faults that there are")
    p.add_argument("--calls", type=int, default=50000, help="how many calls are compared, unless a difference comes before (50000)")
    p.add_argument("--keep", metavar="DIR", help="work in this folder and leave it there")
    return p.parse_args(words)


def main(words):
    a, known = parsed(words), edits.changing_code(CRATES)
    if a.list:
        print("\n".join(known))
        return True
    chosen = a.only or (list(known) if a.all else rows("CODE_FAULTS"))
    unknown = [n for n in chosen if n not in known]
    if unknown:
        tree.stop("no fault %s; --list has the names" % ", ".join(unknown))
    wrongs = 0
    with tree.folder(a.keep) as folder:
        for name, path in [("no fault", None)] + [(n, known[n]) for n in chosen]:
            began = time.time()
            wrong, result = tried(name, path, folder, a)
            wrongs += bool(wrong)
            print("%s: %s (%d s)" % (name, wrong or result, time.time() - began), flush=True)
            if wrong and not path:
                break
    print("faults code: %d faults, %d not as expected" % (len(chosen), wrongs))
    return not wrongs
