"""Plants faults in the Rust that make a wrong yes (cases/faults_rust.py), and expects `tools/run peers derived` to find them.

Each fault is a change of a line or two in a copy of the oracle, which is built and takes the place of the listing. `tools/run peers
derived` has to show a line that is not derived. The first run is one without a fault, which must show none. A line a fault; status 0 only
if all are found.
"""
import os
import re
import shutil
import subprocess

from sorgwenad.shared import tree
from sorgwenad.shared.command import parser
from sorgwenad.shared.tables import rows

FAULTS = dict(rows("RUST_FAULTS"))


def copied(folder):
    """A copy of the oracle's sources."""
    own = os.path.join(tree.ROOT, "oracle")
    for name in ("Cargo.toml", "Cargo.lock"):
        shutil.copy(os.path.join(own, name), folder)
    for name in ("src", "engine", "standins"):
        shutil.copytree(os.path.join(own, name), os.path.join(folder, name), dirs_exist_ok=True)


def built(folder):
    run = subprocess.run(["cargo", "build", "--profile", "faults", "--offline", "--quiet"], cwd=folder, capture_output=True, text=True,
                         env=dict(os.environ, CARGO_TARGET_DIR=os.path.join(folder, "target")))
    if run.returncode != 0:
        tree.stop("it can't be built:\n" + run.stderr[-3000:])
    return os.path.join(folder, "target", "faults", "oracle")


def planted(folder, changes):
    """The changes in the copy; what has to be written back."""
    before = {}
    for path, old, new in changes:
        place = os.path.join(folder, path)
        text = tree.read(place)
        if text.count(old) != 1:
            tree.stop("%d times in %s: %s" % (text.count(old), path, old))
        before.setdefault(place, text)
        tree.write(place, text.replace(old, new))
    return before


def run_derived(a, oracle):
    words = [tree.RUN, "peers", "derived", "--rust", "--installed", "--oracle", oracle]
    run = subprocess.run(words + ["--books", str(a.books), "--calls", str(a.calls)], capture_output=True, text=True)
    return run.returncode, run.stdout + run.stderr


def tried(a, folder, name):
    """Whether a fault is found, and by what line."""
    what, *changes = FAULTS[name]
    before = planted(folder, changes)
    status, text = run_derived(a, built(folder))
    for place, own in before.items():
        tree.write(place, own)
    line = re.search(r"^NOT DERIVED: .*$", text, re.M)
    seen = status != 0 and line is not None
    last = text.splitlines()[-1]
    print("%s %s (%s): %s" % ("found" if seen else "MISSED", name, what, "%s; %s" % (line.group(0), last) if seen else text[-1500:]))
    return seen


def main(words):
    p = parser(__doc__)
    p.add_argument("--only", nargs="+", choices=list(FAULTS), default=list(FAULTS), metavar="NAME", help=", ".join(FAULTS))
    p.add_argument("--books", type=int, default=250, help="for `peers derived` (250)")
    p.add_argument("--calls", type=int, default=10, help="for `peers derived` (10)")
    p.add_argument("--keep", metavar="DIR", help="a folder for the copy, which stays")
    a = p.parse_args(words)
    with tree.folder(a.keep) as folder:
        copied(folder)
        status, text = run_derived(a, built(folder))
        if status != 0:
            tree.stop("something is found without a fault:\n" + text[-3000:])
        print("no fault: " + text.splitlines()[-1])
        missed = [name for name in a.only if not tried(a, folder, name)]
    print("%d faults found, %d missed" % (len(a.only) - len(missed), len(missed)))
    return not missed
