"""Checks of a crate by the prover, in a copy of the tree: `rt check` works on the crate in whose folder it is called, and proves first what
that crate is built on. It keeps what it checked in the crate's folder out/, and begins a copy's first check with what another copy kept.

What a check came to is kept on this machine too, in the folder sorgwenad of the user's cache, by the sum of all that it reads: the kit, and
the files of the crate and of those below it in that copy. The same check is then not made again; with SORGWENAD_ANEW=1 each is.
"""
import contextlib
import hashlib
import json
import os
import shutil
import subprocess
import tempfile

from sorgwenad.shared import tree
from sorgwenad.shared.crates import below, listed

KEPT = os.path.join(os.environ.get("XDG_CACHE_HOME") or os.path.expanduser("~/.cache"), "sorgwenad")


def kit():
    """The folder of the kit that `rt` is of."""
    rt = shutil.which("rt")
    if not rt:
        tree.stop("no `rt` here: the Rattle kit is not installed")
    return os.path.dirname(os.path.dirname(os.path.realpath(rt)))


def crate_in(folder, crate):
    """The folder of a crate in a copy of the tree."""
    return os.path.join(folder, "crates", crate)


def sum_of(folder, crate):
    """A sum of all that a check of the crate reads in that copy."""
    deps = listed(folder)
    read = hashlib.sha256(tree.read_bytes(kit(), "KIT-ID"))
    for name in sorted([crate] + below([crate], deps)):
        read.update(repr((name, deps[name], name == crate)).encode())
        for part in ("src", "specs", "proofs"):
            for at, folders, files in os.walk(os.path.join(crate_in(folder, name), part)):
                folders.sort()
                for file in sorted(files):
                    path = os.path.join(at, file)
                    read.update(repr((os.path.relpath(path, folder), tree.read_bytes(path))).encode())
    return read.hexdigest()


def kept(key):
    """The status and the text of a check that was made before; None where there is none."""
    try:
        found = json.loads(tree.read(os.path.join(KEPT, key)))
        return (found["status"], found["text"]) if found["key"] == key and not os.environ.get("SORGWENAD_ANEW") else None
    except (OSError, ValueError, KeyError, TypeError):
        return None


def keep(key, status, text):
    with contextlib.suppress(OSError):
        os.makedirs(KEPT, exist_ok=True)
        with tempfile.NamedTemporaryFile("w", dir=KEPT, delete=False, encoding="utf-8") as made:
            json.dump({"key": key, "status": status, "text": text}, made)
        os.replace(made.name, os.path.join(KEPT, key))


def check(folder, crate, words=()):
    """The status of `rt check` of a crate, and all that it printed."""
    key = sum_of(folder, crate)
    found = kept(key)
    if found:
        return found
    run = subprocess.run(["rt", "check", *words], cwd=crate_in(folder, crate), capture_output=True, text=True)
    text = run.stdout + run.stderr
    # a verdict: neither stopped, nor ended by a limit
    if run.returncode in (0, 1) and "\nlogic=" in text and sum_of(folder, crate) == key:
        keep(key, run.returncode, text)
    return run.returncode, text
