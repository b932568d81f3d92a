"""The sources of programs, for builds with no proof."""
import hashlib
import os
import shutil

from sorgwenad.shared import tree
from sorgwenad.shared.crates import below
from sorgwenad.shared.proofs import kit

CRATES = os.path.join(tree.ROOT, "crates")


def programs():
    """The crates that are programs."""
    return sorted(name for name in os.listdir(CRATES) if os.path.isfile(os.path.join(CRATES, name, "src", "main.rt")))


def sources(name):
    """The source files of a program and of the crates that it is built on."""
    found = [os.path.join(tree.ROOT, "crates.txt")]
    for crate in [name] + below([name]):
        for folder, _, files in sorted(os.walk(os.path.join(CRATES, crate, "src"))):
            found += [os.path.join(folder, file) for file in sorted(files)]
    return found


def stamp(name):
    """What a build depends on: the sources, and the toolchain."""
    sum_of_it = hashlib.sha256(tree.read_bytes(kit(), "KIT-ID"))
    for path in sources(name):
        sum_of_it.update(path.encode() + b"\0" + tree.read_bytes(path) + b"\0")
    return sum_of_it.hexdigest()


def copy_of_the_sources(folder):
    """The crates without what is beside their sources: a program that is not proved needs no more."""
    for crate in os.listdir(CRATES):
        if os.path.isdir(os.path.join(CRATES, crate, "src")):
            shutil.copytree(os.path.join(CRATES, crate, "src"), os.path.join(folder, "crates", crate, "src"))
    shutil.copy(os.path.join(tree.ROOT, "crates.txt"), folder)
