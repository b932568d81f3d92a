"""The crates of the repository, and what each is built on."""
import os

from sorgwenad.shared import tree


def listed(folder=tree.ROOT):
    """The crates of crates.txt in its order, which is that of proving, each with what it is built on."""
    deps = {}
    for line in tree.read(os.path.join(folder, "crates.txt")).split("\n"):
        name, colon, rest = line.split("#")[0].partition(":")
        if colon:
            deps[name.strip()] = rest.split()
    return deps


def below(crates, deps=None):
    """The crates of the tree that these are built on; `deps`: of another list."""
    deps, seen, todo = deps or listed(), set(), list(crates)
    while todo:
        for d in deps.get(todo.pop(), []):
            if d in deps and d not in seen:
                seen.add(d)
                todo.append(d)
    return sorted(seen)
