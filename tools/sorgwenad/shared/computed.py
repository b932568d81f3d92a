"""The definitions computed by the checker: equations in modules of their own, in a copy of their crates outside the tree."""
import os
import re
import shutil

from sorgwenad.shared import proofs, tree
from sorgwenad.shared.command import with_oracle, with_random

# Where a module that is put into the copy finds the solver's definitions (`%(d)s`), those of papers and the other modules (`%(p)s`), and
# modules that are put beside the proofs (`%(q)s`).
HOMES = {"d": "Rattle.definitions.specs", "p": "Rattle.papers.specs", "q": "Rattle.papers.proofs"}
# Modules that have computed cases, and nothing that another one needs.
THEOREMS = r"(?:\w*Cases|Instances)"
# How an equation's error says that it is more than the checker computes.
LIMIT = r"(?:stopped at the step limit|outgrew the memory limit|antt ran out of)"


def cons(items):
    return "".join(i + " ∷ " for i in items) + "[]"


def module(folder, name):
    """The file of a module that is put in."""
    return os.path.join(folder, "crates", "papers", "specs", name + ".antt")


def check(folder, header, parts):
    """Checks the modules Part1, Part2, ..; gives the equations refused, those that are more than it computes, and the checker's text."""
    root = module(folder, "Lib")
    for f in os.listdir(os.path.dirname(root)):
        if f.startswith("Part"):
            os.remove(os.path.join(os.path.dirname(root), f))
    names = []
    for k, text in enumerate(parts, 1):
        names.append("Part%d" % k)
        tree.write(module(folder, "Part%d" % k), header + "\n" + text)
    text = re.sub(r"pub mod %s\n" % THEOREMS, "", tree.read(root))
    shown = ["Shown"] * os.path.exists(module(folder, "Shown"))
    mods = "".join("pub mod %s\n" % n for n in shown + names)
    tree.write(root, re.sub(r"(pub mod Listing\n)(pub mod (Shown|Part\d+)\n)*", r"\1" + mods, text))
    status, text = proofs.check(folder, "papers")
    bad = re.findall(r"Part\d+\.antt:\d+:\d+: error: `(\w+)`(?!.*%s)" % LIMIT, text)
    beyond = re.findall(r"Part\d+\.antt:\d+:\d+: error: `(\w+)`.*%s" % LIMIT, text)
    others = [e for e in re.findall(r"^\S+:\d+:\d+: error: .*", text, re.M) if not re.search(r"/Part\d+\.antt:", e)]
    if status != 0 and (others or not bad + beyond):
        tree.stop("the check failed with status %d:\n" % status + ("\n".join(others) or text)[-4000:])
    return bad, beyond, text


def copy_of_the_definitions(folder):
    """The sizes, and the solver's definitions and those of papers, without proofs and cases."""
    for name in ("sizes", "definitions", "papers"):
        crate = os.path.join(folder, "crates", name)
        for part in ("src", "specs"):
            shutil.copytree(os.path.join(tree.ROOT, "crates", name, part), os.path.join(crate, part), dirs_exist_ok=True)
        specs = os.path.join(crate, "specs")
        for theorems in os.listdir(specs):
            if re.fullmatch(THEOREMS + r"\.antt", theorems):
                os.remove(os.path.join(specs, theorems))
    tree.write(os.path.join(folder, "crates.txt"), "sizes:\ndefinitions: sizes\npapers: sizes definitions\n")


def with_words(p, count, what):
    """The words that the commands of the group `definitions` have in common."""
    with_oracle(with_random(p, count, what))
    p.add_argument("--part", type=int, default=100, help="equations to a module (100)")
    p.add_argument("--keep", metavar="DIR", help="write the modules into this folder and leave them there")
    return p


def in_parts(equations, part):
    """The texts of modules with so many equations each."""
    return ["\n".join(equations[at:at + part]) for at in range(0, len(equations), part)]


def all_computed(a, header, equations, shown=None):
    """Has the checker compute equations, by their names. Returns the names of those that hold, of those that do not, of those that are
    more than it computes, and its text. `shown`: a module that the equations use."""
    with tree.folder(a.keep) as folder:
        copy_of_the_definitions(folder)
        if shown:
            tree.write(module(folder, "Shown"), shown)
        bad, beyond, text = check(folder, header, in_parts(list(equations.values()), a.part))
    return [name for name in equations if name not in bad + beyond], bad, beyond, text


def more_than_it_computes(beyond):
    return "; %d are more than the checker computes" % len(beyond) if beyond else ""
