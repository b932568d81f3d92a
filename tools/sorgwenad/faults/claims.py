"""The claims that planted faults of the definitions break: demand 3, and order 2 with its check. Each with its copy of the crates."""
import os
import re
import shutil

from sorgwenad.faults import demand3, demand3_modules, order2, order2_modules
from sorgwenad.shared import tree
from sorgwenad.shared.computed import HOMES, THEOREMS
from sorgwenad.shared.crates import below, listed
from sorgwenad.shared.tables import rows


def module_file(folder, crate, module, part="proofs"):
    return os.path.join(folder, "crates", crate, part, module + ".antt")


def leave_out(folder, crate, wanted, part="proofs"):
    """Leaves out the modules of the crate that are not wanted, with what is below them."""
    root = module_file(folder, crate, "Lib", part)
    here = os.path.dirname(root)
    for f in os.listdir(here):
        module, path = f.split(".")[0], os.path.join(here, f)
        if module != "Lib" and not wanted(module):
            shutil.rmtree(path) if os.path.isdir(path) else os.remove(path)
    tree.write(root, re.sub(r"pub mod (\w+)\n", lambda m: m.group(0) if wanted(m.group(1)) else "", tree.read(root)))


def add(folder, crate, module, text):
    """Adds the module as the last one of the crate."""
    tree.write(module_file(folder, crate, module), text)
    root = module_file(folder, crate, "Lib")
    lines = tree.read(root).split("\n")
    last = max(i for i, l in enumerate(lines) if l.startswith("pub mod "))
    tree.write(root, "\n".join(lines[:last + 1] + ["pub mod " + module] + lines[last + 1:]))


# how replies are shown
WORDS = [
    (r"\(found \(record { variant = (\d+); ambiguous = false }\)\)", r"yes \1"),
    (r"\(found \(record { variant = (\d+); ambiguous = true }\)\)", r"maybe \1"),
    (re.escape(demand3.AGAIN), "QuantumExceeded"),
    (re.escape(demand3.NONE), "\"no more solutions\""),
    (re.escape(order2.FLOUNDERED), "floundered"),
    (r"\(stopped (\d+)\)", r"stop \1"),
    (r"^searched (.*) \d+$", r"\1"),
]


def shown(call, reply):
    for term, words in WORDS:
        reply = re.sub(term, words, reply)
    return "%s: %s" % (call, re.sub(r"^table \(go (\d+)\)$", r"table \1", reply))


CLAIMED = """-- the claim
use %(p)s.%(stated_in)s.{%(statement)s}
use %(home)s.{%(name)s}

pub claimed : %(statement)s
claimed = %(name)s
"""


class Claim:
    """What is claimed of the definitions: the crate that proves it, its theorem and its statement, and the faults that make it false."""

    def copy(self, folder):
        """The crate, and those below it."""
        wanted = below([self.crate]) + [self.crate]
        for crate in wanted:
            tree.copy_of_a_crate(crate, folder, ("must-fail", "refused"))
        lines = ["%s: %s\n" % (crate, " ".join(deps)) for crate, deps in listed().items() if crate in wanted]
        tree.write(os.path.join(folder, "crates.txt"), "".join(lines))

    def trim(self, folder):
        """Leaves out what runs the definitions on examples, and of the other crates what the claim doesn't stand on."""
        leave_out(folder, "papers", lambda module: not re.fullmatch(THEOREMS, module), "specs")
        leave_out(folder, "papers", lambda module: module in ("Passes", "Spoilt"))
        leave_out(folder, "definitions", lambda module: module != "Cut")
        self.trim_proofs(folder)

    def add_claimed(self, folder):
        """A module that has the claim by its theorem alone, so that the check says of that theorem whether it is admitted."""
        module, name = self.theorem.split(".")
        add(folder, self.crate, "Claimed", CLAIMED % dict(HOMES, home="Rattle.%s.proofs.%s" % (self.crate, module), name=name,
                                                          stated_in=self.stated_in, statement=self.statement))

    def refuses_claim(self, text):
        """Whether the theorem is refused, by what is said of that module."""
        name = re.escape(self.theorem.split(".")[1])
        return re.search(r"proofs/Claimed\.antt:\d+:\d+: error: .*`%s`, which was (not admitted|rejected)" % name, text) is not None

    def without(self, fault):
        """What is so without the fault."""
        return "the last call gets %s" % shown("", fault.right[-1])[2:]


class Demand3(Claim):
    crate, theorem, statement, stated_in, proved = "promises", "Demand.demand_3", "Demand3", "Claim", "demand 3 is proved"
    also_right, faults = ", and the two sides of each theorem are the same", rows("DEMAND3_FAULTS")

    def trim_proofs(self, folder):
        leave_out(folder, "asserts", lambda module: module == "Safe")
        leave_out(folder, "promises", lambda module: module in ("Plain", "Link", "Demand"))

    def plant(self, folder, fault):
        path = module_file(folder, "definitions", fault.file, "specs")
        text = tree.read(path)
        if text.count(fault.old) != 1:
            tree.stop("%s: the text to replace is there %d times in %s.antt" % (fault.name, text.count(fault.old), fault.file))
        tree.write(path, text.replace(fault.old, fault.new))

    def run(self, fault, replies):
        return demand3_modules.run_text(demand3.book_term(fault.book), fault.calls, replies)

    def add_right(self, folder, k, fault):
        add(folder, "papers", "Right%d" % k, self.run(fault, fault.right))
        add(folder, "promises", "Sides%d" % k, demand3_modules.sides_text(fault, fault.sides[4]))

    def add_wrong(self, folder, fault):
        add(folder, "papers", "Run", self.run(fault, fault.replies))
        add(folder, "papers", "Broken", demand3_modules.broken_text(fault))
        add(folder, "promises", "Sides", demand3_modules.sides_text(fault, fault.sides[2]))

    def complaints(self, refused, cited):
        wrong = any(r.split(".")[0] == "Sides" for r in refused + cited)
        return ["the two sides of the theorem do not compute to what is expected"] if wrong else []

    def written(self, fault):
        return demand3.written(fault.book)

    def broken(self, fault):
        return fault.breaks.words(fault)

    def place(self, fault):
        return "%s.antt" % fault.file

    def false(self, fault):
        what, left, faulty, right, stated = fault.sides
        return "%s. %s: the definitions give %d, the theorem states %d" % (fault.false, what[0].upper() + what[1:], faulty, stated)


class Order2(Claim):
    """Faults of the engine."""
    crate, theorem, statement, stated_in, proved = "derivable", "Theorem.book_certified", "BookCertified", "Certified", "order 2 is proved"
    also_right, faults = "", rows("ORDER2_FAULTS")

    def trim_proofs(self, folder):
        leave_out(folder, "derivable", lambda module: module == "Spoilt", "specs")
        stands_on = ("Fine", "Kept", "Choosing", "States", "Merging", "Answers", "Turns", "Calls", "Derive", "Spoilt", "Theorem")
        leave_out(folder, "derivable", lambda module: module in stands_on)

    def plant(self, folder, fault):
        order2.plant(folder, fault)

    def run(self, fault, replies):
        return demand3_modules.run_text(order2.book_term(fault.book), fault.calls, replies)

    def add_right(self, folder, k, fault):
        add(folder, "papers", "Right%d" % k, self.run(fault, fault.right))

    def add_wrong(self, folder, fault):
        add(folder, "papers", "Run", self.run(fault, fault.replies))
        add(folder, "papers", "Broken", order2_modules.broken_text(fault))

    def complaints(self, refused, cited):
        return []

    def written(self, fault):
        return order2.written(fault.book)

    def broken(self, fault):
        return fault.words()

    def place(self, fault):
        return os.path.relpath(fault.edit, tree.ROOT)

    def false(self, fault):
        return fault.false


class Order2Beforehand(Order2):
    """Faults of the check which goals are spoilt."""
    theorem, statement = "Theorem.unspoilt_certified", "UnspoiltCertified"
    also_right, faults = ", and the check returns by which goal each goal is spoilt", rows("SPOILT_FAULTS")

    def without(self, fault):
        return "the same replies, and the check returns that goal 0 is spoilt by goal %d" % fault.right_reported[0]

    def add_right(self, folder, k, fault):
        super().add_right(folder, k, fault)
        add(folder, "papers", "Reported%d" % k, order2_modules.reported_text(fault.right_reported, "Right%d" % k))

    def add_wrong(self, folder, fault):
        add(folder, "papers", "Run", self.run(fault, fault.replies))
        add(folder, "papers", "Reported", order2_modules.reported_text(fault.reported, "Run"))
        add(folder, "papers", "Broken", order2_modules.spoilt_broken_text(fault))


CLAIMS = [Demand3(), Order2(), Order2Beforehand()]
