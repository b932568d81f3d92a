"""Plants faults in the definitions and expects a promise to be refused.

The crate `promises` proves demand 3 of the definitions. The crate `derivable` proves order 2: that every unambiguous answer of a clean goal
can be derived, and that a goal is clean of which the check returns that nothing spoils it. This shows that these theorems lean on the
definitions. Each fault is a change of a definition that makes the claim false. For each, in a copy of the crates outside the tree:

1. A list of calls on a small book gets wrong replies. The module `Run` of the copy has the replies, computed; `Broken` draws from them that
   the claim is false of the faulty definitions. The checker checks both. So the claim has no proof then.
   - demand 3: `Demand3 → ⊥`. The book is plain and levelled.
   - order 2: `BookCertified → ⊥`. The book has no "not" and no coinductive goal, and the last reply is an unambiguous answer of which it is
     proved that it can't be derived.
   - the check of order 2: `UnspoiltCertified → ⊥`. The replies are right, and the check is wrong: the module `Told` has, computed, that
     nothing is reported to spoil goal 0, whose unambiguous answer can't be derived.
2. `rt check` of the crate that proves the claim has to be refused, and the first theorem refused has to be the one named below. One that is
   refused only since it cites a refused one doesn't count. (The copy has the modules that the claim stands on, without those beside it.)
3. Of demand 3: that the theorem is false then, and not just its proof unfit, is computed on one state: the module `Sides` of the copy has
   what the definitions give there and what the plain machine gives, which the theorem states is the same. They differ.
   A fault of order 2 is an edit of crates/derivable/refused, which writes the proofs too as the changed definition wants them, as far as
   they go. So the first theorem refused is where a fact is missing.

Without a fault the claims are proved, the same calls get the right replies, and the two sides are the same; that is checked first.
Prints a table. Ends with 0 only if every fault is refused and every counterexample computes.
"""
import concurrent.futures
import os
import re
import textwrap
import time

from sorgwenad.faults.claims import CLAIMS, shown
from sorgwenad.shared import edits, proofs, tree
from sorgwenad.shared.command import parser, processors


def check(folder, crate):
    """Whether the crate is proved, and what is refused: module and name. Of those refused since they cite a refused one, the modules."""
    status, text = proofs.check(folder, crate)
    refused, cited = [], []
    for path, message in re.findall(r"^.*?/?(?:specs|proofs)/(\S+)\.antt:\d+:\d+: error: (.*)", text, re.M):
        module, named = path.replace("/", "."), re.match(r"`([^`]*)`:", message)
        many = re.match(r"(\d+) declarations? that depends? on .*, which was (?:rejected|not admitted)", message)
        if many:
            cited += [module] * int(many.group(1))
        else:
            refused.append(module + ("." + named.group(1) if named else ""))
    return status == 0, refused, cited, "%s(status %d)" % (text, status)


def without_fault(claim, faults, folder):
    claim.copy(folder)
    claim.trim(folder)
    claim.add_claimed(folder)
    for k, fault in enumerate(faults):
        claim.add_right(folder, k, fault)
    proved, refused, cited, text = check(folder, claim.crate)
    good = proved and not refused
    seen = "%s; the calls below get their right replies%s" % (claim.proved, claim.also_right)
    print("no fault: %s" % (seen if good else "REFUSED\n" + text[-3000:]), flush=True)
    return good


def with_fault(claim, fault, folder):
    """Gives the complaints."""
    claim.copy(folder)
    try:
        claim.plant(folder, fault)
    except edits.Bad as bad:
        return ["BAD EDIT: %s" % bad], False, [], []
    claim.trim(folder)
    claim.add_claimed(folder)
    claim.add_wrong(folder, fault)
    computes, refused, cited, text = check(folder, "papers")
    if not computes:
        return ["the counterexample does not compute: " + (", ".join(refused) or text[-2000:])], False, refused, cited
    proved, refused, cited, text = check(folder, claim.crate)
    complaints = []
    if proved:
        complaints.append("the claim is proved all the same")
    elif not refused or not claim.refuses_claim(text):
        complaints.append("%s is not among what is refused: %s" % (claim.theorem, text[-2000:]))
    else:
        if refused[0] != fault.theorem:
            complaints.append("the first theorem refused is %s" % refused[0])
        complaints += claim.complaints(refused, cited)
    return complaints, True, refused, cited


def line(head, text):
    print(textwrap.fill(text, 130, initial_indent="  %-14s " % head, subsequent_indent=" " * 17))


def report(claim, fault, complaints, computes, refused, cited, seconds):
    print("\n%s: %s (%d s)" % (fault.name, "NOT AS EXPECTED: " + "; ".join(complaints) if complaints else "refused", seconds))
    line("fault", "%s (%s)" % (fault.what, claim.place(fault)))
    if fault.note:
        line("", "Note: " + fault.note)
    line("book", claim.written(fault))
    line("calls", "; ".join(shown(c, r) for c, r in zip(fault.calls, fault.replies)))
    line("without fault", claim.without(fault))
    line("claim broken", claim.broken(fault) + ("; `%s → ⊥` is checked" % claim.statement if computes else ""))
    if complaints:
        return
    line("theorem", "%s: %s" % (refused[0], fault.fact))
    line("is false", claim.false(fault))
    if len(refused) > 1:
        line("also refused", "; ".join("%s (%s)" % (r, fault.also.get(r, "false or just unfit: not looked into")) for r in refused[1:]))
    line("so", "%d more are refused, since they cite what is refused; %s is one" % (len(cited), claim.theorem.split(".")[1]))


def table(rows):
    """One line a fault."""
    heads = ("fault", "counterexample", "claim", "first theorem refused")
    widths = [max(len(r[i]) for r in [heads] + rows) for i in range(len(heads))]
    print()
    for r in [heads] + rows:
        print("  ".join(c.ljust(w) for c, w in zip(r, widths)).rstrip())


def row(fault, computes, refused):
    if not computes:
        return (fault.name, "DOES NOT COMPUTE", "not reached", "none")
    return (fault.name, "computes", "refused" if refused else "NOT REFUSED", refused[0] if refused else "none")


def run(chosen, folder, jobs):
    """The claims and their faults, in pairs."""
    def timed(job):
        began = time.time()
        return with_fault(*job, os.path.join(folder, job[1].name)) + (time.time() - began,)

    rows, good = [], True
    with concurrent.futures.ThreadPoolExecutor(max(1, jobs)) as pool:
        right = [
            pool.submit(without_fault, claim, [f for c, f in chosen if c == claim], os.path.join(folder, "no-fault-" + claim.statement))
            for claim in CLAIMS if claim in [c for c, f in chosen]]
        seen = pool.map(timed, chosen)
        good = all([r.result() for r in right])
        for (claim, fault), (complaints, computes, refused, cited, seconds) in zip(chosen, seen):
            report(claim, fault, complaints, computes, refused, cited, seconds)
            rows.append(row(fault, computes, refused))
            good = good and not complaints
    table(rows)
    result = "all refused, and every counterexample computes" if good else "NOT ALL AS EXPECTED"
    print("%d fault%s: %s" % (len(rows), "" if len(rows) == 1 else "s", result))
    return good


def main(words):
    p = parser(__doc__)
    p.add_argument("--only", nargs="+", metavar="NAME", help="these faults alone")
    p.add_argument("--list", action="store_true", help="print the names of the faults")
    p.add_argument("--jobs", type=int, default=min(4, processors()), help="copies checked at a time (%d)" % min(4, processors()))
    p.add_argument("--keep", metavar="DIR", help="make the copies in this folder and leave them there")
    a = p.parse_args(words)
    faults = [(claim, fault) for claim in CLAIMS for fault in claim.faults]
    if a.list:
        print("\n".join("%s: %s" % (f.name, f.what) for c, f in faults))
        return True
    unknown = set(a.only or []) - {f.name for c, f in faults}
    if unknown:
        tree.stop("no fault %s; --list has the names" % ", ".join(sorted(unknown)))
    with tree.folder(a.keep) as folder:
        return run([(c, f) for c, f in faults if a.only is None or f.name in a.only], folder, a.jobs)
