"""Edits that must be refused, each tried alone on a copy of the tree.

An edit is a file `NAME.edit` of crates/CRATE/refused/, or of must-fail/, where `rt ci` tries it too (shared/edits.py has the form). It
keeps the code's shape and makes it wrong, so that the check has to refuse it, and for the right reason: its first error must be a fact that
no longer holds. A text that does not parse, a name that is gone, or a proof that asks for what is no longer there shows nothing.
`NAME.same` beside an edit has the same form and has another way to write what is right: it must be accepted, so that the refusal of the
edit beside it shows a fact and no misfit of the proof. Those of crates/CRATE/refused/more/ are tried with --all, or where they are named:
they show what another one shows of a function nearby, and the gate has no time for them.

With no crate named: those that have a folder refused/.

An edit of its own crate is tried by `rt must-fail`, over what was proved, in a copy of the tree that has all these edits where that command
looks for them; what it came to is kept on this machine as long as nothing that it stands on changes. What `rt must-fail` has no form for,
an edit that changes a crate below too and a NAME.same, and what it can't read, is tried by `rt check` of the crate in a copy that it is put
into and taken out of again. A line an edit; the last line counts. Status 0 only if all is as expected.
"""
import concurrent.futures
import os
import queue
import re
import shutil
import subprocess
import time

from sorgwenad.shared import edits, proofs, tree
from sorgwenad.shared.command import parser, processors
from sorgwenad.shared.crates import listed

# What a first error looks like where a fact no longer holds.
FACT = [
    r"^it is not proved that",
    r"the two types (first )?differ",
    r"the two indices (first )?differ",
    r"the two types are `",
    r"expected type `",
    r"`(search|grind|omega)`: (no proof of|the goal does not follow|the goal was not proved)",
]
# A rewriting that gets stuck may be the fault of the fact or of the proof's form. Then a NAME.same beside the edit has to be accepted.
STUCK = r"`simp`|`rw`|give a proof of that as the last argument|the two sides (first )?differ"
REFUSED = "refused, as it must be"
# It says so of an edited file of lemmas too, in which others cite the one that is refused.
UNREAD = "BAD EDIT: the prover cannot read the edited text"


class Edit:
    def __init__(self, crate, path):
        self.crate, self.path = crate, path
        self.name, kind = os.path.splitext(os.path.basename(path))
        self.refused = kind == ".edit"
        self.has_same = os.path.exists(os.path.join(os.path.dirname(path), self.name + ".same"))
        self.label = "%s/%s%s" % (crate, self.name, "" if self.refused else " (the same)")

    def is_for_rt(self):
        """Whether `rt must-fail` can try it. One that can't be read is left to the other way, which shows that it is bad."""
        try:
            return self.refused and all(crate == self.crate for crate, _, _, _ in edits.pairs(self.path, self.crate))
        except edits.Bad:
            return False


def edits_of(crate, more):
    found = []
    for folder in ("must-fail", "refused", "refused/more") if more else ("must-fail", "refused"):
        where = os.path.join(tree.ROOT, "crates", crate, folder)
        if os.path.isdir(where):
            found += [Edit(crate, os.path.join(where, f)) for f in sorted(os.listdir(where)) if f.endswith((".edit", ".same"))]
    names = [e.name for e in found if e.refused]
    lone = [e.label for e in found if e.name not in names]
    twice = sorted({"%s/%s" % (crate, name) for name in names if names.count(name) > 1})
    if lone or twice:
        tree.stop("no edit beside %s" % ", ".join(lone) if lone else "two edits with one name: %s" % ", ".join(twice))
    return found


def place_and_message(line):
    """Of an error's first line, the place and what it says; that of a function whose proof Rattle makes by itself is a note."""
    m = re.match(r"(?:note: )?(?:\./)?(\S+?:\d+):\d+: (?:error: )?(.*)$", line)
    return m.groups() if m else (None, None)


def wrong_refusal(edit, line):
    """What is wrong with the reason for which an edit was refused, if anything, and the place."""
    at, message = place_and_message(line)
    if not at:
        return "refused for no error that is shown: %s" % line[:300], "nowhere"
    if any(re.search(form, message) for form in FACT):
        return "", at
    if re.search(STUCK, message):
        may_be_form = "a rewriting is stuck, at %s, which may be the form alone: write in a NAME.same what is right in another way" % at
        return "" if edit.has_same else may_be_form, at
    return "refused for no fact, at %s: %s" % (at, message[:300]), at


# By `rt must-fail`.

def judged(edit, said):
    """What is wrong with what `rt must-fail` said of an edit, if anything, and where the first error is."""
    if not said.startswith(REFUSED):
        return said[:600] or "nothing was said of it", ""
    if said.startswith(REFUSED + " ("):
        return said[:600], ""
    return wrong_refusal(edit, said[len(REFUSED):].removeprefix(": "))


def in_the_form_of_rt(edit):
    lines = ["file: %s\nold: %s\nnew: %s\n" % (name, old, new) for _, name, old, new in edits.pairs(edit.path, edit.crate)]
    return "".join(lines)


def said_of(text):
    """What `rt must-fail` said of each edit, by CRATE/NAME."""
    found = {}
    for part in re.split(r"^rt: must-fail (?=\S+\.edit: )", text, flags=re.M)[1:]:
        label, _, said = part.partition(".edit: ")
        found[label] = re.split(r"^rt: ", said, flags=re.M)[0].strip()
    return found


def tried_by_rt(some, folder, jobs):
    """Tries them; returns how many were not as expected, and those of which it can't say it."""
    crates = list(dict.fromkeys(e.crate for e in some))
    print("%d edits of %d crates, by `rt must-fail`" % (len(some), len(crates)), flush=True)
    tree.copy_of_the_crates(folder)
    for crate in crates:
        shutil.rmtree(os.path.join(proofs.crate_in(folder, crate), "must-fail"), ignore_errors=True)
    for edit in some:
        place = os.path.join(proofs.crate_in(folder, edit.crate), "must-fail", edit.name + ".edit")
        os.makedirs(os.path.dirname(place), exist_ok=True)
        tree.write(place, in_the_form_of_rt(edit))
    own = dict(os.environ, RT_JOBS=str(jobs)) if jobs else None
    run = subprocess.run(["rt", "must-fail", *crates], cwd=folder, capture_output=True, text=True, env=own)
    tree.write(os.path.join(folder, "log"), run.stdout + run.stderr)
    said, wrongs = said_of(run.stdout), 0
    unread = [e for e in some if said.get(e.label, "").startswith(UNREAD)]
    for edit in [e for e in some if e not in unread]:
        wrong, at = judged(edit, said.get(edit.label, ""))
        wrongs += bool(wrong)
        print("%s: %s" % (edit.label, wrong or "refused at " + at), flush=True)
    if not said:
        print("`rt must-fail` ended with status %d:\n%s" % (run.returncode, (run.stdout + run.stderr)[-3000:]))
    return wrongs, unread


# By `rt check`.

def first_error(text):
    """The first line of an error or of a goal that is not proved, but for what follows from another one."""
    lines = re.findall(r"^(?:note: )?\S+:\d+:\d+: .*$", text, re.M)
    told = [line for line in lines if ": error" in line or line.startswith("note: ")]
    return next((line for line in told if not re.search(r"was not admitted|which was rejected", line)), "")


def judged_by_its_check(edit, status, text):
    """What is wrong with how an edit was taken, if anything, and where the first error is."""
    below = re.search(r"^rt: the library (\w+) did not build", text, re.M)
    if below:
        return "the crate %s below it is refused already: %s" % (below.group(1), first_error(text)[:300]), ""
    if not edit.refused:
        return "" if status == 0 else "NOT ACCEPTED: %s" % (first_error(text) or text[-300:])[:300], ""
    if status == 0:
        return "NOT REFUSED", ""
    if status != 1 or not re.search(r"^logic=not-proved", text, re.M):
        return "it did not reach the prover (status %d): %s" % (status, text[-300:]), ""
    return wrong_refusal(edit, first_error(text))


def tried_alone(edit, rooms):
    """Tries an edit in one of the rooms, when one is free; prints how it was taken, and returns whether that is not as expected."""
    room, began, text, at = rooms.get(), time.time(), "", ""
    try:
        before = edits.apply(edit.path, edit.crate, os.path.join(room, "crates"))
        status, text = proofs.check(room, edit.crate, ["--jobs", "1"])
        edits.undo(before)
        wrong, at = judged_by_its_check(edit, status, text)
    except edits.Bad as bad:
        wrong = "BAD EDIT: %s" % bad
    tree.write(os.path.join(room, "%s-%s%s.log" % (edit.crate, edit.name, "" if edit.refused else "-same")), text)
    rooms.put(room)
    message = wrong or ("refused at %s" % at if edit.refused else "accepted")
    print("%s: %s (%d s)" % (edit.label, message, time.time() - began), flush=True)
    return bool(wrong)


def tried_by_checks(some, folder, jobs):
    """Tries them, so many at once, each in a copy of the tree; returns how many were not as expected."""
    rooms, unproved = queue.Queue(), set()
    for number in range(min(jobs, len(some))):
        room = os.path.join(folder, "room-%d" % number)
        tree.copy_of_the_crates(room)
        rooms.put(room)
    # in the first, so that the others begin with what is kept there
    first = os.path.join(folder, "room-0")
    for crate in [crate for crate in listed() if crate in {e.crate for e in some}]:
        began = time.time()
        status, text = proofs.check(first, crate)
        if status:
            unproved.add(crate)
            print("%s: NOT PROVED as it stands, so its edits show nothing:\n%s" % (crate, text[-3000:]), flush=True)
        else:
            print("%s: proved as it stands (%d s)" % (crate, time.time() - began), flush=True)
    able = [e for e in some if e.crate not in unproved]
    with concurrent.futures.ThreadPoolExecutor(max(1, jobs)) as pool:
        return len(some) - len(able) + sum(pool.map(lambda edit: tried_alone(edit, rooms), able))


def parsed(words):
    p = parser(__doc__)
    p.add_argument("crates", nargs="*", metavar="CRATE", help="these crates alone")
    p.add_argument("--only", metavar="NAME", help="the edits of this name alone")
    p.add_argument("--all", action="store_true", help="those of the folders more/ too")
    p.add_argument("--list", action="store_true", help="print the edits that there are")
    p.add_argument("--jobs", type=int, metavar="N", help="edits at a time (by the processors and the memory that there are)")
    p.add_argument("--keep", metavar="DIR", help="work in this folder and leave it there, with what was printed")
    return p.parse_args(words)


def main(words):
    a = parsed(words)
    known = listed()
    unknown = [c for c in a.crates if c not in known]
    if unknown:
        tree.stop("no crate %s" % ", ".join(unknown))
    chosen = a.crates or [c for c in known if os.path.isdir(os.path.join(tree.ROOT, "crates", c, "refused"))]
    some = [e for c in chosen for e in edits_of(c, a.all or a.only) if a.only in (None, e.name)]
    if not some:
        tree.stop("no such edit; --list has the names")
    if a.list:
        print("\n".join(e.label for e in some))
        return True
    by_rt = [e for e in some if e.is_for_rt()]
    others = [e for e in some if not e.is_for_rt()]
    with tree.folder(a.keep) as folder:
        wrongs, unread = tried_by_rt(by_rt, os.path.join(folder, "must-fail"), a.jobs) if by_rt else (0, [])
        others += unread
        wrongs += tried_by_checks(others, folder, a.jobs or min(4, processors())) if others else 0
    print("edits: %d as expected, %d not" % (len(some) - wrongs, wrongs))
    return not wrongs
