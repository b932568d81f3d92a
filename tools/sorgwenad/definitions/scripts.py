"""Compares the definitions with the Rust, by computation.

Takes scripts from the oracle (`oracle gen S N P`, or files), has the oracle run them, and writes each as a closed equation between what
`calls` of the crate `definitions` gives and what the oracle printed: replies, turns, how many searches of a peek ended in QuantumExceeded,
clock, mark and every table, after each call. A forest is made by `make`, or by `make_at_desk` where the script has `desk`. The definitions
have no forest of a refused book; the calls on it are computed on one without goals and tables, marked with the number, which is put
together here. The listing of each book (`oracle lists`, settled) is compared with `fields` the same way, and as pages with `listing`; the
place of the first clause that is there twice (`oracle read`) with `first_repeat`, and the levels of its goals, or why it has none (`oracle
levels`), with `check_levels`, with the first place that is not plain as `not_plain_place`. The equations are in a copy of the crate outside
the tree, and the checker computes them (`rt check`). Prints how many scripts, calls, turns, listings, places and profiles agreed, how many
of the listings have `unsettled`, how often each stop and refusal came, and the first call that did not agree, with both sides. The format
of scripts and dumps is that of `oracle run`. Status 0 only if all agree and there was a call.

With --faults the folder's files NAME.script are compared, and then, each alone, the edits NAME.edit beside them are put into the copy:
a fault of the definitions that its script was written to find, so that the script of that name must not agree any more.
"""
import collections
import os
import re

from sorgwenad.definitions.items import HEADER, SHOWN, Listing, Place, Profile, Script, scripts_of
from sorgwenad.shared import computed, edits, tree
from sorgwenad.shared.book import ranges_in
from sorgwenad.shared.command import parser
from sorgwenad.shared.listed import listed_by_the_rust
from sorgwenad.shared.oracle import find_oracle, in_lines, random_script, read
from sorgwenad.shared.processes import output_of

# The listing runs each goal to its end: that of a longer book can be more than the checker computes.
LONGEST_LISTED = 300
# Every profile of `oracle gen` but `lines`, whose malformed lines concern the script's reader alone.
ALL = ("mix", "plain", "tiny", "bytes", "answers", "small", "limits", "large")


def short_books(scripts):
    return list({s.data: None for s in scripts if len(s.data) <= LONGEST_LISTED})


def listings_of(oracle, some):
    """The listing of each book, but of those that take the Rust ten thousand turns for a search, or a thousand rounds."""
    found = [Listing(data, text.encode()) for data, text in zip(some, listed_by_the_rust(oracle, some))]
    return [one for one in found if not re.search(rb" (cut|again)$", one.text, re.M)]


def items_of(oracle, scripts):
    """All that is compared, by the names of the equations."""
    some = short_books(scripts)
    places = [Place(data, text) for data, text in zip(some, read(oracle, some))]
    profiles = [Profile(data, text.splitlines()) for data, text in zip(some, in_lines(oracle, "levels", some))]
    kinds = (("s", scripts), ("l", listings_of(oracle, some)), ("p", places), ("v", profiles))
    return {letter + str(i): item for letter, those in kinds for i, item in enumerate(those)}


def run_by(oracle, script):
    scripts = scripts_of(script, output_of([oracle, "run", "counted"], script.encode()).decode())
    if not any(s.calls for s in scripts):
        tree.stop("nothing to compare: no call is made on a forest")
    return scripts


def show_agreed(agreed, bad, beyond):
    """Prints what agreed."""
    ran = [item for item in agreed if isinstance(item, Script)]
    made = [s for s in ran if s.made == "made"]
    ranges, desk = [s for s in made if ranges_in(s.data)], [s for s in made if s.way == "desk"]
    of_kind = lambda kind: sum(isinstance(item, kind) for item in agreed)
    count = lambda some: sum(len(s.calls) for s in some)
    print("%d scripts, %d calls, %d turns, %d listings, %d places, %d profiles agreed (%d calls on %d books with ranges, %d on forests "
          "made at the desk, %d on forests made by the old entry, %d on forests of refused books); %d did not%s" % (
              len(ran), count(ran), sum(s.turns for s in ran), of_kind(Listing), of_kind(Place), of_kind(Profile), count(ranges),
              len(ranges), count(desk), count(made) - count(desk), count(ran) - count(made), len(bad),
              computed.more_than_it_computes(beyond)))
    print("%d of these listings have unsettled" % sum(isinstance(item, Listing) and b" unsettled\n" in item.text for item in agreed))
    counts = sum((s.numbers for s in ran), collections.Counter())
    by_number = sorted(counts, key=lambda w: (w.split()[0], int(w.split()[-1]) if w.split()[-1].isdigit() else 0))
    print(", ".join("%s: %d" % (k, counts[k]) for k in by_number))


def compare(folder, items, part):
    """Prints what agreed; returns what did not, and what could not be computed if that is more than a tenth."""
    names = list(items)
    bad, beyond, _ = computed.check(folder, HEADER, computed.in_parts([items[n].equation(n) for n in names], part))
    show_agreed([items[n] for n in names if n not in bad + beyond], bad, beyond)
    return [items[n] for n in bad + (beyond if 10 * len(beyond) > len(names) else [])]


def see_faults(faults, folder, oracle):
    """Puts each fault in, alone, and returns those that their script does not find."""
    missed = []
    for path in sorted(os.path.join(faults, f) for f in os.listdir(faults) if f.endswith(".edit")):
        name = os.path.basename(path)[:-len(".edit")]
        scripts = run_by(oracle, tree.read(os.path.join(faults, name + ".script")))
        before = edits.apply(path, "definitions", os.path.join(folder, "crates"))
        bad, _, _ = computed.check(folder, HEADER, ["\n".join(s.equation("s%d" % i) for i, s in enumerate(scripts))])
        edits.undo(before)
        print("%s: %s" % (name, "found" if bad else "NOT FOUND"))
        if not bad:
            missed.append(name)
    return missed


def given_text(a, oracle):
    """The scripts to be compared, as one text."""
    if a.faults is not None:
        return "\n".join(tree.read(os.path.join(a.faults, f)) for f in sorted(os.listdir(a.faults)) if f.endswith(".script"))
    if a.script:
        return "\n".join(tree.read(f) for f in a.script)
    profiles = ALL if a.profile == "all" else a.profile.split(",")
    return "\n".join(random_script(oracle, a.seed, a.count, profile).decode() for profile in profiles)


def main(words):
    p = computed.with_words(parser(__doc__), 500, "scripts of each profile")
    p.add_argument("--profile", default="small", help="one, or more with commas between, or all: " + ", ".join(ALL))
    p.add_argument("--script", nargs="+", metavar="FILE", help="compare these files instead")
    p.add_argument("--faults", nargs="?", const=tree.SCRIPTS, metavar="DIR",
                   help="compare a folder's scripts (tools/cases/scripts), and check that each finds the fault beside it")
    a = p.parse_args(words)
    oracle = find_oracle(a.oracle)
    scripts = run_by(oracle, given_text(a, oracle))
    with tree.folder(a.keep) as folder:
        computed.copy_of_the_definitions(folder)
        tree.write(computed.module(folder, "Shown"), SHOWN)
        wrong = compare(folder, items_of(oracle, scripts), a.part)
        if wrong:
            wrong[0].show(folder)
            return False
        return not (a.faults and see_faults(a.faults, folder, oracle))
