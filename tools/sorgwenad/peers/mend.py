"""Compares what clingo finds in plain papers before and after they are mended (order 11).

Takes N plain levelled papers that the desk refuses with 36, from the oracle's generator, some with a goal before literals of an earlier
clause, and has each mended by `mend`. The clauses before and after go, as rules, to clingo (Debian: gringo), which gives the stable model:
the same goals must hold, and they must be those of the layered least model of what was left (`oracle levels model`). Then N / 3 papers that
are not levelled, of few goals, with clauses put in once more: all stable models that there are must be the same before and after. Last the
smallest papers from which a clause is removed for 6, where the model may be another (cases/peers.py).

Where clingo is not installed that is printed and ends the run; with --installed it is left out. With --rust the oracle takes the place of
the proved `mend`. Status 0 only if all is as expected.
"""
import random
import re

from sorgwenad.shared import tree
from sorgwenad.shared.book import encode
from sorgwenad.shared.chance import loosened
from sorgwenad.shared.command import parser
from sorgwenad.shared.oracle import find_oracle, mended, models, random_books, read
from sorgwenad.shared.plain import book_of, clauses_of, for_clingo, rules
from sorgwenad.shared.processes import run
from sorgwenad.shared.solvers import clingo, installed, with_listing
from sorgwenad.shared.tables import rows

# Papers that one process of clingo gets at once: each has names of its own.
TOGETHER = 250


def hold(some):
    """Of each levelled paper the goals that hold."""
    found = []
    for at in range(0, len(some), TOGETHER):
        now = [set() for _ in some[at:at + TOGETHER]]
        for n, goal in re.findall(r"\bb(\d+)g(\d+)\b", clingo(for_clingo(map(clauses_of, some[at:at + TOGETHER])), 1)[0]):
            now[int(n)].add(int(goal))
        found += now
    return found


def all_models(data):
    """Every stable model of a paper, which may have none."""
    program = "\n".join(rules(clauses_of(data), "g", "not %s%d")) + "\n"
    return sorted(tuple(sorted(map(int, re.findall(r"\bg(\d+)\b", line)))) for line in clingo(program, 0))


def levelled(oracle, seed, count):
    """Plain levelled papers that have a clause twice: about every second random one."""
    chance = random.Random(seed)
    made = list(dict.fromkeys(random_books(oracle, seed, 4 * count, "levelled")))
    twice = [data for data, one in zip(made, read(oracle, made)) if one.startswith("accepted, desk refused 36")]
    return [loosened(chance, data) if n % 2 else data for n, data in enumerate(twice[:count])]


def more(chance, data):
    """Some clauses once more, anywhere behind themselves in their goals."""
    goals = clauses_of(data)
    for _ in range(chance.randrange(1, 4)):
        bodies = goals[chance.choice([goal for goal, bodies in enumerate(goals) if bodies])]
        at = chance.randrange(len(bodies))
        bodies.insert(chance.randrange(at + 1, len(bodies) + 1), bodies[at])
    return book_of(goals)


def not_levelled(oracle, seed, count):
    """Of up to five goals, with clauses twice."""
    chance = random.Random(seed)
    made = random_books(oracle, seed, 8 * count, "few")
    some = [data for data, one in zip(made, models(oracle, made)) if one == "refused 38"]
    return [loosened(chance, more(chance, data)) for data in some[:count]]


def all_mended(a, some, reason=36):
    """What is left of each. Nothing may be removed for another reason."""
    found = mended(a.oracle, some) if a.rust else [run([a.program], data) for data in some]
    for data, (out, err, status) in zip(some, found):
        if status or not out or {line.split()[2] for line in err.decode().splitlines()} != {str(reason)}:
            tree.stop("%s is mended otherwise than for %d: %s" % (data.hex(), reason, err.decode()))
    return [out for out, _, _ in found]


def agreed(what, some, left, found_by):
    """Whether all are the same, before and after among them; shows where they are not."""
    wrong = 0
    for n, data in enumerate(some):
        if any(found[n] != found_by["before"][n] for found in found_by.values()):
            wrong += 1
            print("DIFFERS: %s\nleft: %s\n%s" % (data.hex(), left[n].hex(), {name: found[n] for name, found in found_by.items()}))
    clauses = lambda books: sum(len(bodies) for data in books for bodies in clauses_of(data))
    result = "%d papers differ" % wrong if wrong else "clingo finds the same " + ", ".join(found_by)
    print("%d plain papers %s, %d clauses were removed for 36: %s" % (len(some), what, clauses(some) - clauses(left), result))
    return not wrong


def levelled_agree(a):
    some = levelled(a.oracle, a.seed, a.papers)
    left = all_mended(a, some)
    layered = [set(map(int, one.split())) for one in models(a.oracle, left)]
    found_by = {"before": hold(some), "after": hold(left), "as the layered model": layered}
    return agreed("that are levelled", some, left, found_by) and len(some) == len(layered) == a.papers


def others_agree(a):
    some = not_levelled(a.oracle, a.seed, a.papers // 3)
    left = all_mended(a, some)
    found_by = {"before": list(map(all_models, some)), "after": list(map(all_models, left))}
    many = [len(models) for models in found_by["before"]]
    print("stable models: none in %d papers, one in %d, more in %d" % (many.count(0), many.count(1), sum(n > 1 for n in many)))
    return agreed("that are not levelled", some, left, found_by) and len(some) == a.papers // 3


def smallest(a):
    papers, wrong = rows("PEERS_MENDED"), 0
    for title, text, reason, before, after in papers:
        data = encode(text)
        left = all_mended(a, [data], reason)[0]
        found = [set(all_models(one)[0]) for one in (data, left)]
        wrong += found != [before, after]
        if found != [before, after]:
            print("DIFFERS: %s, %s\nexpected: %s, %s\nclingo: %s" % (title, data.hex(), before, after, found))
    print("%d smallest papers, %d wrong by clingo" % (len(papers), wrong))
    return not wrong


def main(words):
    p = parser(__doc__)
    p.add_argument("--papers", type=int, default=600, help="how many levelled ones (600)")
    p.add_argument("--seed", type=int, default=1)
    a = with_listing(p, "mend").parse_args(words)
    a.oracle = find_oracle(a.oracle)
    if not a.rust:
        a.program = tree.built("mend", a.program)
    if not installed(a, ["clingo"]):
        return True
    return all([levelled_agree(a), others_agree(a), smallest(a)])
