"""What document 01 has at each limit and beside it (cases/limits.py), as a script of calls.

--rust     whether the Rust replies to each call as expected
--program  whether the proved `replay`, or a program in its place, does: the calls by value, handed over together, and by &mut
--print    the script, each call with the reply that is expected

The script is in the form that `oracle run` reads; a line that begins with # is a title.
"""
from cases.limits import EARLY
from sorgwenad.shared import tree
from sorgwenad.shared.book import in_bytes
from sorgwenad.shared.command import parser, sides_of, with_oracle, with_sides
from sorgwenad.shared.oracle import find_oracle
from sorgwenad.shared.processes import output_of
from sorgwenad.shared.script import RESULT, makes
from sorgwenad.shared.tables import rows


def script():
    """The lines of the script, and the reply that is expected to each call, in order."""
    asked, replies = [], []

    def ask(call, _, reply):
        asked.append(call)
        replies.append(reply)

    for line in EARLY:
        ask(*line.partition(" = "))
    for title, book, clock, calls, *way in rows("LIMITS"):
        asked.append("# " + title)
        ask(makes(in_bytes(book), clock, *way), "", calls[0])
        for line in calls[1:]:
            ask(*line.partition(" = "))
    return asked, replies


def printed():
    asked, replies = script()
    left = iter(replies)
    return "\n".join(line if line.startswith("#") else "%s = %s" % (line, next(left)) for line in asked)


def by_hand(who, answers):
    """Whether each call gets the expected reply. `answers`: from a script to what is printed for it."""
    asked, replies = script()
    got = [line.decode() for line in RESULT.findall(answers(("\n".join(asked) + "\n").encode()))]
    calls = [line for line in asked if not line.startswith("#")]
    wrong = ["%s = %s (%s: %s)" % (call[:200], reply, who, is_so) for call, reply, is_so in zip(calls, replies, got) if reply != is_so]
    if len(got) != len(replies):
        wrong.append("%s has %d replies, and there are %d calls" % (who, len(got), len(replies)))
    print("\n".join(wrong + ["limits: %d calls, %d replies wrong by %s" % (len(calls), len(wrong), who)]))
    return not wrong


def main(words):
    p = with_oracle(with_sides(parser(__doc__), "replay"))
    p.add_argument("--print", action="store_true", help="print the script and do nothing else")
    a = p.parse_args(words)
    if a.print:
        print(printed())
        return True
    rust, ours = sides_of(a)
    runs = [("the Rust", [find_oracle(a.oracle), "run", "bare"])] * rust
    if ours:
        replay = tree.built("replay", a.program)
        runs += [("replay" + " ".join(["", *manner]), [replay, "bare", *manner]) for manner in ([], ["batch"], ["lent"])]
    return all([by_hand(who, lambda given, command=command: output_of(command, given)) for who, command in runs])
