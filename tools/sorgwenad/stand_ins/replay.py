"""Wrong stand-ins for `replay` at the limits of document 01: replies with other numbers, other turns, or none."""
import re

from sorgwenad.rust import limits
from sorgwenad.shared import tree
from sorgwenad.shared.oracle import find_oracle
from sorgwenad.shared.processes import output_of

# From the right replies to wrong ones.
REPLIES = {
    "9 before 20": lambda text: text.replace(b"refused 20", b"refused 9"),
    "10 for 20 on what a refused book leaves": lambda text: text.replace(b"refused 20", b"refused 10", 1),
    "a clause twice is made": lambda text: text.replace(b"refused 36", b"made"),
    "a turn more": lambda text: re.sub(rb"turns (\d+)", lambda m: b"turns %d" % (int(m[1]) + 1), text),
    "a stop that is cut": lambda text: re.sub(rb"stop \d+", b"cut", text),
    "maybe for yes": lambda text: text.replace(b"yes", b"maybe", 1),
    "a reply is missing": lambda text: text.replace(b"made\n", b"", 1),
}


class Subject:
    """The Rust's replies, which the stand-ins change; and `replay` itself, where it is built."""

    def __init__(self, folder):
        self.folder, self.oracle, self.program = folder, find_oracle(), tree.built_or_none("replay")

    def replies(self, script):
        return output_of([self.oracle, "run", "bare"], script)


def right(who):
    """The check with the right answers."""
    return [("rust limits", limits.by_hand, (lambda script: output_of([who.program, "bare"], script)) if who.program else who.replies)]


def wrong(who):
    """The stand-ins: what is wrong, the subcommand that must find it, its check, and the wrong answers."""
    for name, change in REPLIES.items():
        yield name, "rust limits", limits.by_hand, lambda script, change=change: change(who.replies(script))
