"""Pages of `listing` from standard input as fields, one space apart; what is wrong with them is printed on standard error, with status 1.

--settled: the text of document 01, which is the Rust's, as the fields of the listing. shared/pages.py has the form of pages.
"""
import sys

from sorgwenad.shared import pages, tree
from sorgwenad.shared.command import parser


def main(words):
    p = parser(__doc__)
    p.add_argument("--settled", action="store_true", help="from the text of document 01, no pages")
    a = p.parse_args(words)
    try:
        sys.stdout.buffer.write((pages.settled if a.settled else pages.fields)(sys.stdin.buffer.read()))
    except pages.NotPages as wrong:
        tree.stop(str(wrong))
    return True
