"""What is listed of a book, as fields: by `listing`, and by the Rust."""
import subprocess

from sorgwenad.shared import pages
from sorgwenad.shared.oracle import of_each
from sorgwenad.shared.processes import Broken, each


def listed(program, data):
    """The fields on the pages that `listing` prints of a book."""
    run = subprocess.run([program], input=data, capture_output=True)
    if run.returncode != 0 or run.stderr:
        raise Broken("%s ended with %d on %s: %s" % (program, run.returncode, data.hex(), run.stderr.decode(errors="replace")[-2000:]))
    try:
        return pages.fields(run.stdout).decode()
    except pages.NotPages as wrong:
        raise Broken("%s prints no pages of %s: %s" % (program, data.hex(), wrong)) from None


def listed_by_the_rust(oracle, books):
    """The same fields of each book by the Rust, which prints the text of document 01 and no pages."""
    return [pages.settled(text).decode() for text in of_each(oracle, "lists", books)]


def by_the_rust(oracle):
    """What the Rust lists of each of some books."""
    return lambda books: listed_by_the_rust(oracle, books)


def by_the_program(program, jobs=2):
    """What the program lists of each of some books, or what is wrong with its run."""
    return lambda books: each(lambda data: without_raising(lambda: listed(program, data)), books, jobs)


def without_raising(ask):
    try:
        return ask()
    except (Broken, pages.NotPages) as broken:
        return str(broken)
