"""Wrong stand-ins for the programs, kept as tests of the commands: each must fail the subcommand that is to find it.

Without a name: all of them. A stand-in is right but for one fault (sorgwenad/stand_ins has a file for each program); the cases by hand of
its subcommand are compared with what it returns, and have to show a difference. With the right answers, of the proved program where it
is built and of the Rust, the same comparison has to pass. And every file of tools/cases has tables alone. Prints a line for each
program, and for each stand-in that is not found; --list prints the stand-ins. Status 0 only if all are found and all that is right passes.
"""
import ast
import contextlib
import importlib
import io
import os
import time

from sorgwenad.shared import tables, tree
from sorgwenad.shared.command import parser

SUBJECTS = ("replay", "listing", "levels", "certify", "xsb", "mend", "pages", "derived")


def passes(check, answers):
    """Whether a comparison passes, and what it printed."""
    printed = io.StringIO()
    with contextlib.redirect_stdout(printed):
        good = check("a stand-in", answers)
    return bool(good), printed.getvalue()


def tested(name, folder, listed):
    """Tests the stand-ins for one program; whether all is as expected."""
    began, subject = time.time(), importlib.import_module("sorgwenad.stand_ins." + name)
    who, wrong = subject.Subject(folder), []
    stand_ins = list(subject.wrong(who))
    for command, check, answers in subject.right(who):
        good, text = passes(check, answers)
        wrong += [] if good else ["what is right does not pass `%s`:\n%s" % (command, text[:3000])]
    for title, command, check, answers in stand_ins:
        if listed:
            print("%s: %s (%s)" % (name, title, command))
        if passes(check, answers)[0]:
            wrong.append("NOT FOUND by `%s`: %s" % (command, title))
    commands = ", ".join(dict.fromkeys(command for _, command, _, _ in stand_ins))
    print("\n".join(wrong + ["%s: %d wrong stand-ins, found by %s; %d not as expected (%.1f s)" % (
        name, len(stand_ins), commands, len(wrong), time.time() - began)]), flush=True)
    return not wrong and bool(stand_ins)


def tables_alone():
    """Whether every case file has a text, imports and tables, and no function, class or loop, and a table that a command takes."""
    files, wrong = tables.files(), []
    for file in files:
        first, *rest = ast.parse(tree.read(os.path.join(tables.CASES, file))).body
        has_text = isinstance(first, ast.Expr) and isinstance(getattr(first.value, "value", None), str)
        if not has_text or not tables.names_in(file) or not all(isinstance(one, (ast.Import, ast.ImportFrom, ast.Assign)) for one in rest):
            wrong.append(file)
    print("cases: %d files, %d with more than tables%s" % (len(files), len(wrong), ": " + " ".join(wrong) if wrong else ""))
    return not wrong


def main(words):
    p = parser(__doc__)
    p.add_argument("names", nargs="*", choices=[*SUBJECTS, "cases", []], metavar="NAME", help=", ".join([*SUBJECTS, "cases"]))
    p.add_argument("--list", action="store_true", help="print the stand-ins too")
    a = p.parse_args(words)
    good = tables_alone() if not a.names or "cases" in a.names else True
    with tree.folder() as folder:
        chosen = [name for name in SUBJECTS if not a.names or name in a.names]
        return all([tested(name, folder, a.list) for name in chosen]) and good
