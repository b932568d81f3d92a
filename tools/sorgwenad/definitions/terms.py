"""What the oracle prints, dumps and replies of calls, as terms of the definitions."""
import re

from sorgwenad.shared.book import GOAL, commands
from sorgwenad.shared.computed import cons


def boolean(b):
    return "true" if b == "1" else "false"


def wanted(text):
    if "-" in text:
        return "(between %s %s)" % tuple(text.split("-"))
    return "any" if text == "0" else "(exactly %s)" % text


def literal(text):
    out = boolean("1" if text.endswith("!") else "0")
    text = text.rstrip("!")
    if text[0] == "-":
        return "Negative %s %s" % (text[1:], out)
    goal, want = text[1:].split("/")
    return "Positive %s %s %s" % (goal, wanted(want), out)


def listed(text):
    return [x for x in text.split(",") if x]


def strand(text):
    m = re.fullmatch(r"v(\d+) o([01]) a([01]) S\[(.*?)\] D\[(.*?)\] t(\d+) F\[(.*?)\] s(\S+) p(\d+)", text)
    v, o, a, s, d, t, f, sel, p = m.groups()
    fl = []
    for x in listed(f):
        l, time = x.split("@")
        fl.append("record { floundered_literal = %s; floundered_time = %s }" % (literal(l), time))
    if sel == "-":
        chosen = "none"
    else:
        chosen = "some (record { subgoal_index = %s; subgoal_table = %s; answer_index = %s })" % tuple(sel.split(":"))
    ex = "record { subst = record { variant = %s; outsized = %s }; ambiguous = %s; subgoals = %s; delayed_subgoals = %s; " \
        "answer_time = %s; floundered_subgoals = %s }" % (
            v, boolean(o), boolean(a), cons(literal(x) for x in listed(s)), cons(listed(d)), t, cons("(%s)" % x for x in fl))
    return "record { ex_clause = %s; selected_subgoal = %s; last_pursued_time = %s }" % (ex, chosen, p)


def answer(text):
    v, d, a = re.fullmatch(r"v(\d+) D\[(.*?)\] a([01])", text).groups()
    return "record { variant = %s; delayed_subgoals = %s; ambiguous = %s }" % (v, cons(listed(d)), boolean(a))


def table(text, goals):
    m = re.fullmatch(r"t\d+ g(\d+) f([01]) m([ca]) A\d+(.*?) Q\d+(.*)", text)
    g, f, mode, answers, strands = m.groups()
    inner = lambda part: re.findall(r"\(([^()]*)\)", part)
    return "record { table_goal = %s; coinductive_goal = %s; floundered = %s; answers = %s; strands = %s; answer_mode = %s }" % (
        g, boolean(goals[int(g)]), boolean(f), cons("(%s)" % answer(x) for x in inner(answers)),
        cons("(%s)" % strand(x) for x in inner(strands)), "Complete" if mode == "c" else "Ambiguous")


def state(line, goals):
    """The fields of a Line after the reply."""
    parts = line.split(" | ")
    m = re.fullmatch(r"state clock (\d+) mark (\d+) tables (\d+)", parts[0])
    assert m, line
    return "mark = %s; clock = %s; tables = %s" % (m.group(2), m.group(1), cons("(%s)" % table(t, goals) for t in parts[1:]))


ENDINGS = {"none": "fail NoMoreSolutions", "floundered": "fail Floundered", "again": "fail QuantumExceeded",
           "negcycle": "fail NegativeCycle", "invalid": "fail InvalidAnswer", "cut": "cut"}


def ending(words):
    if words[0] in ("yes", "maybe"):
        return "found (record { variant = %s; ambiguous = %s })" % (words[1], "true" if words[0] == "maybe" else "false"), words[2:]
    if words[0] == "stop":
        return "stopped %s" % words[1], words[2:]
    return ENDINGS[words[0]], words[1:]


def reply(call, text):
    w = text.split()
    if w[0] == "refused":
        return "refusal %s" % w[1], 0
    if call == "open":
        return ("table (go %s)" if w[0] == "table" else "table (stop %s)") % w[1], 0
    if call == "future":
        return "future %s" % w[0], 0
    e, rest = ending(w)
    if call == "search":
        return "searched (%s) %s" % (e, rest[1]), int(rest[1])
    return "peeked (%s) %s %s %s" % (e, rest[1], rest[3], rest[5]), int(rest[3])


def called(line):
    w = line.split()
    name = {"open": "opens", "search": "searches", "peek": "peeks", "future": "asks_future"}[w[0]]
    return " ".join([name] + w[1:])


def goal_flags(data):
    """Which goals of an accepted book are coinductive."""
    return ["1" if command[1] & 1 else "0" for command in commands(data) if command[0] == GOAL]
