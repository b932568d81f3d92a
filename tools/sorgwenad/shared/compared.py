"""What is found compared with what is expected, and the report of it. The stand-ins of the self-test go through here too."""

# Differences that are shown.
SHOWN = 10


def as_expected(expected, found):
    """Whether they are the same; where nothing in particular is expected, whether a book is listed."""
    return found.startswith("0 ") if expected is None else found == expected


def shown_text(text):
    """A text, not too long, or what stands for any listing."""
    return "\n" + text[:600].rstrip("\n") if text is not None else "a book that is listed"


def both(shown):
    """What is expected and what was found, as they are shown."""
    return lambda who, right, found: "expected: %s\n%s: %s" % (shown(right), who, shown(found))


def reported(tool, what, who, asked, found, difference=both(shown_text), counts=""):
    """Whether all is as expected; prints a line with the counts, and the first differences above it. `asked`: of each its title, its
    bytes and what is expected. `found`: what it is compared with. `difference`: how the two are shown."""
    wrong = ["%s, %s\n%s" % (title, data.hex()[:600], difference(who, right, is_so))
             for (title, data, right), is_so in zip(asked, found) if not as_expected(right, is_so)]
    wrong += ["%d results for %d inputs" % (len(found), len(asked))] * (len(asked) != len(found))
    last = "%s: %d %s, %d wrong by %s%s" % (tool, len(asked), what, len(wrong), who, " (%s)" % counts if counts else "")
    print("\n".join(wrong[:SHOWN] + [last]), flush=True)
    return not wrong


def table(cells, wide):
    """Cells as rows of so many."""
    return "\n".join("   ".join(cells[at:at + wide]) for at in range(0, len(cells), wide))


def often_enough(tool, words, order, least, wide, form="%-20s %8s"):
    """Prints how often each word came, and whether each came often enough."""
    print(table([form % (word, format(words[word], ",")) for word in order], wide))
    rare = [word for word in order if words[word] < least]
    if rare:
        print("%s: too rare: %s" % (tool, ", ".join(rare)))
    return not rare
