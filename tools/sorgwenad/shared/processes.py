"""Runs of programs: what they write, whether they end as they should, and how long they take."""
import concurrent.futures
import subprocess
import time


class Broken(Exception):
    """A program that did not end as it should: by a signal, with another status than 0, or not in time."""


def output_of(words, script, seconds=None):
    """What a program writes on standard output for its input; Broken where it does not end as it should."""
    try:
        run = subprocess.run(words, input=script, capture_output=True, timeout=seconds)
    except subprocess.TimeoutExpired:
        raise Broken("%s did not end in %d s" % (" ".join(words), seconds)) from None
    if run.returncode != 0:
        shown = run.stderr.decode(errors="replace")[-2000:]
        raise Broken("%s ended with %d: %s" % (" ".join(words), run.returncode, shown))
    return run.stdout


def run(words, data):
    """What a program writes on standard output and on standard error, and its status."""
    done = subprocess.run(words, input=data, capture_output=True)
    return done.stdout, done.stderr, done.returncode


def printed(program, data):
    """What a program writes of a book; what else it does is shown with it."""
    run = subprocess.run([program], input=data, capture_output=True)
    beside = run.stderr.decode(errors="replace") + (" (status %d)" % run.returncode if run.returncode else "")
    return run.stdout.decode(errors="replace") + beside


def each(ask, some, jobs):
    """What `ask` returns for each, so many at once."""
    with concurrent.futures.ThreadPoolExecutor(jobs) as pool:
        return list(pool.map(ask, some))


def printed_each(program, books, jobs):
    """What a program writes of each book, in a process of its own."""
    return each(lambda data: printed(program, data), books, jobs)


def run_each(words, some, jobs, ask=run):
    """Both streams and the status of a process for each."""
    return each(lambda data: ask(words, data), some, jobs)


def median(values):
    ordered, middle = sorted(values), len(values) // 2
    return ordered[middle] if len(values) % 2 else (ordered[middle - 1] + ordered[middle]) / 2


def timed(words, data, runs):
    """Milliseconds of a whole process: the median, and the least."""
    took = []
    for _ in range(runs):
        began = time.perf_counter()
        subprocess.run(words, input=data, stdout=subprocess.DEVNULL, stderr=subprocess.DEVNULL)
        took.append((time.perf_counter() - began) * 1000)
    return "%.2f ms (%.2f)" % (median(took), min(took))


def printed_by_itself(words):
    """Prints what a command prints; whether its status is 0."""
    done = subprocess.run(words, capture_output=True, text=True)
    print((done.stdout + done.stderr).rstrip("\n"))
    return done.returncode == 0
