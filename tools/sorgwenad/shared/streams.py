"""Input and output that fail, and input that comes in pieces."""
import os
import re
import subprocess
import threading

from sorgwenad.shared import tree

# Sizes of the pieces that input comes in.
PIECES = (1, 7, 4095, 4097)


def with_streams(words, given, out):
    """What is printed on standard error, and the status. Input or output: a file, or None for one that is closed."""
    def closed():
        for number, file in ((0, given), (1, out)):
            if file is None:
                os.close(number)
    files = [os.open(path or os.devnull, how) for path, how in ((given, os.O_RDONLY), (out, os.O_WRONLY))]
    done = subprocess.run(words, stdin=files[0], stdout=files[1], stderr=subprocess.PIPE, preexec_fn=closed)
    for file in files:
        os.close(file)
    return done.stderr, done.returncode


def streams_reported(who, words, cases):
    """Whether a program prints what is expected where its input or its output fails. A case: its title, the two, and what is expected, as
    it stands or as an expression for all of it."""
    wrong = 0
    for title, given, out, must in cases:
        shown, status = with_streams(words, given, out)
        right = status == 0 and (must.fullmatch(shown) if isinstance(must, re.Pattern) else shown == must)
        wrong += not right
        if not right:
            print("%s\nexpected: %r\n%s (status %d): %r" % (title, must, who, status, shown[-300:]))
    print("%s: %d times the input or the output fails, %d reported wrongly" % (who, len(cases), wrong))
    return not wrong


def failures(program, paper="largest.book"):
    """Whether a program reports it where its input or its output fails: a folder for input, a full device and a closed output."""
    paper = os.path.join(tree.ROOT, "papers", paper)
    right = True
    cant_write = "can't be written"
    for name, given, out, words in (("a folder", tree.ROOT, "/dev/full", "can't be read"),
                                    ("a full device", paper, "/dev/full", cant_write), ("a closed output", paper, None, cant_write)):
        printed = with_streams([program], given, out)[0].decode()
        shown = "; ".join(dict.fromkeys(printed.splitlines()))
        print("%s and %s: %s" % (os.path.basename(program), name, shown or "nothing is printed"))
        right = right and words in printed
    return right


def given_in(words, pieces, flags=0, seconds=None):
    """A run whose input comes in these pieces, for as long as it is read. It is ended if it takes more seconds than these."""
    reads, writes = os.pipe2(os.O_CLOEXEC | flags)
    program = subprocess.Popen(words, stdin=reads, stdout=subprocess.PIPE, stderr=subprocess.PIPE)
    os.close(reads)

    def give():
        try:
            for piece in pieces:
                os.write(writes, piece)
        except BrokenPipeError:
            # it may stop reading where all is settled
            pass
        finally:
            os.close(writes)
    giving = threading.Thread(target=give)
    giving.start()
    try:
        out, err = program.communicate(timeout=seconds)
    except subprocess.TimeoutExpired:
        program.kill()
        out, err = program.communicate()
    giving.join()
    return out, err, program.returncode


def in_pieces(size):
    """A run whose input comes so many bytes at a time. Of few bytes each piece is read by itself: that is what O_DIRECT does to a pipe."""
    def ask(words, data):
        return given_in(words, (data[at:at + size] for at in range(0, len(data), size)), os.O_DIRECT if size < 512 else 0)
    return ask
