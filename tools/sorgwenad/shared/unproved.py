"""Programs of a tree's crates built with no proof, in half a minute: to show that a run finds a fault that the proof would refuse, and for
`tools/run quick`.

`rt try` compiles a program without proving it, with tests of what a proof would have to show (sums that wrap, indices, ..), runs it and
keeps nothing. Here it works over a kit that leaves a program: the kit's own files, by links, and two small scripts before its compiler and
its linker. What `rt try` compiles at -O0, with each access to memory watched, they also compile at -O2, with the same tests and unwatched.
"""
import os
import shutil
import stat
import subprocess

from sorgwenad.shared import tree
from sorgwenad.shared.proofs import crate_in, kit

CLANG = """#!/bin/sh
case " $* " in *" -fsanitize=address "*)
    (
        for word; do
            shift
            case $word in
            -O0) set -- "$@" -O2 ;;
            -fsanitize=address) ;;
            module.o) set -- "$@" '%(left)s.o' ;;
            *) set -- "$@" "$word" ;;
            esac
        done
        exec '%(real)s' "$@"
    ) || exit
    ;;
esac
exec '%(real)s' "$@"
"""
LINKER = """#!/bin/sh
'%(real)s' "$@" || exit
[ -e '%(left)s.o' ] || exit 0
watched=
for word; do
    shift
    case $watched$word in
    --whole-archive) watched=yes ;;
    yes--no-whole-archive) watched= ;;
    yes*) ;;
    program) set -- "$@" '%(left)s' ;;
    input-0) set -- "$@" '%(left)s.o' ;;
    *) set -- "$@" "$word" ;;
    esac
done
exec '%(real)s' "$@"
"""


def linked(source, folder, without=()):
    """The folder with a link to each thing of the source, but for some."""
    os.makedirs(folder)
    for name in os.listdir(source):
        if name not in without:
            os.symlink(os.path.join(source, name), os.path.join(folder, name))


def kit_that_leaves(program, folder):
    """A kit in the folder whose compiler and linker leave that program beside what they are asked for."""
    linked(kit(), folder, ("bin", "toolchain"))
    # `rt` finds its kit by where its own files are
    own = ("rt", "rtlib.py")
    linked(os.path.join(kit(), "bin"), os.path.join(folder, "bin"), own)
    for name in own:
        shutil.copy(os.path.join(kit(), "bin", name), os.path.join(folder, "bin"))
    toolchain = os.path.join(kit(), "toolchain")
    linked(toolchain, os.path.join(folder, "toolchain"), ("bin",))
    tools = os.path.join(folder, "toolchain", "bin")
    linked(os.path.join(toolchain, "bin"), tools, ("clang", "ld.lld"))
    for name, text in (("clang", CLANG), ("ld.lld", LINKER)):
        path = os.path.join(tools, name)
        tree.write(path, text % {"left": program, "real": os.path.join(toolchain, "bin", name)})
        os.chmod(path, os.stat(path).st_mode | stat.S_IXUSR)
    return os.path.join(folder, "bin", "rt")


def build(name, crates, folder):
    """Builds a program of the crates of that folder, and returns its path; or what was printed where it can't be built."""
    left, room = os.path.join(folder, name), os.path.join(folder, "kit-of-" + name)
    rt = kit_that_leaves(left, room)
    run = subprocess.run([rt, "try", "--steps", "1"], cwd=crate_in(crates, name), stdin=subprocess.DEVNULL, capture_output=True, text=True)
    shutil.rmtree(room)
    printed = run.stdout + run.stderr
    return (left, printed) if os.path.exists(left) else (None, printed)
