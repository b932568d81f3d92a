"""Stand-ins that are programs, for what only a process shows: streams that fail, and input that comes in pieces (bodies.py)."""
import os
import sys

from sorgwenad.shared import tree
from sorgwenad.shared.oracle import find_oracle
from sorgwenad.stand_ins.bodies import FAULTS

# Python itself ends where its input is a folder, and with -B it writes nothing beside what the stand-in does.
TEXT = """#!/bin/sh
[ ! -d /dev/stdin ] || exec echo "%(name)s: the input can't be read" >&2
exec %(python)s -BESc 'import sys
sys.path.insert(0, "%(tools)s")
from sorgwenad.stand_ins.bodies import FAULTS
FAULTS["%(fault)s"]("%(oracle)s")'
"""


def program(folder, fault):
    """The path of a stand-in with that fault."""
    assert fault in FAULTS, fault
    path = os.path.join(folder, fault.replace(" ", "-"))
    tools = os.path.join(tree.ROOT, "tools")
    tree.write(path, TEXT % dict(name=fault.split()[0], python=sys.executable, tools=tools, fault=fault, oracle=find_oracle()))
    os.chmod(path, 0o755)
    return path
