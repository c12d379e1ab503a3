"""Where the tools are, and what this machine and the program can do. A test imports it before it imports a tool."""
import os
import subprocess
import sys
import tempfile
import unittest

TOOLS = os.path.dirname(os.path.dirname(os.path.abspath(__file__)))
PROGRAM = os.environ.get("PYMTRACE", "")
RECORD = os.path.join(TOOLS, "record", "pymrecord")
DRAW = os.path.join(TOOLS, "draw", "pymdraw")
SNAP = os.path.join(TOOLS, "snapshot", "pymsnap")

for folder in ("record", "snapshot", "draw"):
    sys.path.insert(0, os.path.join(TOOLS, folder))


def replay(trace):
    """Replays the text of a trace; returns the status and the report."""
    ran = subprocess.run([PROGRAM, "replay"], input=trace.encode(), capture_output=True)
    return ran.returncode, ran.stdout.decode()


def takes(operations):
    """Whether the program takes a trace of such a track."""
    return bool(PROGRAM) and replay("pymtrace 1\ntrack t\n" + operations)[0] == 0


def find_hooks():
    """Whether the hooks can be built here for the interpreter that runs the tests, and whether they can record from its start."""
    with tempfile.TemporaryDirectory() as folder:
        build = os.path.join(TOOLS, "record", "build")
        built = subprocess.run([build, sys.executable, folder], capture_output=True).returncode == 0
        return built, not built or os.path.exists(os.path.join(folder, "pymhooks-python"))


told = set()


def needs(condition, what):
    """Leaves a test or a class of tests out where a condition does not hold, and tells so in one line."""
    if not condition and what not in told:
        told.add(what)
        print(f"left out: {what}", file=sys.stderr)
    return unittest.skipUnless(condition, what)
