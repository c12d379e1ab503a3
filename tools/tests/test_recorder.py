"""Programs that are recorded and replayed. These tests need Python's headers and a compiler, and the program."""
import itertools
import json
import os
import re
import subprocess
import sys
import tempfile
import unittest

import here
from here import needs, replay, takes

GROWS = takes("acquire\nmalloc m x 8\nrealloc m x 40\ncalloc m y 2 3\nfree m x\nfree m y\nheap\n")
HAS_TRACKS = bool(here.PROGRAM) and replay("pymtrace 1\ntrack t\ntrack u\nacquire\npick u 1\n")[0] == 0
TRACES = takes("start 1\ntraced\nsnapshot s\nstats s lineno plain 10\n")
CAN_RECORD, CAN_START = here.find_hooks()

EXAMPLES = os.path.join(os.path.dirname(here.TOOLS), "examples", "scripts")

# What scripts import before they are recorded: an extension's functions, called through ctypes with the interpreter lock and without
# it; and tracemalloc, which lies below the hooks where it begins before them.
HELPERS = {
    "extension.py": """
import ctypes
functions = ctypes.pythonapi
functions.PyMem_Malloc.restype = ctypes.c_void_p
functions.PyMem_Malloc.argtypes = [ctypes.c_size_t]
functions.PyMem_Free.argtypes = functions.PyObject_Free.argtypes = [ctypes.c_void_p]
unlocked = ctypes.CDLL(None)
unlocked.PyMem_Malloc
""",
    "watch.py": """
import tracemalloc
tracemalloc.start()
class Node:
    __slots__ = ("name", "data", "next")
""",
}
WRONG_DOMAIN = "import extension\nblock = extension.functions.PyMem_Malloc(32)\nextension.functions.PyObject_Free(block)\n"
NO_LOCK = "import extension\nblock = extension.unlocked.PyMem_Malloc(8)\n"

# Appended to a script: the heap of the trace and the process's own account of it, at the same moment.
ACCOUNT = """
import sys, pymhooks
pymhooks.mark("heap")
pymhooks.put_aside(True)
sys._debugmallocstats()
pymhooks.put_aside(False)
"""
CHURN = """
sizes = [100 + (k * 37) % 380 for k in range(97)]
kept = []
for wave in range(3):
    for k in range(40):
        kept += [bytes(size) for size in sizes]
    kept[:] = kept[::9]
del kept
"""

ODD_PROGRAMS = {
    "an exception": ("x = [bytes(100) for _ in range(10)]\nraise ValueError('no')\n", 1),
    "an exit without a word": ("import os\nx = [bytes(100) for _ in range(10)]\nos._exit(3)\n", 3),
    "a kill": ("import os, signal\nx = [bytes(100) for _ in range(10)]\nos.kill(os.getpid(), signal.SIGKILL)\n", -9),
    "a read of address 0": ("import ctypes\nx = [bytes(100) for _ in range(10)]\nctypes.string_at(0)\n", -11),
    "a deep recursion": (
        "import sys\nsys.setrecursionlimit(5000)\nkept = []\n"
        "def dig(n):\n    kept.append(bytes(50 + n % 3))\n    n and dig(n - 1)\ndig(1000)\n",
        0,
    ),
    "tracemalloc inside": (
        "import tracemalloc\ntracemalloc.start(3)\nx = [bytes(100) for _ in range(100)]\ntracemalloc.take_snapshot()\n",
        0,
    ),
    "coroutines": (
        "import asyncio\nasync def one(n):\n    await asyncio.sleep(0)\n    return str(n)\nasync def all_of():\n"
        "    return await asyncio.gather(*(one(k) for k in range(50)))\nasyncio.run(all_of())\n",
        0,
    ),
}
# The objects are such as no free list keeps, since tracemalloc gives a block of a free list to the line that uses it again, which no
# allocator sees.
BESIDE_TRACEMALLOC = """
import pymhooks, tracemalloc
from watch import Node
def build(count):
    head = None
    for k in range(count):
        node = Node()
        node.name = "node-%d" % k
        node.data = b"x" * (40 + k % 600)
        node.next = head
        head = node
    return head
def trim(head):
    while head and head.next:
        head.next = head.next.next
        head = head.next
first = build(3000)
trim(first)
second = build(500)
pymhooks.mark("snapshot s")
pymhooks.mark("stats s lineno plain 1000000")
snapshot = tracemalloc.take_snapshot()
for group in snapshot.statistics("lineno"):
    frame = group.traceback[0]
    print("group", group.size, group.count, "%s:%d" % (frame.filename, frame.lineno))
"""
THREADS = """
import sys, threading
sys.setswitchinterval(1e-4)
done = []
def work(k):
    for i in range(200):
        done.append(bytes(i) + str(k).encode())
threads = [threading.Thread(target=work, args=(k,)) for k in range(3)]
for thread in threads: thread.start()
for thread in threads: thread.join()
"""


def record(path, *options, status=0):
    """Records a script; returns the trace and what was printed."""
    with tempfile.TemporaryDirectory() as folder:
        trace = os.path.join(folder, "trace")
        command = [here.RECORD, "--python", sys.executable, "--out", trace, *options, path]
        ran = subprocess.run(command, capture_output=True, text=True)
        if ran.returncode:
            raise AssertionError(ran.stderr)
        told = re.search(r"the script's process (?:was ended by signal|ended with status) (\d+)", ran.stderr)
        ended = int(told.group(1)) if told else 0
        if abs(status) != ended:
            raise AssertionError(f"the script ended with {ended}: {ran.stderr}")
        with open(trace) as file:
            return file.read(), ran.stdout + ran.stderr


def record_text(script, *options, status=0):
    """Records the text of a script, with the helpers beside it."""
    with tempfile.TemporaryDirectory() as folder:
        for name, text in {**HELPERS, "script.py": script}.items():
            with open(os.path.join(folder, name), "w") as file:
                file.write(text)
        return record(os.path.join(folder, "script.py"), *options, status=status)


def read_account(text):
    """From sys._debugmallocstats: pools and blocks of each class, free pools, and arenas given, back and most."""
    classes = {}
    for size, pools, blocks in re.findall(r"^ *\d+ +(\d+) +(\d+) +(\d+) +\d+$", text, re.M):
        classes[int(size)] = (int(pools), int(blocks))

    def count(what):
        return int(re.search(re.escape(what) + r" *= *([\d,]+)", text).group(1).replace(",", ""))

    free = int(re.search(r"([\d,]+) unused pools", text).group(1).replace(",", ""))
    return classes, free, (count("# arenas allocated total"), count("# arenas reclaimed"), count("# arenas highwater mark"))


def read_heap(lines):
    """The same of the lines that follow a `heap`, but for the arenas."""
    classes, free = {}, 0
    for line in lines:
        words = line.split()
        if words[0] == "arena":
            free += int(words[3])
        else:
            size, used, full = int(words[1]), [], int(words[5])
            if words[3] != "-":
                used = [int(pool.split(":")[1]) for pool in words[3].split(",")]
            classes[size] = (len(used) + full, sum(used) + full * (16336 // size))
    return classes, free


def heaps_of(report):
    """The lines of each `heap` of a report."""
    found = []
    for line in report.split("\n"):
        if " heap = " in line:
            found.append([])
        elif line.startswith("  ") and found:
            found[-1].append(line)
    return found


@needs(bool(here.PROGRAM), "the recording of real programs, since no program is told")
@needs(CAN_RECORD, "the recording of real programs, since this machine has no compiler or no headers of Python")
class Recorded(unittest.TestCase):
    @needs(CAN_START, "the heap against the process's own account: this Python has no shared library")
    @needs(GROWS, "the heap against the process's own account: the program takes no calloc and realloc")
    def test_the_heap_is_the_one_of_the_process(self):
        trace, printed = record_text(CHURN + ACCOUNT, "--since", "start", "--debug", "--heaps", "0")
        status, report = replay(trace[: trace.index("\nheap\n") + len("\nheap\n")])
        self.assertEqual(status, 0)
        classes, free, arenas = read_account(printed)
        self.assertGreater(len(classes), 20)
        self.assertEqual(read_heap(heaps_of(report)[-1]), (classes, free))
        given, back, most = re.search(r"^summary arenas given (\d+) back (\d+) most (\d+)$", report, re.M).groups()
        self.assertEqual((int(given), int(back), int(most)), arenas)

    def test_an_overrun_is_found_by_the_replay(self):
        trace, _ = record(os.path.join(EXAMPLES, "overrun.py"), "--debug", status=-6)
        status, report = replay(trace)
        name = re.search(r"poke (\w+) 32 20fdfdfdfdfdfdfd", trace).group(1)
        fault = f"main free m {name} = fault\n  bad_tail 0\n  block {name} size 32\n"
        self.assertEqual(status, 1)
        self.assertIn(fault + "  head 6dfdfdfdfdfdfdfd\n  tail 20fdfdfdfdfdfdfd\n", report)

    def test_a_free_in_the_wrong_domain_is_found_without_the_debug_hooks(self):
        status, report = replay(record_text(WRONG_DOMAIN)[0])
        self.assertEqual(status, 1)
        self.assertIn(" = fault\n  bad_id found 6d verified 6f\n", report)

    def test_a_call_without_the_lock_is_found(self):
        trace, _ = record_text(NO_LOCK, "--debug", status=-6)
        status, report = replay(trace)
        self.assertEqual(status, 1)
        self.assertRegex(report, r"main malloc m b\d+ 8 = fault\n  unlocked\n")

    def test_a_recording_is_replayed_and_drawn(self):
        for script, arenas in (("waves.py", 2), ("leak.py", 3)):
            with self.subTest(script):
                status, report = replay(record(os.path.join(EXAMPLES, script))[0])
                self.assertEqual(status, 0)
                page = subprocess.run([here.DRAW, "html"], input=report, capture_output=True, text=True)
                self.assertEqual(page.returncode, 0)
                moments = json.loads(re.search(r"const moments=(.*?),colours=", page.stdout).group(1))
                self.assertEqual(len(moments), 51)
                self.assertGreaterEqual(max(len(moment[3]) for moment in moments), arenas)

    @needs(GROWS, "odd programs: the program takes no calloc and realloc")
    def test_odd_programs_give_traces(self):
        for what, (script, ends) in ODD_PROGRAMS.items():
            with self.subTest(what):
                status, report = replay(record_text(script, status=ends)[0])
                self.assertEqual(status, 0)
                self.assertGreater(int(re.search(r"^summary blocks (\d+)", report, re.M).group(1)), 9)

    @needs(HAS_TRACKS and GROWS, "threads: the program takes one track")
    def test_threads_are_tracks(self):
        trace, _ = record_text(THREADS)
        status, report = replay(trace)
        self.assertEqual(status, 0)
        self.assertEqual(trace.count("\ntrack "), 4)
        self.assertNotRegex(report, " = (busy|held|not_held|absent)\n")

    @needs(TRACES and GROWS, "statistics beside tracemalloc's own: the program makes no statistics")
    def test_statistics_are_those_of_tracemalloc_in_the_same_process(self):
        trace, printed = record_text(BESIDE_TRACEMALLOC, "--frames", "1")
        status, report = replay(trace)
        self.assertEqual(status, 0)
        groups = report[report.index(" stats s lineno") :].split("\n")[1:]
        ours = {group for group in itertools.takewhile(lambda line: line.startswith("  "), groups) if "/script.py:" in group}
        theirs = {f"  {group}" for group in re.findall(r"^group (.*/script\.py:\d+)$", printed, re.M)}
        self.assertEqual(ours, theirs)
        self.assertGreater(sum(int(group.split()[0]) for group in ours), 700_000)

    def test_a_call_that_an_allocator_makes_of_another_one_is_not_logged(self):
        # A block of 10,033 bytes is raw memory; CPython's object domain asks the raw domain for it.
        trace, _ = record_text("kept = b'x' * 10000\n", "--debug")
        self.assertEqual(re.findall(r"\n(\w+ \w) b\d+ 100\d\d\n", trace), ["malloc o"])

    def test_a_child_of_a_fork_is_not_recorded(self):
        # An object of bytes takes 33 bytes more than its letters.
        script = "import os\nif not os.fork():\n    kept = b'x' * 4321\n    os._exit(0)\nos.wait()\nkept = b'x' * 5432\n"
        trace, _ = record_text(script)
        self.assertEqual([f" {size}\n" in trace for size in (4321 + 33, 5432 + 33)], [False, True])

    def test_a_kept_log_is_converted_again(self):
        with tempfile.TemporaryDirectory() as folder:
            log = os.path.join(folder, "log")
            whole, _ = record_text("x = [bytes(k) for k in range(50)]\n", "--keep-log", log)
            ran = subprocess.run([here.RECORD, "--log", log, "--heaps", "0", "--frames", "2"], capture_output=True, text=True)
        self.assertEqual(ran.returncode, 0)
        calls = [line for line in ran.stdout.split("\n") if re.match("(malloc|calloc|realloc|free) ", line)]
        self.assertEqual(calls, [line for line in whole.split("\n") if re.match("(malloc|calloc|realloc|free) ", line)])
        self.assertRegex(ran.stdout, r"\ncall \S*script.py 1\n")

    def test_a_recording_goes_into_a_log_of_few_records(self):
        trace, printed = record_text("x = [bytes(k) for k in range(2000)]\n", "--log-max", "1000")
        self.assertIn("the log was full before the program had ended: --log-max N makes it larger", printed)
        self.assertEqual(trace[-6:], "\nheap\n")


if __name__ == "__main__":
    unittest.main()
