"""Dumps of tracemalloc's snapshots: their text, and pymtrace's statistics of them beside tracemalloc's own."""
import ast
import os
import pickle
import subprocess
import sys
import tempfile
import tracemalloc
import unittest
from tracemalloc import Snapshot

import here
import pymsnap
from here import needs

SMALL = "pysnap 1\nlimit 1\ntrace 0 t0000001 10 3 f.py:2\nend\n"


def made(traces, limit):
    """A snapshot of traces (domain, size, frames with the most recent one first, number of all frames)."""
    return Snapshot(traces, limit)


def calculate(words, text):
    """What pymtrace prints of some dumps."""
    ran = subprocess.run([here.PROGRAM, *words], input=text.encode(), capture_output=True)
    return ran.stdout.decode() if ran.returncode == 0 else None


STATISTICS = bool(here.PROGRAM) and calculate(["stats", "--key", "lineno"], SMALL) is not None


class Dumps(unittest.TestCase):
    def test_traces_have_names_in_domain_0_and_numbers_in_others(self):
        snapshot = made([(7, 5, (("b.py", 1),), 1), (0, 10, (("f.py", 2), ("m n.py", 9)), 2), (0, 20, (("f.py", 3),), 1)], 2)
        expected = "pysnap 1\nlimit 2\ntrace 0 t0000001 10 2 m%20n.py:9 f.py:2\ntrace 0 t0000002 20 1 f.py:3\ntrace 7 1 5 1 b.py:1\nend\n"
        self.assertEqual(pymsnap.text([snapshot]), expected)

    def test_fewer_frames_keep_the_most_recent_ones_and_the_number_of_all(self):
        snapshot = made([(0, 10, (("f.py", 2), ("g.py", 3), ("h.py", 4)), 3)], 3)
        self.assertEqual(pymsnap.text([snapshot], pymsnap.Options(frames=1)), SMALL)

    def test_a_snapshot_of_an_older_python_has_no_number_of_all_frames(self):
        self.assertIn("\ntrace 0 t0000001 10 1 f.py:2\n", pymsnap.text([made([(0, 10, (("f.py", 2),))], 5)]))

    def test_patterns_choose_by_the_most_recent_frame(self):
        snapshot = made([(0, 10, (("f.py", 2), ("m.py", 9)), 2), (0, 20, (("m.py", 3),), 1)], 2)
        self.assertIn("t0000001 20 ", pymsnap.text([snapshot], pymsnap.Options(including="m*")))
        self.assertNotIn(" 20 ", pymsnap.text([snapshot], pymsnap.Options(excluding="m*")))

    def test_dumps_that_are_too_large_are_refused_with_the_frames_that_fit(self):
        frames = tuple(("f" * 99, 1000 + k) for k in range(10))
        snapshot = made([(0, 1000 + k % 9000, frames, 10) for k in range(20000)], 10)
        # A line is `trace 0 tNNNNNNN NNNN 10 ` with its line feed, 26 bytes, and 105 bytes for each frame, less one blank: 8 frames are
        # 20,000 * 865 = 17,300,000 bytes and 7 are 15,200,000.
        with self.assertRaisesRegex(pymsnap.TooLarge, "at most 16,777,216: --frames 7 fits"):
            pymsnap.text([snapshot])
        self.assertLess(len(pymsnap.text([snapshot], pymsnap.Options(frames=7))), 16_777_216)

    def test_more_traces_than_a_dump_has_are_refused(self):
        with self.assertRaisesRegex(pymsnap.TooLarge, "more than 262,144 traces"):
            pymsnap.text([made([(0, 1, (("f", 1),), 1)] * 262_145, 1)])


class Files(unittest.TestCase):
    def setUp(self):
        self.folder = tempfile.TemporaryDirectory()
        self.addCleanup(self.folder.cleanup)
        self.path = os.path.join(self.folder.name, "a.pickle")

    def test_a_file_of_a_snapshot_is_written_as_its_dump(self):
        made([(0, 10, (("f.py", 2),), 3)], 1).dump(self.path)
        ran = subprocess.run([sys.executable, "-B", here.SNAP, self.path, self.path], capture_output=True, text=True)
        self.assertEqual((ran.returncode, ran.stdout), (0, SMALL + SMALL))

    def test_a_leak_is_followed_to_its_line(self):
        script = os.path.join(os.path.dirname(here.TOOLS), "examples", "scripts", "leak.py")
        code = "import runpy, sys, tracemalloc\nkept = runpy.run_path(sys.argv[1])\ntracemalloc.take_snapshot().dump(sys.argv[2])\n"
        subprocess.run([sys.executable, "-X", "tracemalloc=2", "-c", code, script, self.path], check=True)
        dump = subprocess.run([sys.executable, "-B", here.SNAP, "--strip", script + "=leak.py", self.path], capture_output=True, text=True)
        stacks = subprocess.run([sys.executable, "-B", here.DRAW, "stacks"], input=dump.stdout, capture_output=True, text=True).stdout
        sums = dict(line.rsplit(" ", 1) for line in stacks.splitlines())
        # Each of the 8,000 answers has at least ten times 19 letters, and a string takes 40 bytes and more beside its letters.
        self.assertGreater(int(sums["leak.py:14;leak.py:8"]), 8000 * (10 * 19 + 40))

    def test_a_file_that_names_anything_else_is_not_run(self):
        class Runs:
            def __reduce__(self):
                return os.mkdir, (evidence,)

        evidence = os.path.join(self.folder.name, "evidence")
        with open(self.path, "wb") as file:
            pickle.dump(Runs(), file)
        ran = subprocess.run([sys.executable, "-B", here.SNAP, self.path], capture_output=True, text=True)
        self.assertEqual((ran.returncode, ran.stdout), (1, ""))
        self.assertIn("no snapshot: it names", ran.stderr)
        self.assertFalse(os.path.exists(evidence))

    def test_a_file_that_is_no_pickle_is_refused(self):
        with open(self.path, "wb") as file:
            file.write(b"pysnap 1\n")
        with self.assertRaises(pymsnap.NoSnapshot):
            pymsnap.read(self.path)


@needs(STATISTICS, "statistics beside tracemalloc's own: the program has no command stats")
class BesideTracemalloc(unittest.TestCase):
    """Twenty outputs of stats and compare on two snapshots of this very process, ties included."""

    @classmethod
    def setUpClass(cls):
        tracemalloc.start(3)
        library = os.path.dirname(ast.__file__)
        kept = []
        for name in ("bisect.py", "heapq.py", "textwrap.py"):
            with open(os.path.join(library, name)) as file:
                kept.append(ast.parse(file.read()))
        cls.old = tracemalloc.take_snapshot()
        kept[0] = {f"key {k}": list(range(300, 320)) for k in range(500)}
        with open(os.path.join(library, "fnmatch.py")) as file:
            kept.append(ast.parse(file.read()))
        cls.new = tracemalloc.take_snapshot()
        tracemalloc.stop()
        cls.dumps = [pymsnap.text([snapshot]) for snapshot in (cls.old, cls.new)]

    @staticmethod
    def spell_key(traceback):
        return " ".join(f"{pymsnap.spelling.spell_file(name)}:{line}" for name, line in traceback._frames)

    def expected_statistics(self, key, is_cumulative, most):
        groups = self.new.statistics(key, is_cumulative)
        rows = [f"  {group.size} {group.count} {self.spell_key(group.traceback)}\n" for group in groups[:most]]
        return f"groups {len(groups)}\n" + "".join(rows)

    def expected_comparison(self, key, is_cumulative, most):
        groups = self.new.compare_to(self.old, key, is_cumulative)
        rows = [
            f"  {group.size} {group.size_diff:+} {group.count} {group.count_diff:+} {self.spell_key(group.traceback)}\n"
            for group in groups[:most]
        ]
        return f"groups {len(groups)}\n" + "".join(rows)

    def test_twenty_outputs_are_tracemallocs_own(self):
        compared = 0
        for key, is_cumulative in (("lineno", False), ("lineno", True), ("filename", False), ("filename", True), ("traceback", False)):
            for most in (10, 1_000_000):
                words = ["--key", key, "--top", str(most)] + ["--cumulative"] * is_cumulative
                with self.subTest(words):
                    self.assertEqual(calculate(["stats", *words], self.dumps[1]), self.expected_statistics(key, is_cumulative, most))
                    both = "".join(self.dumps)
                    self.assertEqual(calculate(["compare", *words], both), self.expected_comparison(key, is_cumulative, most))
                    compared += 2
        self.assertEqual(compared, 20)


if __name__ == "__main__":
    unittest.main()
