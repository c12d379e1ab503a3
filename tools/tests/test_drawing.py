"""Pictures of reports that are written by hand, and of the reports of the examples."""
import glob
import json
import os
import re
import subprocess
import sys
import unittest

import here
from heap_shape import Differs, read_story
from pictures import NothingToDraw, draw_growth, draw_map, draw_time
from stacks import collapse

EXAMPLES = os.path.join(os.path.dirname(here.TOOLS), "examples")

SUMMARY = "summary events 6 status 0\nsummary lock t\n"

# 124 bytes with the hooks are of the class of 128; 104 bytes stay there, since 4 * 104 > 3 * 128, and 96 bytes move.
MOVING = """1 t acquire = ok
2 t malloc m x 100 = ok
3 t realloc m x 80 = ok
4 t heap = pool 1 raw 0
  arena 1 free 63 of 64
  class 128 used 1:1 full 0
5 t realloc m x 72 = ok
6 t heap = pool 1 raw 0
  arena 1 free 63 of 64
  class 96 used 1:1 full 0
"""

# The first request for an arena is refused, and so is its raw memory; the second one is granted.
REFUSED = """1 t acquire = ok
2 t refuse arena 1 = ok
3 t refuse raw 1 = ok
4 t malloc m x 8 = null
5 t calloc m y 2 4 = ok
6 t heap = pool 1 raw 0
  arena 1 free 63 of 64
  class 32 used 1:1 full 0
"""


# Pools of three classes lie in the places 0, 1 and 2; the first two are freed, and a fourth class takes a pool.
FREED = """1 t acquire = ok
2 t malloc m x 8 = ok
3 t malloc m y 100 = ok
4 t malloc m z 224 = ok
5 t free m x = ok
6 t free m y = ok
7 t malloc m w 200 = ok
8 t heap = pool 2 raw 0
  arena 1 free 62 of 64
  class 224 used 1:1 full 0
  class 256 used 1:1 full 0
"""


def example(name):
    with open(os.path.join(EXAMPLES, name + ".report")) as file:
        return file.read()


def draw(what, text):
    return subprocess.run([sys.executable, "-B", here.DRAW, what], input=text, capture_output=True, text=True)


class Following(unittest.TestCase):
    def test_the_heaps_of_all_examples_are_those_that_their_allocations_give(self):
        reports = glob.glob(os.path.join(EXAMPLES, "*.report"))
        self.assertGreater(len(reports), 5)
        for report in reports:
            with open(report) as file:
                read_story(file.read())

    def test_a_heap_that_its_allocations_do_not_give_stops_the_drawing(self):
        forged = example("filling").replace("  class 512 used 1:30 full 0\n", "  class 512 used 1:29 full 0\n")
        with self.assertRaises(Differs):
            read_story(forged)
        drawn = draw("map", forged)
        self.assertEqual((drawn.returncode, drawn.stdout), (1, ""))
        self.assertIn("at event 41 the heap of the report is not the one that its allocations give", drawn.stderr)

    def test_full_arenas_are_known_though_the_report_does_not_list_them(self):
        moment = read_story(example("arena_back")).moments[0]
        self.assertEqual((moment.event, moment.in_pools, moment.raw), (1987, 1985, 0))
        self.assertEqual(moment.arenas, {1: [(31, 31)] * 64, 2: [(31, 1)] + [None] * 63})

    def test_a_block_moves_where_its_class_is_too_large(self):
        first, second = read_story(MOVING + SUMMARY).moments
        self.assertEqual((first.arenas[1][0], first.arenas[1][1]), ((7, 1), None))
        self.assertEqual((second.arenas[1][0], second.arenas[1][1]), (None, (5, 1)))

    def test_a_new_pool_lies_in_the_place_that_was_freed_last(self):
        moment = read_story(FREED + SUMMARY).moments[0]
        self.assertEqual(moment.arenas[1][:4], [None, (13, 1), (15, 1), None])

    def test_refused_arenas_are_counted(self):
        self.assertEqual(read_story(REFUSED + SUMMARY).moments[0].arenas[1][0], (1, 1))

    def test_points_tell_bytes_along_the_way(self):
        points = read_story(MOVING + "7 t malloc r z 600 = ok\n" + SUMMARY).points
        told = [(point.event, point.asked, point.pools, point.arenas, point.raw) for point in points]
        self.assertIn((2, 100, 16384, 1048576, 0), told)
        self.assertEqual(told[-1], (7, 672, 16384, 1048576, 624))


class Pictures(unittest.TestCase):
    def test_the_map_has_a_square_for_each_pool(self):
        moments = read_story(example("arena_back")).moments
        drawn = draw_map(moments)
        live = sum(pool is not None for moment in moments for pools in moment.arenas.values() for pool in pools)
        self.assertEqual(drawn.count("<title>arena "), live)
        self.assertIn("event 1,987: 1,985 blocks in pools, 0 in raw memory, 2 arenas", drawn)
        self.assertIn("<title>arena 2, pool 0: blocks of 512 bytes, 1 of 31</title>", drawn)

    def test_a_report_without_heaps_has_no_map_and_has_lines(self):
        story = read_story(example("overrun"))
        with self.assertRaises(NothingToDraw):
            draw_map(story.moments)
        self.assertIn("asked for in all 48 B", draw_time(story.points))

    def test_a_report_without_events_is_refused(self):
        drawn = draw("time", "summary events 0 status 0\n")
        self.assertEqual((drawn.returncode, drawn.stderr), (1, "pymdraw: the report has no event\n"))

    def test_the_page_has_every_moment(self):
        drawn = draw("html", example("arena_back")).stdout
        moments = json.loads(re.search(r"const moments=(.*?),colours=", drawn).group(1))
        self.assertEqual(len(moments), 5)
        self.assertEqual(moments[0][:3], [1987, 1985, 0])
        self.assertEqual(moments[0][3]["2"], [31 << 11 | 1] + [0] * 63)
        self.assertNotRegex(drawn, "@[A-Z]+@")

    def test_each_growing_key_has_its_line(self):
        drawn = draw_growth(["growth 2", "  +300 100 250 400 /a.py:1 /b.py:2", "  +5 0 0 5 /c.py:3", ""])
        self.assertEqual(drawn.count("<polyline"), 2)
        self.assertIn('points="20.0,40.5 100.0,29.2 180.0,18.0"', drawn)
        self.assertIn("/a.py:1 /b.py:2</text>", drawn)

    def test_nothing_that_grows_is_told(self):
        self.assertEqual(draw("growth", "growth 0\n").stderr, "pymdraw: nothing grows\n")
        self.assertEqual(draw("growth", "groups 0\n").stderr, "pymdraw: the input is not what the command growth prints\n")

    def test_stacks_of_a_dump_are_summed(self):
        traces = ["trace 0 a 10 2 /m.py:1 /f.py:2", "trace 0 b 5 3 /m.py:1 /f.py:2", "trace 0 c 7 1 /m.py:1"]
        self.assertEqual(collapse(["pysnap 1", "limit 2", *traces, "end"]), ["/m.py:1 7", "/m.py:1;/f.py:2 15"])

    def test_other_words_are_refused(self):
        self.assertEqual(draw("maps", "").returncode, 2)


if __name__ == "__main__":
    unittest.main()
