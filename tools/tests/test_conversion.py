"""Traces of logs that are written by hand."""
import os
import struct
import tempfile
import unittest

import here  # noqa: F401
from call_log import CallLog, NoLog
from conversion import Options, convert

# The numbers of kinds, domains and ends, as the hooks write them.
MALLOC, CALLOC, REALLOC, FREE, CALL, LINE, RETURN, FILE_NAME, MARK, DAMAGE, THREAD_END, VANISHED = range(1, 13)
RAW, MEM, OBJECT, UNLOCKED = 0, 1, 2, 0x80
RUNNING, STOPPED, FULL = 0, 1, 2
PLAIN = Options(heaps=0)


def log_of(records, text=b"", end=STOPPED, earlier_frees=0):
    """A log of records (kind, domain, thread, id, a, b), read back from the bytes that the hooks would have written."""
    counts = (0x030C0100, len(records), len(records) + 2, len(text), end, 1, 1, earlier_frees, 0, 0, 0, 0)
    header = struct.pack("<8s12Q", b"pymlog1\0", *counts)
    data = header.ljust(4096, b"\0") + b"".join(struct.pack("<BBHIQQ", *record) for record in records) + bytes(48) + text
    with tempfile.TemporaryDirectory() as folder:
        path = os.path.join(folder, "log")
        with open(path, "wb") as file:
            file.write(data)
        return CallLog.read(path)


def trace_of(records, options=PLAIN, **more):
    return convert(log_of(records, **more), options)[0].split("\n")[:-1]


class OneTrack(unittest.TestCase):
    def test_calls_of_the_three_domains(self):
        records = [
            (MALLOC, RAW, 0, 1, 700, 0),
            (CALLOC, MEM, 0, 2, 3, 8),
            (REALLOC, MEM, 0, 2, 40, 0),
            (MALLOC, OBJECT, 0, 3, 16, 0),
            (FREE, MEM, 0, 2, 0, 0),
        ]
        expected = ["pymtrace 1", "track main", "acquire", "malloc r b1 700", "calloc m b2 3 8", "realloc m b2 40"]
        expected += ["malloc o b3 16", "free m b2", "heap"]
        self.assertEqual(trace_of(records), expected)

    def test_a_free_of_a_block_from_before_is_left_out_and_told(self):
        log = log_of([(FREE, MEM, 0, 9, 0, 0), (MALLOC, MEM, 0, 10, 1, 0)], earlier_frees=4)
        text, remarks = convert(log, PLAIN)
        self.assertEqual(text, "pymtrace 1\ntrack main\nacquire\nmalloc m b10 1\nheap\n")
        self.assertIn("frees of blocks from before the recording, left out: 5", remarks)

    def test_a_record_that_was_taken_back_is_nothing(self):
        self.assertEqual(trace_of([(0, MEM, 0, 1, 5, 0)]), ["pymtrace 1", "track main", "acquire", "heap"])

    def test_a_block_that_vanished_is_freed_in_its_own_domain(self):
        records = [(MALLOC, MEM, 0, 1, 5, 0), (VANISHED, MEM, 0, 1, 0, 0), (MALLOC, OBJECT, 0, 2, 5, 0)]
        self.assertEqual(trace_of(records)[3:6], ["malloc m b1 5", "free m b1", "malloc o b2 5"])

    def test_the_heap_is_shown_evenly(self):
        records = [(MALLOC, MEM, 0, k, 1, 0) for k in range(1, 6)]
        lines = trace_of(records, Options(heaps=2))
        expected = ["acquire", "malloc m b1 1", "malloc m b2 1", "heap"]
        expected += ["malloc m b3 1", "malloc m b4 1", "heap", "malloc m b5 1", "heap"]
        self.assertEqual(lines[2:], expected)

    def test_a_mark_of_the_program_is_an_operation(self):
        records = [(MARK, 0, 0, 0, 0, 4), (MARK, 0, 0, 0, 4, 6)]
        text, remarks = convert(log_of(records, text=b"heapfree x"), PLAIN)
        self.assertEqual(text, "pymtrace 1\ntrack main\nacquire\nheap\nheap\n")
        self.assertIn("a mark that is no operation for marks is left out: 'free x'", remarks)

    def test_a_process_that_died_is_told(self):
        self.assertIn("the process ended in the middle of the recording", convert(log_of([], end=RUNNING), PLAIN)[1])

    def test_a_file_that_is_no_log_is_refused(self):
        with self.assertRaises(NoLog):
            CallLog.read(__file__)


class Frames(unittest.TestCase):
    TEXT = b"a.pyb c.py"
    FILES = [(FILE_NAME, 0, 0, 0, 0, 4), (FILE_NAME, 0, 0, 1, 4, 6)]

    def test_frames_come_before_allocations_and_not_before_frees(self):
        records = self.FILES + [
            (CALL, 0, 0, 0, 7, 0),
            (CALL, 0, 0, 1, 3, 0),
            (MALLOC, MEM, 0, 1, 5, 0),
            (RETURN, 0, 0, 0, 1, 0),
            (LINE, 0, 0, 0, 8, 0),
            (FREE, MEM, 0, 1, 0, 0),
            (MALLOC, MEM, 0, 2, 6, 0),
        ]
        expected = ["acquire", "start 3", "call a.py 7", "call b%20c.py 3", "malloc m b1 5", "free m b1"]
        expected += ["return", "line 8", "malloc m b2 6"]
        expected += ["heap", "traced", "snapshot end", "stats end lineno plain 10"]
        self.assertEqual(trace_of(records, Options(frames=3, heaps=0), text=self.TEXT)[2:], expected)

    def test_without_frames_the_same_log_has_none(self):
        records = self.FILES + [(CALL, 0, 0, 0, 7, 0), (MALLOC, MEM, 0, 1, 5, 0)]
        self.assertEqual(trace_of(records, text=self.TEXT)[2:], ["acquire", "malloc m b1 5", "heap"])

    def test_damage_is_a_poke_before_the_call_that_meets_it(self):
        tail = int.from_bytes(bytes.fromhex("00fdfdfdfdfdfdfd"), "little")
        records = self.FILES + [(CALL, 0, 0, 0, 7, 0), (MALLOC, MEM, 0, 1, 32, 0)]
        records += [(DAMAGE, MEM, 0, 1, 32, tail), (LINE, 0, 0, 0, 9, 0), (FREE, MEM, 0, 1, 0, 0), (MALLOC, MEM, 0, 2, 1, 0)]
        expected = ["acquire", "start 1", "call a.py 7", "malloc m b1 32"]
        expected += ["poke b1 32 00fdfdfdfdfdfdfd", "where b1", "line 9", "free m b1"]
        self.assertEqual(trace_of(records, Options(frames=1, heaps=0), text=self.TEXT)[2:], expected)


class Faults(unittest.TestCase):
    def test_a_poke_does_not_forge_a_letter(self):
        heads = {"6d41fdfdfdfdfdfd": "poke b1 -7 41fdfdfdfdfdfd", "4141fdfdfdfdfdfd": "poke b1 -8 4141fdfdfdfdfdfd"}
        for found, line in heads.items():
            damage = int.from_bytes(bytes.fromhex(found), "little")
            records = [(MALLOC, MEM, 0, 1, 32, 0), (DAMAGE, MEM, 0, 1, (1 << 64) - 8, damage), (REALLOC, MEM, 0, 1, 50, 0)]
            self.assertEqual(trace_of(records)[3:], ["malloc m b1 32", line, "realloc m b1 50"])

    def test_a_call_in_the_wrong_domain_is_the_last(self):
        records = [(MALLOC, MEM, 0, 1, 5, 0), (FREE, OBJECT, 0, 1, 0, 0), (MALLOC, MEM, 0, 2, 5, 0)]
        self.assertEqual(trace_of(records)[3:], ["malloc m b1 5", "free o b1"])

    def test_a_call_without_the_lock_is_written_without_it(self):
        records = [(MALLOC, MEM, 0, 1, 5, 0), (MALLOC, MEM | UNLOCKED, 0, 2, 5, 0)]
        self.assertEqual(trace_of(records)[2:], ["acquire", "malloc m b1 5", "release", "malloc m b2 5"])
        records = [(MALLOC, MEM, 0, 1, 5, 0), (FREE, MEM | UNLOCKED, 1, 9, 0, 0)]
        expected = ["track main", "acquire", "malloc m b1 5", "track t1", "free m b9", "pick main 2", "pick t1 1"]
        self.assertEqual(trace_of(records)[1:], expected)


class Tracks(unittest.TestCase):
    def test_the_lock_goes_over_with_mem_and_object_calls_and_not_with_raw_ones(self):
        records = [(MALLOC, MEM, 0, 1, 5, 0), (MALLOC, RAW, 1, 2, 6, 0), (MALLOC, OBJECT, 1, 3, 7, 0), (FREE, MEM, 0, 1, 0, 0)]
        expected = ["pymtrace 1"]
        expected += ["track main", "acquire", "malloc m b1 5", "release", "acquire", "free m b1", "heap"]
        expected += ["track t1", "malloc r b2 6", "acquire", "malloc o b3 7", "release"]
        expected += ["pick main 2", "pick t1 1", "pick main 1", "pick t1 3", "pick main 3"]
        self.assertEqual(trace_of(records), expected)

    def test_a_track_of_an_ended_thread_is_used_again(self):
        records = [(MALLOC, RAW, k, k + 1, 5, 0) for k in range(64)]
        records += [(THREAD_END, 0, 5, 0, 0, 0), (MALLOC, RAW, 64, 65, 5, 0)]
        lines = trace_of(records)
        self.assertEqual(sum(line.startswith("track ") for line in lines), 64)
        self.assertEqual(lines[lines.index("track t5") + 1 :][:2], ["malloc r b6 5", "malloc r b65 5"])

    def test_more_threads_at_once_than_tracks_cut_the_trace(self):
        text, remarks = convert(log_of([(MALLOC, RAW, k, k + 1, 5, 0) for k in range(65)]), PLAIN)
        self.assertNotIn("b65", text)
        self.assertIn("cut after 65 of 65 calls, since there are too many threads: a trace has at most 64 tracks at once", remarks)


class Limits(unittest.TestCase):
    def test_operations_that_are_too_many_cut_the_trace(self):
        text, remarks = convert(log_of([(MALLOC, RAW, 0, k, 5, 0) for k in range(1, 40)]), Options(most_operations=20, heaps=3))
        lines = text.split("\n")[2:-1]
        self.assertEqual((len(lines), lines.count("heap"), lines[-1]), (20, 4, "heap"))
        cut = "cut after 16 of 39 calls, since there are too many operations:"
        self.assertTrue(any(remark.startswith(cut) for remark in remarks))

    def test_bytes_that_are_too_many_cut_the_trace(self):
        records = [(FILE_NAME, 0, 0, 0, 0, 250), (FILE_NAME, 0, 0, 1, 250, 250)]
        for k in range(1, 70000):
            records += [(CALL, 0, 0, k % 2, k, 0), (MALLOC, RAW, 0, k, 5, 0), (RETURN, 0, 0, 0, 1, 0)]
        text, remarks = convert(log_of(records, text=b"f" * 250 + b"g" * 250), Options(frames=1, heaps=0))
        self.assertLessEqual(len(text), 16_777_216)
        self.assertGreater(len(text), 16_777_216 - 400)
        self.assertTrue(any("too many bytes: shorten names of files with --strip" in remark for remark in remarks))

    def test_more_raw_memory_than_a_replay_has_is_told(self):
        records = [(MALLOC, RAW, 0, 1, 200_000_000, 0), (MALLOC, MEM, 0, 2, 400, 0), (REALLOC, RAW, 0, 1, 68_435_408, 0)]
        remark = "up to 268,435,456 bytes of raw memory at once: a call past the 268,435,456 of a replay answers null there"
        self.assertNotIn(remark, convert(log_of(records), PLAIN)[1])
        records[-1] = (REALLOC, RAW, 0, 1, 68_435_409, 0)
        self.assertIn(remark.replace("456 bytes", "457 bytes"), convert(log_of(records), PLAIN)[1])

    def test_brief_blocks_are_left_out(self):
        records = [(MALLOC, MEM, 0, 1, 5, 0), (MALLOC, MEM, 0, 2, 6, 0), (FREE, MEM, 0, 2, 0, 0), (FREE, MEM, 0, 1, 0, 0)]
        self.assertEqual(trace_of(records, Options(heaps=0, thin=1))[3:], ["malloc m b1 5", "free m b1", "heap"])

    def test_the_first_calls_are_left_out(self):
        records = [(MALLOC, MEM, 0, 1, 5, 0), (MALLOC, MEM, 0, 2, 6, 0), (FREE, MEM, 0, 1, 0, 0), (REALLOC, MEM, 0, 2, 7, 0)]
        self.assertEqual(trace_of(records, Options(heaps=0, skip=2))[3:], ["realloc m b2 7", "heap"])


if __name__ == "__main__":
    unittest.main()
