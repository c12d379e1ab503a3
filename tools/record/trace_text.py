"""The text of a trace: operations of tracks in one order, within the limits of the format."""
import re

HEADER = "pymtrace 1"
MOST_BYTES = 16_777_216
MOST_OPERATIONS = 262_144
MOST_TRACKS = 64
MOST_REPORTS = 1024
MOST_FRAMES = 256
MOST_SNAPSHOTS = 16
MOST_LINE = 2_147_483_647

# The operations that print what the machine holds, at most MOST_REPORTS of them in a trace.
REPORTS = ("snapshot", "keep", "stats", "compare", "dump", "heap", "where")

NAME = "[A-Za-z0-9_]{1,32}"
GROUPING = r"(filename plain|filename cumulative|lineno plain|lineno cumulative|traceback plain) (1000000|[1-9][0-9]{0,5})"

# What a program may ask for in its own trace by pymhooks.mark.
MARKS = [
    re.compile(pattern)
    for pattern in (
        "heap|traced|stop|clear|reset_peak",
        "start [1-9][0-9]{0,3}",
        f"(snapshot|dump) {NAME}",
        f"stats {NAME} {GROUPING}",
        f"compare {NAME} {NAME} {GROUPING}",
    )
]


class TooMuch(Exception):
    """A limit of the format, and what to do about it."""


def is_mark(line):
    return any(pattern.fullmatch(line) for pattern in MARKS)


def is_report(line):
    return line.split(" ", 1)[0] in REPORTS


class Room:
    """What a trace still has room for, of operations, bytes, snapshots and operations that print."""

    def __init__(self, operations, size, reports):
        self.operations = operations
        self.size = size
        self.reports = reports
        self.snapshots = set()
        self.tracks = set()
        self.last_track = None

    def measure(self, step):
        """What a step takes: bytes, with the lines of new tracks and with its picks in the greatest numbers; operations that print; and
        names of snapshots and tracks that are new."""
        size, reports, snapshots, tracks, last = 0, 0, set(), set(), self.last_track
        for track, line in step:
            size += len(line) + 1
            if track != last:
                size += len(f"pick {track} {MOST_OPERATIONS}\n")
                last = track
                if track not in self.tracks and track not in tracks:
                    size += len(f"track {track}\n")
                    tracks.add(track)
            if is_report(line):
                reports += 1
                if line.startswith("snapshot "):
                    snapshots.add(line.split(" ")[1])
        return size, reports, snapshots, tracks

    def take(self, step):
        """Takes the room for a step, as pairs of a track and a line; all of it or none."""
        size, reports, snapshots, tracks = self.measure(step)
        if len(step) > self.operations:
            raise TooMuch("operations: begin later with --skip N, or leave out what lives briefly with --thin K")
        if size > self.size:
            raise TooMuch("bytes: shorten names of files with --strip, or begin later with --skip N")
        if reports > self.reports:
            raise TooMuch("operations that print: ask for fewer with --heaps N, or mark less in the program")
        if len(self.snapshots | snapshots) > MOST_SNAPSHOTS:
            raise TooMuch(f"snapshots: a trace has at most {MOST_SNAPSHOTS} names of them")
        self.operations -= len(step)
        self.size -= size
        self.reports -= reports
        self.snapshots |= snapshots
        self.tracks |= tracks
        self.last_track = step[-1][0]


def lay_out(steps):
    """The trace whose operations come in the order of the steps."""
    lines, picks = {}, []
    for step in steps:
        for track, line in step:
            lines.setdefault(track, []).append(line)
            if picks and picks[-1][0] == track:
                picks[-1][1] += 1
            else:
                picks.append([track, 1])
    out = [HEADER]
    for track, operations in lines.items():
        out.append(f"track {track}")
        out += operations
    if len(lines) > 1:
        out += [f"pick {track} {count}" for track, count in picks]
    return "\n".join(out) + "\n"
