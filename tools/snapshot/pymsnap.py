"""Snapshots of tracemalloc as dumps, the text that pymtrace's statistics, comparisons and growth read.

In a program:

    import pymsnap                                     with tools/snapshot on sys.path
    pymsnap.write([tracemalloc.take_snapshot()], "a.snap")

A trace has no name in tracemalloc, so those of domain 0 are called t0000001 and so on, and those of another domain are numbered from
1. Names of files are spelt as in traces: a blank is %20, and a name of more than 255 bytes keeps its end behind a digest.

A dump keeps the most recent frames of each trace and its number of all frames, so statistics by file and by line are those of the
snapshot however many frames are kept."""
import fnmatch
import importlib.util
import os
import pickle
import tracemalloc
from typing import NamedTuple

MOST_BYTES = 16_777_216
MOST_TRACES = 262_144
MOST_LINE = 2_147_483_647
MOST_TOTAL = 65_535


def load_spelling():
    """The module of the recorder that spells names of files, under a name that no program has."""
    path = os.path.join(os.path.dirname(os.path.abspath(__file__)), os.pardir, "record", "spelling.py")
    spec = importlib.util.spec_from_file_location("pymsnap_spelling", path)
    module = importlib.util.module_from_spec(spec)
    spec.loader.exec_module(module)
    return module


spelling = load_spelling()


class TooLarge(ValueError):
    """The dumps would pass a limit of the format; the message says what fits."""


class NoSnapshot(ValueError):
    """The file has no snapshot that Snapshot.dump wrote."""


class Options(NamedTuple):
    """How dumps are written: at most `frames` frames of each trace (None for all), pairs of a prefix of file names and what is written
    for it, and the patterns that the file of a trace's most recent frame must match, and must not match."""

    frames: int = None
    prefixes: tuple = ()
    including: str = None
    excluding: str = None


class SnapshotReader(pickle.Unpickler):
    """A pickle can run what it names. A snapshot names two classes of tracemalloc, and nothing else is let in."""

    def find_class(self, module, name):
        if (module, name) not in (("tracemalloc", "Snapshot"), ("tracemalloc", "_Traces")):
            raise NoSnapshot(f"no snapshot: it names {module}.{name}")
        return super().find_class(module, name)


def read(path):
    """The snapshot in a file that Snapshot.dump wrote."""
    with open(path, "rb") as file:
        try:
            found = SnapshotReader(file).load()
        except (pickle.UnpicklingError, EOFError, AttributeError, IndexError, KeyError, TypeError) as error:
            raise NoSnapshot(f"no snapshot: {error}") from error
    if not isinstance(found, tracemalloc.Snapshot):
        raise NoSnapshot("no snapshot")
    return found


class Speller:
    """Spells the traces of snapshots."""

    def __init__(self, options):
        self.options = options
        self.names = {}

    def spell(self, name):
        found = self.names.get(name)
        if found is None:
            found = self.names[name] = spelling.spell_file(name, self.options.prefixes)
        return found

    def is_kept(self, frames):
        newest, options = self.spell(frames[0][0]), self.options
        if options.including is not None and not fnmatch.fnmatchcase(newest, options.including):
            return False
        return options.excluding is None or not fnmatch.fnmatchcase(newest, options.excluding)

    def spell_trace(self, size, frames, total, most):
        """The end of a trace's line: its size, the number of all its frames, and the most recent ones, oldest first."""
        total = min(max(total, len(frames)), MOST_TOTAL)
        if len(frames) < min(most, total):
            total = len(frames)
        shown = (f"{self.spell(name)}:{min(max(line, 0), MOST_LINE)}" for name, line in reversed(frames[:most]))
        return f"{size} {total} {' '.join(shown)}"

    def lines(self, snapshot, frames):
        """The lines of a dump with at most so many frames a trace."""
        most = min(frames or snapshot.traceback_limit, snapshot.traceback_limit)
        rows = {}
        for domain, size, traceback, *more in snapshot.traces._traces:
            found = traceback or (("<unknown>", 0),)
            if self.is_kept(found):
                total = more[0] if more and more[0] else len(found)
                rows.setdefault(domain, []).append(self.spell_trace(size, found, total, most))
        if sum(map(len, rows.values())) > MOST_TRACES:
            raise TooLarge(f"more than {MOST_TRACES:,} traces in a snapshot: filter with --in or --ex")
        out = ["pysnap 1", f"limit {most}"]
        for domain in sorted(rows):
            for k, row in enumerate(rows[domain], 1):
                key = f"t{k:07}" if domain == 0 else str(k)
                out.append(f"trace {domain} {key} {row}")
        out.append("end")
        return out


def size_of(lines):
    return sum(map(len, lines)) + len(lines)


def find_fitting(speller, snapshots, most):
    """The greatest number of frames below `most` with which all dumps fit, or 0."""
    fits, too_many = 0, most
    while fits + 1 < too_many:
        middle = (fits + too_many) // 2
        if sum(size_of(speller.lines(snapshot, middle)) for snapshot in snapshots) <= MOST_BYTES:
            fits = middle
        else:
            too_many = middle
    return fits


def text(snapshots, options=Options()):
    """The dumps of snapshots, one after the other."""
    speller = Speller(options)
    dumps = [speller.lines(snapshot, options.frames) for snapshot in snapshots]
    size = sum(map(size_of, dumps))
    if size > MOST_BYTES:
        most = max(snapshot.traceback_limit for snapshot in snapshots)
        fits = find_fitting(speller, snapshots, min(options.frames or most, most))
        advice = f"--frames {fits} fits" if fits else "shorten names with --strip, or filter with --in or --ex"
        raise TooLarge(f"{size:,} bytes of dumps, at most {MOST_BYTES:,}: {advice}")
    return "".join("\n".join(dump) + "\n" for dump in dumps)


def write(snapshots, path, options=Options()):
    """Writes the dumps of snapshots into a file."""
    dumps = text(snapshots, options)
    with open(path, "w", encoding="ascii", newline="\n") as file:
        file.write(dumps)
