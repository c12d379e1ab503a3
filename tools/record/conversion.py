"""From the log of a recording to a trace: all that a trace has and a log has not is decided here.

- **Names.** The block that the log numbers k is called `bk`. Names are never used again.
- **Tracks.** Each thread is a track, the first one `main`. A thread that begins when there are 64 tracks takes over the track of one
  that has ended.
- **The lock.** CPython checks that a call of the mem and object domains has the interpreter lock, so such a call tells who owns it:
  where the owner changes, the old one's `release` and the new one's `acquire` are written. Raw calls tell nothing and need nothing.
  A call that the log says lacked the lock is written without it, and the replay ends there.
- **Blocks from before the recording.** Their frees are left out and counted. A realloc of one is written as a realloc of a name that
  holds nothing, which allocates.
- **Frames.** They are written before allocations, and before a call that ends the replay. Of a stack of more than 256 frames the log
  has the newest and the 255 oldest.
- **Damage.** What the recorded process found in a block's pads is written as a `poke` right before the call that meets it.
- **The end.** A trace that no fault ends closes with `heap`, and with the statistics of tracemalloc where frames are written."""
import sys
import time
from typing import NamedTuple

from call_log import (
    ALLOCATIONS,
    ASKED_TO_STOP,
    CALL,
    CALLOC,
    CALLS,
    DAMAGE,
    FILE_NAME,
    FREE,
    LINE,
    LOCK_LACKING,
    LOG_FULL,
    MALLOC,
    MARK,
    NOTHING,
    REALLOC,
    RETURN,
    RUNNING,
    THREAD_END,
    TOO_MANY_BLOCKS,
    TOO_MANY_TEXTS,
    UNLOCKED,
    VANISHED,
    Record,
)
from spelling import spell_file
from trace_text import (
    HEADER,
    MOST_BYTES,
    MOST_FRAMES,
    MOST_LINE,
    MOST_OPERATIONS,
    MOST_REPORTS,
    MOST_TRACKS,
    Room,
    TooMuch,
    is_mark,
    lay_out,
)

LETTERS = "rmo"
RAW = "r"

# What a replay takes for a block beside its data, its greatest block in a pool, and the raw memory that it has.
HOOK_BYTES = 24
GREATEST_SMALL = 512
RAW_BYTES = 268_435_456

CLOSING = ("heap",)
CLOSING_WITH_FRAMES = ("heap", "traced", "snapshot end", "stats end lineno plain 10")

ENDS = {
    RUNNING: "the process ended in the middle of the recording",
    LOG_FULL: "the log was full before the program had ended: --log-max N makes it larger",
    LOCK_LACKING: "the recording ended at a call of the mem or object domain without the interpreter lock",
    TOO_MANY_BLOCKS: "the recording ended early, at 1.5 million live blocks",
    TOO_MANY_TEXTS: "the recording ended early, at 16,383 files or 4 MiB of their names",
}


class Options(NamedTuple):
    """How a log is converted. `prefixes` are pairs of a prefix of file names and what is written for it."""

    frames: int = 0
    most_operations: int = MOST_OPERATIONS
    heaps: int = 50
    skip: int = 0
    thin: int = 0
    prefixes: tuple = ()


def moves_between(have, want):
    """The operations that turn one stack of (file, line), oldest first, into another."""
    same = 0
    while same < len(have) and same < len(want) and have[same] == want[same]:
        same += 1
    moves_line = same < len(have) and same < len(want) and have[same][0] == want[same][0]
    moves = ["return"] * (len(have) - same - moves_line)
    if moves_line:
        moves.append(f"line {want[same][1]}")
        same += 1
    return moves + [f"call {file} {line}" for file, line in want[same:]]


def find_brief(log, most):
    """The blocks that are freed in order at most so many calls after they came, and whose pads nobody damaged."""
    born, brief, calls = {}, set(), 0
    for kind, domain, _, ident, _, _ in log.records():
        if kind in ALLOCATIONS:
            calls += 1
            born.setdefault(ident, (calls, domain))
        elif kind == DAMAGE:
            born.pop(ident, None)
        elif kind == FREE:
            calls += 1
            at, letter = born.pop(ident, (0, domain))
            if at and calls - at <= most and letter == domain:
                brief.add(ident)
    return brief


def telling(records, count):
    """The records, telling on standard error every two seconds how many are done."""
    due = time.monotonic() + 2
    for done, record in enumerate(records):
        if done % 65536 == 0 and time.monotonic() >= due:
            print(f"pymrecord: {done:,} of {count:,} records converted", file=sys.stderr)
            due = time.monotonic() + 2
        yield record


class Conversion:
    """One log on its way to a trace: `steps` has the operations of each call, as pairs of a track and a line."""

    def __init__(self, log, options):
        self.log = log
        self.options = options
        self.closing = CLOSING_WITH_FRAMES if options.frames else CLOSING
        set_aside = options.heaps + len(self.closing)
        self.room = Room(
            options.most_operations - set_aside,
            MOST_BYTES - len(HEADER) - 1 - sum(len(line) + 1 for line in self.closing) - options.heaps * len("heap\n"),
            MOST_REPORTS - set_aside,
        )
        self.steps = []
        self.files = {}  # spelling of each file's number
        self.stacks = {}  # of each thread, as the log has it
        self.written = {}  # of each track, as the trace has it
        self.letters = {}  # of each live block
        self.raw = {}  # bytes of each live block in raw memory
        self.raw_now = 0
        self.raw_most = 0
        self.damage = {}  # pokes of each block, from its pads
        self.track_of = {}  # of each thread
        self.free_tracks = []  # of threads that have ended
        self.owner = None  # the track that has the lock
        self.calls_seen = 0
        self.calls_written = 0
        self.calls_left_out = 0
        self.earlier = 0
        self.has_faulted = False
        self.remarks = []
        self.brief = find_brief(log, options.thin) if options.thin else frozenset()

    def convert(self):
        """The trace, and remarks on what it leaves out."""
        cut = None
        try:
            self.begin()
            for record in telling(self.log.records(), self.log.header.records):
                self.follow(Record._make(record))
                if self.has_faulted:
                    break
        except TooMuch as limit:
            cut = str(limit)
        self.spread_heaps()
        self.close()
        return lay_out(self.steps), self.tell(cut)

    def begin(self):
        first = [("main", "acquire")]
        if self.options.frames:
            first.append(("main", f"start {self.options.frames}"))
        self.room.take(first)
        self.steps.append(first)
        self.owner = "main"
        self.track_of[0] = "main"

    def follow(self, record):
        """Takes one record of the log."""
        if record.kind in CALLS or record.kind == VANISHED:
            self.follow_call(record)
        elif record.kind == FILE_NAME:
            self.files[record.ident] = spell_file(self.log.text_at(record.a, record.b), self.options.prefixes)
        elif record.kind == CALL:
            self.stack_of(record).append((self.files[record.ident], min(record.a, MOST_LINE)))
        elif record.kind == LINE:
            stack = self.stack_of(record)
            stack[-1] = (stack[-1][0], min(record.a, MOST_LINE))
        elif record.kind == RETURN:
            stack = self.stack_of(record)
            del stack[len(stack) - record.a :]
        elif record.kind == MARK:
            self.write_mark(record)
        elif record.kind == DAMAGE:
            self.keep_damage(record)
        elif record.kind == THREAD_END:
            track = self.track_of.pop(record.thread, None)
            if track:
                self.free_tracks.append(track)
        elif record.kind != NOTHING:
            raise ValueError(f"the log has a record of kind {record.kind}")

    def stack_of(self, record):
        return self.stacks.setdefault(record.thread, [])

    def find_track(self, thread):
        track = self.track_of.get(thread)
        if track is None:
            if len(self.room.tracks) < MOST_TRACKS:
                track = f"t{thread}"
            elif self.free_tracks:
                track = self.free_tracks.pop(0)
            else:
                raise TooMuch(f"threads: a trace has at most {MOST_TRACKS} tracks at once")
            self.track_of[thread] = track
        return track

    def write_mark(self, record):
        line = self.log.text_at(record.a, record.b)
        if is_mark(line):
            self.write([(self.find_track(record.thread), line)])
        else:
            self.remarks.append(f"a mark that is no operation for marks is left out: {line!r}")

    def keep_damage(self, record):
        """The poke that writes what was found in the pads. None may forge a letter: one that would begins behind it, at -7."""
        offset = record.a if record.a < 1 << 63 else record.a - (1 << 64)
        found = record.b.to_bytes(8, "little")
        if offset == -8 and chr(found[0]) in LETTERS:
            offset, found = -7, found[1:]
        self.damage.setdefault(record.ident, []).append(f"poke b{record.ident} {offset} {found.hex()}")

    def follow_call(self, record):
        if record.kind != VANISHED:
            self.calls_seen += 1
        is_known = record.ident in self.letters or record.kind in ALLOCATIONS or record.domain & UNLOCKED
        if not is_known:
            self.earlier += record.kind == FREE and record.ident not in self.brief
            return
        if self.calls_seen <= self.options.skip or record.ident in self.brief:
            self.calls_left_out += 1
            return
        self.write_call(record)

    def write_call(self, record):
        """Writes one call: who has the lock, what was damaged, the frames, and the call itself."""
        track = self.find_track(record.thread)
        name, held = f"b{record.ident}", self.letters.get(record.ident)
        letter = LETTERS[record.domain & ~UNLOCKED]
        lacks_lock = bool(record.domain & UNLOCKED) and letter != RAW
        step, owner = self.pass_lock(track, letter, lacks_lock)
        damage = self.damage.pop(record.ident, [])
        step += [(track, poke) for poke in damage]
        self.has_faulted = bool(damage) or lacks_lock or held not in (None, letter)
        if self.has_faulted and held and self.options.frames:
            step.append((track, f"where {name}"))
        stack = self.written.get(track, [])
        if self.options.frames and (record.kind in ALLOCATIONS or self.has_faulted):
            stack = list(self.stack_of(record))
            step += [(track, move) for move in moves_between(self.written.get(track, []), stack)]
        step.append((track, self.spell_call(record, letter, name)))
        self.write(step)
        self.written[track] = stack
        self.owner = owner
        self.calls_written += record.kind != VANISHED
        self.count_raw(record, letter)
        if record.kind in ALLOCATIONS:
            self.letters[record.ident] = letter
        else:
            self.letters.pop(record.ident, None)

    def count_raw(self, record, letter):
        """Follows the raw memory that a replay takes. A block in raw memory that gets another size is a new region, and the old one
        goes back after that."""
        old, new = self.raw.pop(record.ident, 0), 0
        if record.kind in ALLOCATIONS:
            need = record.a * (record.b if record.kind == CALLOC else 1) + HOOK_BYTES
            if letter == RAW or old or need > GREATEST_SMALL:
                self.raw[record.ident] = new = need
                self.raw_most = max(self.raw_most, self.raw_now + new)
        self.raw_now += new - old

    def pass_lock(self, track, letter, lacks_lock):
        """The operations that give the lock to the track of a call, or take it from it, and who has it then."""
        if lacks_lock:
            return ([(track, "release")], None) if self.owner == track else ([], self.owner)
        if letter == RAW or self.owner == track:
            return [], self.owner
        release = [(self.owner, "release")] if self.owner else []
        return release + [(track, "acquire")], track

    def spell_call(self, record, letter, name):
        if record.kind == MALLOC:
            return f"malloc {letter} {name} {record.a}"
        if record.kind == CALLOC:
            return f"calloc {letter} {name} {record.a} {record.b}"
        if record.kind == REALLOC:
            return f"realloc {letter} {name} {record.a}"
        return f"free {letter} {name}"

    def write(self, step):
        self.room.take(step)
        self.steps.append(step)

    def spread_heaps(self):
        """Puts a `heap` behind so many steps, evenly spread."""
        heaps, count = self.options.heaps, len(self.steps)
        for k in range(1, min(heaps, count - 1) + 1):
            step = self.steps[count * k // (min(heaps, count - 1) + 1)]
            if not (self.has_faulted and step is self.steps[-1]):
                step.append((step[-1][0], "heap"))

    def close(self):
        """What a replay that no fault ends prints last."""
        if not self.has_faulted:
            track = self.steps[-1][-1][0]
            self.steps.append([(track, line) for line in self.closing])

    def tell(self, cut):
        """Remarks, the most important ones first."""
        header = self.log.header
        operations = sum(map(len, self.steps))
        told = [f"calls written: {self.calls_written:,}; operations: {operations:,}; tracks: {len(self.room.tracks)}"]
        if cut:
            logged = self.log.count_calls()
            told.append(f"cut after {self.calls_seen:,} of {logged:,} calls, since there are too many {cut}")
        if self.has_faulted:
            told.append("the last operation is a call that the debug hooks refuse: the replay ends there with a fault")
        if self.raw_most > RAW_BYTES:
            told.append(
                f"up to {self.raw_most:,} bytes of raw memory at once: a call past the {RAW_BYTES:,} of a replay answers null there"
            )
        if header.end != ASKED_TO_STOP:
            told.append(ENDS[header.end])
        counts = (
            ("calls left out for --skip and --thin", self.calls_left_out),
            ("frees of blocks from before the recording, left out", header.earlier_frees + self.earlier),
            ("reallocs of blocks from before the recording, written as new blocks", header.earlier_reallocs),
            ("calls that answered NULL, left out", header.nulls),
            ("blocks that vanished unseen, freed where their addresses came anew", header.vanished),
            (f"stacks of more than {MOST_FRAMES} frames, cut behind the newest frame", header.deep_stacks),
        )
        told += [f"{what}: {count:,}" for what, count in counts if count]
        return told + self.remarks


def convert(log, options):
    """The text of the trace that a log stands for, and remarks for people."""
    return Conversion(log, options).convert()
