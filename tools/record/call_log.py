"""The log of a recording, as pymhooks.c writes it: a header, records of 24 bytes in the order of the calls, and texts."""
import struct
from typing import NamedTuple

MAGIC = b"pymlog1\0"
HEADER_BYTES = 4096
HEADER = struct.Struct("<8s12Q")
RECORD = struct.Struct("<BBHIQQ")

# The kinds of records.
(NOTHING, MALLOC, CALLOC, REALLOC, FREE, CALL, LINE, RETURN, FILE_NAME, MARK, DAMAGE, THREAD_END, VANISHED) = range(13)
ALLOCATIONS = (MALLOC, CALLOC, REALLOC)
CALLS = (MALLOC, CALLOC, REALLOC, FREE)

# In a record's domain: the caller lacked the interpreter lock.
UNLOCKED = 0x80

# Why a recording ended.
(RUNNING, ASKED_TO_STOP, LOG_FULL, TOO_MANY_BLOCKS, TOO_MANY_TEXTS, LOCK_LACKING) = range(6)


class NoLog(Exception):
    """The file is no log of a recording."""


class Header(NamedTuple):
    """The counts of a log, in the order in which the file has them."""

    magic: bytes
    version: int
    records: int
    most_records: int
    text_bytes: int
    end: int
    has_debug_hooks: int
    threads: int
    earlier_frees: int
    earlier_reallocs: int
    nulls: int
    vanished: int
    deep_stacks: int


class Record(NamedTuple):
    """One record. The meaning of `ident`, `a` and `b` goes with the kind, as pymhooks.c lists it."""

    kind: int
    domain: int
    thread: int
    ident: int
    a: int
    b: int


class CallLog:
    """A log in memory."""

    def __init__(self, header, data, text):
        self.header = header
        self.data = data
        self.text = text

    @classmethod
    def read(cls, path):
        with open(path, "rb") as file:
            first = file.read(HEADER_BYTES)
            if len(first) < HEADER_BYTES or not first.startswith(MAGIC):
                raise NoLog(f"{path} is no log of a recording")
            header = Header(*HEADER.unpack_from(first))
            data = file.read(header.records * RECORD.size)
            file.seek(HEADER_BYTES + header.most_records * RECORD.size)
            text = file.read(header.text_bytes)
        if len(data) < header.records * RECORD.size or len(text) < header.text_bytes:
            raise NoLog(f"{path} is cut short")
        return cls(header, data, text)

    def records(self):
        """The records in order, as plain tuples in the order of Record's fields."""
        return RECORD.iter_unpack(self.data)

    def count_calls(self):
        """How many records are calls of an allocator."""
        kinds = self.data[:: RECORD.size]
        return sum(kinds.count(kind) for kind in CALLS)

    def text_at(self, at, size):
        raw = self.text[at : at + size]
        try:
            return raw.decode("utf-8", "surrogatepass")
        except UnicodeDecodeError:
            return raw.decode("latin-1")
