"""The events of a report that `pymtrace replay` printed."""
import re
from typing import NamedTuple

EVENT = re.compile(r"([0-9]+) ([A-Za-z0-9_]+) (.+) = ([^=]+)")


class Event(NamedTuple):
    """One event: its number, the words of its operation, its reply, and the lines below it without their two blanks."""

    number: int
    words: list
    reply: str
    lines: list


def read_events(lines):
    """The events of a report, from its lines."""
    number, words, reply, below = None, None, None, []
    for line in lines:
        line = line.rstrip("\n")
        if line.startswith("  "):
            below.append(line[2:])
            continue
        if number is not None:
            yield Event(number, words, reply, below)
        found = EVENT.fullmatch(line)
        number = int(found.group(1)) if found else None
        if found:
            words, reply, below = found.group(3).split(" "), found.group(4), []
    if number is not None:
        yield Event(number, words, reply, below)
