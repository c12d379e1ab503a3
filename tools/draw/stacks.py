"""Collapsed stacks of a dump, as viewers of flame graphs read them: the frames, oldest first, and the bytes of their blocks."""


def collapse(lines):
    """A line `FRAME;FRAME BYTES` for each stack of the traces of some dumps, in the order of the stacks."""
    sums = {}
    for words in (line.split(" ") for line in lines):
        if words[0] == "trace":
            stack = ";".join(frame.replace(";", "%3B") for frame in words[5:])
            sums[stack] = sums.get(stack, 0) + int(words[3])
    return [f"{stack} {size}" for stack, size in sorted(sums.items())]
