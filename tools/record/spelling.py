"""How a file's name is written in a trace and in a dump: as 1 to 255 bytes from 21 to 7E.

A byte of the name in UTF-8 that is none of these, and `%`, is written as `%` and two hexadecimal digits. A name that is then
longer than 255 bytes keeps its end, behind `~` and eight digits of the SHA-256 of the whole name, so that two long names stay
two. `<frozen importlib._bootstrap>` is written `<frozen%20importlib._bootstrap>`, and patterns are to be written so too."""
import hashlib

MOST_BYTES = 255
DIGEST = 8


def shorten(name, prefixes):
    """The name with the first prefix that it has replaced, for prefixes as pairs of old and new."""
    for prefix, short in prefixes:
        if name.startswith(prefix):
            return short + name[len(prefix) :]
    return name


def to_bytes(name):
    """The bytes of a name: those that Python could not read as UTF-8 are as they were, and other lone surrogates as if they were
    characters."""
    try:
        return name.encode("utf-8", "surrogateescape")
    except UnicodeEncodeError:
        return name.encode("utf-8", "surrogatepass")


def spell_byte(byte):
    if 0x21 <= byte <= 0x7E and byte != 0x25:
        return chr(byte)
    return f"%{byte:02X}"


def spell_file(name, prefixes=()):
    """The spelling of a name of a file, of which prefixes may be written otherwise."""
    raw = to_bytes(shorten(name, prefixes))
    spelt = "".join(spell_byte(byte) for byte in raw) or "%"
    if len(spelt) <= MOST_BYTES:
        return spelt
    room = MOST_BYTES - 1 - DIGEST
    tail = spelt[-room:]
    if spelt[-room - 1] == "%":
        tail = tail[2:]
    elif spelt[-room - 2] == "%":
        tail = tail[1:]
    return "~" + hashlib.sha256(raw).hexdigest()[:DIGEST] + tail


def read_prefixes(words):
    """Pairs of old and new prefix, from words `OLD=NEW`; the longest first, so that their order does not matter."""
    pairs = []
    for word in words:
        old, equals, new = word.partition("=")
        if not old or not equals:
            raise ValueError(f"{word!r} is no OLD=NEW")
        pairs.append((old, new))
    return sorted(pairs, key=lambda pair: -len(pair[0]))
