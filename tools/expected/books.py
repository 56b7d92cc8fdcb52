"""Document 01's Book, by Python's own means: what a book says, or the refusal."""
import re

TAGS = b"prim derived bitflags write str timestamp bitflagsvalue println trace debug info warn error".split()
LEVELS = TAGS[8:]
HEAD = b"book=1\nclock=no\ntimestamp=\n"
SIZE, BOOK = 13, 7


def is_text(value):
    try:
        value.decode("utf-8", "strict")
    except UnicodeDecodeError:
        return False
    return len(value) <= 4096


def parse(book):
    """SIZE, BOOK, or the clock, the timestamp and the entries; a value comes with its place."""
    if len(book) > 65536:
        return SIZE
    if not book.endswith(b"\n"):
        return BOOK
    lines, at = [], 0
    for line in book[:-1].split(b"\n"):
        lines.append((at, line))
        at += len(line) + 1

    def value(k, key):
        start, line = lines[k]
        return (start + len(key), line[len(key):]) if line.startswith(key) else None

    if len(lines) % 3:
        return BOOK
    edition, clock, stamp = value(0, b"book="), value(1, b"clock="), value(2, b"timestamp=")
    if None in (edition, clock, stamp) or edition[1] != b"1" or clock[1] not in (b"yes", b"no"):
        return BOOK
    if clock[1] == b"no" and stamp[1] or not is_text(stamp[1]):
        return BOOK
    entries, last = [], -1
    for k in range(3, len(lines), 3):
        index, tag, text = value(k, b"index="), value(k + 1, b"tag="), value(k + 2, b"text=")
        if None in (index, tag, text) or not re.fullmatch(rb"0|[1-9][0-9]*", index[1]):
            return BOOK
        number = int(index[1])
        if number > 65535 or number <= last or tag[1] not in TAGS or not is_text(text[1]):
            return BOOK
        entries.append((number, tag[1] in LEVELS, text))
        last = number
    return clock[1] == b"yes", stamp, entries
