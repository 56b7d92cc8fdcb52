"""Document 01's Grammar, Rows and decoding, and Text, by Python's own means: regular expressions, nested lists and exceptions.

`decode` gives what a message holds, `text` what is written for it; either raises Refused, whose number is 01's."""
import re

from books import parse
from spelling import listed, quoted, seconds, signed, time, unsigned

EOF, MALFORMED, ROOM, FORMAT, DEPTH, ROWS, NOPRINT, SIZE = 1, 2, 5, 8, 9, 10, 11, 13
DEEPEST, MOST_ROWS, MOST_PARAMETERS = 16, 1024, 32


class Refused(Exception):
    @property
    def number(self):
        return self.args[0]


# Grammar

NUMBER = rb"(?:0|[1-9][0-9]*)"
TYPE = (rb"bool|[ui](?:8|16|32|64|128|size)|f32|f64|str|istr|char|\?|\[u8\]|\[\?\]|\[(?:u8|\?); ?" + NUMBER + rb"\]|" + NUMBER + rb"\.\." + NUMBER
        + rb"|__internal_Debug|__internal_Display|__internal_FormatSequence")
PAD = rb"0[1-9][0-9]*"
HINT = rb"a|\?|us|ms|ts|tms|tus|" + PAD + rb"|#?(?:" + PAD + rb")?[boxX]"
PARAMETER = re.compile(rb"\{(" + NUMBER + rb")?(?:=(" + TYPE + rb"))?(?::(" + HINT + rb"))?\}")
CLOCKS = {b"us": ("seconds", 6), b"ms": ("seconds", 3), b"ts": ("time", 0), b"tms": ("time", 3), b"tus": ("time", 6)}


def is_bits(type):
    return b".." in type


def bits_of(type):
    return tuple(int(n) for n in type.split(b".."))


def counted(type):
    """the N of [u8;N] and [?;N]"""
    return int(type[type.index(b";") + 1:-1])


def type_of(spelling):
    type = (spelling or b"?").replace(b" ", b"")
    if is_bits(type):
        a, b = bits_of(type)
        if not a < b <= 128:
            raise Refused(FORMAT)
    if b";" in type and counted(type) > 65535:
        raise Refused(FORMAT)
    return type


def hint_of(spelling):
    if spelling is None or spelling in (b"a", b"?"):
        return spelling
    if spelling in CLOCKS:
        return CLOCKS[spelling]
    alternate, spelling = spelling.startswith(b"#"), spelling.lstrip(b"#")
    base = "d"
    if spelling[-1:] in b"boxX":
        base, spelling = chr(spelling[-1]), spelling[:-1]
    pad = int(spelling or b"0")
    if pad > 128:
        raise Refused(FORMAT)
    return "number", base, alternate, pad


def fragments(text):
    """literal bytes, and parameters as (position, type, hint)"""
    found, at, counter = [], 0, 0
    while at < len(text):
        if text[at:at + 2] in (b"{{", b"}}"):
            found.append(text[at:at + 1])
            at += 2
        elif text[at] in b"{}":
            m = PARAMETER.match(text, at)
            if not m:
                raise Refused(FORMAT)
            if m[1] is None:
                position, counter = counter, counter + 1
            else:
                position = int(m[1])
            found.append((position, type_of(m[2]), hint_of(m[3])))
            at = m.end()
        else:
            end = re.compile(rb"[^{}]+").match(text, at).end()
            found.append(text[at:end])
            at = end
    return found


def types(text):
    """the type at each position, bitfields merged"""
    parameters = [f for f in fragments(text) if not isinstance(f, bytes)]
    positions = {p for p, _, _ in parameters}
    if len(parameters) > MOST_PARAMETERS or positions != set(range(len(positions))):
        raise Refused(FORMAT)
    merged = []
    for position in range(len(positions)):
        here = {t for p, t, _ in parameters if p == position}
        if all(is_bits(t) for t in here):
            spans = [bits_of(t) for t in here]
            merged.append(b"%d..%d" % (min(a for a, _ in spans), max(b for _, b in spans)))
        elif len(here) == 1:
            merged.extend(here)
        else:
            raise Refused(FORMAT)
    return merged


# Rows and decoding

LEAVES = {b"bool": 1, b"f32": 4, b"f64": 5, b"str": 6, b"istr": 7, b"[u8]": 12, b"char": 13, b"__internal_Debug": 14, b"__internal_Display": 14}


class Row:
    """A row with what its text needs: the value, the text of a format, and the rows right below it."""

    def __init__(self):
        self.kind, self.words, self.value, self.text, self.inner = 0, (), None, None, []

    def all_below(self):
        return [r for child in self.inner for r in [child] + child.all_below()]

    def four(self):
        words = list(self.words) + ([len(self.all_below())] if self.kind in (8, 9, 10, 11) else [])
        return [self.kind] + words + [0] * (3 - len(words))


class Decoder:
    def __init__(self, message, capacity, entries):
        self.message, self.capacity, self.entries = message, capacity, {number: (level, text) for number, level, (_, text) in entries}
        self.at, self.claimed = 0, 0

    def claim(self):
        if self.claimed == self.capacity:
            raise Refused(ROWS)
        self.claimed += 1
        return Row()

    def bytes(self, n):
        if n > len(self.message) - self.at:
            raise Refused(EOF)
        self.at += n
        return self.message[self.at - n:self.at]

    def number(self, width, sign=False):
        return int.from_bytes(self.bytes(width), "little", signed=sign)

    def inner_text(self, index):
        level, text = self.entries.get(index, (True, b""))
        if level:
            raise Refused(MALFORMED)
        return text

    def variant(self, text):
        """the number of the piece and the piece"""
        pieces = text.split(b"|")
        bars = len(pieces) - 1
        if bars == 0:
            return 0, text
        chosen = self.number(1 if bars <= 255 else 2)
        if chosen > bars:
            raise Refused(MALFORMED)
        return chosen, pieces[chosen]

    def arguments(self, text, depth):
        if depth > DEEPEST:
            raise Refused(DEPTH)
        return [self.argument(type, depth) for type in types(text)]

    def argument(self, type, depth):
        row = self.claim()
        if type in LEAVES:
            row.kind = LEAVES[type]
            self.leaf(row, type)
        elif type.startswith(b"[u8;"):
            row.kind = 12
            self.part(row, counted(type))
        elif is_bits(type):
            row.kind = 2
            self.bits(row, *bits_of(type))
        elif type[:1] in b"ui":
            row.kind = 2 if type.startswith(b"u") else 3
            width = 4 if type.endswith(b"size") else int(type[1:]) // 8
            self.wide(row, self.number(width, row.kind == 3))
        elif type == b"?":
            index = self.number(2)
            self.nested(row, 8, index, *self.variant(self.inner_text(index)), depth + 1)
        elif type.startswith(b"[?"):
            self.elements(row, self.number(4) if type == b"[?]" else counted(type), depth)
        else:
            self.sequence(row, depth)
        return row

    def wide(self, row, n):
        row.value = n
        row.words = n & (1 << 64) - 1, n >> 64 & (1 << 64) - 1

    def bits(self, row, a, b):
        low = a // 8
        touched = (b - 1) // 8 - low + 1
        width = next(w for w in (1, 2, 4, 8, 16) if touched <= w)
        self.wide(row, self.number(width) << 8 * low & (1 << 128) - 1)

    def part(self, row, n):
        start = self.at
        row.value = self.bytes(n)
        row.words = start, n

    def leaf(self, row, type):
        if type == b"bool":
            row.value = self.number(1)
            if row.value > 1:
                raise Refused(MALFORMED)
            row.words = row.value,
        elif type in (b"f32", b"f64"):
            row.words = self.number(4 if type == b"f32" else 8),
        elif type == b"char":
            n = self.number(4)
            if n > 0x10ffff or 0xd800 <= n <= 0xdfff:
                raise Refused(MALFORMED)
            row.value, row.words = chr(n).encode(), (n,)
        elif type == b"istr":
            index = self.number(2)
            row.value, row.words = self.inner_text(index), (index,)
        elif type in (b"str", b"[u8]"):
            self.part(row, self.number(4))
            if type == b"str":
                self.judge_string(row)
        else:
            end = self.message.find(b"\xff", self.at)
            if end < 0:
                raise Refused(EOF)
            self.part(row, end - self.at)
            self.judge_string(row)
            self.at = end + 1

    def judge_string(self, row):
        try:
            row.value.decode("utf-8", "strict")
        except UnicodeDecodeError:
            raise Refused(MALFORMED)

    def nested(self, row, kind, index, variant, text, depth):
        row.kind, row.words, row.text = kind, (index, variant), text
        row.inner = self.arguments(text, depth)

    def elements(self, row, count, depth):
        index = self.number(2)
        text = self.inner_text(index)
        row.kind, row.words = 9, (index, count)
        for _ in range(count):
            element = self.claim()
            self.nested(element, 10, index, *self.variant(text), depth + 1)
            row.inner.append(element)

    def sequence(self, row, depth):
        row.kind = 11
        while index := self.number(2):
            text = self.inner_text(index)
            item = self.claim()
            self.nested(item, 8, index, 0, text, depth + 1)
            row.inner.append(item)
        row.words = len(row.inner), 0


class Frame:
    """What a message holds: the timestamp's text (none without a clock) and rows, the message's text and rows, and the bytes read."""

    def rows(self):
        return [r.four() for top in self.stamp_rows + self.own_rows for r in [top] + top.all_below()]

    def counts(self):
        stamp = sum(1 + len(r.all_below()) for r in self.stamp_rows)
        return stamp, len(self.rows()), self.consumed


def decode(book, message, words):
    """words: how many are lent for the rows"""
    if max(len(book), len(message)) > 65536:
        raise Refused(SIZE)
    said = parse(book)
    if not isinstance(said, tuple):
        raise Refused(said)
    clock, (_, stamp), entries = said
    decoder = Decoder(message, min(words // 4, MOST_ROWS), entries)
    frame = Frame()
    index = decoder.number(2)
    frame.stamp_text, frame.stamp_rows = None, []
    if clock:
        frame.stamp_text, frame.stamp_rows = stamp, decoder.arguments(stamp, 0)
    if index not in decoder.entries:
        raise Refused(MALFORMED)
    frame.own_text = decoder.entries[index][1]
    frame.own_rows = decoder.arguments(frame.own_text, 0)
    frame.consumed = decoder.at
    return frame


# Text

class Rope:
    """A text in parts, with its length. Parts are shared, so that a text may be longer than what could be held; only one that fits is laid out."""

    def __init__(self, *parts):
        self.parts, self.length = parts, sum(p.length if isinstance(p, Rope) else len(p) for p in parts)

    def laid_out(self):
        return b"".join(p.laid_out() if isinstance(p, Rope) else p for p in self.parts if not isinstance(p, Rope) or p.length)


def unsigned_text(n, hint):
    if isinstance(hint, tuple):
        if hint[0] == "seconds":
            return seconds(n, hint[1])
        if hint[0] == "time":
            return time(n, hint[1])
        return unsigned(n, *hint[1:])
    return unsigned(n)


def signed_text(n, type, hint):
    if isinstance(hint, tuple) and hint[0] == "number":
        return signed(n, 32 if type == b"isize" else int(type[1:]), *hint[1:])
    return signed(n, 128)


def bytes_text(data, hint):
    if hint == b"a":
        return quoted(data)
    if isinstance(hint, tuple) and hint[0] == "number" and hint[1] != "d":
        return listed(data, *hint[1:])
    return listed(data)


def bitfield_text(n, a, b, hint):
    n = n >> a & (1 << b - a) - 1
    if hint == b"a":
        return quoted(n.to_bytes((b - a + 7) // 8, "big"))
    return unsigned_text(n, hint)


class Writer:
    def __init__(self):
        self.known = {}

    def arguments(self, text, rows, parent):
        return Rope(*(f if isinstance(f, bytes) else self.row(rows[f[0]], f[1], f[2], parent) for f in fragments(text)))

    def row(self, row, type, own, parent):
        key = id(row), type, own, parent
        if key not in self.known:
            self.known[key] = self.written(row, type, own, parent)
        return self.known[key]

    def written(self, row, type, own, parent):
        hint = parent if own is None else own
        if row.kind == 1:
            return Rope(b"true" if row.value else b"false")
        if row.kind == 2 and is_bits(type):
            return Rope(bitfield_text(row.value, *bits_of(type), hint).encode())
        if row.kind == 2:
            return Rope(unsigned_text(row.value, parent if hint == b"?" else hint).encode())
        if row.kind == 3:
            return Rope(signed_text(row.value, type, hint).encode())
        if row.kind in (4, 5):
            raise Refused(NOPRINT)
        if row.kind in (6, 7, 14):
            if hint == b"?":
                raise Refused(NOPRINT)
            return Rope(row.value)
        if row.kind == 8:
            return self.arguments(row.text, row.inner, b"a" if parent == b"a" else hint)
        if row.kind == 9:
            return self.list(row, hint)
        if row.kind == 11:
            return Rope(*(self.row(item, b"?", None, hint) for item in row.inner))
        if row.kind == 12:
            return Rope(bytes_text(row.value, hint).encode())
        return Rope(row.value)

    def list(self, row, hint):
        if hint == b"a" and any(e.text == b"{=u8}" for e in row.inner):
            for e in row.inner:
                if len(e.inner) != 1 or e.inner[0].kind != 2 or e.inner[0].value > 255:
                    raise Refused(NOPRINT)
            return Rope(quoted([e.inner[0].value for e in row.inner]).encode())
        parts = []
        for e in row.inner:
            parts += [b", "] * bool(parts) + [self.arguments(e.text, e.inner, hint)]
        return Rope(b"[", *parts, b"]")


def text(book, message, stamp, words, room):
    """the text of the message, or of its timestamp, with the decoded frame"""
    frame = decode(book, message, words)
    if stamp and frame.stamp_text is None:
        raise Refused(NOPRINT)
    asked = (frame.stamp_text, frame.stamp_rows) if stamp else (frame.own_text, frame.own_rows)
    rope = Writer().arguments(*asked, None)
    if rope.length > room:
        raise Refused(ROOM)
    return rope.laid_out(), frame
