#!/usr/bin/env python3
"""Document 01's string call, by Python's own slices, and its decoding into rows, by frames.py. Writes the cases of crates/try_rows (stdin) and
what the program has to write (stdout)."""
from books import TAGS
from frames import Refused, decode
from recorded import Cases, book, given, little

MESSAGE, INTERNED, MOST = "message", {9: "a|{b}"}, 2**64 - 1


def shown(entries, kind, a, b):
    part = ""
    if kind in (6, 12, 14) and a + b <= len(MESSAGE):
        part = MESSAGE[a:a + b]
    if kind == 7:
        part = entries.get(a, "")
    return f"{kind} {a} {b} |{part}|\n"


def strings():
    lines = []
    for kind in (6, 12, 14):
        for a, b in ((0, 7), (2, 3), (7, 0), (8, 0), (6, 2), (0, 8), (1, MOST), (MOST, 1)):
            lines.append(shown(INTERNED, kind, a, b))
    for entries in (INTERNED, {}):
        for a, b in ((9, 0), (9, 3), (7, 0), (8, 0), (65545, 0), (MOST, 0)):
            lines.append(shown(entries, 7, a, b))
    for kind in range(16):
        lines.append(shown(INTERNED, kind, 0, 3))
    return "".join(lines).encode()


cases = Cases()


def u16(*numbers):
    return b"".join(little(n, 2) for n in numbers)


def u32(n):
    return little(n, 4)


def case(label, bk, message, words=40):
    """a message, as bytes or as a number of zero bytes, decoded into so many lent words"""
    try:
        frame = decode(given(bk), given(message), words)
        rows = frame.rows()
        line = "0 %d %d %d, unchanged %d" % (*frame.counts(), words - 4 * len(rows))
        line += "".join("\n  %d %d %d %d" % tuple(row) for row in rows)
    except Refused as refusal:
        line = "%d, not zero 0" % refusal.number
    cases.add(f"{label}, {words} words", bk, message, [words], line.encode())


# Index 7 of these books is the text in question.
def one(label, text, message, words=40, **more):
    inner = {1: b"", 2: b"{=u8}", 3: (b"info", b"level"), 4: b"{=u8}|{=u16}|", 5: b"{", 6: (b"str", b"kept|{")}
    case(label, book({**inner, 7: text}, **more), u16(7) + message, words)


def each_type_at_its_edges():
    for letter in "ui":
        for size in ("8", "16", "32", "64", "128", "size"):
            w = 4 if size == "size" else int(size) // 8
            name = letter + size
            text = b"{=%s}" % name.encode()
            for label, m in (("none", b""), ("short", b"\x11" * (w - 1)), ("0", bytes(w)), ("1", b"\1" + bytes(w - 1)), ("ones", b"\xff" * w),
                             ("top bit", bytes(w - 1) + b"\x80"),
                             ("all but top", b"\xff" * (w - 1) + b"\x7f"), ("rising", bytes(range(1, w + 1))), ("more behind", bytes(range(1, w + 3)))):
                one(f"{name} {label}", text, m)
    for w, name in ((4, "f32"), (8, "f64")):
        for label, m in (("none", b""), ("short", bytes(w - 1)), ("0", bytes(w)), ("minus 0", bytes(w - 1) + b"\x80"),
                         ("rising", bytes(range(1, w + 1))), ("not a number", b"\xff" * w)):
            one(f"{name} {label}", b"{=%s}" % name.encode(), m)
    for m in (b"", b"\0", b"\1", b"\2", b"\xff", b"\1\2"):
        one(f"bool {m.hex()}", b"{=bool}", m)
    for n in (0, 0x41, 0xd7ff, 0xd800, 0xdfff, 0xe000, 0xffff, 0x10ffff, 0x110000, 0xffffffff):
        one(f"char {n:x}", b"{=char}", u32(n))
    one("char short", b"{=char}", b"A\0\0")
    for name in ("str", "[u8]"):
        for m in (b"", b"\0\0\0", u32(0), u32(1), u32(1) + b"A", u32(1) + b"\xc3", u32(2) + b"\xc3\xa9Z", u32(2) + b"\xc0\xaf",
                  u32(3) + b"\xed\xa0\x80", u32(4) + b"\xf0\x9f\x98\x80",
                  u32(4) + b"\xf4\x90\x80\x80", u32(3) + b"\xff\xff", u32(2**32 - 1) + b"\xff", u32(2**31) + b"A", u32(256) + b"x" * 256, u32(256) + b"x" * 255):
            one(f"{name} {m[:8].hex()}", b"{=%s}" % name.encode(), m)
    for n, m in ((0, b""), (0, b"ab"), (2, b"ab"), (3, b"ab"), (3, b"abcd"), (65535, b"ab")):
        one(f"[u8;{n}] {m.hex()}", b"{=[u8;%d]}" % n, m)
        one(f"[u8; {n}] {m.hex()}", b"{=[u8; %d]}" % n, m)
    for name in ("Debug", "Display"):
        for m in (b"", b"\xff", b"A", b"A\xff", b"A\xffB\xff", b"\xc3\xff", b"\xc3\xa9\xff\xff", b"\xc3", b"\xed\xa0\x80\xff", b"\xed\xa0\x80"):
            one(f"{name} {m.hex()}", b"{=__internal_%s}" % name.encode(), m)
    for m in (b"", b"\1", u16(1), u16(2), u16(3), u16(5), u16(6), u16(7), u16(8), u16(0), u16(65535)):
        one(f"istr {m.hex()}", b"{=istr}", m)
        one(f"? {m.hex()}", b"{=?}", m + b"\x09")
    one("? without a type", b"{}", u16(2) + b"\x09\x0a")


def bitfields():
    m = bytes(range(0x81, 0x93))
    for touched in range(1, 17):
        for low in sorted({0, 1, (16 - touched) // 2, 16 - touched}):
            if low + touched <= 16:
                for a, b in {(8 * low, 8 * (low + touched)), (8 * low + 7 - 6 * (touched == 1), 8 * (low + touched) - 7 + 6 * (touched == 1))}:
                    one(f"bits {a}..{b}", b"{=%d..%d}" % (a, b), m)
        width = next(w for w in (1, 2, 4, 8, 16) if touched <= w)
        one(f"bits over {touched} bytes short", b"{=0..%d}" % (8 * touched), m[:width - 1])
        one(f"bits over {touched} bytes enough", b"{=0..%d}" % (8 * touched), m[:width])
    for text in (b"{0=0..4}{0=12..20}", b"{0=4..8}{0=0..2}", b"{0=8..16}{0=8..9}", b"{0=120..128}{0=0..1}", b"{0=0..1}{1=u8}{0=15..16}{2=16..24}",
                 b"{1=0..9}{0=3..5}{1=1..25}",
                 b"{=0..1}{=0..1}", b"{=0..1}{0=63..64}"):
        one("merged " + text.decode(), text, m)


def formats():
    one("positions", b"{1=u8}{0=u16}{2=u8}", b"\1\2\3\4\5")
    one("one argument twice", b"{0=u8:x} {0=u8}", b"\1\2\3")
    one("counter beside positions", b"{0=u8}{=u8:x}{=u16}{1=u16}", b"\1\2\3\4")
    one("position before the counter's", b"{1}{}", u16(1, 1))
    one("32 parameters", b"{=u8}" * 32, bytes(range(40)), 200)
    one("32 shown once more", b"{=u8}" * 32 + b"{0=u8}", bytes(range(40)), 200)
    one("one position 32 times", b"{0=u8}" * 32, b"\1\2")
    one("one position 33 times", b"{0=u8}" * 33, b"\1\2")
    one("literal braces", b"{{}}{{{=u8}}}", b"\5")
    one("no parameter", b"plain \xc3\xa9", b"\5")
    one("empty", b"", b"\5")
    one("all kinds", b"{=bool}{=u16}{=i8}{=f32}{=f64}{=str}{=istr}{}{=[?]}{=__internal_FormatSequence}{=[u8;2]}{=char}{=__internal_Debug}{=[?;2]}{=3..7}{=[u8]}",
        b"\1" + b"\2\0" + b"\xfd" + u32(4) + bytes(7) + b"\5" + u32(1) + b"6" + u16(6) + u16(4) + b"\1\x11\x12" + u32(2) + u16(4) + b"\0\x13\2"
        + u16(2) + b"\x14" + u16(0) + b"ab" + u32(0x263a) + b"d\xff" + u16(2) + b"\x15\x16" + b"\x78" + u32(3) + b"xyz" + b"left", 200)
    for text in (b"{", b"}", b"{{}", b"{:}", b"{=}", b"{=u9}", b"{=u88}", b"{=U8}", b"{= u8}", b"{=u8 }", b"{=u8:}", b"{=u8:y}", b"{=u8:0}",
                 b"{=u8:006}", b"{=u8:0x}", b"{=u8:6x}", b"{=u8:#06}", b"{=u8:#}",
                 b"{=u8:x#}", b"{=u8:xx}", b"{=u8:0129}", b"{=u8:tss}", b"{=u8:cbor}", b"{=u8:iso8601s}", b"{00=u8}", b"{01=u8}", b"{1=u8}",
                 b"{0=u8}{2=u8}", b"{32=u8}", b"{-1}", b"{0=u8}{=u16}", b"{0=u32}{0=usize}",
                 b"{0=[u8;4]}{0=[u8;5]}", b"{0=[u8]}{0=[u8;4]}", b"{0=__internal_Debug}{0=__internal_Display}", b"{0=0..8}{0=u8}", b"{=8..8}",
                 b"{=9..8}", b"{=0..129}", b"{=00..8}", b"{=0..08}", b"{=0..}",
                 b"{=[u8;65536]}", b"{=[u8;04]}", b"{=[u8;  4]}", b"{=[u8 ;4]}", b"{=[u8;]}", b"{=[u16]}", b"{=[?;65536]}", b"{=__internal_Write}",
                 b"{=bool", b"{}}", b"{=u8}}", b"{0:x", b"{=u8:0128b}{"):
        one("FORMAT " + text.decode(), text, bytes(9))
    for text in (b"{=u8:0128}", b"{=u8:01}", b"{=u8:#0128X}", b"{=u8:a}", b"{:a}", b"{0:?}", b"{0}{0=?}", b"{0=[u8;4]}{0=[u8; 4]}", b"{=[?;0]}",
                 b"{=0..1}", b"{=127..128}", b"{=[u8;0]:x}",
                 b"{=u8:ms}{=u8:us}{=u8:ts}{=u8:tms}{=u8:tus}", b"{=u8:b}{=u8:o}{=u8:x}{=u8:X}{=u8:#b}{=u8:08o}"):
        one("in the grammar " + text.decode(), text, u16(1) + bytes(9), 100)


ENUM = {1: b"", 2: b"{=u8}", 7: b"{}", 8: b"{=[?]}", 9: b"{=__internal_FormatSequence}", 10: b"{=[?;2]}"}


def bars():
    for n in (1, 2, 254, 255, 256, 257):
        bk = book({**ENUM, 20: b"|" * n, 21: b"{=u8}" + b"|" * (n - 1) + b"|{=u16}"})
        width = 1 if n <= 255 else 2
        for label, v in (("first", 0), ("second", 1), ("last", n), ("one more", n + 1), ("largest", 256**width - 1)):
            if v < 256**width:
                m = little(v, width)
                case(f"{n} bars, {label}", bk, u16(7, 20) + m)
                case(f"{n} bars, {label}, with an argument", bk, u16(7, 21) + m + b"\x31\x32")
                case(f"{n} bars, {label}, element", bk, u16(8) + u32(2) + u16(21) + m + b"\x31\x32" + m + b"\x33\x34")
                case(f"{n} bars, {label}, of an array", bk, u16(10) + u16(20) + m + m)
                case(f"{n} bars, {label}, item", bk, u16(9) + u16(20, 0) + m)
        case(f"{n} bars, number cut", bk, u16(7, 20) + bytes(width - 1))
        case(f"{n} bars, number cut, element", bk, u16(8) + u32(1) + u16(20) + bytes(width - 1))
        case(f"{n} bars, top text", bk, u16(20) + b"\1")
        case(f"{n} bars, top text with arguments", bk, u16(21) + b"\1\2\3\4\5")
    bk = book({**ENUM, 20: b"{=u8|}|{|a{=bool}", 21: b"a|{", 22: b"a|{=u8}"})
    for v in range(5):
        case(f"bar in braces, piece {v}", bk, u16(7, 20) + bytes([v, 1]))
    case("piece that is not chosen", bk, u16(7, 21) + b"\0")
    case("chosen piece outside the grammar", bk, u16(7, 21) + b"\1")
    case("top text with a piece outside the grammar", bk, u16(21) + b"\0")
    case("item with a piece outside the grammar", bk, u16(9) + u16(21, 0))
    case("item with bars is not split", bk, u16(9) + u16(22) + b"\5" + u16(22) + b"\6" + u16(0))
    case("format with bars is", bk, u16(7, 22) + b"\1\6")


def slices():
    bk = book({**ENUM, 11: b"{=[?;0]}", 20: b"{", 21: (b"warn", b""), 22: b"a|b", 23: b"{=[?;65535]}"})
    for index in (1, 2, 20, 21, 22, 30):
        case(f"slice of 0 elements, index {index}", bk, u16(8) + u32(0) + u16(index) + b"\1")
        case(f"array of 0 elements, index {index}", bk, u16(11) + u16(index) + b"\1")
        case(f"slice of 1 element, index {index}", bk, u16(8) + u32(1) + u16(index) + b"\1")
        case(f"slice of 2 elements, index {index}", bk, u16(8) + u32(2) + u16(index) + b"\1")
        case(f"array of 2 elements, index {index}", bk, u16(10) + u16(index) + b"\1\0")
        case(f"item {index}", bk, u16(9) + u16(index) + b"\1\0\0")
    for m in (b"", b"\0\0\0", u32(0), u32(0) + b"\1", u32(3) + u16(2) + b"\1\2\3\4", u32(3) + u16(2) + b"\1\2", u32(2) + u16(7) + u16(1, 2) + b"\1",
              u32(2) + u16(8) + u32(0) + u16(1) + u32(2) + u16(2) + b"\5\6\7"):
        case(f"slice {m.hex()}", bk, u16(8) + m)
    for m in (b"", b"\0", b"\0\0", b"\0\0\0", u16(1), u16(1, 1, 0), u16(2) + b"\5" + u16(1, 7, 2) + b"\6" + u16(0, 0), u16(9, 0, 0),
              u16(9, 1, 0, 9, 9, 0, 0, 0, 0), u16(2), u16(2) + b"\5"):
        case(f"sequence {m.hex()}", bk, u16(9) + m)
    case("index 0 ends a sequence, whatever the book has there", book({0: b"{=u8}", 9: b"{=__internal_FormatSequence}"}), u16(9, 0) + b"\5")
    case("index 0 as a format", book({0: b"{=u8}", 7: b"{}"}), u16(7, 0) + b"\5")
    case("index 0 on top", book({0: b"{=u8}"}), u16(0) + b"\5")
    for count in (1023, 1024, 65536, 2**31, 2**32 - 1):
        case(f"{count} elements without arguments", bk, u16(8) + u32(count) + u16(1))
        case(f"{count} elements with arguments", bk, u16(8) + u32(count) + u16(2) + bytes(8))
        case(f"{count} elements, absent", bk, u16(8) + u32(count) + u16(30))
        case(f"{count} elements, enum", bk, u16(8) + u32(count) + u16(22) + b"\1\1\1")
    case("65535 elements of an array", bk, u16(23, 1))
    case("65535 elements of an array, absent", bk, u16(23, 30))


def levels():
    for tag in TAGS:
        bk = book({5: (tag, b""), 6: (tag, b"{}{=istr}"), 7: b"{}", 8: b"{=istr}", 9: b"{=[?]}", 10: b"{=__internal_FormatSequence}"})
        name = tag.decode()
        case(f"{name} on top", bk, u16(5))
        case(f"{name} on top with arguments", bk, u16(6, 5, 5))
        case(f"{name} as a format", bk, u16(7, 5))
        case(f"{name} interned", bk, u16(8, 5))
        case(f"{name} as an element", bk, u16(9) + u32(1) + u16(5))
        case(f"{name} as no element", bk, u16(9) + u32(0) + u16(5))
        case(f"{name} as an item", bk, u16(10, 5, 0))


def nesting():
    """Texts that hold themselves: a format in a format, an element in an element, an item in an item."""
    bk = book({1: b"{}", 2: b"", 3: b"{=[?]}", 4: b"{=[?;1]}", 5: b"{=__internal_FormatSequence}", 6: b"{=u8}", 7: b"{", 8: b"a|{}",
               9: (b"info", b""), 10: b"{=u8}|{", 11: b"a|{=[?]}", 12: b"{}{}"})
    ways = {"format": (u16(1), u16(1), b""), "element": (u16(3), u32(1) + u16(3), b""), "array": (u16(4), u16(4), b""),
            "item": (u16(5), u16(5), u16(0)), "enum": (u16(8), u16(8) + b"\1", b"")}
    ends = {"format": u16(2), "element": u32(1) + u16(2), "array": u16(2), "item": u16(2, 0), "enum": u16(8) + b"\0"}
    for name, (top, step, close) in ways.items():
        first = top if name != "enum" else u16(1)
        for depth in (1, 14, 15, 16, 17, 40):
            for words in (200, 64, 67, 68):
                if words == 200 or depth in (15, 16):
                    case(f"{name} {depth} deep", bk, first + step * (depth - 1) + ends[name] + close * (depth - 1) + b"\7", words)

    # In a text at depth 16: what is judged before DEPTH, and what needs no deeper text.
    deep = u16(1) + u16(1) * 15

    def at_16(label, last, rest, words=200):
        case(f"at depth 16, {label}", bk, deep + last + rest, words)

    for words in (200, 64, 68):
        at_16("no argument", u16(2), b"", words)
        at_16("a byte", u16(6), b"\5", words)
        at_16("a byte missing", u16(6), b"", words)
        at_16("format", u16(1), u16(2), words)
        at_16("format cut", u16(1), b"\2", words)
        at_16("format absent", u16(1), u16(99), words)
        at_16("format with a level", u16(1), u16(9), words)
        at_16("format outside the grammar", u16(1), u16(7), words)
        at_16("enum", u16(1), u16(8) + b"\0", words)
        at_16("enum cut", u16(1), u16(8), words)
        at_16("enum past its bars", u16(1), u16(8) + b"\2", words)
        at_16("enum, chosen piece outside the grammar", u16(1), u16(10) + b"\1", words)
        at_16("slice of none", u16(3), u32(0) + u16(1), words)
        at_16("slice of none outside the grammar", u16(3), u32(0) + u16(7), words)
        at_16("slice of none, absent", u16(3), u32(0) + u16(99), words)
    for words in (200, 68, 72):
        at_16("slice of one", u16(3), u32(1) + u16(2), words)
        at_16("slice of one outside the grammar", u16(3), u32(1) + u16(7), words)
        at_16("slice of one, absent", u16(3), u32(1) + u16(99), words)
        at_16("slice of one, variant cut", u16(3), u32(1) + u16(8), words)
        at_16("slice of one, variant past its bars", u16(3), u32(1) + u16(8) + b"\2", words)
        at_16("slice of one, variant outside the grammar", u16(3), u32(1) + u16(10) + b"\1", words)
        at_16("slice cut", u16(3), u32(1)[:3], words)
        at_16("slice without index", u16(3), u32(1), words)
        at_16("sequence of none", u16(5), u16(0), words)
        at_16("sequence cut", u16(5), b"\0", words)
        at_16("sequence of one", u16(5), u16(2, 0), words)
        at_16("sequence of one outside the grammar", u16(5), u16(7, 0), words)
        at_16("sequence of one, absent", u16(5), u16(99, 0), words)
        at_16("sequence of one with a level", u16(5), u16(9, 0), words)
    case("second branch at 17", bk, u16(12) + (u16(2) + u16(12)) * 15 + u16(2, 1), 200)
    case("second branch at 16", bk, u16(12) + (u16(2) + u16(12)) * 15 + u16(2, 2), 200)
    case("first branch at 17 before second branch cut", bk, u16(12) + u16(12) * 16 + u16(2), 200)


def how_many_rows():
    bk = book({1: b"", 2: b"{=u8}", 7: b"{}", 8: b"{=[?]}", 9: b"{=__internal_FormatSequence}", 10: b"{=u8}" * 31 + b"{=[?]}"})
    for words in range(10):
        case("rows of a byte", bk, u16(2) + b"\5", words)
        case("rows of a byte in a format", bk, u16(7, 2) + b"\5", words)
        case("no rows", bk, u16(1), words)
    for n, words in ((1022, 4088), (1022, 4091), (1022, 4092), (1022, 4095), (1023, 4092), (1023, 4095), (1023, 4096), (1023, 4099), (1023, 5000),
                     (1024, 4096), (1024, 4100),
                     (1024, 5000)):
        case(f"1 and {n} rows", bk, u16(8) + u32(n) + u16(1), words)
    for n in (496, 497):
        case(f"32 and {n} pairs of rows", bk, u16(10) + bytes(31) + u32(n) + u16(2) + bytes(n), 5000)
    for n in (1023, 1024):
        case(f"sequence of {n}", bk, u16(9) + u16(1) * n + u16(0), 5000)
    case("sequence of 1024 cut", bk, u16(9) + u16(1) * 1023 + b"\1", 5000)
    case("sequence of 1024, last absent", bk, u16(9) + u16(1) * 1023 + u16(3), 5000)
    stamped = book({1: b"", 8: b"{=[?]}"}, b"{=u8}{=u8}")
    for n in (1021, 1022):
        case(f"2 rows of the timestamp, 1 and {n}", stamped, u16(8) + b"\1\2" + u32(n) + u16(1), 5000)


def what_comes_first():
    """Two refusals in one message."""
    good = book({7: b"{=u8}"})
    for label, bk in (("bad book", b"book=2\n"), ("no book", b""), ("book without its last byte", good[:-1]),
                      ("tag that is none", good.replace(b"derived", b"inform"))):
        for m in (b"", u16(7) + b"\5", u16(9)):
            case(f"{label}, message {m.hex()}", bk, m)
            case(f"{label}, message {m.hex()}", bk, m, 0)
    for bk in (65536, 65537):
        for m in (0, 65536, 65537):
            case(f"book of {bk} zeros, message of {m}", bk, m, 9)
    for m in (0, 1, 2, 3, 65536, 65537):
        case(f"message of {m} zeros", book({0: b"{=u8}"}), m, 9)
        case(f"message of {m} zeros, bad book", b"book=1\n", m, 9)
    outside = book({7: b"{=u8}{", 8: b"{}", 9: b"{=bool}", 10: b"{=str}", 11: b"{=__internal_Debug}", 12: b"{=[?]}", 13: b"|{", 14: b"{=char}",
                    15: b"{=istr}", 16: b"{=__internal_FormatSequence}"})
    for words in (0, 3, 4, 7, 8, 12):
        case("FORMAT before ROWS of its arguments", outside, u16(7) + b"\5", words)
        case("FORMAT before EOF of its arguments", outside, u16(7), words)
        case("inner FORMAT", outside, u16(8, 7), words)
        case("ROWS before EOF", outside, u16(8), words)
        case("ROWS before MALFORMED, absent", outside, u16(8, 99), words)
        case("ROWS before MALFORMED, bool", outside, u16(9) + b"\2", words)
        case("ROWS before MALFORMED, char", outside, u16(14) + u32(0xd800), words)
        case("ROWS before MALFORMED, str", outside, u16(10) + u32(1) + b"\xff", words)
        case("ROWS before EOF, str", outside, u16(10) + u32(9) + b"\xff", words)
        case("ROWS before MALFORMED, Debug", outside, u16(11) + b"\x80\xff", words)
        case("ROWS before MALFORMED, istr", outside, u16(15, 99), words)
        case("EOF of the variant before FORMAT", outside, u16(8, 13), words)
        case("MALFORMED of the variant before FORMAT", outside, u16(8, 13) + b"\2", words)
        case("FORMAT of the chosen piece", outside, u16(8, 13) + b"\1", words)
        case("MALFORMED of the index before ROWS of the elements", outside, u16(12) + u32(2**32 - 1) + u16(99), words)
        case("ROWS of the element before FORMAT", outside, u16(12) + u32(1) + u16(7), words)
        case("ROWS of the element before EOF of its variant", outside, u16(12) + u32(1) + u16(13), words)
        case("EOF of the item's index before ROWS", outside, u16(16) + b"\1", words)
        case("MALFORMED of the item's index before ROWS", outside, u16(16, 99), words)
        case("end of the items before ROWS", outside, u16(16, 0), words)
        case("ROWS of the item before FORMAT", outside, u16(16, 7), words)
        case("FORMAT of the second item", outside, u16(16, 16, 0, 7), words)
    case("EOF before MALFORMED, str", outside, u16(10) + u32(3) + b"\xff\xff")
    case("EOF before MALFORMED, Debug", outside, u16(11) + b"\x80")
    case("absent index on top before its arguments", outside, u16(99))


def timestamps():
    for stamp in (b"", b"at", b"{=u32:us}", b"{1=u8}{0=u16}", b"{}", b"{=bool}", b"{=[?]}", b"{=__internal_FormatSequence}", b"a|{=u8}"):
        bk = book({1: b"", 2: b"{=u8}", 7: b"{=bool}{=u8}", 8: b"|{=u16}"}, stamp)
        name = stamp.decode()
        for m in (b"", b"\7", u16(7), u16(7) + b"\1\0\0\0\1\5", u16(9) + b"\1\0\0\0\1\5", u16(7) + b"\1\0\0", u16(9) + b"\1\0\0", u16(9),
                  u16(7, 1) + b"\0\5", u16(9, 1) + b"\0\5", u16(7, 8) + b"\1\2\3\1\5", u16(9) + b"\2",
                  u16(7) + b"\2", u16(7, 99) + b"\1\0", u16(9, 99) + b"\1\0", u16(7) + u32(2) + u16(2) + b"\1\2\0\5",
                  u16(7) + u16(2) + b"\x09" + u16(1, 0) + b"\1\5", u16(2) + b"\1\5\6"):
            case(f"timestamp {name}, message {m.hex()}", bk, m)
            if len(m) in (2, 8):
                for words in (0, 4, 8):
                    case(f"timestamp {name}, message {m.hex()}", bk, m, words)
    bk = book({7: b"{=u8}", 8: b"{"}, b"{=u8")
    for m in (b"", b"\7", u16(7), u16(7) + b"\5", u16(8), u16(9)):
        case(f"timestamp outside the grammar, message {m.hex()}", bk, m, 0)
    bk = book({7: b"{=u8}", 8: b"{"}, b"{=u8}")
    for m in (u16(7), u16(8), u16(9), u16(8) + b"\5", u16(9) + b"\5", u16(7) + b"\5", u16(7) + b"\5\6"):
        for words in (0, 4, 8):
            case(f"timestamp of a byte, message {m.hex()}", bk, m, words)
    bk = book({1: b"{}", 2: b""}, b"{}")
    for n in (14, 15, 16):
        case(f"timestamp {n + 1} deep", bk, u16(2) + u16(1) * n + u16(2), 200)
        case(f"timestamp {n + 1} deep, absent index on top", bk, u16(9) + u16(1) * n + u16(2), 200)
    case("deep timestamp, deep message", bk, u16(1) + u16(1) * 15 + u16(2) + u16(1) * 15 + u16(2), 200)
    case("deep timestamp, deeper message", bk, u16(1) + u16(1) * 15 + u16(2) + u16(1) * 16 + u16(2), 200)


each_type_at_its_edges()
bitfields()
formats()
bars()
slices()
levels()
nesting()
how_many_rows()
what_comes_first()
timestamps()
cases.write("try_rows", strings())
