#!/usr/bin/env python3
"""Document 01's Text, by frames.py. Writes the cases of crates/try_text (stdin) and what the program has to write (stdout)."""
from frames import Refused, text
from recorded import Cases, book, given, little

cases = Cases()
MESSAGE, TIMESTAMP = 0, 1
HINTS = ["", ":a", ":?", ":us", ":ms", ":ts", ":tms", ":tus", ":07", ":b", ":o", ":x", ":X", ":#b", ":#o", ":#x", ":#X", ":012b", ":#012b", ":09o",
         ":#09o", ":06x", ":#06x", ":06X", ":#06X"]
OF_EACH_SORT = ["", ":a", ":?", ":us", ":tms", ":05", ":#b", ":x"]
SAFE = [h for h in HINTS if h != ":?"]


def u16(*numbers):
    return b"".join(little(n, 2) for n in numbers)


def u32(n):
    return little(n, 4)


def case(label, bk, message, which=MESSAGE, words=80, room=None):
    """the text of a message in so many bytes (some more than it has, where nothing is said), with so many words for the rows"""
    try:
        if room is None:
            room = 9
            room += len(text(given(bk), given(message), which == TIMESTAMP, words, 40000)[0])
        written, _ = text(given(bk), given(message), which == TIMESTAMP, words, room)
        line = b"0 %d |%s|, unchanged %d, rows as decoded" % (len(written), written, room - len(written))
    except Refused as refusal:
        line = b"%d, not zero 0 and 0" % refusal.number
    cases.add(label, bk, message, [words, room, which], line)


# Index 7 of these books is the text in question; the others are there to be held.
HELD = {1: b"", 2: b"{=u8}", 3: (b"info", b"level"), 4: b"{=u8}|<{=i16}>|", 6: (b"str", b"{kept}|}"), 8: b"({=u8} {=i8} {=0..4} {=[u8;2]} {=bool})"}


def one(label, asked, message, **more):
    case(label, book({**HELD, 7: asked}), u16(7) + message, **more)


def shown_by(type, hints):
    """a position shown under each hint"""
    return "/".join("{0=%s%s}" % (type, h) for h in hints).encode()


def integers():
    for size in ("8", "16", "32", "64", "128", "size"):
        w = 4 if size == "size" else int(size) // 8
        yield "u" + size, [0, 1, 2**(8 * w) - 1], lambda n, w=w: little(n, w)
        yield "i" + size, [0, 1, -1, 2**(8 * w - 1) - 1, -2**(8 * w - 1)], lambda n, w=w: n.to_bytes(w, "little", signed=True)


def values():
    """each type with the bytes of some values, and whether it has a text under every hint"""
    for type, numbers, spelled in integers():
        yield type, [spelled(n) for n in numbers], True
    yield "bool", [b"\0", b"\1"], True
    yield "char", [u32(0), u32(0x41), u32(0x7c), u32(0xe9), u32(0x20ac), u32(0x10ffff)], True
    yield "[u8]", [u32(0), u32(3) + b"\0\xffA"], True
    yield "[u8;3]", [b"a\n\x80"], True
    yield "0..8", [b"\0", b"\xa5"], True
    yield "3..20", [b"\xff" * 4, b"\x12\x34\x56\x78"], True
    yield "64..128", [b"\xff" * 8], True
    yield "0..128", [b"\xff" * 16, bytes(range(16))], True
    yield "?", [u16(1), u16(4) + b"\0\5", u16(4) + b"\1\xff\xff", u16(8) + b"\x09\xf7\x0fa\x7f\1"], True
    yield "[?]", [u32(0) + u16(1), u32(2) + u16(1), u32(2) + u16(2) + b"Az", u32(1) + u16(8) + b"\x09\xf7\x0fa\x7f\1"], True
    yield "[?;2]", [u16(1), u16(8) + b"\x09\xf7\x0fa\x7f\1" * 2], True
    yield "__internal_FormatSequence", [u16(0), u16(2) + b"\5" + u16(1, 8) + b"\x09\xf7\x0fa\x7f\1" + u16(2) + b"\6" + u16(0)], True
    yield "str", [u32(0), u32(1) + b"x", u32(7) + b"\xc3\xa9\n\"{|}"], False
    yield "istr", [u16(1), u16(6)], False
    yield "__internal_Debug", [b"\xff", b"D{\xff"], False
    yield "__internal_Display", [b"\xff", b"d\xc3\xa9\xff"], False
    yield "f32", [u32(0)], False
    yield "f64", [bytes(8)], False


def each_type_with_each_own_hint():
    for type, messages, every in values():
        for m in messages:
            one(f"{type} own, {m.hex()}", shown_by(type, HINTS if every else SAFE), m)
            if not every:
                one(f"{type} own ?, {m.hex()}", shown_by(type, [":?"]), m)


HANDED = {"format": "?", "list": "[?]", "array": "[?;2]", "sequence": "__internal_FormatSequence"}


def held_by(way, index, m):
    """the bytes of one or two values of a text, held in this way"""
    return {"format": u16(index) + m, "list": u32(2) + u16(index) + m + m, "array": u16(index) + m + m, "sequence": u16(index) + m + u16(index) + m + u16(0)}[way]


def each_type_with_each_hint_handed_down():
    entries, types = dict(HELD), list(values())
    tops = {}
    for k, (way, outer) in enumerate(HANDED.items()):
        for j, hints in enumerate((HINTS, SAFE, [":?"])):
            tops[way, j] = 10 + 3 * k + j
            entries[10 + 3 * k + j] = shown_by(outer, hints)
    for k, (type, _, _) in enumerate(types):
        entries[100 + k] = b"{=%s}" % type.encode()
    bk = book(entries)
    for k, (type, messages, every) in enumerate(types):
        for m in messages:
            for way in HANDED:
                for j in ((0,) if every else (1, 2)):
                    case(f"{type} by {way}, {'?' * (j == 2)}{m.hex()}", bk, u16(tops[way, j]) + held_by(way, 100 + k, m))


def own_hints_under_each_handed_down():
    for type, m in (("u8", b"\xa5"), ("i8", b"\xff"), ("isize", b"\xfe\xff\xff\xff"), ("3..14", b"\x5a\xa5"), ("[u8]", u32(2) + b"A\xff"),
                    ("bool", b"\1"), ("char", u32(0x263a)), ("?", u16(2) + b"A"),
                    ("?", u16(8) + b"\x09\xf7\x0fa\x7f\1"), ("[?]", u32(2) + u16(2) + b"AB"), ("[?;1]", u16(8) + b"\x09\xf7\x0fa\x7f\1"),
                    ("__internal_FormatSequence", u16(2) + b"A" + u16(2) + b"B" + u16(0)),
                    ("[?]", u32(1) + u16(9) + u32(2) + u16(2) + b"AB"), ("__internal_FormatSequence", u16(9) + u32(2) + u16(2) + b"AB" + u16(0)),
                    ("?", u16(9) + u32(2) + u16(2) + b"AB")):
        for way, outer in HANDED.items():
            bk = book({**HELD, 9: b"{=[?]}", 10: shown_by(type, OF_EACH_SORT), 20: shown_by(outer, OF_EACH_SORT)})
            case(f"{type} {m.hex()} with its own hints under each by {way}", bk, u16(20) + held_by(way, 10, m), words=200)
    for type, m in (("str", u32(1) + b"s"), ("istr", u16(6)), ("__internal_Debug", b"D\xff"), ("__internal_Display", b"d\xff")):
        bk = book({**HELD, 10: shown_by(type, SAFE[1:]), 11: shown_by(type, [":x", ":?"]), 20: shown_by("?", HINTS)})
        case(f"{type} with its own hints under each", bk, u16(20, 10) + m)
        case(f"{type} with its own ? under each", bk, u16(20, 11) + m)


def examples():
    one("01: 06", b"{=i32:06}", (-5).to_bytes(4, "little", signed=True))
    one("01: #06x", b"{=u8:#06x}", b"\xff")
    one("01: x of i8", b"{=i8:x}", b"\xff")
    one("01: ts", b"{=u32:ts}", u32(90061))
    one("01: us", b"{=u32:us}", u32(1500000))
    case("01: the program's", b"book=1\nclock=no\ntimestamp=\nindex=7\ntag=info\ntext=T {=u8} {=i16}\n", bytes.fromhex("070005ffff0000"))


def paddings():
    text_ = "/".join("{0=%s:%s}" % (t, h) for t in ("u8",) for h in ("01", "02", "03", "04", "0128", "08b", "09b", "#010b", "#011b", "03o", "04o",
                                                                     "#05o", "02x", "03x", "#03x", "#04x", "#05x", "0128x", "#0128X"))
    for n in (0, 5, 255):
        one(f"paddings of {n}", text_.encode(), bytes([n]))
    for n in (0, 5, -5, 127, -128):
        one(f"paddings of signed {n}", text_.replace("u8", "i8").encode(), n.to_bytes(1, "little", signed=True))
    one("paddings of bytes", b"{0=[u8;3]:04x} {0=[u8;3]:#010b} {0=[u8;3]:09} {0=[u8;3]:#0128X}", b"\0\5\xff")


def times():
    asked = shown_by("u64", [":ts", ":tms", ":tus", ":ms", ":us"])
    for unit in (1, 1000, 1000000):
        for span in (1, 60, 3600, 86400, 90061):
            for n in (span * unit - 1, span * unit, span * unit + 1):
                one(f"time {n}", asked, little(n, 8))
    for n in (1500000, 2**64 - 1, 86400 * 10**6 * 365, 59999999, 3599999999):
        one(f"time {n}", asked, little(n, 8))
    for n in (2**64, 2**128 - 1):
        one(f"time {n}", shown_by("u128", [":ts", ":tms", ":tus", ":ms", ":us"]), little(n, 16))
    one("times of the bits of a time", shown_by("0..24", [":ts", ":tms", ":tus", ":ms", ":us"]), u32(90061))


def escapes():
    for k in range(0, 256, 16):
        part = bytes(range(k, k + 16))
        one(f"escapes from {k}", b"{=[u8;16]:a}", part)
        one(f"escapes from {k} of a list", b"{=[?;16]:a}", u16(2) + part, words=200)
        one(f"escapes from {k} of bits", b"{=0..128:a}", part)
    for a, b in ((0, 1), (0, 7), (0, 8), (0, 9), (1, 9), (0, 15), (0, 16), (0, 17), (4, 28), (8, 72), (0, 63), (0, 64), (0, 65), (60, 68), (63, 65),
                 (64, 72), (120, 128), (121, 128), (1, 128)):
        one(f"bits {a}..{b}", b"{0=%d..%d:a}{0=%d..%d}{0=%d..%d:x}" % (a, b, a, b, a, b), bytes(range(0x41, 0x51)))
    one("bits of one number", b"{0=0..4}{0=4..8}{0=8..24}{0=0..24:x}{0=23..24}", b"\x12\x34\x56\x78")
    one("bits above those of others", b"{0=100..128:x}{0=96..100:x}{0=0..1}", bytes(range(0x80, 0x90)))
    for n in (0x7f, 0x80, 0x7ff, 0x800, 0xd7ff, 0xe000, 0xffff, 0x10000):
        one(f"char {n:x}", b"<{=char}>", u32(n))


def byte_strings_of_lists():
    """Elements of one enum, in a list under `a`."""
    pieces = b"{=u8}|{=u16}|{=u8}{=u8}||{=i8}|{=8..16}|{=0..8}|x{=u8}|{=bool}|{}|{=u8:x}|{0=u8}|{=f32}|{=u128}|{=[u8;1]}|{0=u8}{0=u8}|{=u8}{{|{=str}"
    bodies = [b"\x41", b"\xff\0", b"\1\2", b"", b"\5", b"\5", b"\xff", b"\x42", b"\1", u16(2) + b"\5", b"\x43", b"\x44", u32(0), little(255, 16),
              b"\x45", b"\x46", b"\x47", u32(1) + b"s"]
    bk = book({**HELD, 7: b"{=[?]:a}", 9: pieces, 10: b"{:a}", 11: b"{=[?]}", 12: b"{=__internal_FormatSequence:a}", 13: b"{=[?]:x}",
               14: b"{=[?;0]:a}", 15: b"{:x}"})
    for v, body in enumerate(bodies):
        piece = pieces.split(b"|")[v].decode()
        element = bytes([v]) + body
        case(f"`{piece}` alone", bk, u16(7) + u32(1) + u16(9) + element)
        case(f"`{piece}` with a byte", bk, u16(7) + u32(2) + u16(9) + element + b"\0\x41")
        case(f"a byte with `{piece}`", bk, u16(7) + u32(2) + u16(9) + b"\0\x41" + element)
        case(f"`{piece}` with a byte, by a format", bk, u16(10, 11) + u32(2) + u16(9) + element + b"\0\x41")
        case(f"`{piece}` with a byte, by a sequence", bk, u16(12, 11) + u32(2) + u16(9) + element + b"\0\x41" + u16(0))
    for v, body in ((1, b"\0\1"), (1, b"\0\0"), (5, b"\0"), (13, little(256, 16)), (13, little(2**64, 16)), (13, little(2**64 + 1, 16)), (13, little(0, 16))):
        case(f"piece {v} of {body.hex()} with a byte", bk, u16(7) + u32(2) + u16(9) + bytes([v]) + body + b"\0\x41")
    case("none", bk, u16(7) + u32(0) + u16(2))
    case("none of an array", bk, u16(14, 2))
    case("by a format", bk, u16(10, 11) + u32(2) + u16(2) + b"AB")
    case("a beats the hint of an inner format, and x of the list stands", bk, u16(10, 13) + u32(2) + u16(2) + b"AB")
    case("a beats the hint of an inner format", bk, u16(10, 15, 11) + u32(2) + u16(2) + b"AB")
    case("x of the outer format, none of the list", bk, u16(15, 11) + u32(2) + u16(2) + b"AB")
    case("lists of lists", bk, u16(7) + u32(2) + u16(11) + u32(2) + u16(2) + b"AB" + u32(0) + u16(2))


def what_cannot_be_printed():
    for name, leaf, m in (("f32", b"{=f32}", u32(0)), ("f64", b"{=f64}", bytes(8))):
        for hint in ("", ":a", ":?", ":x", ":us", ":05"):
            one(f"{name}{hint}", leaf[:-1] + hint.encode() + b"}", m)
        bk = book({**HELD, 7: b"{}", 9: leaf, 10: b"{=[?]}", 11: b"{=__internal_FormatSequence}", 12: b"{=[?]:a}", 13: b"a|" + leaf,
                   14: leaf + b"{=u8}", 15: b"{=u8}" + leaf})
        case(f"{name} in a format", bk, u16(7, 9) + m)
        case(f"{name} in a list", bk, u16(10) + u32(1) + u16(9) + m)
        case(f"{name} in a list under a", bk, u16(12) + u32(1) + u16(9) + m)
        case(f"{name} in a sequence", bk, u16(11, 9) + m + u16(0))
        case(f"{name} in a variant", bk, u16(7, 13) + b"\1" + m)
        case(f"{name} in no variant", bk, u16(7, 13) + b"\0" + m)
        case(f"{name} in no element", bk, u16(10) + u32(0) + u16(9) + m)
        for room in (0, 1):
            case(f"{name} first, without room", bk, u16(14) + m + b"\5", room=room)
            case(f"{name} last, without room", bk, u16(15) + b"\5" + m, room=room)
    bk = book({**HELD, 7: b"{:?}", 9: b"{=str}", 10: b"{=istr}", 11: b"{=__internal_Debug}", 12: b"{=__internal_Display}", 13: b"{=char}", 14: b"{}",
               15: b"{=[?]:?}", 16: b"{=__internal_FormatSequence:?}", 17: b"{:x}",
               18: b"{=str:x}", 19: b"{=bool}{=u8}{=i8}{=[u8;1]}{=0..8}", 20: b"{:a}", 21: b"{:?}{=str}"})
    for index, m in ((9, u32(0)), (9, u32(1) + b"s"), (10, u16(1)), (10, u16(6)), (11, b"\xff"), (12, b"\xff"), (13, u32(65)), (18, u32(0)),
                     (19, b"\1\2\3\4\5"), (17, u16(9) + u32(0)), (20, u16(9) + u32(0)), (14, u16(9) + u32(0)),
                     (2, b"\5")):
        case(f"{index} {m.hex()} under ?", bk, u16(7, index) + m)
        case(f"{index} {m.hex()} under ? by a list", bk, u16(15) + u32(1) + u16(index) + m)
        case(f"{index} {m.hex()} under ? by a sequence", bk, u16(16, index) + m + u16(0))
        case(f"{index} {m.hex()} under ? by two formats", bk, u16(7, 14, index) + m)
        case(f"{index} {m.hex()} under x in ?", bk, u16(7, 17, index) + m)
        case(f"{index} {m.hex()} under ? in a", bk, u16(20, 7, index) + m)
    case("a string beside ?", bk, u16(21, 2) + b"\5" + u32(1) + b"s")


def bars():
    bk = book({**HELD, 7: b"{}", 9: b"a{=u8}|b{=i8}|c", 10: b"{=[?]}", 11: b"{=__internal_FormatSequence}", 12: b"{{|}}", 13: b"{=u8}|{"})
    for v in range(3):
        case(f"variant {v}", bk, u16(7, 9) + bytes([v, 5]))
        case(f"variants from {v}", bk, u16(10) + u32(2) + u16(9) + bytes([v, 5, (v + 1) % 3, 6]))
    case("bars on top", bk, u16(9) + b"\5\6")
    case("bars of an item", bk, u16(11, 9) + b"\5\6" + u16(9) + b"\7\x88" + u16(0))
    case("braces on top", bk, u16(12))
    case("braces in pieces", bk, u16(7, 12) + b"\0")
    case("piece outside the grammar that is not chosen", bk, u16(7, 13) + b"\0\5")
    long = book({7: b"{}", 9: b"|".join(b"v%d" % k for k in range(257))})
    for v in (0, 9, 255, 256):
        case(f"variant {v} of 257", long, u16(7, 9) + u16(v))


def rooms():
    """Outputs with one byte more than the text, exactly full, one short, and none."""
    for label, asked, m in (("literal", b"four", b""), ("utf-8", b"\xc3\xa9", b""), ("braces", b"{{}}", b""), ("bool", b"{=bool}", b"\1"),
                            ("u8", b"{=u8}", b"\xff"), ("padded", b"{=i8:09}", b"\xfb"), ("hex", b"{=u16:#010X}", b"\xab\xcd"),
                            ("time", b"{=u32:tus}", u32(90061)), ("seconds", b"{=u32:ms}", u32(90061)), ("str", b"{=str}", u32(3) + b"abc"),
                            ("istr", b"{=istr}", u16(6)), ("preformatted", b"{=__internal_Display}", b"abc\xff"),
                            ("char", b"{=char}", u32(0x20ac)), ("bytes", b"{=[u8;3]}", b"\1\2\3"), ("escaped", b"{=[u8;3]:a}", b"\1A\n"),
                            ("bits", b"{=0..9:a}", b"\1\2"), ("format", b"<{}>", u16(4) + b"\1\5\0"),
                            ("list", b"{=[?]}", u32(3) + u16(2) + b"\1\2\3"), ("byte string of a list", b"{=[?]:a}", u32(3) + u16(2) + b"\1\2\3"),
                            ("empty list", b"{=[?]}", u32(0) + u16(2)),
                            ("sequence", b"{=__internal_FormatSequence}", u16(2) + b"\5" + u16(8) + b"\1\2\3\4\5\1" + u16(0)),
                            ("empty", b"", b""), ("empty str", b"{=str}", u32(0)), ("empty sequence", b"{=__internal_FormatSequence}", u16(0)),
                            ("empty format", b"{}", u16(1))):
        bk = book({**HELD, 7: asked})
        length = len(text(bk, u16(7) + m, False, 80, 40000)[0])
        for room in sorted({0, max(length - 1, 0), length, length + 1, length + 9}):
            case(f"{label} in {room}", bk, u16(7) + m, room=room)


def what_comes_first():
    """Refusals of decoding, NOPRINT, ROOM, with the timestamp asked of a book without a clock."""
    bk = book({**HELD, 7: b"x{=u8}", 9: b"{=f32}x", 10: b"{}", 11: b"{", 12: b"{=bool}", 13: b"{=f32}{=bool}"})
    for which in (MESSAGE, TIMESTAMP):
        for room in (0, 9):
            for label, b, m, words in (("SIZE of the message", b"", 65537, 80), ("SIZE of the book", 65537, b"", 80), ("BOOK", 65536, b"", 80),
                                       ("no message", bk, b"", 80), ("EOF", bk, u16(7), 80), ("MALFORMED", bk, u16(12) + b"\2", 80),
                                       ("absent", bk, u16(99), 80), ("ROWS", bk, u16(7) + b"\5", 3), ("DEPTH", bk, u16(10) * 17 + u16(1), 80),
                                       ("FORMAT", bk, u16(11), 80), ("NOPRINT", bk, u16(9) + u32(0), 80),
                                       ("EOF behind a float", bk, u16(13) + u32(0), 80),
                                       ("MALFORMED behind a float", bk, u16(13) + u32(0) + b"\2", 80),
                                       ("ROWS behind a float", bk, u16(13) + u32(0) + b"\1", 4), ("text", bk, u16(7) + b"\5", 80)):
                case(f"{label}, {'timestamp' if which else 'message'}, room {room}", b, m, which=which, words=words, room=room)
    case("largest message", book({0: b"{=[u8;3]:a}"}), 65536)


def timestamps():
    for stamp, m in ((b"", b""), (b"at", b""), (b"{=u32:us}", u32(1500000)), (b"{=u32:tms} s", u32(90061000)), (b"{}", u16(2) + b"\5"),
                     (b"a|{=u8}", b"\5"), (b"{=[?]:a}", u32(2) + u16(2) + b"AB"), (b"{=f32}", u32(0)), (b"{=str:?}", u32(0)),
                     (b"{=__internal_FormatSequence}", u16(2) + b"\5" + u16(0))):
        bk = book({**HELD, 7: b"<{=i8}>", 9: b"{=f64}"}, stamp)
        name = stamp.decode()
        for which in (MESSAGE, TIMESTAMP):
            label = "timestamp" if which else "message"
            case(f"{label} with timestamp {name}", bk, u16(7) + m + b"\xfb", which=which)
            case(f"{label} with timestamp {name}, float in the message", bk, u16(9) + m + bytes(8), which=which)
            case(f"{label} with timestamp {name}, cut message", bk, u16(7) + m, which=which)
            case(f"{label} with timestamp {name}, absent index", bk, u16(99) + m, which=which)
            case(f"{label} with timestamp {name}, no room", bk, u16(7) + m + b"\xfb", which=which, room=0)
            case(f"{label} with timestamp {name}, no rows", bk, u16(7) + m + b"\xfb", which=which, words=3)


def words_of_any_number():
    bk = book({**HELD, 7: b"{=u8}{=[?]}"})
    for words in (0, 4, 8, 15, 16, 17, 18, 19, 20, 3000):
        case(f"rows in {words} words", bk, u16(7) + b"\5" + u32(1) + u16(2) + b"\6", words=words)
    bk = book({1: b"", 2: b"x", 7: b"{=[?]}"})
    for n in (1023, 1024):
        for inner in (1, 2):
            case(f"{n} elements of {inner}", bk, u16(7) + u32(n) + u16(inner), words=5000)


def one_position_many_times():
    """Each text names position 0 thirty-two times, at each of 16 depths: a plain walk takes 32^16 steps."""
    bk = book({1: b"{0}" * 32, 2: b"{0=str}" * 32, 3: b"{0=f32}" * 32, 4: b"{0:?}{0:a}{0}{0:x}" * 8, 5: b"{0=__internal_FormatSequence}" * 32, 6: b"",
               7: b"{0}" * 31 + b"{1=f32}", 8: b"{0=[?;1]}" * 32, 9: b"x", 10: b"{0=[?]}" * 32,
               11: b"{0}" * 30 + b"{1=bool}", 12: b"{0:?}" * 32, 13: b"{0=u8}"})
    deep = u16(1) * 16
    for room in (0, 1, 1000, 65535):
        case(f"empty string at the bottom, room {room}", bk, deep + u16(2) + u32(0), room=room)
        case(f"float at the bottom, room {room}", bk, deep + u16(3) + u32(0), room=room)
        case(f"string of one byte at the bottom, room {room}", bk, deep + u16(2) + u32(1) + b"s", room=room)
    for room in (0, 1, 1000):
        case(f"hints all the way, nothing at the bottom, room {room}", bk, u16(4) * 16 + u16(6), room=room)
        case(f"hints all the way, literal at the bottom, room {room}", bk, u16(4) * 16 + u16(9), room=room)
        case(f"hints all the way, string at the bottom, room {room}", bk, u16(4) * 16 + u16(2) + u32(0), room=room)
        case(f"hints all the way, float at the bottom, room {room}", bk, u16(4) * 16 + u16(3) + u32(0), room=room)
        case(f"sequences, nothing at the bottom, room {room}", bk, u16(5) * 16 + u16(6) + u16(0) * 16, room=room, words=300)
        case(f"sequences, float at the bottom, room {room}", bk, u16(5) * 16 + u16(3) + u32(0) + u16(0) * 16, room=room, words=300)
        case(f"sequences, literal at the bottom, room {room}", bk, u16(5) * 16 + u16(9) + u16(0) * 16, room=room, words=300)
        case(f"lists, room {room}", bk, u16(8) * 16 + u16(6), room=room, words=300)
        case(f"lists, float at the bottom, room {room}", bk, u16(8) * 16 + u16(3) + u32(0), room=room, words=300)
        case(f"a float behind each text, room {room}", bk, u16(7) + u16(1) * 15 + u16(9) + u32(0), room=room)
        case(f"a float behind each empty text, room {room}", bk, u16(7) * 16 + u16(6) + u32(0) * 16, room=room)
        case(f"a sequence of 900 empty items at the bottom, room {room}", bk, deep[:-2] + u16(5) + u16(6) * 900 + u16(0), room=room, words=5000)
        case(f"something behind each empty text, room {room}", bk, u16(11) * 16 + u16(6) + b"\1" * 16, room=room)
        case(f"? all the way, string at the bottom, room {room}", bk, u16(12) * 16 + u16(2) + u32(0), room=room)
        case(f"? all the way, number at the bottom, room {room}", bk, u16(12) * 16 + u16(13) + b"\5", room=room)


examples()
each_type_with_each_own_hint()
each_type_with_each_hint_handed_down()
own_hints_under_each_handed_down()
paddings()
times()
escapes()
byte_strings_of_lists()
what_cannot_be_printed()
bars()
rooms()
what_comes_first()
timestamps()
words_of_any_number()
one_position_many_times()
cases.write("try_text")
