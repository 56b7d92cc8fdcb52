#!/usr/bin/env python3
"""Document 01's values that nest nothing, read by Python's own means. Writes the cases of crates/try_values (stdin) and what the
program has to write (stdout)."""
import pathlib

HERE = pathlib.Path(__file__).resolve().parent.parent.parent / "crates/try_values"
MASK = (1 << 64) - 1
cases, lines = [], []


def words(value, end):
    value &= (1 << 128) - 1
    return f"{value & MASK} {value >> 64} {end}"


def text(data, start, n, end):
    try:
        data[start:start + n].decode("utf-8")
    except UnicodeDecodeError:
        return "bad"
    return f"{start} {n} {end}"


def counted(m, at):
    if len(m) < at + 4:
        return None
    n = int.from_bytes(m[at:at + 4], "little")
    return None if len(m) < at + 4 + n else (at + 4, n)


def answer(letter, a, b, at, m):
    if letter in "us":
        return words(int.from_bytes(m[at:at + a], "little", signed=letter == "s"), at + a) if at + a <= len(m) else "short"
    if letter == "b":
        return "short" if at >= len(m) else f"{m[at]} 0 {at + 1}" if m[at] < 2 else "bad"
    if letter == "c":
        if at + 4 > len(m):
            return "short"
        v = int.from_bytes(m[at:at + 4], "little")
        return f"{v} 0 {at + 4}" if v <= 0x10ffff and not 0xd800 <= v <= 0xdfff else "bad"
    if letter == "n":
        return f"{at} {a} {at + a}" if at + a <= len(m) else "short"
    if letter in "yt":
        found = counted(m, at)
        if found is None:
            return "short"
        start, n = found
        return f"{start} {n} {start + n}" if letter == "y" else text(m, start, n, start + n)
    if letter == "p":
        end = m.find(b"\xff", at) if at <= len(m) else -1
        return "short" if end < 0 else text(m, at, end - at, end + 1)
    low, high = a // 8, (b - 1) // 8
    w = {1: 1, 2: 2, 3: 4, 4: 4}.get(high - low + 1) or (8 if high - low + 1 <= 8 else 16)
    return words(int.from_bytes(m[at:at + w], "little") << 8 * low, at + w) if at + w <= len(m) else "short"


def case(letter, m, a=0, b=0, at=0):
    m = bytes(m)
    cases.append(bytes([ord(letter), a, b, at]) + m)
    lines.append(f"{letter} {a:02x}{b:02x}{at:02x} {m.hex()}: {answer(letter, a, b, at, m)}\n")


for w in (1, 2, 4, 8, 16):
    for low, top in ((0, 0), (0, 0x7f), (0xff, 0x7f), (0, 0x80), (0xff, 0xff), (1, 0)):
        m = bytes([low] * (w - 1) + [top])
        case("u", m, w)
        case("u", b"\xaa\xbb" + m + b"\xcc", w, at=2)
        if w < 16:
            case("s", m, w)
            case("s", b"\xaa\xbb" + m + b"\xcc", w, at=2)
    case("u", b"\x11" * (w - 1), w)
    case("u", b"\x11" * 20, w, at=21 - w)
    if w < 16:
        case("s", b"\x91" * (w - 1), w)
case("u", range(1, 17), 16)
case("u", b"", 1, at=9)
for m in ((), (0,), (1,), (2,), (255,), (0, 1)):
    case("b", m)
case("b", (0, 1), at=1)
case("b", (0, 1), at=2)
for v in (0, 0x41, 0xd7ff, 0xd800, 0xdfff, 0xe000, 0xffff, 0x10ffff, 0x110000, 0xffffffff):
    case("c", v.to_bytes(4, "little"))
case("c", (0x41, 0, 0))
case("c", (9, 0x41, 0, 0, 0), at=1)
for n, m in ((0, b""), (0, b"ab"), (2, b"ab"), (3, b"ab"), (255, b"ab")):
    case("n", m, n)
case("n", b"ab", 0, at=2)
case("n", b"ab", 0, at=3)
case("n", b"ab", 1, at=2)
for letter in "yt":
    for m in (b"", b"\0\0\0", b"\0\0\0\0", b"\1\0\0\0", b"\1\0\0\0A", b"\1\0\0\0\xc3", b"\2\0\0\0\xc3\xa9Z", b"\2\0\0\0\xc0\xaf", b"\3\0\0\0\xed\xa0\x80",
              b"\3\0\0\0\xff\xff", b"\xff\xff\xff\xff\xff", b"\0\1\0\0" + b"x" * 256, b"\0\1\0\0" + b"x" * 255):
        case(letter, m)
    case(letter, b"\7\7\1\0\0\0A", at=2)
    case(letter, b"A", at=200)
for m in (b"", b"\xff", b"A", b"A\xff", b"\xc3\xff", b"\xc3\xa9\xff\xff", b"\xc3", b"\xed\xa0\x80\xff"):
    case("p", m)
case("p", b"\xff\xc3\xa9\xffB", at=1)
case("p", b"A\xff", at=2)
case("p", b"A\xff", at=3)
for a, b in ((0, 1), (0, 8), (7, 8), (7, 9), (8, 16), (0, 16), (0, 17), (0, 24), (8, 32), (0, 32), (0, 33), (3, 40), (0, 64), (0, 65), (8, 72), (0, 128), (64, 72),
             (60, 70), (120, 128), (127, 128), (100, 128), (65, 128), (1, 128)):
    case("f", range(1, 17), a, b)
    case("f", (0xff,) * 17, a, b, at=1)
    case("f", (), a, b)
case("f", (1, 2, 3), 0, 24)
case("f", range(7), 0, 40)
case("f", range(15), 0, 72)
(HERE / "stdin").write_bytes(b"".join(len(c).to_bytes(2, "little") + c for c in cases))
(HERE / "stdout").write_text("".join(lines))
print(len(cases), "cases")
