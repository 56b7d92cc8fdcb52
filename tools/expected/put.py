#!/usr/bin/env python3
"""01's Text of numbers, times and bytes, by spelling.py. Prints what crates/try_put has to write; `crates/try_put/stdout` is made by it."""
import sys

from spelling import listed, quoted, seconds, signed, time, unsigned

out = []
MAX, TOP = 2**64 - 1, 2**63


def line(name, texts):
    out.append(name + "".join(f"<{t}>" for t in texts) + "\n")


SHAPES = [(b, a) for b in "bodxX" for a in (False, True)]
for n in (0, 1, 255, 65535, 2**32 - 1, 2**32, MAX, 2**64, 0xFEDCBA98765432100123456789ABCDEF, 2**128 - 1):
    line("unsigned", [unsigned(n, b, a) for b, a in SHAPES])

for bits in (8, 16, 32, 64, 128):
    for n in [0, 1, -1, 2**(bits - 1) - 1, -2**(bits - 1)] + [-2**64] * (bits == 128):
        line("signed", [signed(n, bits, b, a) for b, a in SHAPES])

for pad in (0, 1, 2, 3, 4, 5, 6, 9, 10, 11, 127, 128):
    line("padded", [unsigned(255, "d", False, pad), unsigned(255, "b", True, pad), unsigned(255, "o", False, pad),
                    unsigned(255, "x", True, pad), unsigned(255, "X", True, pad), unsigned(0, "x", False, pad),
                    unsigned(0, "x", True, pad), signed(5, 32, "d", False, pad), signed(-5, 32, "d", False, pad),
                    signed(-1, 8, "x", False, pad), signed(-1, 8, "X", True, pad)])


def times_of(n):
    line("times", [seconds(n, p) for p in (0, 3, 6)] + [time(n, p) for p in (0, 3, 6)])


def around(n):
    for k in (n - 1, n, n + 1):
        if 0 <= k <= MAX:
            times_of(k)


for n in (0, 60, 3600, 86400):
    around(n)
times_of(90061)
for n in (1000, 60000, 3600000, 86400000, 1000000):
    around(n)
times_of(1500000)
for n in (60000000, 3600000000, 86400000000, MAX):
    around(n)
times_of(2**64)
times_of(2**128 - 1)

for data in [b"", b"Hello, world"] + [bytes(range(k, k + 16)) for k in range(0, 256, 16)]:
    line("quoted", [quoted(data)])

for data in (b"", b"\0", b"\1\2\3", b"\xff\0\x0a\x7f\x80"):
    line("list", [listed(data), listed(data, "b", False, 8), listed(data, "o", True), listed(data, "x", True, 4),
                  listed(data, "X")])


def written(text, at, room):
    if at + len(text) > room:
        return "no room"
    lent = b"\xee" * at + text.encode() + b"\xee" * (room - at - len(text))
    return f"{at + len(text)} {lent.hex()}"


for text in ("x", "", "four", "000", "00111", unsigned(255, "x", True, 6), signed(-5, 32, "d", False, 6), seconds(1500000, 6),
             time(90061, 0), quoted(b"a\n\0"), listed(b"\1\2", "x", True, 4)):
    n = len(text)
    line("rooms", [written(text, 3, n + 5), written(text, 3, n + 3), written(text, 3, n + 2), written(text, n + 1, n),
                   written(text, 2**64 - 1, n), written(text, 0, 0)])

sys.stdout.write("".join(out))
