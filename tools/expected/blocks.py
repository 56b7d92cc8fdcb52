#!/usr/bin/env python3
"""Prints what crates/try_blocks has to write: `crates/try_blocks/stdout` is made by it."""
from rzcobs import decode, encode

LIMIT = 65536
OK, MALFORMED, ROOM, ZERO, SIZE = 0, 2, 5, 6, 13


def answer(call, data, room):
    if len(data) > LIMIT:
        return SIZE, b""
    if call == "decode":
        if 0 in data:
            return ZERO, b""
        result = decode(data)
        if result is None:
            return MALFORMED, b""
    else:
        result = encode(data)
    return (OK, result) if len(result) <= room else (ROOM, b"")


def line(call, data, room):
    number, result = answer(call, data, room)
    lent = result + b"\xee" * (room - len(result)) if number == OK else bytes(room)
    print(f"{call} {data.hex()} room {room}: {number} {len(result)} {lent.hex()}")


def three(call, data, size):
    line(call, data, size + 3)
    line(call, data, size)
    if size:
        line(call, data, size - 1)


def limit(data, room):
    d, e = answer("decode", data, room), answer("encode", data, room)
    print(f"limit {len(data)}: decode {d[0]} {len(d[1])}, encode {e[0]} {len(e[1])}")


# document 01's cases, the sizes as it gives them
three("encode", b"", 0)
three("decode", b"", 0)
three("encode", b"\1", 2)
three("decode", b"\1\x7e", 7)
three("encode", b"\0", 1)
three("decode", b"\x7f", 7)
three("encode", bytes(range(1, 8)), 8)
three("decode", bytes(range(1, 8)) + b"\x80", 8)
three("encode", bytes(range(1, 7)) + b"\0", 7)
three("decode", bytes(range(1, 7)) + b"\x40", 7)
line("decode", b"\x80", 20)
line("decode", b"\1", 20)
three("decode", bytes(range(2, 8)) + b"\1", 7)
for coding, room in ((b"\0", 8), (b"\0\x7e", 8), (b"\x7f\0", 8), (b"\0\x80", 8), (b"\x80\0", 8), (b"\0\x7f", 0)):
    line("decode", coding, room)
for count, size in ((6, 7), (7, 8), (8, 9), (133, 134), (134, 135), (135, 137)):
    three("encode", b"\1" * count, size)
three("decode", b"\1" * 133 + b"\xfe", 134)
line("decode", b"\1" * 132 + b"\xfe", 140)
three("decode", b"\1" * 134 + b"\xff", 134)
line("decode", b"\1" * 133 + b"\xff", 140)
limit(b"\x7f" * 65536, 458752)
limit(b"\x7f" * 65537, 458752)
limit(b"\x7f" * 65536, 458751)
