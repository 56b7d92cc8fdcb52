"""01's Text of numbers, times and bytes: Python's own digits and the Rust's format_u128, format_i128, format_time and format_bytes."""


def in_base(n, base, alternate, pad, sign=""):
    digits = {"b": bin(n)[2:], "o": oct(n)[2:], "d": str(n), "x": hex(n)[2:], "X": hex(n)[2:].upper()}[base]
    front = sign
    if alternate and base != "d":
        front += "0" + base.lower()
    while len(front + digits) < pad:
        digits = "0" + digits
    return front + digits


def unsigned(n, base="d", alternate=False, pad=0):
    return in_base(n, base, alternate, pad)


def signed(n, bits, base="d", alternate=False, pad=0):
    """n is the signed number itself"""
    if base == "d":
        return in_base(abs(n), base, alternate, pad, "-" if n < 0 else "")
    if base in "bo":
        bits = 128
    return in_base(n & (1 << bits) - 1, base, alternate, pad)


def fraction(rest, places):
    return "" if places == 0 else "." + str(rest).rjust(places, "0")


def seconds(n, places):
    return str(n // 10**places) + fraction(n % 10**places, places)


def time(n, places):
    n, rest = divmod(n, 10**places)
    n, s = divmod(n, 60)
    n, m = divmod(n, 60)
    days, h = divmod(n, 24)
    text = f"{h:02}:{m:02}:{s:02}" + fraction(rest, places)
    return f"{days}:{text}" if days else text


def quoted(data):
    names = {9: "\\t", 10: "\\n", 13: "\\r", 34: '\\"', 92: "\\\\"}
    return 'b"' + "".join(names.get(b) or (chr(b) if 32 <= b < 127 else f"\\x{b:02x}") for b in data) + '"'


def listed(data, base="d", alternate=False, pad=0):
    return "[" + ", ".join(unsigned(b, base, alternate, pad) for b in data) + "]"
