#!/usr/bin/env python3
"""Makes the files of this sample from the log below: each message with its time, its entry, its arguments' bytes and, written by hand
from document 01, the line that a clerk reads. With --check it compares the files with what it would write, and writes nothing."""
import sys
from pathlib import Path

HERE = Path(__file__).resolve().parent
sys.path.insert(0, str(HERE.parent.parent / "tools" / "expected"))
from rzcobs import decode, encode  # noqa: E402

BOOK = """\
book=1
clock=yes
timestamp={=u64:us}
index=1
tag=str
text=contact chip
index=2
tag=str
text=contactless
index=3
tag=str
text=KES
index=10
tag=derived
text=Apdu {{ cla: {=u8:02X}, ins: {=u8:02X}, p1: {=u8:02X}, p2: {=u8:02X}, data: {=[u8]:02x} }}
index=11
tag=derived
text=approved, code {=[u8;6]:a}|declined, {=?}|reversed
index=12
tag=derived
text=status {=u16:#06x}
index=13
tag=derived
text=on battery, {=u8}%|charging
index=20
tag=info
text=reader up, firmware {=u8}.{=u8}, {=?}
index=21
tag=info
text=card on {=istr}
index=22
tag=info
text=> {=?}
index=23
tag=info
text=< {=[u8]:02x} {=u16:#06x}
index=24
tag=info
text=payment of {=u32}.{=u8:02} {=istr}: {=?}
index=25
tag=warn
text=card answers {=u16:#06x}, try {=u8} of {=u8}
index=26
tag=error
text=card gone after {=u32:us} s
index=27
tag=warn
text=link back after {=u32:us} s
"""


def u8(n):
    return bytes([n])


def u16(n):
    return n.to_bytes(2, "little")


def u32(n):
    return n.to_bytes(4, "little")


def listed(spaced):
    """a list of bytes, its length in front"""
    some = bytes.fromhex(spaced)
    return u32(len(some)) + some


CONTACT_CHIP, CONTACTLESS, KES = u16(1), u16(2), u16(3)


def apdu(header, spaced):
    return u16(10) + bytes.fromhex(header) + listed(spaced)


def approved(code):
    return u16(11) + u8(0) + code


def declined(status):
    return u16(11) + u8(1) + u16(12) + u16(status)


def generate_ac(amount, number):
    """asks the card for its cryptogram over an amount (12 digits), with the terminal's unpredictable number"""
    return apdu("80 AE 80 00", amount + " 04 04 " + number)


UP, CARD, COMMAND, RESPONSE, PAYMENT, AGAIN, GONE, BACK = range(20, 28)
LEVEL = {UP: "INFO", CARD: "INFO", COMMAND: "INFO", RESPONSE: "INFO", PAYMENT: "INFO", AGAIN: "WARN", GONE: "ERROR", BACK: "WARN"}

# What the card reader sent, in order: microseconds since it came up, entry, arguments, line.
LOG = [
    (250, UP, u8(2) + u8(7) + u16(13) + u8(0) + u8(81), "reader up, firmware 2.7, on battery, 81%"),
    (12_500_000, CARD, CONTACTLESS, "card on contactless"),
    (12_510_040, COMMAND, apdu("00 A4 04 00", "32 50 41 59 2E 53 59 53 2E 44 44 46 30 31"),
     "> Apdu { cla: 00, ins: A4, p1: 04, p2: 00, data: [32, 50, 41, 59, 2e, 53, 59, 53, 2e, 44, 44, 46, 30, 31] }"),
    (12_531_900, RESPONSE, listed("6F 09 84 07 A0 00 00 00 04 10 10") + u16(0x9000),
     "< [6f, 09, 84, 07, a0, 00, 00, 00, 04, 10, 10] 0x9000"),
    (12_540_000, COMMAND, apdu("00 A4 04 00", "A0 00 00 00 04 10 10"),
     "> Apdu { cla: 00, ins: A4, p1: 04, p2: 00, data: [a0, 00, 00, 00, 04, 10, 10] }"),
    (12_561_000, RESPONSE, listed("6F 05 9F 38 02 9F 02") + u16(0x9000), "< [6f, 05, 9f, 38, 02, 9f, 02] 0x9000"),
    (12_570_000, COMMAND, generate_ac("00 00 00 12 50 00", "5A 11 C3 07"),
     "> Apdu { cla: 80, ins: AE, p1: 80, p2: 00, data: [00, 00, 00, 12, 50, 00, 04, 04, 5a, 11, c3, 07] }"),
    (12_702_300, RESPONSE, listed("9F 27 01 80") + u16(0x9000), "< [9f, 27, 01, 80] 0x9000"),
    (14_000_000, PAYMENT, u32(1250) + u8(0) + KES + approved(b"4F\"7Q2"), "payment of 1250.00 KES: approved, code b\"4F\\\"7Q2\""),
    (60_100_000, CARD, CONTACT_CHIP, "card on contact chip"),
    (60_140_000, COMMAND, apdu("00 A4 04 00", "A0 00 00 00 03 10 10"),
     "> Apdu { cla: 00, ins: A4, p1: 04, p2: 00, data: [a0, 00, 00, 00, 03, 10, 10] }"),
    (60_150_000, AGAIN, u16(0x6283) + u8(1) + u8(3), "card answers 0x6283, try 1 of 3"),
    (60_450_000, RESPONSE, listed("") + u16(0x9000), "< [] 0x9000"),
    (60_470_000, COMMAND, generate_ac("00 00 00 03 40 50", "91 E2 5D 38"),
     "> Apdu { cla: 80, ins: AE, p1: 80, p2: 00, data: [00, 00, 00, 03, 40, 50, 04, 04, 91, e2, 5d, 38] }"),
    (60_640_000, RESPONSE, listed("9F 27 01 00") + u16(0x6985), "< [9f, 27, 01, 00] 0x6985"),
    (61_900_000, PAYMENT, u32(340) + u8(50) + KES + declined(0x6985), "payment of 340.50 KES: declined, status 0x6985"),
    (75_000_000, COMMAND, generate_ac("00 00 09 80 00 00", "C4 7B 16 E9"),
     "> Apdu { cla: 80, ins: AE, p1: 80, p2: 00, data: [00, 00, 09, 80, 00, 00, 04, 04, c4, 7b, 16, e9] }"),
    (75_180_000, RESPONSE, listed("9F 27 01 40") + u16(0x9000), "< [9f, 27, 01, 40] 0x9000"),
    (75_900_000, GONE, u32(1_020_000), "card gone after 1.020000 s"),
    (80_000_000, BACK, u32(19_400_000), "link back after 19.400000 s"),
    (81_000_000, CARD, CONTACTLESS, "card on contactless"),
    (81_040_000, COMMAND, apdu("00 A4 04 00", "A0 00 00 00 04 10 10"),
     "> Apdu { cla: 00, ins: A4, p1: 04, p2: 00, data: [a0, 00, 00, 00, 04, 10, 10] }"),
    (81_061_000, RESPONSE, listed("6F 05 9F 38 02 9F 02") + u16(0x9000), "< [6f, 05, 9f, 38, 02, 9f, 02] 0x9000"),
    (81_400_000, PAYMENT, u32(75) + u8(5) + KES + approved(b"K7#002"), "payment of 75.05 KES: approved, code b\"K7#002\""),
]
_, SECOND_AC, THIRD_AC = [i for i, said in enumerate(LOG) if b"\x80\xae\x80\x00" in said[2]]
DECLINED = next(i for i, said in enumerate(LOG) if said[3].startswith("payment of 340.50"))

# Each message in its coding, closed by a zero.
SENT = [encode(u16(entry) + time.to_bytes(8, "little") + arguments) + b"\0" for time, entry, arguments, _ in LOG]


def parts(first, kept, second, lost):
    """what arrived where the link went down after `kept` bytes of one message and came back after `lost` bytes of a later one"""
    return b"".join(SENT[:first]) + SENT[first][:kept], SENT[second][lost:] + b"".join(SENT[second + 1:])


# Of the second cryptogram's command this much arrived: its amount begins 00 00 03.
HEAD = 14


def shown(said):
    """as the program writes a line"""
    return "text=%s\n" % said[3]


def framed(said):
    """as the binding's example writes a line"""
    time, entry, _, text = said
    return "%d.%06d %s %s\n" % (time // 1_000_000, time % 1_000_000, LEVEL[entry], text)


def capture():
    """a loss whose ends do not fit: the link comes back in the middle of a payment's message"""
    lost = 12
    joined = SENT[SECOND_AC][:HEAD] + SENT[DECLINED][lost:]
    assert decode(joined[:-1]) is None, "the program has to refuse what is joined"
    before, after = parts(SECOND_AC, HEAD, DECLINED, lost)
    lines = [shown(said) for said in LOG[:SECOND_AC]] + ["refused=2\n"] + [shown(said) for said in LOG[DECLINED + 1:]]
    return before + after, "".join(lines) + "held=0\n"


def connections():
    """a loss whose ends fit: the link comes back in the middle of the third cryptogram's command, whose amount begins 00 00 09"""
    joined = SENT[SECOND_AC][:HEAD] + SENT[THIRD_AC][HEAD:]
    never_sent = decode(joined[:-1])
    assert bytes.fromhex("00 00 03 80 00 00 04 04 C4 7B 16 E9") in never_sent
    assert all(never_sent != decode(coding[:-1]) for coding in SENT)
    before, after = parts(SECOND_AC, HEAD, THIRD_AC, HEAD)
    return before, after, "".join(framed(said) for said in LOG[:SECOND_AC] + LOG[THIRD_AC + 1:])


def main():
    stored, lines = capture()
    before, after, told = connections()
    files = {
        "book.txt": BOOK.encode(),
        "capture": stored,
        "lines.txt": lines.encode(),
        "connection-1": before,
        "connection-2": after,
        "frames.txt": told.encode(),
    }
    for name, content in files.items():
        if "--check" not in sys.argv:
            (HERE / name).write_bytes(content)
        elif (HERE / name).read_bytes() != content:
            sys.exit("%s is not what make.py writes" % name)


main()
