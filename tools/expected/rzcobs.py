"""Document 01's Blocks, written a second time and in another way than crates/blocks: a message is cut into runs first, and a coding
is taken apart block by block."""


def encode(message):
    out = bytearray()
    at = 0
    while at < len(message):
        zero = message.find(b"\0", at)
        end = len(message) if zero < 0 else zero
        run = message[at:end]
        if len(run) >= 134:
            out += run[:134] + b"\xff"
            at += 134
        elif len(run) >= 7:
            out += run + bytes([0x80 + len(run) - 7])
            at = end + 1
        else:
            seven = message[at:at + 7]
            mask = sum(1 << i for i in range(7) if i >= len(seven) or seven[i] == 0)
            out += seven.replace(b"\0", b"") + bytes([mask])
            at += 7
    return bytes(out)


def decode(coding):
    blocks = []
    while coding:
        control, coding = coding[-1], coding[:-1]
        if control == 0:
            return None
        if control < 0x80:
            wanted = [i for i in range(7) if not control >> i & 1]
            data, block = coding[len(coding) - len(wanted):], bytearray(7)
            for i, b in zip(wanted, data):
                block[i] = b
        else:
            count = 134 if control == 0xff else (control & 0x7f) + 7
            wanted = range(count)
            data = coding[len(coding) - count:] if count <= len(coding) else b""
            block = bytearray(data) + (b"" if control == 0xff else b"\0")
        if len(wanted) > len(coding):
            return None
        coding = coding[:len(coding) - len(wanted)]
        blocks.append(bytes(block))
    return b"".join(reversed(blocks))
