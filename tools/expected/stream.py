#!/usr/bin/env python3
"""Makes crates/try_stream's stdin and stdout: link sessions, and what has to come up by the messages that were sent.

What comes up is told from the log of each session alone: a message is due if each byte of its coding and its first closing
zero arrived, the zero before it (or the start) too, and no gap call fell between. No stream is played here. The second half of
stdout, stream-judged.txt, is written by hand from document 01."""
import os, random
from rzcobs import decode, encode


def hexed(bs): return "".join(f"{b:02x}" for b in bs)

def due(messages, log):
    """log: a list of ('arrives', b), ('lost', b), ('gap',), in which the bytes are those of the messages, in order"""
    fates, gaps = [], set()          # gaps: before which sent byte a gap call fell
    for e in log:
        if e[0] == "gap": gaps.add(len(fates))
        else: fates.append(e)
    ups, at = [], 0
    for message, zeros in messages:
        coding = encode(bytes(message))
        first, last = at, at + len(coding)           # last: its first closing zero
        whole = all(fates[i][0] == "arrives" for i in range(first, last + 1))
        before = first == 0 or fates[first - 1][0] == "arrives"
        # no gap call from the arrival of the byte before up to the arrival of the closing zero
        if whole and before and not any(i in gaps for i in range(first, last + 1)): ups.append(list(decode(coding)))
        at = last + zeros
    return ups

def played(rng, log, takes):
    """the log as calls, cut into pieces and with takes anywhere"""
    lines, piece = [], []
    def flush():
        if piece or rng.random() < 0.1: lines.append("+" + hexed(piece)); piece.clear()
    for e in log:
        if e[0] == "gap": flush(); lines.append("-")
        elif e[0] == "arrives": piece.append(e[1])
        if rng.random() < 0.25: flush()
        if rng.random() < takes: flush(); lines.append("?")
    flush(); lines.append("?")
    return lines

def wire(messages):
    return [b for m, z in messages for b in list(encode(bytes(m))) + [0] * z]

def log_of(messages, lost=(), gaps=()):
    """lost: places of sent bytes; gaps: places before which gap is called"""
    log = []
    w = wire(messages)
    for i, b in enumerate(w):
        if i in gaps: log.append(("gap",))
        log.append(("lost" if i in lost else "arrives", b))
    if len(w) in gaps: log.append(("gap",))
    return log

def marked(log):
    owing = False
    seen = False
    for e in log:
        if e[0] == "gap": owing, seen = False, True
        elif e[0] == "lost": owing = owing or not seen
        else:
            if owing: return False
            seen = False
    return True

def named(rng):
    five, six, seven = ([5], 2), ([6], 1), ([7, 8], 1)
    three = [five, six, seven]                       # 05 7e 00 00  06 7e 00  07 08 7c 00
    yield three, log_of(three)
    yield three, log_of(three, lost=[8], gaps=[9])             # a cut inside a message
    yield three, log_of(three, lost=[1, 2], gaps=[1])          # a lost tail
    yield three, log_of(three, lost=[3, 4], gaps=[5])          # a lost head
    yield three, log_of(three, gaps=[3])                       # a gap call between two closing zeros
    yield three, log_of(three, gaps=[4])                       # a needless gap call
    yield three, log_of(three, lost=range(0, 5), gaps=[0])     # a reconnect in the middle of a message
    yield three, log_of(three, lost=range(2, 8), gaps=[2, 8])  # from a closing zero to the middle of a later message
    yield three, log_of(three, gaps=[11])                      # a gap call behind everything
    many = [([0], 9), ([1, 0, 2], 1), (list(range(1, 8)), 3), (list(range(1, 15)), 1), ([9] * 6 + [0], 2)]
    yield many, log_of(many)
    yield many, log_of(many, lost=[1, 2, 3], gaps=[1])
    ones = [([1] * 133, 1), ([2], 2)]
    yield ones, log_of(ones)
    ones = [([1] * 134, 1), ([2], 2)]
    yield ones, log_of(ones, lost=[60], gaps=[61])

def random_one(rng):
    messages = [([rng.choice([0, 0, 1, 2, rng.randrange(256)]) for _ in range(rng.randrange(1, 12))], rng.choice([1, 1, 1, 2, 4])) for _ in range(rng.randrange(1, 8))]
    n = len(wire(messages))
    lost, gaps = set(), set()
    for _ in range(rng.randrange(0, 4)):
        a = rng.randrange(n); b = min(n, a + rng.choice([1, 1, 2, 3, 7]))
        lost |= set(range(a, b)); gaps.add(rng.choice([a, b]))
    for _ in range(rng.randrange(0, 2)): gaps.add(rng.randrange(n + 1))
    log = log_of(messages, lost, gaps)
    return (messages, log) if marked(log) else random_one(rng)

# sessions with a small store, by hand: the lines, and what is written
BY_HAND = [
    # a piece that fills the store exactly, and then room again
    ("=06", ["+057e00", "+067e00", "?", "+010203040506", "-", "?", "+0001", "-"], ["up " + hexed([5] + [0] * 6), "up " + hexed([6] + [0] * 6)]),
    # one byte more is FULL and changes nothing
    ("=05", ["+057e00", "+067e00", "?", "+067e00", "?"], ["refused=4", "up " + hexed([5] + [0] * 6), "up " + hexed([6] + [0] * 6)]),
    # FULL, a gap call, and the same piece again: what was whole stays, and the piece's first message counts as broken
    ("=08", ["+057e0006", "+7e0007087c00", "-", "+7e0007087c00", "?"], ["refused=4", "up " + hexed([5] + [0] * 6), "up " + hexed([7, 8] + [0] * 5)]),
    # FULL again, since a whole frame is still held and the rest of the piece is longer than what is free; after a take it fits
    ("=05", ["+057e00", "+060007087c00", "-", "+060007087c00", "?", "+060007087c00", "?"], ["refused=4", "refused=4", "up " + hexed([5] + [0] * 6), "up " + hexed([7, 8] + [0] * 5)]),
    # zeros in front do not count as held
    ("=03", ["+0000000000", "+00057e00", "?", "+000000", "?"], ["up " + hexed([5] + [0] * 6)]),
    # a frame that is no coding is MALFORMED in its place, and goes
    ("=20", ["+057e0001000000067e00", "?"], ["up " + hexed([5] + [0] * 6), "refused=2", "up " + hexed([6] + [0] * 6)]),
]

def main(crate):
    rng = random.Random(3)
    sessions = [(m, l, played(rng, l, 0.15)) for m, l in list(named(rng)) + [random_one(rng) for _ in range(14)]]
    stdin, stdout = [], []
    for messages, log, lines in sessions:
        assert marked(log) and len(wire(messages)) <= 255
        stdin += ["=ff"] + lines
        stdout += ["session"] + ["up " + hexed(m) for m in due(messages, log)]
    for begin, lines, ups in BY_HAND:
        stdin += [begin] + lines
        stdout += ["session"] + ups
    judged = open(os.path.join(os.path.dirname(os.path.abspath(__file__)), "stream-judged.txt")).read()
    open(os.path.join(crate, "stdin"), "w").write("\n".join(stdin) + "\n")
    open(os.path.join(crate, "stdout"), "w").write("\n".join(stdout) + "\n" + judged)

main(os.path.join(os.path.dirname(os.path.abspath(__file__)), "../../crates/try_stream"))
