#!/usr/bin/env python3
"""Document 01's Book. Makes crates/try_book/stdout: the cases are the calls in the program's source, which read as Python; what they
have to answer is told by books.py."""
import pathlib
import re

from books import HEAD, parse

CRATE = pathlib.Path(__file__).resolve().parent.parent.parent / "crates/try_book"
out = []


def judge(label, book):
    answer = parse(book)
    out.append(label + b": %d\n" % (0 if isinstance(answer, tuple) else answer))


def quoted(place):
    return b'%d "%s"\n' % place


def look(book, number):
    answer = parse(book)
    if not isinstance(answer, tuple):
        out.append(b"%d: no book\n" % number)
        return
    found = [(level, text) for index, level, text in answer[2] if index == number]
    out.append(b"%d: " % number + (b"absent\n" if not found else (b"level, at " if found[0][0] else b"at ") + quoted(found[0][1])))


def clock(book):
    answer = parse(book)
    out.append(b"no book\n" if not isinstance(answer, tuple) else b"clock at " + quoted(answer[1]) if answer[0] else b"no clock\n")


def cut(text, k):
    pieces = text.split(b"|")
    out.append(b"no such piece\n" if k >= len(pieces) else quoted((sum(len(p) + 1 for p in pieces[:k]), pieces[k])))


def entry(number, text=b""):
    return b"index=%d\ntag=str\ntext=%s\n" % (number, text)


def many(n):
    return HEAD + b"".join(entry(i) for i in range(n))


# the calls of rules.rt
def after_head(label, rest): judge(label, HEAD + rest)
def with_index(value): judge(b"index=" + value, HEAD + b"index=" + value + b"\ntag=info\ntext=T\n")
def with_tag(value): judge(b"tag=" + value, HEAD + b"index=7\ntag=" + value + b"\ntext=T\n")
def with_text(label, text): judge(label, HEAD + b"index=7\ntag=info\ntext=" + text + b"\n")
def long_text(label, n): with_text(label, b"x" * n)
def long_stamp(label, n): judge(label, b"book=1\nclock=yes\ntimestamp=" + b"x" * n + b"\n")
def sized(label, n): judge(label, HEAD + b"".join(entry(i, b"x" * 4096) for i in range(10, 25)) + entry(25, b"x" * n))
def garbage(label, n): judge(label, b"x" * n)
def each_index(values): [with_index(v) for v in values.split(b",")]
def each_tag(values): [with_tag(v) for v in values.split(b",")]


source = (CRATE / "src/rules.rt").read_text()
bodies = dict(re.findall(r"^pub fn (\w+)\(\) \{\n(.*?)^\}", source, flags=re.M | re.S))
for name in "whole first_lines order indexes rising tags texts long_texts sizes".split():
    for call in bodies[name].split(";\n"):
        if call.strip():
            eval(call.strip())
own = eval(re.search(r'let own =\s*(b".*?");', (CRATE / "src/main.rt").read_text(), flags=re.S)[1])
for number in (0, 7, 8, 9, 65534, 65535, 65536):
    look(own, number)
look(HEAD, 0)
look(b"book=1\n", 0)
clock(own)
clock(b"book=1\nclock=yes\ntimestamp=\n")
clock(b"book=1\nclock=yes\ntimestamp={=u32:us}\nindex=7\ntag=str\ntext=yes\n")
for k in range(5):
    cut(b"a|b||c", k)
for text, k in ((b"{=u8|}|", 1), (b"{=u8|}|", 2), (b"", 0), (b"", 1)):
    cut(text, k)
judge(b"2,664 entries", many(2664))
for number in (0, 1331, 2663, 2664):
    look(many(2664), number)
judge(b"2,665 entries", many(2665))
judge(b"5,000 entries", many(5000))
(CRATE / "stdout").write_bytes(b"".join(out))
