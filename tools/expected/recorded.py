"""The cases of crates/try_rows and crates/try_text: records of standard input, each behind its length in two bytes.

A record is a book, for the cases behind it (`b`, and its bytes), or a case (`m`: numbers of two bytes, a label behind its length in one byte, the
message). A book or a message of n zero bytes is told by n in three bytes, under a capital letter."""
import pathlib

CRATES = pathlib.Path(__file__).resolve().parent.parent.parent / "crates"


def little(n, width):
    return n.to_bytes(width, "little")


def told(letter, front, value):
    """value: bytes, or a number of zero bytes"""
    if isinstance(value, int):
        return letter.upper() + front + little(value, 3)
    return letter + front + value


def given(value):
    return bytes(value) if isinstance(value, int) else value


def book(entries, stamp=None):
    """entries: index to text, or to (tag, text)"""
    lines = [b"book=1", b"clock=no" if stamp is None else b"clock=yes", b"timestamp=" + (stamp or b"")]
    for index in sorted(entries):
        tag, text = entries[index] if isinstance(entries[index], tuple) else (b"derived", entries[index])
        lines += [b"index=%d" % index, b"tag=" + tag, b"text=" + text]
    return b"\n".join(lines) + b"\n"


class Cases:
    def __init__(self):
        self.records, self.lines, self.book = [], [], None

    def add(self, label, book, message, numbers, line):
        """line: what the program has to write for this case"""
        if book != self.book:
            self.records.append(told(b"b", b"", book))
            self.book = book
        label = label.encode()
        front = b"".join(little(n, 2) for n in numbers) + little(len(label), 1) + label
        self.records.append(told(b"m", front, message))
        self.lines.append(label + b": " + line + b"\n")

    def write(self, crate, before=b""):
        """before: what the program writes ahead of the cases"""
        stdin = b"".join(little(len(r), 2) + r for r in self.records)
        (CRATES / crate / "stdin").write_bytes(stdin)
        (CRATES / crate / "stdout").write_bytes(before + b"".join(self.lines))
        print(crate, len(self.lines), "cases", len(stdin), "bytes")
