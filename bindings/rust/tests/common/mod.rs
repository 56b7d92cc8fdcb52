//! Books and frames that several tests share.
#![allow(dead_code)]

use kirayotep::{blocks, Book, Refusal, Stream};

/// Document 01's book.
pub const EXAMPLE: &str = "book=1\nclock=no\ntimestamp=\nindex=7\ntag=info\ntext=T {=u8} {=i16}\n";

/// Document 01's input, the coding of `T 5 -1` with its closing zero.
pub const INPUT: [u8; 6] = [0x07, 0x05, 0xFF, 0xFF, 0x62, 0x00];

pub fn example() -> Book {
    Book::new(EXAMPLE.as_bytes()).expect("the example is a book")
}

/// A book without a clock, of entries with index, tag and text.
pub fn book(entries: &[(u16, &str, &str)]) -> Book {
    book_with("no", "", entries)
}

pub fn book_with(clock: &str, timestamp: &str, entries: &[(u16, &str, &str)]) -> Book {
    let mut bytes = format!("book=1\nclock={}\ntimestamp={}\n", clock, timestamp);
    for (index, tag, text) in entries {
        bytes += &format!("index={}\ntag={}\ntext={}\n", index, tag, text);
    }
    Book::new(bytes.into_bytes()).expect("a book")
}

/// A message's coding, closed by a zero.
pub fn frame(message: &[u8]) -> Vec<u8> {
    let mut coding = blocks::encode(message).expect("a message within the limit");
    coding.push(0);
    coding
}

/// All that a stream has to say: texts, and refusals by their numbers.
pub fn lines(stream: &mut Stream) -> Vec<Result<String, u64>> {
    let mut lines = Vec::new();
    loop {
        lines.push(match stream.decode() {
            Ok(Some(frame)) => frame.text().map(String::from).map_err(Refusal::number),
            Ok(None) => return lines,
            Err(refusal) => Err(refusal.number()),
        });
    }
}

pub fn text(line: &str) -> Result<String, u64> {
    Ok(line.to_string())
}
