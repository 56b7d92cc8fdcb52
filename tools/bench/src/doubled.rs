//! Costs while an input doubles: a cost per byte that stays shows that the whole grows no faster than its input.

use crate::inputs::{self, PIECE};
use crate::rows::{check, decoding, encoding, stream, text, Row, Taken, Texts, STORE};

type Made = fn(usize) -> Row;

/// What doubles, from which size, how many times, and the row of a size.
const GROWING: [(&str, usize, u32, Made); 11] = [
    ("decode blocks: bytes of a message", 3500, 4, |n| decoding(&inputs::plain(n, 3))),
    ("encode blocks: bytes of a message", 3500, 4, |n| encoding(inputs::plain(n, 3))),
    ("stream: how often 112,000 bytes of messages, 40 bytes each, come", 1, 4, |n| {
        stream(inputs::wire(&inputs::plain(40, 3)).repeat(n), PIECE, STORE, Taken::Each)
    }),
    ("stream: bytes of a piece, a store of four, messages of 2 bytes", 512, 5, |n| {
        stream(inputs::wire(&inputs::plain(2, 0)), n, 4 * n, Taken::Each)
    }),
    ("stream, moved once a piece: bytes of a piece, a store of four, messages of 2 bytes", 512, 5, |n| {
        stream(inputs::wire(&inputs::plain(2, 0)), n, 4 * n, Taken::All)
    }),
    ("stream: bytes of the store, pieces of 1,024", 2048, 5, |n| stream(inputs::wire(&inputs::plain(40, 3)), PIECE, n, Taken::Each)),
    ("stream, moved once a piece: bytes of the store, pieces of 1,024", 2048, 5, |n| {
        stream(inputs::wire(&inputs::plain(40, 3)), PIECE, n, Taken::All)
    }),
    ("text: bytes of a string", 2000, 5, |n| by_part(text(&inputs::long_string(n), Texts::Message), n)),
    ("text: elements of a list", 40, 4, |n| by_part(text(&inputs::long_list(n), Texts::Message), n)),
    ("text: entries of the book, by frame", 250, 4, |n| text(&inputs::in_a_book_of(n), Texts::Message)),
    ("check: entries of a book, by byte", 333, 4, |n| check(inputs::shortest_book(n).bytes())),
];

/// Told by what doubles.
fn by_part(row: Row, units: usize) -> Row {
    Row { units, ..row }
}

pub fn print() {
    for (name, first, times, made) in GROWING {
        println!("{name}");
        for size in (0..times).map(|turn| first << turn) {
            let mut row = made(size);
            row.agree();
            let (ours, rust) = row.costs();
            let rust = rust.map_or(String::new(), |rust| format!(", the Rust {rust:.2} ns"));
            println!("  {size}: ours {ours:.2} ns{rust}");
        }
    }
}
