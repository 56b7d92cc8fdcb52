//! Cases: random ones, and for one that differs the smaller ones that might differ too.

use oracle::answers::Temper;
use oracle::book::{Book, Entry};
use oracle::generate;
use oracle::random::Random;
use std::fmt;

#[derive(Clone, Debug, PartialEq, Eq)]
pub enum Case {
    Coding(Vec<u8>),
    /// A message to encode.
    Plain(Vec<u8>),
    /// Pieces of a stream, each with how many frames are taken behind it.
    Pieces(Vec<(Vec<u8>, usize)>),
    Frame {
        book: Book,
        message: Vec<u8>,
        temper: Temper,
    },
    Frames {
        book: Book,
        pieces: Vec<Vec<u8>>,
        temper: Temper,
    },
}

const MESSAGES_A_BOOK: usize = 6;

/// Some cases that share a book, or one without a book.
pub fn random(random: &mut Random) -> Vec<Case> {
    match random.below(10) {
        0 => (0..10).map(|_| Case::Coding(generate::coding(random))).collect(),
        1 => {
            let len = random.below(300);
            let of = random.one_of(&[0, 2, 3, 16, 140]);
            vec![Case::Plain(random.message(len, of))]
        }
        2 => {
            let book = generate::book(random);
            let pieces = generate::session(random, &book).pieces;
            vec![Case::Pieces(pieces.into_iter().map(|piece| (piece, random.below(4))).collect())]
        }
        3 | 4 => {
            let book = generate::book(random);
            let generate::Session { pieces, temper } = generate::session(random, &book);
            vec![Case::Frames { book, pieces, temper }]
        }
        _ => {
            let book = generate::book(random);
            let frame = |_| {
                let (message, temper) = generate::message(random, &book);
                Case::Frame { book: book.clone(), message, temper }
            };
            (0..MESSAGES_A_BOOK).map(frame).collect()
        }
    }
}

/// The list without a stretch: halves first, single items last.
fn without<T: Clone>(items: &[T]) -> Vec<Vec<T>> {
    let mut smaller = Vec::new();
    let mut stretch = items.len();
    while stretch > 0 {
        for start in (0..items.len()).step_by(stretch) {
            let mut rest = items.to_vec();
            rest.drain(start..(start + stretch).min(items.len()));
            smaller.push(rest);
        }
        stretch /= 2;
    }
    smaller
}

fn smaller_bytes(bytes: &[u8]) -> Vec<Vec<u8>> {
    let mut smaller = without(bytes);
    for (i, &byte) in bytes.iter().enumerate() {
        for less in [0, 1, byte / 2, byte.saturating_sub(1)].into_iter().filter(|&less| less < byte) {
            let mut copy = bytes.to_vec();
            copy[i] = less;
            smaller.push(copy);
        }
    }
    smaller
}

fn smaller_texts(text: &str) -> Vec<String> {
    let chars: Vec<char> = text.chars().collect();
    without(&chars).into_iter().map(|chars| chars.into_iter().collect()).collect()
}

fn smaller_books(book: &Book) -> Vec<Book> {
    let mut smaller: Vec<Book> = without(&book.entries).into_iter().map(|entries| Book { entries, ..book.clone() }).collect();
    if let Some(text) = &book.clock {
        smaller.push(Book { clock: None, ..book.clone() });
        smaller.extend(smaller_texts(text).into_iter().map(|text| Book { clock: Some(text), ..book.clone() }));
    }
    for (i, entry) in book.entries.iter().enumerate() {
        for text in smaller_texts(&entry.text) {
            let mut copy = book.clone();
            copy.entries[i] = Entry { text, ..entry.clone() };
            smaller.push(copy);
        }
    }
    smaller
}

fn smaller_pieces(pieces: &[Vec<u8>]) -> Vec<Vec<Vec<u8>>> {
    let mut smaller = without(pieces);
    for (i, piece) in pieces.iter().enumerate() {
        for less in smaller_bytes(piece) {
            let mut copy = pieces.to_vec();
            copy[i] = less;
            smaller.push(copy);
        }
        if i > 0 {
            let mut joined = pieces.to_vec();
            let piece = joined.remove(i);
            joined[i - 1].extend(piece);
            smaller.push(joined);
        }
    }
    smaller
}

/// One entry with the least index that its place allows, and the message with that index wherever it held the old one.
fn renumbered(book: &Book, message: &[u8]) -> Vec<(Book, Vec<u8>)> {
    let mut smaller = Vec::new();
    let mut least = 0;
    for (i, entry) in book.entries.iter().enumerate() {
        if least < entry.index {
            let mut copy = book.clone();
            copy.entries[i].index = least;
            let mut bytes = message.to_vec();
            for at in 0..bytes.len().saturating_sub(1) {
                if bytes[at..at + 2] == entry.index.to_le_bytes() {
                    bytes[at..at + 2].copy_from_slice(&least.to_le_bytes());
                }
            }
            smaller.push((copy, bytes));
        }
        least = entry.index.saturating_add(1);
    }
    smaller
}

/// The text without one parameter.
fn with_one_less(text: &str) -> Vec<String> {
    let starts = text.match_indices('{').map(|(start, _)| start);
    let ends = starts.filter_map(|start| Some((start, start + text[start..].find('}')? + 1)));
    ends.map(|(start, end)| [&text[..start], &text[end..]].concat()).collect()
}

/// A parameter less and the bytes that it may have read: neither alone may do.
fn by_parameter<'a>(book: &'a Book, message: &'a [u8]) -> impl Iterator<Item = (Book, Vec<u8>)> + 'a {
    let by_entry = book.entries.iter().enumerate().flat_map(move |(i, entry)| {
        with_one_less(&entry.text).into_iter().map(move |text| {
            let mut copy = book.clone();
            copy.entries[i].text = text;
            copy
        })
    });
    let clocks = book.clock.iter().flat_map(|text| with_one_less(text));
    let books = by_entry.chain(clocks.map(move |text| Book { clock: Some(text), ..book.clone() }));
    books.flat_map(move |book| {
        let stretches = [1, 2, 4, 8, 16, 3, 5, 6].into_iter().flat_map(move |n| (2..message.len()).map(move |at| at..at + n));
        stretches.filter(move |stretch| stretch.end <= message.len()).map(move |stretch| {
            let mut rest = message.to_vec();
            rest.drain(stretch);
            (book.clone(), rest)
        })
    })
}

/// The messages that stand between the zeros of a stream.
fn messages(pieces: &[Vec<u8>]) -> Vec<Vec<u8>> {
    pieces.concat().split(|&b| b == 0).filter_map(oracle::decode_blocks).collect()
}

impl Case {
    pub fn smaller(&self) -> Box<dyn Iterator<Item = Case> + '_> {
        let temper = Temper::Wild;
        match self {
            Case::Coding(coding) => Box::new(smaller_bytes(coding).into_iter().map(Case::Coding)),
            Case::Plain(message) => Box::new(smaller_bytes(message).into_iter().map(Case::Plain)),
            Case::Pieces(pieces) => {
                let bytes: Vec<Vec<u8>> = pieces.iter().map(|(piece, _)| piece.clone()).collect();
                let takes = pieces.iter().map(|&(_, takes)| takes).max().unwrap_or(0);
                let taken = move |pieces: Vec<Vec<u8>>| Case::Pieces(pieces.into_iter().map(|piece| (piece, takes)).collect());
                Box::new(without(pieces).into_iter().map(Case::Pieces).chain(smaller_pieces(&bytes).into_iter().map(taken)))
            }
            Case::Frame { book, message, .. } => {
                let by_book = smaller_books(book).into_iter().map(|book| (book, message.clone()));
                let by_message = smaller_bytes(message).into_iter().map(|message| (book.clone(), message));
                let both = renumbered(book, message).into_iter().chain(by_parameter(book, message));
                Box::new(by_book.chain(by_message).chain(both).map(move |(book, message)| Case::Frame { book, message, temper }))
            }
            Case::Frames { book, pieces, .. } => {
                let all = smaller_pieces(pieces).into_iter();
                let by_pieces = all.map(move |pieces| Case::Frames { book: book.clone(), pieces, temper });
                let books = smaller_books(book).into_iter();
                let by_book = books.map(move |book| Case::Frames { book, pieces: pieces.clone(), temper });
                let alone = messages(pieces).into_iter().map(move |message| Case::Frame { book: book.clone(), message, temper });
                Box::new(alone.chain(by_book).chain(by_pieces))
            }
        }
    }
}

/// Two hexadecimal digits a byte.
pub struct Hex<'a>(pub &'a [u8]);

impl fmt::Display for Hex<'_> {
    fn fmt(&self, f: &mut fmt::Formatter<'_>) -> fmt::Result {
        self.0.iter().try_for_each(|byte| write!(f, "{byte:02X} "))
    }
}

impl fmt::Display for Case {
    fn fmt(&self, f: &mut fmt::Formatter<'_>) -> fmt::Result {
        if let Case::Frame { book, .. } | Case::Frames { book, .. } = self {
            write!(f, "{}", String::from_utf8_lossy(&book.bytes()))?;
        }
        match self {
            Case::Coding(coding) => writeln!(f, "coding: {}", Hex(coding)),
            Case::Plain(message) => writeln!(f, "to encode: {}", Hex(message)),
            Case::Pieces(pieces) => pieces.iter().try_for_each(|(piece, takes)| writeln!(f, "piece: {}then {takes} taken", Hex(piece))),
            Case::Frame { message, .. } => writeln!(f, "message: {}", Hex(message)),
            Case::Frames { pieces, .. } => pieces.iter().try_for_each(|piece| writeln!(f, "piece: {}", Hex(piece))),
        }
    }
}
