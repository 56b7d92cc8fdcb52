//! The Rust in the product's clothes, so that this program can be tried without the archive, and with a fault planted: then it has to find it.

use crate::numbers::{DEEPEST, DEPTH, EOF, MALFORMED, MOST_ROWS, NOPRINT, OK, ROOM, ROWS, WAIT, ZERO};
use crate::side::{Counted, Counts, Part, Side, Stream, Which};
use oracle::answers::{answer, table, Answer, Decoded, Shown, Temper};
use oracle::{blocks, decode_blocks};
use std::cell::RefCell;
use std::rc::Rc;

#[derive(Clone, Copy, Debug, PartialEq, Eq)]
pub enum Flaw {
    None,
    /// A run of 134 bytes is given a zero at its end.
    LongRun,
    /// Take leaves the zeros behind a frame.
    ZerosStay,
    /// What was consumed is one byte too many.
    Consumed,
    /// A bitfield's row has its high word in the low one.
    HighWord,
    /// Negative numbers lose their sign.
    Sign,
    /// A str is shown from its length on.
    StringPlace,
}

/// Keeps the last answer: one message is asked for several times.
pub struct Mock {
    flaw: Flaw,
    last: RefCell<Option<Last>>,
}

struct Last {
    book: Vec<u8>,
    message: Vec<u8>,
    kept: Kept,
}

/// What was decoded, or the number of the refusal.
type Kept = Result<Rc<Decoded>, u64>;

fn done(bytes: Vec<u8>, out: &mut [u8]) -> Counted {
    match out.get_mut(..bytes.len()) {
        Some(part) => {
            part.copy_from_slice(&bytes);
            Counted { answer: OK, count: bytes.len() as u64 }
        }
        None => refused(ROOM),
    }
}

fn refused(answer: u64) -> Counted {
    Counted { answer, count: 0 }
}

fn decoded(book: &[u8], message: &[u8]) -> Kept {
    match answer(&table(book), message, Temper::Wild) {
        Answer::Decoded(decoded) if decoded.deepest > DEEPEST => Err(DEPTH),
        Answer::Decoded(decoded) if decoded.rows.len() > MOST_ROWS => Err(ROWS),
        Answer::Decoded(decoded) => Ok(Rc::from(decoded)),
        Answer::Eof => Err(EOF),
        // Whatever it was, the product would not have had the rows for it.
        Answer::Lost(_) => Err(ROWS),
        Answer::Malformed => Err(MALFORMED),
    }
}

impl Mock {
    pub fn new(flaw: Flaw) -> Mock {
        Mock { flaw, last: RefCell::new(None) }
    }

    fn decoded(&self, book: &[u8], message: &[u8]) -> Kept {
        let mut last = self.last.borrow_mut();
        if let Some(last) = last.as_ref().filter(|last| last.book == book && last.message == message) {
            return last.kept.clone();
        }
        let kept = decoded(book, message);
        *last = Some(Last { book: book.to_vec(), message: message.to_vec(), kept: kept.clone() });
        kept
    }

    fn has(&self, flaw: Flaw) -> bool {
        self.flaw == flaw
    }

    fn written(&self, shown: Option<&Shown>, out: &mut [u8]) -> Counted {
        match shown {
            Some(Shown { text: Ok(text), unprintable: None }) if self.has(Flaw::Sign) => done(text.replace('-', "").into_bytes(), out),
            Some(Shown { text: Ok(text), unprintable: None }) => done(text.clone().into_bytes(), out),
            Some(Shown { text: Err(_), unprintable: None }) => done(Vec::new(), out),
            _ => refused(NOPRINT),
        }
    }
}

impl Side for Mock {
    fn decode_blocks(&self, coding: &[u8], out: &mut [u8]) -> Counted {
        if coding.contains(&0) {
            return refused(ZERO);
        }
        let Some(mut message) = decode_blocks(coding) else { return refused(MALFORMED) };
        if self.has(Flaw::LongRun) && coding.last() == Some(&0xff) {
            message.push(0);
        }
        done(message, out)
    }

    fn encode_blocks(&self, message: &[u8], out: &mut [u8]) -> Counted {
        done(blocks::encode(message), out)
    }

    fn receive(&self, stream: &mut Stream, store: &mut [u8], piece: &[u8]) -> u64 {
        let held = stream.held as usize;
        let zeros = if held == 0 { piece.iter().take_while(|&&b| b == 0).count() } else { 0 };
        let kept = &piece[zeros..];
        store[held..held + kept.len()].copy_from_slice(kept);
        stream.held += kept.len() as u64;
        OK
    }

    fn take(&self, stream: &mut Stream, store: &mut [u8], out: &mut [u8]) -> Counted {
        let held = &store[..stream.held as usize];
        let Some(zero) = held.iter().position(|&b| b == 0) else { return refused(WAIT) };
        let counted = self.decode_blocks(&held[..zero], out);
        let zeros = held[zero..].iter().take_while(|&&b| b == 0).count();
        let zeros = if self.has(Flaw::ZerosStay) { 1 } else { zeros };
        let from = zero + zeros;
        store.copy_within(from..stream.held as usize, 0);
        stream.held -= from as u64;
        counted
    }

    fn check_book(&self, _book: &[u8]) -> u64 {
        OK
    }

    fn decode(&self, book: &[u8], message: &[u8], rows: &mut [u64]) -> Counts {
        match self.decoded(book, message) {
            Ok(decoded) => {
                for (place, mut row) in rows.chunks_exact_mut(4).zip(decoded.rows.iter().copied()) {
                    if self.has(Flaw::HighWord) && row[0] == 2 && row[2] > 0 {
                        row[1] = row[2];
                    }
                    place.copy_from_slice(&row);
                }
                Counts {
                    answer: OK,
                    timestamp_rows: decoded.timestamp_rows as u64,
                    all_rows: decoded.rows.len() as u64,
                    consumed: decoded.consumed as u64 + u64::from(self.has(Flaw::Consumed)),
                }
            }
            Err(answer) => Counts { answer, timestamp_rows: 0, all_rows: 0, consumed: 0 },
        }
    }

    fn string(&self, book: &[u8], _message: &[u8], [kind, a, b, _]: [u64; 4]) -> Part {
        let nothing = Part { from_book: 0, start: 0, length: 0 };
        match kind {
            6 if self.has(Flaw::StringPlace) => Part { start: a.saturating_sub(4), length: b, ..nothing },
            6 | 12 | 14 => Part { start: a, length: b, ..nothing },
            7 => {
                let book = std::str::from_utf8(book).expect("a book");
                let head = format!("\nindex={a}\n");
                let text = |from: usize| from + book[from..].find("\ntext=").expect("a text") + "\ntext=".len();
                let Some(start) = book.find(&head).map(|at| text(at + 1)) else { return nothing };
                let length = book[start..].find('\n').expect("a line end");
                Part { from_book: 1, start: start as u64, length: length as u64 }
            }
            _ => nothing,
        }
    }

    fn text(&self, book: &[u8], message: &[u8], which: Which, _rows: &mut [u64], out: &mut [u8]) -> Counted {
        match self.decoded(book, message) {
            Ok(decoded) if which == Which::Message => self.written(Some(&decoded.text), out),
            Ok(decoded) => self.written(decoded.timestamp.as_ref(), out),
            Err(answer) => refused(answer),
        }
    }
}
