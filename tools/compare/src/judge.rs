//! One case given to both sides. An answer of 0 to 3 has to be the Rust's; another one has to be a difference that docs/DIFFERENCES.md lists,
//! told by rule.

use crate::cases::{Case, Hex};
use crate::numbers::{DEEPEST, DEPTH, EOF, FORMAT, MALFORMED, MOST_ROWS, NOPRINT, OK, ROOM, ROWS, WAIT, ZERO};
use crate::side::{Counts, Side, Stream, Which};
use crate::tally::Tally;
use oracle::answers::{self, answer, table, Answer, Decoded, Lost, Shown, Taken, Temper};
use oracle::book::Book;
use oracle::printable::Unprintable;
use oracle::{decode_blocks, BareTable, DecodeError, Rzcobs, StreamDecoder};

const OUT: usize = 32_768;
const STORE: usize = 65_536;

/// Nothing, or what differs.
pub type Agreement = Result<(), String>;

pub struct Judge<'s> {
    pub side: &'s dyn Side,
    pub tally: Tally,
}

/// A stream of bytes on both sides.
struct Streams<'t> {
    ours: Stream,
    store: Vec<u8>,
    out: Vec<u8>,
    theirs: Rzcobs<'t>,
}

/// No more than a reader would want to see.
const TOLD: usize = 2000;

fn told(what: impl std::fmt::Debug) -> String {
    format!("{what:?}").chars().take(TOLD).collect()
}

fn differs(area: &str, ours: impl std::fmt::Debug, theirs: impl std::fmt::Debug) -> Agreement {
    Err(format!("{area}\n  here:     {}\n  the Rust: {}", told(ours), told(theirs)))
}

fn panicked(shown: &Shown, words: &str) -> bool {
    matches!(&shown.text, Err(Lost::Panicked(why)) if why.contains(words))
}

/// The difference that an answer's number and the Rust's text stand for, if it is one that is known.
fn known_text(answer: u64, shown: &Shown) -> Option<&'static str> {
    match (answer, &shown.text, shown.unprintable) {
        (NOPRINT, _, Some(Unprintable::Float)) => Some("NOPRINT: a float"),
        (NOPRINT, _, Some(Unprintable::StringUnderDebug)) => Some("NOPRINT: a string under ?"),
        (NOPRINT, _, Some(Unprintable::ByteString)) => Some("NOPRINT: a byte string of what are not bytes (the Rust panics)"),
        (OK, _, None) if panicked(shown, "Unsupported type 'Isize'") => Some("isize under x or X (the Rust panics)"),
        (OK | ROOM | NOPRINT, Err(Lost::GoesOn), _) => Some("a text of too many steps (the Rust goes on)"),
        (OK | ROOM | NOPRINT, Err(Lost::Aborted), _) => Some("a text too long (the Rust aborts)"),
        (ROOM, Ok(text), None) if text.len() > OUT => Some("ROOM"),
        (ROOM, _, None) if panicked(shown, "Unsupported type 'Isize'") => Some("isize under x or X (the Rust panics)"),
        _ => None,
    }
}

/// The same for an answer that refuses the whole message.
fn known_refusal(answer: u64, theirs: &Answer) -> Option<&'static str> {
    match (answer, theirs) {
        (FORMAT, Answer::Malformed) => Some("FORMAT (the Rust: Malformed)"),
        (DEPTH, Answer::Decoded(decoded)) if decoded.deepest > DEEPEST => Some("DEPTH (the Rust decodes)"),
        (DEPTH, Answer::Eof | Answer::Malformed) => Some("DEPTH (the Rust refuses further on)"),
        (ROWS, Answer::Decoded(decoded)) if decoded.rows.len() > MOST_ROWS => Some("ROWS (the Rust decodes)"),
        (ROWS, Answer::Eof | Answer::Malformed) => Some("ROWS (the Rust refuses further on)"),
        (EOF | MALFORMED | FORMAT | DEPTH | ROWS, Answer::Lost(Lost::Aborted)) => Some("a huge count (the Rust aborts)"),
        (DEPTH | ROWS, Answer::Lost(Lost::GoesOn)) => Some("a huge count of nothing (the Rust goes on)"),
        _ => None,
    }
}

impl Judge<'_> {
    pub fn judge(&mut self, case: &Case) -> Agreement {
        match case {
            Case::Coding(coding) => self.coding(coding),
            Case::Plain(message) => self.plain(message),
            Case::Pieces(pieces) => self.pieces(pieces),
            Case::Frame { book, message, temper } => self.frame(book, message, *temper),
            Case::Frames { book, pieces, temper } => self.frames(book, pieces, *temper),
        }
    }

    fn agrees(&mut self, area: &'static str) -> Agreement {
        self.tally.agreed(area);
        Ok(())
    }

    fn coding(&mut self, coding: &[u8]) -> Agreement {
        let mut out = vec![0; OUT];
        let ours = self.side.decode_blocks(coding, &mut out);
        let theirs = decode_blocks(coding);
        match (ours.answer, &theirs) {
            (OK, Some(message)) if out[..ours.count as usize] == message[..] => self.agrees("block decoding: a message"),
            (MALFORMED, None) => self.agrees("block decoding: MALFORMED"),
            (ZERO, _) if coding.contains(&0) => {
                self.tally.known("ZERO in a coding");
                Ok(())
            }
            _ => differs("block decoding", (ours, Hex(&out[..ours.count as usize]).to_string()), theirs),
        }
    }

    /// The Rust has no encoder; its decoder has to give the message back, with 01's trailing zeros.
    fn plain(&mut self, message: &[u8]) -> Agreement {
        let mut out = vec![0; OUT];
        let ours = self.side.encode_blocks(message, &mut out);
        let coding = &out[..ours.count as usize];
        let back = decode_blocks(coding).unwrap_or_default();
        let zeros = back.strip_prefix(message).map(|rest| rest.iter().all(|&b| b == 0).then_some(rest.len()));
        match zeros {
            Some(Some(0..=6)) if ours.answer == OK && !coding.contains(&0) => self.agrees("block encoding, decoded by the Rust"),
            _ => differs("block encoding", (ours, Hex(coding).to_string()), Hex(&back).to_string()),
        }
    }

    /// Frames are taken now and then, and all at the end.
    fn pieces(&mut self, pieces: &[(Vec<u8>, usize)]) -> Agreement {
        let table = BareTable::default();
        let mut both = Streams { ours: Stream::default(), store: vec![0; STORE], out: vec![0; OUT], theirs: Rzcobs::new(&table) };
        for (piece, takes) in pieces {
            let answer = self.side.receive(&mut both.ours, &mut both.store, piece);
            both.theirs.received(piece);
            if answer != OK {
                return differs("receive", answer, "received");
            }
            for _ in 0..*takes {
                self.take(&mut both)?;
            }
        }
        while self.take(&mut both)? != WAIT {}
        Ok(())
    }

    /// Takes on both sides; answers our number.
    fn take(&mut self, both: &mut Streams) -> Result<u64, String> {
        let taken = self.side.take(&mut both.ours, &mut both.store, &mut both.out);
        let message = &both.out[..taken.count as usize];
        match (taken.answer, both.theirs.decode()) {
            (OK, Ok(frame)) if *frame.message == message => self.tally.agreed("stream: a message taken"),
            (MALFORMED, Err(DecodeError::Malformed)) => self.tally.agreed("stream: MALFORMED"),
            (WAIT, Err(DecodeError::UnexpectedEof)) => self.tally.agreed("stream: WAIT"),
            (_, theirs) => {
                let theirs = theirs.map(|frame| Hex(&frame.message).to_string());
                differs("take", (taken, Hex(message).to_string()), theirs)?;
            }
        }
        Ok(taken.answer)
    }

    fn frame(&mut self, book: &Book, message: &[u8], temper: Temper) -> Agreement {
        let bytes = book.bytes();
        let verdict = self.side.check_book(&bytes);
        if verdict != OK {
            return differs("the book", verdict, "a table");
        }
        let theirs = answer(&table(&bytes), message, temper);
        self.answers(&bytes, message, &theirs).map(drop)
    }

    /// Compares all that a message gives; answers our number.
    fn answers(&mut self, book: &[u8], message: &[u8], theirs: &Answer) -> Result<u64, String> {
        let mut rows = vec![0; 4 * MOST_ROWS];
        let ours = self.side.decode(book, message, &mut rows);
        match (ours.answer, theirs) {
            (OK, Answer::Decoded(decoded)) => {
                self.rows(&ours, &rows, decoded)?;
                self.strings(book, message, decoded)?;
                self.text(book, message, Which::Message, Some(&decoded.text))?;
                self.text(book, message, Which::Timestamp, decoded.timestamp.as_ref())?;
            }
            (EOF, Answer::Eof) => self.tally.agreed("rows: EOF"),
            (MALFORMED, Answer::Malformed) => self.tally.agreed("rows: MALFORMED"),
            (answer, theirs) => match known_refusal(answer, theirs) {
                Some(name) => self.tally.known(name),
                None => return differs("rows", ours, theirs).map(|()| ours.answer),
            },
        }
        if ours.answer != OK {
            self.text_refuses(book, message, ours.answer)?;
        }
        Ok(ours.answer)
    }

    fn rows(&mut self, ours: &Counts, rows: &[u64], theirs: &Decoded) -> Agreement {
        let expected = [theirs.timestamp_rows, theirs.rows.len(), theirs.consumed].map(|n| n as u64);
        if [ours.timestamp_rows, ours.all_rows, ours.consumed] != expected {
            return differs("counts: timestamp rows, all rows, consumed", ours, expected);
        }
        let rows: Vec<&[u64]> = rows.chunks_exact(4).take(theirs.rows.len()).collect();
        if rows != theirs.rows {
            return differs("rows", rows, &theirs.rows);
        }
        for row in rows {
            self.tally.agreed(KINDS[row[0] as usize]);
        }
        self.agrees("rows: OK, with counts and consumed")
    }

    fn strings(&mut self, book: &[u8], message: &[u8], theirs: &Decoded) -> Agreement {
        for (row, string) in &theirs.strings {
            let part = self.side.string(book, message, theirs.rows[*row]);
            let within = if part.from_book == 1 { book } else { message };
            let place = part.start as usize..part.start as usize + part.length as usize;
            if within.get(place) != Some(string) {
                return differs("the string call", part, Hex(string).to_string());
            }
            self.tally.agreed("the string call");
        }
        Ok(())
    }

    fn text(&mut self, book: &[u8], message: &[u8], which: Which, theirs: Option<&Shown>) -> Agreement {
        let (mut rows, mut out) = (vec![0; 4 * MOST_ROWS], vec![0; OUT]);
        let ours = self.side.text(book, message, which, &mut rows, &mut out);
        let written = &out[..ours.count as usize];
        match theirs {
            Some(Shown { text: Ok(text), unprintable: None }) if ours.answer == OK && text.as_bytes() == written => match which {
                Which::Message => self.agrees("text: the message's"),
                Which::Timestamp => self.agrees("text: the timestamp's"),
            },
            None if ours.answer == NOPRINT => {
                self.tally.known("NOPRINT: a timestamp asked of clock=no (the Rust: None)");
                Ok(())
            }
            Some(shown) => match known_text(ours.answer, shown) {
                Some(name) => {
                    self.tally.known(name);
                    Ok(())
                }
                None => differs("text", (which, ours, String::from_utf8_lossy(written)), shown),
            },
            None => differs("text", (which, ours, String::from_utf8_lossy(written)), "no timestamp"),
        }
    }

    /// Where decoding refuses, so does the text, alike.
    fn text_refuses(&mut self, book: &[u8], message: &[u8], answer: u64) -> Agreement {
        let (mut rows, mut out) = (vec![0; 4 * MOST_ROWS], vec![0; OUT]);
        for which in [Which::Message, Which::Timestamp] {
            let ours = self.side.text(book, message, which, &mut rows, &mut out);
            if ours.answer != answer {
                return differs("text of a message that is refused", (which, ours), answer);
            }
        }
        Ok(())
    }

    fn frames(&mut self, book: &Book, pieces: &[Vec<u8>], temper: Temper) -> Agreement {
        let bytes = book.bytes();
        let table = table(&bytes);
        let Ok(theirs) = answers::stream(&table, pieces, temper) else {
            self.tally.known("a huge count, or a text of too many steps, in a stream (the Rust aborts or goes on)");
            return Ok(());
        };
        let (mut stream, mut store, mut out) = (Stream::default(), vec![0; STORE], vec![0; OUT]);
        for (piece, frames) in pieces.iter().zip(theirs) {
            let received = self.side.receive(&mut stream, &mut store, piece);
            if received != OK {
                return differs("receive", received, "received");
            }
            for theirs in frames {
                let taken = self.side.take(&mut stream, &mut store, &mut out);
                let message = out[..taken.count as usize].to_vec();
                match (taken.answer, &theirs) {
                    (OK, _) => self.taken(&bytes, &message, answer(&table, &message, temper), &theirs)?,
                    (MALFORMED, Taken::Malformed) => self.tally.agreed("frames of a stream: MALFORMED by its blocks"),
                    _ => return differs("take", taken, theirs),
                }
            }
            let taken = self.side.take(&mut stream, &mut store, &mut out);
            if taken.answer != WAIT {
                return differs("take", taken, "UnexpectedEof");
            }
        }
        Ok(())
    }

    /// A message that was taken here against the frame that the Rust's stream gave; 1 counts as 2.
    fn taken(&mut self, book: &[u8], message: &[u8], alone: Answer, theirs: &Taken) -> Agreement {
        let number = self.answers(book, message, &alone)?;
        match (&alone, theirs) {
            // Near the end of a second the same work may end once and be given up once.
            (Answer::Lost(_), _) => Ok(()),
            (Answer::Decoded(decoded), Taken::Frame { text, .. })
                if *text == decoded.text.text || decoded.text.text == Err(Lost::GoesOn) =>
            {
                self.agrees(if number == OK { "frames of a stream: a frame" } else { "frames of a stream: refused here by its bounds" })
            }
            (Answer::Eof | Answer::Malformed, Taken::Malformed) => self.agrees("frames of a stream: MALFORMED by its content"),
            _ => differs("the message taken, and the Rust's frame", alone, theirs),
        }
    }
}

const KINDS: [&str; 15] = [
    "row: no kind",
    "row: bool",
    "row: unsigned",
    "row: signed",
    "row: f32",
    "row: f64",
    "row: str",
    "row: istr",
    "row: format or item",
    "row: format slice",
    "row: element",
    "row: sequence",
    "row: bytes",
    "row: char",
    "row: preformatted",
];
