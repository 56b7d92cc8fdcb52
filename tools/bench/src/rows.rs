//! The rows of the table: what each measures, on both sides.

use crate::checked::{take_all, Checked};
use crate::inputs::{self, Frames, PIECE};
use crate::plain;
use crate::timing::{answers, best, Sink, Work};
use compare::numbers::{OK, WAIT};
use compare::ours::Ours;
use compare::side::{Side, Stream};
use oracle::answers::{table, Table};
use oracle::blocks::encode;
use oracle::{decode_blocks, BareTable, Rzcobs, StreamDecoder};
use std::fmt::Write;
use std::rc::Rc;

/// What a row's cost is told by.
#[derive(Clone, Copy, PartialEq, Eq)]
pub enum Unit {
    Byte,
    Frame,
}

impl Unit {
    pub fn name(self) -> &'static str {
        match self {
            Unit::Byte => "byte",
            Unit::Frame => "frame",
        }
    }
}

pub struct Row {
    pub unit: Unit,
    /// How many of them a turn goes through.
    pub units: usize,
    pub ours: Work,
    /// The Rust has no check of a book.
    pub rust: Option<Work>,
}

impl Row {
    /// Stops where the sides do not give the same answers.
    pub fn agree(&mut self) {
        let ours = answers(&mut self.ours);
        if let Some(rust) = &mut self.rust {
            assert!(ours == answers(rust), "the sides differ");
        }
    }

    /// The best time of one unit, ours and the Rust's, in nanoseconds.
    pub fn costs(&mut self) -> (f64, Option<f64>) {
        let units = self.units as f64;
        match &mut self.rust {
            None => (best(&mut [&mut self.ours])[0] / units, None),
            Some(rust) => {
                let times = best(&mut [&mut self.ours, rust]);
                (times[0] / units, Some(times[1] / units))
            }
        }
    }
}

/// The program's.
pub const STORE: usize = 4096;
/// Bytes of a message for each byte of its coding, at most.
const MOST_PER_BYTE: usize = 7;
const LONG: usize = 28_000;

fn bytes(items: &[Vec<u8>]) -> usize {
    items.iter().map(Vec::len).sum()
}

pub fn decoding(messages: &[Vec<u8>]) -> Row {
    let codings: Rc<[Vec<u8>]> = messages.iter().map(|message| encode(message)).collect();
    let (ours, rust) = (codings.clone(), codings.clone());
    let mut out = vec![0; messages.iter().map(Vec::len).max().unwrap_or(0) + 6];
    Row {
        unit: Unit::Byte,
        units: bytes(&codings),
        ours: Box::new(move |sink| {
            for coding in ours.iter() {
                let told = Ours.decode_blocks(coding, &mut out);
                assert_eq!(told.answer, OK);
                sink(&out[..told.count as usize]);
            }
        }),
        rust: Some(Box::new(move |sink| rust.iter().for_each(|coding| sink(&decode_blocks(coding).expect("a message"))))),
    }
}

pub fn encoding(messages: Vec<Vec<u8>>) -> Row {
    let units = bytes(&messages);
    let messages: Rc<[Vec<u8>]> = messages.into();
    let rust = messages.clone();
    let mut out = vec![0; 2 * LONG + 64];
    let mut plainly = Vec::with_capacity(out.len());
    Row {
        unit: Unit::Byte,
        units,
        ours: Box::new(move |sink| {
            for message in messages.iter() {
                let told = Ours.encode_blocks(message, &mut out);
                assert_eq!(told.answer, OK);
                sink(&out[..told.count as usize]);
            }
        }),
        rust: Some(Box::new(move |sink| {
            for message in rust.iter() {
                plain::encode(message, &mut plainly);
                sink(&plainly);
            }
        })),
    }
}

/// By which calls messages are taken: the public one, or the program's, which move the store once for all that are there.
#[derive(Clone, Copy, PartialEq, Eq)]
pub enum Taken {
    Each,
    All,
}

/// Every message that a stream holds, each by the public call.
fn take_each(stream: &mut Stream, store: &mut [u8], out: &mut [u8], sink: Sink) {
    loop {
        let told = Ours.take(stream, store, out);
        if told.answer == WAIT {
            break;
        }
        assert_eq!(told.answer, OK);
        sink(&out[..told.count as usize]);
    }
}

/// A stream in pieces, each message taken as soon as it is there.
pub fn stream(wire: Vec<u8>, piece: usize, store: usize, taken: Taken) -> Row {
    let units = wire.len();
    let wire: Rc<[u8]> = wire.into();
    let rust = wire.clone();
    let (mut store, mut out) = (vec![0; store], vec![0; MOST_PER_BYTE * store]);
    Row {
        unit: Unit::Byte,
        units,
        ours: Box::new(move |sink| {
            let mut stream = Stream::default();
            for piece in wire.chunks(piece) {
                assert_eq!(Ours.receive(&mut stream, &mut store, piece), OK);
                match taken {
                    Taken::Each => take_each(&mut stream, &mut store, &mut out, sink),
                    Taken::All => take_all(&mut stream, &mut store, &mut out, sink),
                }
            }
        }),
        rust: Some(Box::new(move |sink| {
            let table = BareTable::default();
            let mut stream = Rzcobs::new(&table);
            for piece in rust.chunks(piece) {
                stream.received(piece);
                while let Ok(frame) = stream.decode() {
                    sink(&frame.message);
                }
            }
        })),
    }
}

/// Which texts of a frame are written.
#[derive(Clone, Copy, PartialEq, Eq)]
pub enum Texts {
    Both,
    Message,
}

/// The Rust's text of a message, into one string for all.
fn rust_text(table: &Table, message: &[u8], texts: Texts, text: &mut String, sink: Sink) {
    let (frame, _) = table.decode(message).expect("a frame");
    if texts == Texts::Both {
        text.clear();
        write!(text, "{}", frame.display_timestamp().expect("a clock")).expect("a string");
        sink(text.as_bytes());
    }
    text.clear();
    write!(text, "{}", frame.display_message()).expect("a string");
    sink(text.as_bytes());
}

pub fn text(frames: &Frames, texts: Texts) -> Row {
    let book = frames.book.bytes();
    let table = table(&book);
    let mut checked = Checked::new(book);
    let messages: Rc<[Vec<u8>]> = frames.messages.clone().into();
    let rust = messages.clone();
    let mut string = String::new();
    Row {
        unit: Unit::Frame,
        units: messages.len(),
        ours: Box::new(move |sink| {
            for message in messages.iter() {
                if texts == Texts::Both {
                    sink(checked.timestamp_text(message));
                }
                sink(checked.message_text(message));
            }
        }),
        rust: Some(Box::new(move |sink| rust.iter().for_each(|message| rust_text(&table, message, texts, &mut string, sink)))),
    }
}

/// Decoding alone: the rows here, the crate's frame there. Neither can be compared with the other, so each only says that it is there.
pub fn decoded(frames: &Frames) -> Row {
    let book = frames.book.bytes();
    let table = table(&book);
    let mut checked = Checked::new(book);
    let messages: Rc<[Vec<u8>]> = frames.messages.clone().into();
    let rust = messages.clone();
    Row {
        unit: Unit::Frame,
        units: messages.len(),
        ours: Box::new(move |sink| {
            for message in messages.iter() {
                std::hint::black_box(checked.decode(message));
                sink(b"decoded");
            }
        }),
        rust: Some(Box::new(move |sink| {
            for message in rust.iter() {
                std::hint::black_box(table.decode(message).expect("a frame"));
                sink(b"decoded");
            }
        })),
    }
}

pub fn check(book: Vec<u8>) -> Row {
    let units = book.len();
    let ours = move |sink: Sink| {
        let answer = Ours.check_book(&book);
        assert_eq!(answer, OK, "a book");
        sink(&answer.to_le_bytes());
    };
    Row { unit: Unit::Byte, units, ours: Box::new(ours), rust: None }
}

/// A row by its name, made when it is wanted.
pub struct Named {
    pub name: String,
    pub make: Box<dyn Fn() -> Row>,
}

fn named(name: impl Into<String>, make: impl Fn() -> Row + 'static) -> Named {
    Named { name: name.into(), make: Box::new(make) }
}

const ZEROS: [(&str, usize); 3] = [("a third zeros", 3), ("a sixteenth zeros", 16), ("no zeros", 0)];

fn blocks() -> Vec<Named> {
    let long = |of| inputs::plain(LONG, of);
    let short = |of| inputs::plain(16, of);
    let decode = ZEROS.into_iter().flat_map(|(zeros, of)| {
        [
            named(format!("decode blocks, long, {zeros}"), move || decoding(&long(of))),
            named(format!("decode blocks, short, {zeros}"), move || decoding(&short(of))),
        ]
    });
    let encode = ZEROS.into_iter().flat_map(|(zeros, of)| {
        [
            named(format!("encode blocks, long, {zeros}"), move || encoding(long(of))),
            named(format!("encode blocks, short, {zeros}"), move || encoding(short(of))),
        ]
    });
    decode.chain(encode).collect()
}

fn streams() -> Vec<Named> {
    let typical = |taken| stream(inputs::wire(&inputs::typical().messages), PIECE, STORE, taken);
    let long = |taken| stream(inputs::wire(&inputs::plain(900, 3)), PIECE, STORE, taken);
    vec![
        named("stream, typical frames", move || typical(Taken::Each)),
        named("stream, typical frames, moved once a piece", move || typical(Taken::All)),
        named("stream, frames of 900 bytes", move || long(Taken::Each)),
        named("stream, frames of 900 bytes, moved once a piece", move || long(Taken::All)),
    ]
}

/// Frames to write, by their name.
type Mix = (&'static str, fn() -> Frames);

const MIXES: [Mix; 4] =
    [("short frames", inputs::short), ("typical mix", inputs::typical), ("strings", inputs::strings), ("nested lists", inputs::lists)];

fn texts() -> Vec<Named> {
    let rows = MIXES.into_iter().flat_map(|(name, frames)| {
        [
            named(format!("text, {name}, with timestamp"), move || text(&frames(), Texts::Both)),
            named(format!("text, {name}"), move || text(&frames(), Texts::Message)),
            named(format!("decode alone, {name}"), move || decoded(&frames())),
        ]
    });
    rows.collect()
}

fn checks() -> Vec<Named> {
    let shortest = [10, 200, inputs::MOST_ENTRIES]
        .map(|count| named(format!("check, {count} shortest entries"), move || check(inputs::shortest_book(count).bytes())));
    let typical = named("check, the typical mix's book", || check(inputs::typical().book.bytes()));
    shortest.into_iter().chain([typical]).collect()
}

pub fn all() -> Vec<Named> {
    [blocks(), streams(), texts(), checks()].into_iter().flatten().collect()
}
