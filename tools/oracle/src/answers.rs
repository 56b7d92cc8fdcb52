//! What the Rust answers to a book and a message.

use crate::fate::{self, Fate};
use crate::printable::{unprintable, Unprintable};
use crate::rows::{Row, Walk};
use defmt_decoder::log::{open, Opened};
use defmt_decoder::DecodeError;
pub use defmt_decoder::Table;
use std::panic::{catch_unwind, AssertUnwindSafe};
use std::sync::atomic::{AtomicBool, Ordering};
use std::sync::Once;

/// Why there is no answer.
#[derive(Clone, Debug, PartialEq, Eq)]
pub enum Lost {
    Panicked(String),
    Aborted,
    GoesOn,
}

#[derive(Clone, Debug, PartialEq, Eq)]
pub struct Shown {
    /// What the Rust writes.
    pub text: Result<String, Lost>,
    /// What 01 has against it.
    pub unprintable: Option<Unprintable>,
}

#[derive(Clone, Debug, PartialEq, Eq)]
pub struct Decoded {
    pub timestamp_rows: usize,
    pub rows: Vec<Row>,
    pub consumed: usize,
    pub deepest: usize,
    pub strings: Vec<(usize, Vec<u8>)>,
    pub text: Shown,
    /// None where there is no clock.
    pub timestamp: Option<Shown>,
}

#[derive(Clone, Debug, PartialEq, Eq)]
pub enum Answer {
    Decoded(Box<Decoded>),
    Eof,
    Malformed,
    Lost(Lost),
}

/// Where a case comes from: one that the generator knows to be harmless is decoded here, another one is first tried in a process of its own.
#[derive(Clone, Copy, Debug, PartialEq, Eq)]
pub enum Temper {
    Tame,
    Wild,
}

pub fn table(book: &[u8]) -> Table {
    Table::parse(book).expect("a book").expect("a table")
}

static CATCHING: AtomicBool = AtomicBool::new(false);

/// The Rust's panics are answers, and say nothing on standard error; this program's own do.
fn quieten() {
    static ONCE: Once = Once::new();
    ONCE.call_once(|| {
        let aloud = std::panic::take_hook();
        std::panic::set_hook(Box::new(move |why| {
            if !CATCHING.load(Ordering::Relaxed) {
                aloud(why);
            }
        }));
    });
}

fn caught<T>(work: impl FnOnce() -> T) -> Result<T, Lost> {
    quieten();
    CATCHING.store(true, Ordering::Relaxed);
    let result = catch_unwind(AssertUnwindSafe(work));
    CATCHING.store(false, Ordering::Relaxed);
    result.map_err(|why| {
        let words = why.downcast_ref::<String>().cloned();
        Lost::Panicked(words.or_else(|| why.downcast_ref::<&str>().map(|s| s.to_string())).unwrap_or_default())
    })
}

/// Does the work, once it is known to end.
fn tried<T>(temper: Temper, work: impl Fn() -> T) -> Result<T, Lost> {
    let fate = match temper {
        Temper::Tame => Fate::Ends,
        Temper::Wild => fate::of(|| drop(work())),
    };
    match fate {
        Fate::Ends => caught(work),
        Fate::Aborts => Err(Lost::Aborted),
        Fate::GoesOn => Err(Lost::GoesOn),
    }
}

fn shown(temper: Temper, write: impl Fn() -> String, why_not: impl Fn() -> Option<Unprintable>) -> Shown {
    let text = tried(temper, write);
    // Looking for what is unprintable takes the steps that writing takes.
    let unprintable = if text == Err(Lost::GoesOn) { None } else { why_not() };
    Shown { text, unprintable }
}

fn decoded(temper: Temper, opened: &Opened, message: &[u8]) -> Decoded {
    let mut walk = Walk::new(message);
    if let Some(text) = opened.timestamp_text {
        walk.text(text, &opened.timestamp, 0);
    }
    let timestamp_rows = walk.rows.len();
    walk.text(opened.text, &opened.values, 0);
    assert_eq!(walk.at, opened.consumed, "the walk ends where the Rust stopped reading");
    let timestamp = opened.timestamp_text.map(|text| {
        let write = || opened.frame.display_timestamp().expect("there is a clock").to_string();
        shown(temper, write, || unprintable(text, &opened.timestamp, None))
    });
    let write = || opened.frame.display_message().to_string();
    let text = shown(temper, write, || unprintable(opened.text, &opened.values, None));
    let Walk { rows, deepest, strings, .. } = walk;
    Decoded { timestamp_rows, rows, consumed: opened.consumed, deepest, strings, text, timestamp }
}

fn step_by_step(table: &Table, message: &[u8], temper: Temper) -> Answer {
    match tried(temper, || open(table, message)) {
        Ok(Ok(opened)) => Answer::Decoded(Box::new(decoded(temper, &opened, message))),
        Ok(Err(DecodeError::UnexpectedEof)) => Answer::Eof,
        Ok(Err(DecodeError::Malformed)) => Answer::Malformed,
        Err(lost) => Answer::Lost(lost),
    }
}

/// One trial of all together; where that does not end, each step is tried by itself.
pub fn answer(table: &Table, message: &[u8], temper: Temper) -> Answer {
    let harmless = temper == Temper::Tame || fate::of(|| drop(step_by_step(table, message, Temper::Tame))) == Fate::Ends;
    step_by_step(table, message, if harmless { Temper::Tame } else { Temper::Wild })
}

/// What the crate's stream hands up: a frame with its index and its text, or a frame that was malformed.
#[derive(Clone, Debug, PartialEq, Eq)]
pub enum Taken {
    Frame { index: u64, text: Result<String, Lost> },
    Malformed,
}

/// All frames of a stream, piece by piece, each time until it waits for more.
pub fn stream(table: &Table, pieces: &[Vec<u8>], temper: Temper) -> Result<Vec<Vec<Taken>>, Lost> {
    tried(temper, || {
        let mut stream = table.new_stream_decoder();
        let mut all = Vec::new();
        for piece in pieces {
            stream.received(piece);
            let mut taken = Vec::new();
            loop {
                taken.push(match stream.decode() {
                    Ok(frame) => Taken::Frame { index: frame.index(), text: caught(|| frame.display_message().to_string()) },
                    Err(DecodeError::Malformed) => Taken::Malformed,
                    Err(DecodeError::UnexpectedEof) => break,
                });
            }
            all.push(taken);
        }
        all
    })
}
