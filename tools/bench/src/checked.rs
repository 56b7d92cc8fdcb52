//! The inner calls that the program makes (crates/bench_calls): those by a book that was checked once, and taking that moves the store once
//! for all messages that are there.

use crate::timing::Sink;
use compare::numbers::{MOST_ROWS, OK};
use compare::ours::Ours;
use compare::side::{Side, Stream};

// Each slice is a pointer and a length: the book, the message, the rows, the output.
extern "C" {
    fn bench_decode(_: *const u8, _: usize, _: *const u8, _: usize, _: *mut u64, _: usize) -> u64;
    fn bench_message_text(_: *const u8, _: usize, _: *const u8, _: usize, _: *mut u64, _: usize, _: *mut u8, _: usize) -> u64;
    fn bench_timestamp_text(_: *const u8, _: usize, _: *const u8, _: usize, _: *mut u64, _: usize, _: *mut u8, _: usize) -> u64;
    fn bench_take_from(_: u64, _: *const u8, _: usize, _: *mut u64, _: *mut u8, _: usize) -> u64;
    fn bench_move_on(_: u64, _: *mut u8, _: usize, _: u64) -> u64;
}

/// Every message that a stream holds, taken one by one; the store is moved and cleared at the end.
pub fn take_all(stream: &mut Stream, store: &mut [u8], out: &mut [u8], sink: Sink) {
    let mut from = 0;
    loop {
        // SAFETY: state and store are as `receive` left them, and the place is 0 or as the last call left it.
        let told = unsafe { bench_take_from(stream.held, store.as_ptr(), store.len(), &mut from, out.as_mut_ptr(), out.len()) };
        if told == u64::MAX {
            break;
        }
        sink(&out[..told as usize]);
    }
    // SAFETY: as above.
    stream.held = unsafe { bench_move_on(stream.held, store.as_mut_ptr(), store.len(), from) };
}

type TextCall = unsafe extern "C" fn(*const u8, usize, *const u8, usize, *mut u64, usize, *mut u8, usize) -> u64;

/// A book that is one, with the buffers of the program.
pub struct Checked {
    book: Vec<u8>,
    rows: Vec<u64>,
    out: Vec<u8>,
}

const WORDS: usize = 4 * MOST_ROWS;
const TEXT: usize = 32_768;

impl Checked {
    pub fn new(book: Vec<u8>) -> Checked {
        assert_eq!(Ours.check_book(&book), OK, "a book");
        Checked { book, rows: vec![0; WORDS], out: vec![0; TEXT] }
    }

    /// How many rows the message has.
    pub fn decode(&mut self, message: &[u8]) -> u64 {
        let Checked { book, rows, .. } = self;
        // SAFETY: the book was checked; each slice goes as its pointer and its length.
        let told = unsafe { bench_decode(book.as_ptr(), book.len(), message.as_ptr(), message.len(), rows.as_mut_ptr(), rows.len()) };
        assert_ne!(told, u64::MAX, "a message that decodes");
        told
    }

    fn text(&mut self, call: TextCall, message: &[u8]) -> &[u8] {
        let Checked { book, rows, out } = self;
        // SAFETY: as above.
        let told = unsafe {
            call(book.as_ptr(), book.len(), message.as_ptr(), message.len(), rows.as_mut_ptr(), rows.len(), out.as_mut_ptr(), out.len())
        };
        assert_ne!(told, u64::MAX, "a message with a text");
        &out[..told as usize]
    }

    pub fn message_text(&mut self, message: &[u8]) -> &[u8] {
        self.text(bench_message_text, message)
    }

    pub fn timestamp_text(&mut self, message: &[u8]) -> &[u8] {
        self.text(bench_timestamp_text, message)
    }
}
