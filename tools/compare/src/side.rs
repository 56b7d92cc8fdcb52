//! What is compared with the Rust: the calls of the C interface that have a counterpart there.

/// An answer's number and its count.
#[derive(Clone, Copy, Debug, PartialEq, Eq)]
pub struct Counted {
    pub answer: u64,
    pub count: u64,
}

#[derive(Clone, Copy, Debug, PartialEq, Eq)]
pub struct Counts {
    pub answer: u64,
    pub timestamp_rows: u64,
    pub all_rows: u64,
    pub consumed: u64,
}

/// A part of the book or of the message.
#[derive(Clone, Copy, Debug, PartialEq, Eq)]
pub struct Part {
    pub from_book: u64,
    pub start: u64,
    pub length: u64,
}

#[derive(Clone, Copy, Debug, Default, PartialEq, Eq)]
pub struct Stream {
    pub held: u64,
    pub hunting: u8,
}

#[derive(Clone, Copy, Debug, PartialEq, Eq)]
pub enum Which {
    Message,
    Timestamp,
}

pub trait Side {
    fn decode_blocks(&self, coding: &[u8], out: &mut [u8]) -> Counted;
    fn encode_blocks(&self, message: &[u8], out: &mut [u8]) -> Counted;
    fn receive(&self, stream: &mut Stream, store: &mut [u8], piece: &[u8]) -> u64;
    fn take(&self, stream: &mut Stream, store: &mut [u8], out: &mut [u8]) -> Counted;
    fn check_book(&self, book: &[u8]) -> u64;
    fn decode(&self, book: &[u8], message: &[u8], rows: &mut [u64]) -> Counts;
    fn string(&self, book: &[u8], message: &[u8], row: [u64; 4]) -> Part;
    fn text(&self, book: &[u8], message: &[u8], which: Which, rows: &mut [u64], out: &mut [u8]) -> Counted;
}
