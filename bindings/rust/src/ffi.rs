//! The C interface (`include/kirayotep.h`), each call under a safe function. The crate's only unsafe code.
//!
//! The header asks of a caller: pointers that are not null, aligned and good for their length, also where it is 0, and outputs that
//! overlap nothing else. A Rust slice or reference has the first by its type, an exclusive one the second by the borrow rules. The calls
//! keep no pointer, and what is in the memory may be anything. So each function here is safe whatever it is given.

use crate::Refusal;

mod c {
    extern "C" {
        pub fn kirayotep_decode_blocks(
            coding: *const u8,
            coding_len: usize,
            out: *mut u8,
            out_len: usize,
            written: *mut u64,
        ) -> u64;
        pub fn kirayotep_encode_blocks(
            message: *const u8,
            message_len: usize,
            out: *mut u8,
            out_len: usize,
            written: *mut u64,
        ) -> u64;
        pub fn kirayotep_receive(
            held: *mut u64,
            hunting: *mut u8,
            store: *mut u8,
            store_len: usize,
            piece: *const u8,
            piece_len: usize,
        ) -> u64;
        pub fn kirayotep_take(
            held: *mut u64,
            hunting: *mut u8,
            store: *mut u8,
            store_len: usize,
            out: *mut u8,
            out_len: usize,
            written: *mut u64,
        ) -> u64;
        pub fn kirayotep_gap(
            held: *mut u64,
            hunting: *mut u8,
            store: *mut u8,
            store_len: usize,
        ) -> u64;
        pub fn kirayotep_check_book(book: *const u8, book_len: usize) -> u64;
        pub fn kirayotep_decode(
            book: *const u8,
            book_len: usize,
            message: *const u8,
            message_len: usize,
            rows: *mut u64,
            rows_len: usize,
            timestamp_rows: *mut u64,
            all_rows: *mut u64,
            consumed: *mut u64,
        ) -> u64;
        pub fn kirayotep_string(
            book: *const u8,
            book_len: usize,
            message: *const u8,
            message_len: usize,
            kind: u64,
            a: u64,
            b: u64,
            c: u64,
            from_book: *mut u64,
            start: *mut u64,
            length: *mut u64,
        ) -> u64;
        pub fn kirayotep_text(
            book: *const u8,
            book_len: usize,
            message: *const u8,
            message_len: usize,
            which: u8,
            rows: *mut u64,
            rows_len: usize,
            out: *mut u8,
            out_len: usize,
            written: *mut u64,
        ) -> u64;
    }
}

/// What a stream's calls read and write, besides the store.
pub(crate) struct State {
    pub(crate) held: u64,
    pub(crate) hunting: u8,
}

/// Rows of the timestamp, all rows, bytes read.
pub(crate) struct Counts {
    pub(crate) timestamp_rows: usize,
    pub(crate) all_rows: usize,
    pub(crate) consumed: usize,
}

/// Where the bytes of a row's string stand.
pub(crate) struct Place {
    pub(crate) from_book: bool,
    pub(crate) start: usize,
    pub(crate) length: usize,
}

/// `value`, if the answer is OK.
fn answered<T>(number: u64, value: T) -> Result<T, Refusal> {
    match Refusal::of_number(number) {
        None => Ok(value),
        Some(refusal) => Err(refusal),
    }
}

/// A count of bytes or rows of memory that is lent: it fits on every machine that the archive is for.
fn count(n: u64) -> usize {
    usize::try_from(n).unwrap_or(usize::MAX)
}

pub(crate) fn decode_blocks(coding: &[u8], out: &mut [u8]) -> Result<usize, Refusal> {
    let mut written = 0;
    // SAFETY: pointers and lengths are those of two slices, `out` and `written` exclusive.
    let number = unsafe {
        c::kirayotep_decode_blocks(
            coding.as_ptr(),
            coding.len(),
            out.as_mut_ptr(),
            out.len(),
            &mut written,
        )
    };
    answered(number, count(written))
}

pub(crate) fn encode_blocks(message: &[u8], out: &mut [u8]) -> Result<usize, Refusal> {
    let mut written = 0;
    // SAFETY: pointers and lengths are those of two slices, `out` and `written` exclusive.
    let number = unsafe {
        c::kirayotep_encode_blocks(
            message.as_ptr(),
            message.len(),
            out.as_mut_ptr(),
            out.len(),
            &mut written,
        )
    };
    answered(number, count(written))
}

pub(crate) fn receive(state: &mut State, store: &mut [u8], piece: &[u8]) -> Result<(), Refusal> {
    // SAFETY: pointers and lengths are those of two slices; the state's fields and `store` are exclusive.
    let number = unsafe {
        c::kirayotep_receive(
            &mut state.held,
            &mut state.hunting,
            store.as_mut_ptr(),
            store.len(),
            piece.as_ptr(),
            piece.len(),
        )
    };
    answered(number, ())
}

pub(crate) fn take(state: &mut State, store: &mut [u8], out: &mut [u8]) -> Result<usize, Refusal> {
    let mut written = 0;
    // SAFETY: pointers and lengths are those of two slices; the state's fields, `store`, `out` and `written` are exclusive.
    let number = unsafe {
        c::kirayotep_take(
            &mut state.held,
            &mut state.hunting,
            store.as_mut_ptr(),
            store.len(),
            out.as_mut_ptr(),
            out.len(),
            &mut written,
        )
    };
    answered(number, count(written))
}

pub(crate) fn gap(state: &mut State, store: &mut [u8]) -> Result<(), Refusal> {
    // SAFETY: pointer and length are those of a slice; the state's fields and `store` are exclusive.
    let number = unsafe {
        c::kirayotep_gap(
            &mut state.held,
            &mut state.hunting,
            store.as_mut_ptr(),
            store.len(),
        )
    };
    answered(number, ())
}

pub(crate) fn check_book(book: &[u8]) -> Result<(), Refusal> {
    // SAFETY: pointer and length are those of a slice, which is only read.
    let number = unsafe { c::kirayotep_check_book(book.as_ptr(), book.len()) };
    answered(number, ())
}

pub(crate) fn decode(book: &[u8], message: &[u8], rows: &mut [u64]) -> Result<Counts, Refusal> {
    let (mut timestamp_rows, mut all_rows, mut consumed) = (0, 0, 0);
    // SAFETY: pointers and lengths are those of three slices (`rows` counted in words); `rows` and the counts are exclusive.
    let number = unsafe {
        c::kirayotep_decode(
            book.as_ptr(),
            book.len(),
            message.as_ptr(),
            message.len(),
            rows.as_mut_ptr(),
            rows.len(),
            &mut timestamp_rows,
            &mut all_rows,
            &mut consumed,
        )
    };
    answered(
        number,
        Counts {
            timestamp_rows: count(timestamp_rows),
            all_rows: count(all_rows),
            consumed: count(consumed),
        },
    )
}

pub(crate) fn string(book: &[u8], message: &[u8], row: [u64; 4]) -> Result<Place, Refusal> {
    let [kind, a, b, c] = row;
    let (mut from_book, mut start, mut length) = (0, 0, 0);
    // SAFETY: pointers and lengths are those of two slices, which are only read; the three numbers are exclusive.
    let number = unsafe {
        c::kirayotep_string(
            book.as_ptr(),
            book.len(),
            message.as_ptr(),
            message.len(),
            kind,
            a,
            b,
            c,
            &mut from_book,
            &mut start,
            &mut length,
        )
    };
    answered(
        number,
        Place {
            from_book: from_book != 0,
            start: count(start),
            length: count(length),
        },
    )
}

/// The text of the message, or of its timestamp.
pub(crate) fn text(
    book: &[u8],
    message: &[u8],
    of_timestamp: bool,
    rows: &mut [u64],
    out: &mut [u8],
) -> Result<usize, Refusal> {
    let mut written = 0;
    // SAFETY: pointers and lengths are those of four slices (`rows` counted in words); `rows`, `out` and `written` are exclusive.
    let number = unsafe {
        c::kirayotep_text(
            book.as_ptr(),
            book.len(),
            message.as_ptr(),
            message.len(),
            u8::from(of_timestamp),
            rows.as_mut_ptr(),
            rows.len(),
            out.as_mut_ptr(),
            out.len(),
            &mut written,
        )
    };
    answered(number, count(written))
}
