//! The product, through its C interface (include/kirayotep.h).

use crate::side::{Counted, Counts, Part, Side, Stream, Which};

extern "C" {
    fn kirayotep_decode_blocks(coding: *const u8, coding_len: usize, out: *mut u8, out_len: usize, written: *mut u64) -> u64;
    fn kirayotep_encode_blocks(message: *const u8, message_len: usize, out: *mut u8, out_len: usize, written: *mut u64) -> u64;
    fn kirayotep_receive(held: *mut u64, hunting: *mut u8, store: *mut u8, store_len: usize, piece: *const u8, piece_len: usize) -> u64;
    fn kirayotep_take(
        held: *mut u64,
        hunting: *mut u8,
        store: *mut u8,
        store_len: usize,
        out: *mut u8,
        out_len: usize,
        written: *mut u64,
    ) -> u64;
    fn kirayotep_check_book(book: *const u8, book_len: usize) -> u64;
    fn kirayotep_decode(
        book: *const u8,
        book_len: usize,
        message: *const u8,
        message_len: usize,
        rows: *mut u64,
        rows_len: usize,
        timestamp_rows: *mut u64,
        all_rows: *mut u64,
        consumed: *mut u64,
    ) -> u64;
    fn kirayotep_string(
        book: *const u8,
        book_len: usize,
        message: *const u8,
        message_len: usize,
        kind: u64,
        a: u64,
        b: u64,
        c: u64,
        from_book: *mut u64,
        start: *mut u64,
        length: *mut u64,
    ) -> u64;
    fn kirayotep_text(
        book: *const u8,
        book_len: usize,
        message: *const u8,
        message_len: usize,
        which: u8,
        rows: *mut u64,
        rows_len: usize,
        out: *mut u8,
        out_len: usize,
        written: *mut u64,
    ) -> u64;
}

pub struct Ours;

// SAFETY, for each call: a slice goes as its pointer and its length, a count as a pointer to a number of this frame.
impl Side for Ours {
    fn decode_blocks(&self, coding: &[u8], out: &mut [u8]) -> Counted {
        let mut count = 0;
        let answer = unsafe { kirayotep_decode_blocks(coding.as_ptr(), coding.len(), out.as_mut_ptr(), out.len(), &mut count) };
        Counted { answer, count }
    }

    fn encode_blocks(&self, message: &[u8], out: &mut [u8]) -> Counted {
        let mut count = 0;
        let answer = unsafe { kirayotep_encode_blocks(message.as_ptr(), message.len(), out.as_mut_ptr(), out.len(), &mut count) };
        Counted { answer, count }
    }

    fn receive(&self, stream: &mut Stream, store: &mut [u8], piece: &[u8]) -> u64 {
        let Stream { held, hunting } = stream;
        unsafe { kirayotep_receive(held, hunting, store.as_mut_ptr(), store.len(), piece.as_ptr(), piece.len()) }
    }

    fn take(&self, stream: &mut Stream, store: &mut [u8], out: &mut [u8]) -> Counted {
        let Stream { held, hunting } = stream;
        let mut count = 0;
        let answer = unsafe { kirayotep_take(held, hunting, store.as_mut_ptr(), store.len(), out.as_mut_ptr(), out.len(), &mut count) };
        Counted { answer, count }
    }

    fn check_book(&self, book: &[u8]) -> u64 {
        unsafe { kirayotep_check_book(book.as_ptr(), book.len()) }
    }

    fn decode(&self, book: &[u8], message: &[u8], rows: &mut [u64]) -> Counts {
        let (mut timestamp_rows, mut all_rows, mut consumed) = (0, 0, 0);
        let answer = unsafe {
            kirayotep_decode(
                book.as_ptr(),
                book.len(),
                message.as_ptr(),
                message.len(),
                rows.as_mut_ptr(),
                rows.len(),
                &mut timestamp_rows,
                &mut all_rows,
                &mut consumed,
            )
        };
        Counts { answer, timestamp_rows, all_rows, consumed }
    }

    fn string(&self, book: &[u8], message: &[u8], [kind, a, b, c]: [u64; 4]) -> Part {
        let (mut from_book, mut start, mut length) = (0, 0, 0);
        unsafe {
            kirayotep_string(
                book.as_ptr(),
                book.len(),
                message.as_ptr(),
                message.len(),
                kind,
                a,
                b,
                c,
                &mut from_book,
                &mut start,
                &mut length,
            )
        };
        Part { from_book, start, length }
    }

    fn text(&self, book: &[u8], message: &[u8], which: Which, rows: &mut [u64], out: &mut [u8]) -> Counted {
        let mut count = 0;
        let answer = unsafe {
            kirayotep_text(
                book.as_ptr(),
                book.len(),
                message.as_ptr(),
                message.len(),
                which as u8,
                rows.as_mut_ptr(),
                rows.len(),
                out.as_mut_ptr(),
                out.len(),
                &mut count,
            )
        };
        Counted { answer, count }
    }
}
