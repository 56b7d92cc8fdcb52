//! The lists for `replay_rows` and `replay_text`: books, messages, and what the Rust makes of them. README.md has their layout.

use crate::answers::{answer, table, Answer, Decoded, Shown, Temper};
use crate::blocks::part;
use crate::generate;
use crate::random::Random;

const LONGEST_LIST: usize = 450_000;
const MESSAGES_A_BOOK: usize = 8;
const MOST_ROWS: usize = 1024;
const DEEPEST: usize = 16;
const LONGEST_TEXT: usize = 32_768;

const EOF: u8 = 1;
const MALFORMED: u8 = 2;
const NOPRINT: u8 = 11;
const ABSENT: [u8; 2] = [0xff, 0xff];

fn rows(decoded: &Decoded) -> Vec<u8> {
    let mut bytes = vec![0];
    for count in [decoded.timestamp_rows, decoded.rows.len(), decoded.consumed] {
        bytes.extend((count as u16).to_le_bytes());
    }
    bytes.extend(decoded.rows.iter().flatten().flat_map(|word| word.to_le_bytes()));
    bytes
}

/// The answer's number and the text; None where there is nothing to compare.
fn text(shown: Option<&Shown>) -> Option<Vec<u8>> {
    match shown {
        None => Some(vec![NOPRINT]),
        Some(Shown { text: Ok(text), unprintable: None }) if text.len() <= LONGEST_TEXT => Some([&[0], text.as_bytes()].concat()),
        Some(_) => None,
    }
}

fn optional_part(list: &mut Vec<u8>, bytes: Option<Vec<u8>>) {
    match bytes {
        Some(bytes) => part(list, &bytes),
        None => list.extend(ABSENT),
    }
}

/// What stands behind the book and the message of a record; None where 01 has another answer than the Rust, or the Rust has none.
fn rows_parts(answer: &Answer) -> Option<Vec<Option<Vec<u8>>>> {
    Some(vec![Some(match answer {
        Answer::Decoded(decoded) => rows(decoded),
        Answer::Eof => vec![EOF],
        Answer::Malformed => vec![MALFORMED],
        Answer::Lost(_) => return None,
    })])
}

fn text_parts(answer: &Answer) -> Option<Vec<Option<Vec<u8>>>> {
    match answer {
        Answer::Decoded(decoded) => Some(vec![text(Some(&decoded.text)), text(decoded.timestamp.as_ref())]),
        Answer::Eof => Some(vec![Some(vec![EOF]); 2]),
        Answer::Malformed => Some(vec![Some(vec![MALFORMED]); 2]),
        Answer::Lost(_) => None,
    }
}

/// Whether 01's bounds are kept. Of a refused message it is not known how many rows and how deep it came; a tame one stays far below.
fn is_in_bounds(answer: &Answer, temper: Temper) -> bool {
    match answer {
        Answer::Decoded(decoded) => decoded.rows.len() <= MOST_ROWS && decoded.deepest <= DEEPEST,
        _ => temper == Temper::Tame,
    }
}

fn list(seed: u64, parts: impl Fn(&Answer) -> Option<Vec<Option<Vec<u8>>>>) -> Vec<u8> {
    let mut list = Vec::new();
    let mut random = Random::new(seed);
    while list.len() < LONGEST_LIST {
        let book = generate::sound_book(&mut random);
        let bytes = book.bytes();
        let table = table(&bytes);
        let mut fresh = true;
        for _ in 0..MESSAGES_A_BOOK {
            let (message, temper) = generate::message(&mut random, &book);
            let answer = answer(&table, &message, temper);
            let Some(parts) = parts(&answer).filter(|_| is_in_bounds(&answer, temper)) else { continue };
            optional_part(&mut list, fresh.then(|| bytes.clone()));
            fresh = false;
            part(&mut list, &message);
            for bytes in parts {
                optional_part(&mut list, bytes);
            }
        }
    }
    list
}

/// The seeds of the recorded lists.
pub const ROWS_SEED: u64 = 0x5EED_0003;
pub const TEXT_SEED: u64 = 0x5EED_0004;

pub fn rows_list(seed: u64) -> Vec<u8> {
    list(seed, rows_parts)
}

pub fn text_list(seed: u64) -> Vec<u8> {
    list(seed, text_parts)
}
