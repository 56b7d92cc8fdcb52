//! What the Rust does with random messages: how often it decodes and refuses, and each way in which it panics, aborts or goes on, with the
//! shortest case that was met.

use crate::answers::{answer, table, Answer, Lost, Shown};
use crate::generate;
use crate::random::Random;
use std::collections::BTreeMap;
use std::fmt::Write;

#[derive(Default)]
struct Met {
    times: u64,
    shortest: Option<(Vec<u8>, Vec<u8>)>,
}

fn lost(what: &str, lost: &Lost) -> String {
    match lost {
        Lost::Panicked(words) => format!("{what}: panics: {words}"),
        Lost::Aborted => format!("{what}: aborts"),
        Lost::GoesOn => format!("{what}: goes on"),
    }
}

fn of_text(what: &str, shown: &Shown) -> String {
    match (&shown.text, shown.unprintable) {
        (Ok(_), None) => format!("{what}: written"),
        (Ok(_), Some(why)) => format!("{what}: written, though NOPRINT by 01: {why:?}"),
        (Err(why), _) => lost(what, why),
    }
}

fn outcomes(answer: &Answer) -> Vec<String> {
    match answer {
        Answer::Decoded(decoded) => {
            let timestamp = decoded.timestamp.iter().map(|shown| of_text("timestamp", shown));
            [of_text("text", &decoded.text), "rows: decoded".to_owned()].into_iter().chain(timestamp).collect()
        }
        Answer::Eof => vec!["rows: UnexpectedEof".to_owned()],
        Answer::Malformed => vec!["rows: Malformed".to_owned()],
        Answer::Lost(why) => vec![lost("rows", why)],
    }
}

fn note(met: &mut BTreeMap<String, Met>, outcome: String, book: &[u8], message: &[u8]) {
    let met = met.entry(outcome).or_default();
    met.times += 1;
    let len = book.len() + message.len();
    if met.shortest.as_ref().is_none_or(|(b, m)| len < b.len() + m.len()) {
        met.shortest = Some((book.to_vec(), message.to_vec()));
    }
}

pub fn survey(seed: u64, cases: u64) -> String {
    let mut random = Random::new(seed);
    let mut met = BTreeMap::new();
    for _ in 0..cases.div_ceil(4) {
        let book = generate::book(&mut random);
        let bytes = book.bytes();
        let table = table(&bytes);
        for _ in 0..4 {
            let (message, temper) = generate::message(&mut random, &book);
            for outcome in outcomes(&answer(&table, &message, temper)) {
                note(&mut met, outcome, &bytes, &message);
            }
        }
    }
    let mut told = String::new();
    for (outcome, Met { times, shortest }) in met {
        let (book, message) = shortest.expect("it was met");
        let hex: String = message.iter().map(|b| format!("{b:02X} ")).collect();
        write!(told, "{times:>8}  {outcome}\n{}{hex}\n\n", String::from_utf8_lossy(&book)).expect("a string takes all");
    }
    told
}
