//! The lists that programs of crates/ replay, and what the Rust says of one message.
//!
//!     cargo run --release -- blocks > ../../crates/replay_blocks/stdin
//!     cargo run --release -- stream > ../../crates/replay_stream/stdin
//!     cargo run --release -- rows > ../../crates/replay_rows/stdin
//!     cargo run --release -- text > ../../crates/replay_text/stdin
//!     cargo run --release -- show BOOK 070005
//!     cargo run --release -- survey 1 100000      seed, cases

use oracle::answers::{answer, table, Temper};
use oracle::{blocks, samples, sessions, survey};

fn bytes(hex: &str) -> Vec<u8> {
    let digits: Vec<char> = hex.chars().filter(|c| !c.is_whitespace()).collect();
    let byte = |pair: &[char]| u8::from_str_radix(&pair.iter().collect::<String>(), 16).expect("two hexadecimal digits a byte");
    digits.chunks(2).map(byte).collect()
}

fn show(book: &str, hex: &str) -> Vec<u8> {
    let book = std::fs::read(book).expect("the book");
    format!("{:#?}\n", answer(&table(&book), &bytes(hex), Temper::Wild)).into_bytes()
}

fn number(digits: &str) -> u64 {
    digits.parse().expect("a number")
}

fn main() {
    let args: Vec<String> = std::env::args().skip(1).collect();
    let written = match args.iter().map(String::as_str).collect::<Vec<_>>()[..] {
        ["blocks"] => blocks::list(),
        ["stream"] => sessions::list(),
        ["rows"] => samples::rows_list(samples::ROWS_SEED),
        ["rows", seed] => samples::rows_list(number(seed)),
        ["text"] => samples::text_list(samples::TEXT_SEED),
        ["text", seed] => samples::text_list(number(seed)),
        ["show", book, hex] => show(book, hex),
        ["survey", seed, cases] => survey::survey(number(seed), number(cases)).into_bytes(),
        _ => {
            eprintln!("oracle: blocks, stream, rows [SEED], text [SEED], show BOOK HEX, or survey SEED CASES");
            std::process::exit(2);
        }
    };
    std::io::Write::write_all(&mut std::io::stdout().lock(), &written).expect("standard output");
}
