//! Both sides answer each row's input alike.
#![cfg(archives)]

use bench::{inputs, plain, rows};

#[test]
fn every_row_is_answered_alike() {
    for row in rows::all() {
        println!("{}", row.name);
        (row.make)().agree();
    }
}

#[test]
fn the_plain_encoder_is_document_01s() {
    let mut out = Vec::new();
    for (len, zeros) in [(1, 2), (6, 3), (7, 3), (8, 0), (20, 16), (133, 0), (134, 0), (141, 140), (300, 2)] {
        for message in inputs::plain(len, zeros).iter().take(50) {
            plain::encode(message, &mut out);
            assert_eq!(out, oracle::blocks::encode(message), "{message:?}");
        }
    }
}
