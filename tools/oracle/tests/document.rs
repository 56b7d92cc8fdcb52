//! Document 01's own examples, said by the Rust.

use oracle::answers::{answer, table, Answer, Decoded, Temper};

fn decoded(text: &str, arguments: &[u8]) -> Box<Decoded> {
    let book = format!("book=1\nclock=no\ntimestamp=\nindex=7\ntag=info\ntext={text}\n");
    let message = [&[7, 0], arguments].concat();
    match answer(&table(book.as_bytes()), &message, Temper::Tame) {
        Answer::Decoded(decoded) => decoded,
        other => panic!("{text}: {other:?}"),
    }
}

fn written(text: &str, arguments: &[u8]) -> String {
    decoded(text, arguments).text.text.expect("a text")
}

#[test]
fn examples_of_the_document() {
    let frame = decoded("T {=u8} {=i16}", &[5, 0xff, 0xff, 9]);
    assert_eq!(frame.text.text.as_deref(), Ok("T 5 -1"));
    assert_eq!(frame.rows, [[2, 5, 0, 0], [3, u64::MAX, u64::MAX, 0]]);
    assert_eq!((frame.timestamp_rows, frame.consumed), (0, 5));

    assert_eq!(written("{=i32:06}", &(-5i32).to_le_bytes()), "-00005");
    assert_eq!(written("{=u8:#06x}", &[255]), "0x00ff");
    assert_eq!(written("{=i8:x}", &[0xff]), "ff");
    assert_eq!(written("{=u32:ts}", &90061u32.to_le_bytes()), "1:01:01:01");
    assert_eq!(written("{=u32:us}", &1_500_000u32.to_le_bytes()), "1.500000");
}

#[test]
fn places_of_strings() {
    let frame = decoded("{=str}{=[u8;2]}{=__internal_Debug}", b"\x01\0\0\0a\x05\x06b\xff");
    assert_eq!(frame.rows, [[6, 6, 1, 0], [12, 7, 2, 0], [14, 9, 1, 0]]);
    assert_eq!(frame.consumed, 11);
}
