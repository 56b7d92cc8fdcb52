//! Document 01's example, and what a frame shows of a message.

mod common;

use common::{book, book_with, example, frame, lines, text, INPUT};
use kirayotep::{Argument, Level, Stream};

#[test]
fn the_example_in_one_piece() {
    let mut stream = Stream::new(&example());
    stream.received(&INPUT).unwrap();
    {
        let frame = stream.decode().unwrap().unwrap();
        assert_eq!(frame.text(), Ok("T 5 -1"));
        assert_eq!(frame.timestamp(), Ok(None));
        assert_eq!(frame.index(), 7);
        assert_eq!(frame.level(), Some(Level::Info));
        assert_eq!(frame.consumed(), 5);
        assert_eq!(frame.message(), [0x07, 0x00, 0x05, 0xFF, 0xFF, 0x00, 0x00]);
        let rows: Vec<_> = frame.arguments().rows().collect();
        assert_eq!(rows, [[2, 5, 0, 0], [3, u64::MAX, u64::MAX, 0]]);
        assert_eq!(frame.timestamp_arguments().count(), 0);
        assert_eq!(frame.to_string(), "INFO T 5 -1");
    }
    assert!(stream.decode().unwrap().is_none());
    assert_eq!(stream.held(), 0);
}

#[test]
fn the_example_byte_by_byte() {
    let mut stream = Stream::new(&example());
    for (i, byte) in INPUT.iter().enumerate() {
        assert_eq!(lines(&mut stream), [], "before byte {}", i);
        stream.received(&[*byte]).unwrap();
    }
    assert_eq!(lines(&mut stream), [text("T 5 -1")]);
}

#[test]
fn a_timestamp_comes_first() {
    let book = book_with("yes", "{=u64:us}", &[(1, "warn", "low {=u8}%")]);
    assert!(book.has_clock());
    let mut stream = Stream::new(&book);
    let mut message = vec![1, 0];
    message.extend(1_500_000u64.to_le_bytes());
    message.push(9);
    stream.received(&frame(&message)).unwrap();
    let frame = stream.decode().unwrap().unwrap();
    assert_eq!(frame.timestamp(), Ok(Some("1.500000")));
    assert_eq!(frame.text(), Ok("low 9%"));
    assert_eq!(frame.to_string(), "1.500000 WARN low 9%");
    assert_eq!(frame.consumed(), 11);
    assert!(matches!(
        frame.timestamp_arguments().next(),
        Some(Argument::Unsigned(1_500_000))
    ));
    assert!(matches!(
        frame.arguments().next(),
        Some(Argument::Unsigned(9))
    ));
}

#[test]
fn each_kind_of_argument() {
    let book = book(&[
        (1, "prim", "{=u8}"),
        (2, "derived", "none|some {=bool}"),
        (3, "str", "kept"),
        (
            9,
            "println",
            "{=bool} {=u128} {=i8} {=f32} {=f64} {=str} {=istr} {=?} {=[?]} {=[u8]} {=char} {=__internal_Debug} {=__internal_FormatSequence}",
        ),
    ]);
    let mut message = vec![9, 0, 1];
    message.extend((u128::MAX - 1).to_le_bytes());
    message.push(0xFE);
    message.extend(1.5f32.to_le_bytes());
    message.extend((-2.5f64).to_le_bytes());
    message.extend([3, 0, 0, 0]);
    message.extend("né".as_bytes());
    message.extend([3, 0]);
    message.extend([2, 0, 1, 1]); // some true
    message.extend([2, 0, 0, 0, 1, 0, 40, 41]); // two elements of `{=u8}`
    message.extend([2, 0, 0, 0, 0xAB, 0xCD]);
    message.extend(u32::from('é').to_le_bytes());
    message.extend(b"dbg\xff");
    message.extend([1, 0, 42, 0, 0]); // one item of `{=u8}`, and the end
    let read = message.len();

    let mut stream = Stream::new(&book);
    stream.received(&frame(&message)).unwrap();
    let frame = stream.decode().unwrap().unwrap();
    assert_eq!(frame.level(), None);
    assert_eq!(frame.consumed(), read);
    assert_eq!(
        frame.text().map_err(|refusal| refusal.number()),
        Err(11),
        "a float has no text"
    );
    let shown: Vec<String> = frame.arguments().map(|a| format!("{:?}", a)).collect();
    assert_eq!(
        shown,
        [
            "Bool(true)",
            "Unsigned(340282366920938463463374607431768211454)",
            "Signed(-2)",
            "F32(1.5)",
            "F64(-2.5)",
            "Str(\"né\")",
            "Interned(\"kept\")",
            "Format { index: 2, variant: 1, arguments: [Bool(true)] }",
            "Formats { index: 1, elements: [Element { index: 1, variant: 0, arguments: [Unsigned(40)] }, \
             Element { index: 1, variant: 0, arguments: [Unsigned(41)] }] }",
            "Bytes([171, 205])",
            "Char('é')",
            "Preformatted(\"dbg\")",
            "Sequence([Format { index: 1, variant: 0, arguments: [Unsigned(42)] }])",
        ]
    );
}
