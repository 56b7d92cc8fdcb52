//! The card reader's log under `samples/card-reader`, as its README tells it.

mod common;
#[allow(dead_code)]
#[path = "../examples/read_capture.rs"]
mod read_capture;

use common::lines;
use kirayotep::{Book, Stream};
use std::fs;
use std::path::Path;

fn sample(name: &str) -> Vec<u8> {
    let folder = Path::new(env!("CARGO_MANIFEST_DIR")).join("../../samples/card-reader");
    fs::read(folder.join(name)).expect(name)
}

fn book() -> Book {
    Book::new(sample("book.txt")).expect("a book")
}

/// What the example writes of connections, in order, with a gap call between one and the next.
fn written(connections: &[Vec<u8>]) -> String {
    let mut out = Vec::new();
    read_capture::write_lines(&book(), connections, &mut out).unwrap();
    String::from_utf8(out).unwrap()
}

/// The lines of document 01's program, which writes no timestamps and hears of no gap.
#[test]
fn the_stored_capture() {
    let mut stream = Stream::new(&book());
    stream.received(&sample("capture")).unwrap();
    let mut shown = String::new();
    for line in lines(&mut stream) {
        shown += &match line {
            Ok(text) => format!("text={}\n", text),
            Err(number) => format!("refused={}\n", number),
        };
    }
    shown += &format!("held={}\n", stream.held());
    assert_eq!(shown.as_bytes(), sample("lines.txt"));
}

#[test]
fn two_connections_with_the_loss_told() {
    let shown = written(&[sample("connection-1"), sample("connection-2")]);
    assert_eq!(shown.as_bytes(), sample("frames.txt"));
}

/// The same bytes with nobody telling the loss: one line more, an APDU for 38,000.00 that no card reader sent.
#[test]
fn two_connections_with_nobody_telling() {
    let joined = written(&[[sample("connection-1"), sample("connection-2")].concat()]);
    let told = String::from_utf8(sample("frames.txt")).unwrap();
    let more: Vec<&str> = joined.lines().filter(|line| !told.contains(line)).collect();
    assert_eq!(
        more,
        ["60.470000 INFO > Apdu { cla: 80, ins: AE, p1: 80, p2: 00, \
          data: [00, 00, 03, 80, 00, 00, 04, 04, c4, 7b, 16, e9] }"]
    );
    assert_eq!(joined.lines().count(), told.lines().count() + 1);
}
