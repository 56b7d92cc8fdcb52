//! What is refused, with which number, and that the stream goes on.

mod common;

use common::{book, book_with, example, frame, lines, text, INPUT};
use kirayotep::{Book, Refusal, Sizes, Stream};

#[test]
fn numbers() {
    assert_eq!(Refusal::of_number(0), None);
    for number in 1..20 {
        let refusal = Refusal::of_number(number).unwrap();
        assert_eq!(refusal.number(), number);
        assert_eq!(matches!(refusal, Refusal::Other(_)), number > 13);
        assert!(!refusal.to_string().is_empty());
    }
}

#[test]
fn books() {
    let refused = |bytes: &[u8]| Book::new(bytes).map_err(|refusal| refusal.number()).err();
    assert_eq!(refused(b""), Some(7));
    assert_eq!(refused(b"book=2\nclock=no\ntimestamp=\n"), Some(7));
    assert_eq!(refused(b"book=1\nclock=no\ntimestamp=\n"), None);
    assert_eq!(refused(&vec![b'\n'; 65_537]), Some(13));
}

#[test]
fn messages() {
    let held = book(&[
        (1, "prim", "{=u128}"),
        (2, "info", "to {=u16}"),
        (3, "info", "not } a format"),
        (4, "info", "is {=bool}"),
        (5, "info", "holds {=?}"),
        (6, "info", "float {=f32}"),
    ]);
    let cases: [(&[u8], u64); 6] = [
        (&[9, 0, 1], 2),        // no such entry
        (&[5, 0, 1, 0, 77], 2), // ends inside the u128: 1, told as 2
        (&[5, 0, 2, 0, 1], 2),  // an inner entry with a level
        (&[4, 0, 7], 2),        // no bool
        (&[3, 0, 1], 8),        // outside the grammar
        (&[6, 0, 0, 0, 192, 63], 11),
    ];
    let mut stream = Stream::new(&held);
    for (message, number) in cases {
        stream.received(&frame(message)).unwrap();
        stream.received(&frame(&[2, 0, 44, 1])).unwrap();
        assert_eq!(
            lines(&mut stream),
            [Err(number), text("to 300")],
            "{:?}",
            message
        );
    }
}

#[test]
fn a_timestamp_without_a_text_leaves_the_message_its_own() {
    let book = book_with("yes", "{=f32}", &[(2, "info", "to {=u16}")]);
    let mut stream = Stream::new(&book);
    stream
        .received(&frame(&[2, 0, 0, 0, 192, 63, 44, 1]))
        .unwrap();
    let frame = stream.decode().unwrap().unwrap();
    assert_eq!(frame.timestamp(), Err(Refusal::NoPrint));
    assert_eq!(frame.text(), Ok("to 300"));
    assert_eq!(frame.to_string(), "refused=11 INFO to 300");
}

#[test]
fn no_rows_and_no_room_left() {
    let sizes = Sizes {
        rows: 1,
        ..Sizes::default()
    };
    let mut stream = Stream::with_sizes(&example(), sizes).unwrap();
    stream.received(&INPUT).unwrap();
    assert_eq!(lines(&mut stream), [Err(10)]);

    let sizes = Sizes {
        text: 5,
        ..Sizes::default()
    };
    let mut stream = Stream::with_sizes(&example(), sizes).unwrap();
    stream.received(&INPUT).unwrap();
    assert_eq!(lines(&mut stream), [Err(5)]);
}

/// Bytes of all sorts, in pieces of all lengths, with gap calls among them: whatever comes is answered.
#[test]
fn any_bytes_at_all() {
    let book = book_with(
        "yes",
        "{=u8:us}",
        &[
            (0, "derived", "a|b {=str}|{=[?]}"),
            (1, "prim", "{=u8}"),
            (2, "info", "{=?} {=[u8]:a} {=istr}"),
            (
                3,
                "warn",
                "{=__internal_FormatSequence} {=char} {=__internal_Display}",
            ),
            (4, "error", "{=[?;3]:a} {=i64:#x} {0=0..4:?}{1=3..17}"),
            (5, "str", "{=[u8;4]:02x} {=f64}"),
        ],
    );
    let sizes = Sizes {
        store: 300,
        rows: 40,
        text: 200,
    };
    let mut stream = Stream::with_sizes(&book, sizes).unwrap();
    let mut random = Random(2026);
    let mut frames = 0;
    for _ in 0..10_000 {
        let length = random.below(40);
        let mut message: Vec<u8> = (0..length).map(|_| random.byte()).collect();
        if let [low, high, ..] = message.as_mut_slice() {
            *low %= 6;
            *high = 0;
        }
        let mut piece = frame(&message);
        for _ in 0..random.below(3) {
            let at = random.below(piece.len());
            if let Some(byte) = piece.get_mut(at) {
                *byte = random.byte();
            }
        }
        if random.below(20) == 0 {
            stream.gap();
        }
        if stream.received(&piece).is_err() {
            stream.gap();
        }
        if random.below(4) == 0 {
            continue;
        }
        loop {
            match stream.decode() {
                Ok(Some(frame)) => {
                    frames += 1;
                    assert!(frame.consumed() <= frame.message().len());
                    let shown = format!("{:?} {}", frame, frame);
                    assert!(!shown.contains("Other("), "{}", shown);
                }
                Ok(None) => break,
                Err(refusal) => assert!(refusal.number() <= 13),
            }
        }
    }
    assert!(frames > 1000, "{} frames", frames);
}

struct Random(u64);

impl Random {
    fn byte(&mut self) -> u8 {
        // Knuth's MMIX; half of the bytes are small, as those of messages are
        self.0 = self
            .0
            .wrapping_mul(6_364_136_223_846_793_005)
            .wrapping_add(1_442_695_040_888_963_407);
        let [any, small, ..] = self.0.to_be_bytes();
        if small & 1 == 0 {
            any & 3
        } else {
            any
        }
    }

    fn below(&mut self, limit: usize) -> usize {
        (usize::from(self.byte()) << 8 | usize::from(self.byte())) % limit.max(1)
    }
}
