//! A link that cuts, loses and comes back.

mod common;

use common::{example, frame, lines, text, INPUT};
use kirayotep::{Book, Refusal, Sizes, Stream};

/// `T a b`
fn message(a: u8, b: i16) -> Vec<u8> {
    let [low, high] = b.to_le_bytes();
    frame(&[7, 0, a, low, high])
}

/// The head of `T 5 -1` and the tail of `T 9 -2`.
const HEAD: [u8; 2] = [0x07, 0x05];
const TAIL: [u8; 4] = [0xFE, 0xFF, 0x62, 0x00];

#[test]
fn a_loss_that_nobody_tells_joins_two_messages() {
    let mut stream = Stream::new(&example());
    stream.received(&HEAD).unwrap();
    stream.received(&TAIL).unwrap();
    assert_eq!(lines(&mut stream), [text("T 5 -2")], "which nobody sent");
}

#[test]
fn a_loss_that_is_told_joins_nothing() {
    let mut stream = Stream::new(&example());
    stream.received(&HEAD).unwrap();
    stream.gap();
    stream.received(&TAIL).unwrap();
    stream.received(&message(10, -3)).unwrap();
    assert_eq!(lines(&mut stream), [text("T 10 -3")]);
}

#[test]
fn every_cut_of_two_messages_with_a_gap_call() {
    let both = [message(5, -1), message(9, -2)].concat();
    let first = message(5, -1).len();
    for lost_from in 0..=both.len() {
        for lost_to in lost_from..=both.len() {
            let mut stream = Stream::new(&example());
            stream.received(&both[..lost_from]).unwrap();
            stream.gap();
            stream.received(&both[lost_to..]).unwrap();
            stream.received(&message(10, -3)).unwrap();
            let mut wanted = Vec::new();
            if lost_from >= first {
                wanted.push(text("T 5 -1"));
            }
            if lost_from == both.len() {
                wanted.push(text("T 9 -2"));
            }
            // after a gap call a message counts from the next zero on
            if lost_to < first {
                wanted.push(text("T 9 -2"));
            }
            if lost_to < both.len() {
                wanted.push(text("T 10 -3"));
            }
            assert_eq!(
                lines(&mut stream),
                wanted,
                "lost {}..{}",
                lost_from,
                lost_to
            );
        }
    }
}

#[test]
fn whole_frames_that_were_not_decoded_stay() {
    let mut stream = Stream::new(&example());
    stream.received(&message(1, 1)).unwrap();
    stream.received(&message(2, 2)).unwrap();
    stream.received(&HEAD).unwrap();
    stream.gap();
    assert_eq!(lines(&mut stream), [text("T 1 1"), text("T 2 2")]);
    assert_eq!(stream.held(), 0);
}

#[test]
fn a_malformed_frame_is_dropped_and_the_next_comes() {
    let mut stream = Stream::new(&example());
    stream.received(&[0x80, 0x00, 0x00]).unwrap();
    stream.received(&INPUT).unwrap();
    assert_eq!(lines(&mut stream), [Err(2), text("T 5 -1")]);
}

#[test]
fn a_message_longer_than_the_store_is_dropped() {
    let sizes = Sizes {
        store: 8,
        ..Sizes::default()
    };
    let mut stream = Stream::with_sizes(&example(), sizes).unwrap();
    assert_eq!(stream.room(), 8);
    stream.received(&[0x55; 8]).unwrap();
    assert_eq!(stream.received(&INPUT), Err(Refusal::Full));
    assert_eq!((stream.held(), stream.room()), (8, 0), "as before");
    stream.gap();
    stream.received(&INPUT).unwrap(); // up to its zero it is the long message's tail
    stream.received(&INPUT).unwrap();
    assert_eq!(lines(&mut stream), [text("T 5 -1")]);
}

#[test]
fn a_piece_longer_than_the_store_is_cut_to_what_finds_room() {
    let sizes = Sizes {
        store: 8,
        ..Sizes::default()
    };
    let mut stream = Stream::with_sizes(&example(), sizes).unwrap();
    let long = [message(1, 1), message(2, 2), vec![0x55; 20], message(3, 3)].concat();
    let long = [long, message(4, 4)].concat();
    assert_eq!(stream.received(&long), Err(Refusal::Full));
    let mut shown = Vec::new();
    let mut rest = long.as_slice();
    while !rest.is_empty() {
        if stream.room() == 0 {
            stream.gap();
        }
        let (piece, after) = rest.split_at(stream.room().min(rest.len()));
        stream.received(piece).unwrap();
        shown.extend(lines(&mut stream));
        rest = after;
    }
    // the 20 bytes fill the store and are given up, with the message that follows them without a zero
    assert_eq!(shown, [text("T 1 1"), text("T 2 2"), text("T 4 4")]);
}

#[test]
fn no_message_is_too_long_for_a_take() {
    let sizes = Sizes {
        store: 65_536,
        ..Sizes::default()
    };
    let book: Book = example();
    let mut stream = Stream::with_sizes(&book, sizes).unwrap();
    let mut longest = vec![0x7F; 65_535];
    longest.push(0);
    stream.received(&longest).unwrap();
    stream.gap();
    assert_eq!(
        lines(&mut stream),
        [Err(13)],
        "458,745 bytes are over the limit of a message"
    );
    stream.received(&[0]).unwrap();
    stream.received(&INPUT).unwrap();
    assert_eq!(lines(&mut stream), [text("T 5 -1")]);
    let over = Sizes {
        store: 65_537,
        ..Sizes::default()
    };
    assert!(matches!(
        Stream::with_sizes(&book, over),
        Err(Refusal::Size)
    ));
}

#[test]
fn a_stream_without_memory_only_refuses() {
    let none = Sizes {
        store: 0,
        rows: 0,
        text: 0,
    };
    let mut stream = Stream::with_sizes(&example(), none).unwrap();
    assert_eq!(stream.received(&INPUT), Err(Refusal::Full));
    assert_eq!(stream.received(&[]), Ok(()));
    stream.gap();
    assert_eq!(lines(&mut stream), []);
}
