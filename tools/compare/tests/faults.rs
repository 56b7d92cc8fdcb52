//! The program finds a planted fault and makes it small, and finds none where there is none.

use compare::cases::Case;
use compare::mock::{Flaw, Mock};
use compare::run::{run, Difference};
use std::time::Duration;

fn found(flaw: Flaw) -> Option<Difference> {
    run(&Mock::new(flaw), 1, Duration::from_secs(if flaw == Flaw::None { 3 } else { 60 })).difference
}

fn message_of(flaw: Flaw) -> (usize, Vec<u8>) {
    match found(flaw).expect("the fault is found").case {
        Case::Frame { book, message, .. } => (book.entries.len(), message),
        Case::Frames { book, pieces, .. } => (book.entries.len(), pieces.concat()),
        other => panic!("{other} is no message"),
    }
}

// One test, one thread: each trial forks.
#[test]
fn planted_faults_are_found_and_made_small() {
    assert!(found(Flaw::None).is_none());

    let Some(Difference { case: Case::Coding(coding), .. }) = found(Flaw::LongRun) else { panic!("a coding differs") };
    assert_eq!(coding, [vec![1; 134], vec![0xff]].concat());

    let zeros = found(Flaw::ZerosStay).expect("the fault is found").case;
    let bytes = match zeros {
        Case::Pieces(pieces) => pieces.into_iter().flat_map(|(piece, _)| piece).collect(),
        Case::Frames { pieces, .. } => pieces.concat(),
        other => panic!("{other} is no stream"),
    };
    assert_eq!(bytes.len(), 3, "a byte and two zeros, or what is as short: {bytes:?}");

    let (entries, message) = message_of(Flaw::Consumed);
    assert_eq!((entries, message), (1, vec![0, 0]));

    let (entries, message) = message_of(Flaw::HighWord);
    assert!(entries == 1 && message.len() <= 18, "{message:?}");

    let (entries, message) = message_of(Flaw::Sign);
    assert!(entries == 1 && message.len() <= 6, "{message:?}");

    let (entries, message) = message_of(Flaw::StringPlace);
    assert!(entries == 1 && message.len() <= 10, "{message:?}");
}
