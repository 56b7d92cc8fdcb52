//! Document 01's cases of blocks.

use kirayotep::{blocks, Refusal};

#[test]
fn encoding() {
    let cases: [(&[u8], &[u8]); 5] = [
        (&[], &[]),
        (&[1], &[0x01, 0x7E]),
        (&[0], &[0x7F]),
        (
            &[1, 2, 3, 4, 5, 6, 7],
            &[0x01, 0x02, 0x03, 0x04, 0x05, 0x06, 0x07, 0x80],
        ),
        (
            &[1, 2, 3, 4, 5, 6, 0],
            &[0x01, 0x02, 0x03, 0x04, 0x05, 0x06, 0x40],
        ),
    ];
    for (message, coding) in cases {
        assert_eq!(blocks::encode(message).as_deref(), Ok(coding));
        let back = blocks::decode(coding).unwrap();
        assert!(back.starts_with(message));
        assert!(back.iter().skip(message.len()).all(|byte| *byte == 0));
    }
    for (ones, last) in [(133, 0xFE), (134, 0xFF)] {
        let coding = blocks::encode(&vec![1; ones]).unwrap();
        assert_eq!(coding.len(), ones + 1);
        assert_eq!(coding.last(), Some(&last));
    }
}

#[test]
fn decoding() {
    assert_eq!(blocks::decode(&[0x80]), Err(Refusal::Malformed));
    assert_eq!(blocks::decode(&[0x01]), Err(Refusal::Malformed));
    assert_eq!(
        blocks::decode(&[0x02, 0x03, 0x04, 0x05, 0x06, 0x07, 0x01]).as_deref(),
        Ok(&[0x00, 0x02, 0x03, 0x04, 0x05, 0x06, 0x07][..])
    );
    assert_eq!(blocks::decode(&[0x01, 0x00, 0x7E]), Err(Refusal::Zero));
}

#[test]
fn limits() {
    assert_eq!(blocks::decode(&vec![1; 65_537]), Err(Refusal::Size));
    assert_eq!(blocks::encode(&vec![1; 65_537]), Err(Refusal::Size));
    let most = blocks::encode(&vec![1; 65_536]).unwrap();
    assert_eq!(most.len(), 65_536 + 490);
    assert_eq!(
        blocks::decode(&vec![0x7F; 65_536]).unwrap(),
        vec![0; 7 * 65_536]
    );
}
