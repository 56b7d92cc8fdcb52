//! The list for `replay_stream`: what the crate's stream hands up, call by call. A record is a letter and what belongs to it: `n` a new
//! stream; `r` a piece received, its length in two bytes, low byte first, and its bytes; `t` a frame taken, its message alike; `m` a frame
//! that was malformed; `w` no frame there.

use crate::blocks::encode;
use crate::random::Random;
use crate::{BareTable, DecodeError, Rzcobs, StreamDecoder};

fn part(list: &mut Vec<u8>, letter: u8, bytes: &[u8]) {
    list.push(letter);
    list.extend_from_slice(&(bytes.len() as u16).to_le_bytes());
    list.extend_from_slice(bytes);
}

/// Takes at most `most` times.
fn taken(list: &mut Vec<u8>, stream: &mut Rzcobs, most: usize) {
    for _ in 0..most {
        match stream.decode() {
            Ok(frame) => part(list, b't', &frame.message),
            Err(DecodeError::Malformed) => list.push(b'm'),
            Err(DecodeError::UnexpectedEof) => {
                list.push(b'w');
                return;
            }
        }
    }
}

/// Messages and noise, closed by one to three zeros each, now and then with zeros in front.
fn wire(random: &mut Random) -> Vec<u8> {
    let mut wire = vec![0; random.below(3)];
    for _ in 0..random.below(12) {
        let len = [0, 1, 2, 6, 7, 8, 20, 133, 134, 140][random.below(10)];
        let of = [0, 2, 3, 16][random.below(4)];
        let coding = match random.below(4) {
            0 => random.message(len, 0),
            _ => encode(&random.message(len, of)),
        };
        wire.extend(coding);
        wire.extend(vec![0; 1 + random.below(3)]);
    }
    if random.below(2) == 0 {
        wire.extend(random.message(5, 0));
    }
    wire
}

fn session(list: &mut Vec<u8>, random: &mut Random) {
    let table = BareTable::default();
    let mut stream = Rzcobs::new(&table);
    list.push(b'n');
    let wire = wire(random);
    let mut rest = &wire[..];
    while !rest.is_empty() {
        let longest = [1, 4, 20, 300][random.below(4)];
        let cut = random.below(longest + 1).min(rest.len());
        part(list, b'r', &rest[..cut]);
        stream.received(&rest[..cut]);
        rest = &rest[cut..];
        let most = random.below(4);
        taken(list, &mut stream, most);
    }
    taken(list, &mut stream, usize::MAX);
}

pub fn list() -> Vec<u8> {
    let mut list = Vec::new();
    let mut random = Random::new(0x5EED_0002);
    for _ in 0..220 {
        session(&mut list, &mut random);
    }
    list
}
