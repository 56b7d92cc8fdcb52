//! The list for `replay_blocks`: codings without a zero, each with the crate's answer. A record is the coding's length in two bytes, low
//! byte first, the coding, and then the message alike; a length of FFFF stands for a refusal.

use crate::decode_blocks;
use crate::random::Random;

/// Document 01's encoder, in plain form: the crate has none. It only makes codings for the crate to judge.
pub fn encode(message: &[u8]) -> Vec<u8> {
    let mut out = Vec::new();
    let mut rest = message;
    while !rest.is_empty() {
        let run = rest.iter().position(|&b| b == 0).unwrap_or(rest.len());
        if run >= 134 {
            out.extend_from_slice(&rest[..134]);
            out.push(0xff);
            rest = &rest[134..];
        } else if run >= 7 {
            out.extend_from_slice(&rest[..run]);
            out.push(0x80 + (run - 7) as u8);
            rest = &rest[(run + 1).min(rest.len())..];
        } else {
            let seven = &rest[..rest.len().min(7)];
            out.extend(seven.iter().filter(|&&b| b != 0));
            out.push((0..7).filter(|&i| seven.get(i).is_none_or(|&b| b == 0)).map(|i| 1 << i).sum());
            rest = &rest[seven.len()..];
        }
    }
    out
}

pub fn part(list: &mut Vec<u8>, bytes: &[u8]) {
    list.extend_from_slice(&(bytes.len() as u16).to_le_bytes());
    list.extend_from_slice(bytes);
}

fn case(list: &mut Vec<u8>, coding: &[u8]) {
    assert!(!coding.contains(&0) && coding.len() < 0xffff);
    part(list, coding);
    match decode_blocks(coding) {
        Some(message) => part(list, &message),
        None => list.extend_from_slice(&[0xff, 0xff]),
    }
}

/// Copies with one byte changed, missing and added.
fn damaged(list: &mut Vec<u8>, random: &mut Random, coding: &[u8]) {
    let at = random.below(coding.len());
    let mut copy = coding.to_vec();
    copy[at] = random.non_zero();
    case(list, &copy);
    copy.remove(at);
    case(list, &copy);
    let mut copy = coding.to_vec();
    copy.insert(at, random.non_zero());
    case(list, &copy);
}

pub fn list() -> Vec<u8> {
    let mut list = Vec::new();
    let mut random = Random::new(0x5EED_0001);
    case(&mut list, b"");
    for last in 1..=255 {
        case(&mut list, &[last]);
        for first in 1..=255 {
            case(&mut list, &[first, last]);
        }
    }
    // Around the boundaries of a mask, of a run and of a full run: random data under each control that is near one.
    for control in [0x01, 0x02, 0x3f, 0x40, 0x7e, 0x7f, 0x80, 0x81, 0xfd, 0xfe, 0xff] {
        for len in [5, 6, 7, 8, 13, 14, 131, 132, 133, 134, 135, 141, 267, 268] {
            let mut coding = random.message(len, 0);
            coding.push(control);
            case(&mut list, &coding);
        }
    }
    for len in [1, 6, 7, 8, 13, 14, 15, 20, 133, 134, 135, 140, 141, 142, 267, 268, 269, 300] {
        for of in [0, 2, 3, 16] {
            let coding = encode(&random.message(len, of));
            case(&mut list, &coding);
            damaged(&mut list, &mut random, &coding);
        }
    }
    list
}
