//! Bytes, payloads and damage for the tests of ASHv3.

use crate::ash::{stuff, FLIP, RESERVED};
use crate::random::Random;

/// So many bytes as sent, none of them escaped.
pub fn plain(sent_length: usize) -> Vec<u8> {
    vec![b'a'; sent_length]
}

/// So many bytes as sent, as many of them escaped as can be.
pub fn stuffed(sent_length: usize) -> Vec<u8> {
    let mut payload: Vec<u8> = RESERVED.into_iter().cycle().take(sent_length / 2).collect();
    payload.extend(plain(sent_length % 2));
    payload
}

/// Any byte, a reserved one, or what a reserved one is sent as.
pub fn byte(random: &mut Random) -> u8 {
    let reserved = random.one_of(&RESERVED);
    match random.below(4) {
        0 => reserved,
        1 => reserved ^ FLIP,
        _ => random.byte(),
    }
}

/// A payload of so many bytes as sent.
pub fn payload(random: &mut Random, sent_length: usize) -> Vec<u8> {
    let biased = random.below(3) == 0;
    let mut payload = Vec::new();
    let mut left = sent_length;
    while left > 0 {
        let byte = if biased { byte(random) } else { random.byte() };
        let sent = stuff(&[byte]).len();
        if sent <= left {
            payload.push(byte);
            left -= sent;
        }
    }
    payload
}

/// A bit flipped, a byte put in, dropped, doubled or replaced, or the rest cut off.
pub fn damage(random: &mut Random, frame: &mut Vec<u8>) {
    let other = byte(random);
    if frame.is_empty() {
        frame.push(other);
        return;
    }
    let place = random.below(frame.len());
    match random.below(6) {
        0 => frame[place] ^= 1 << random.below(8),
        1 => frame.insert(place, other),
        2 => drop(frame.remove(place)),
        3 => frame.insert(place, frame[place]),
        4 => frame[place] = other,
        _ => frame.truncate(place),
    }
}
