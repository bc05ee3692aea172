//! Random cases: right frames, frames with a fault or two and a check that goes with them, frames
//! damaged on the line, and noise.

use crate::ash::{
    stuff, Parts, CONTROL_ESCAPED, ESCAPE, FLAG, FLIP, LENGTH_ESCAPED, PAYLOAD_MAX, RESERVED,
};
use crate::ash_inputs::{byte, damage, payload};
use crate::cases::{Case, LINE_BYTES_MAX, OUTPUT_MAX};
use crate::random::Random;

/// Of so many cases one is of the writer.
const WRITER_SHARE: usize = 4;

pub fn cases(seed: u64, count: usize) -> impl Iterator<Item = Case> {
    let mut random = Random::new(seed);
    (0..count).map(move |_| {
        if random.below(WRITER_SHARE) == 0 {
            write_case(&mut random)
        } else {
            read_case(&mut random)
        }
    })
}

fn write_case(random: &mut Random) -> Case {
    let control = byte(random);
    let sent_length = match random.below(8) {
        0 => PAYLOAD_MAX + 1,
        1 => random.below(LINE_BYTES_MAX - 2),
        _ => sent_length(random),
    };
    let payload = payload(random, sent_length);
    let exact = sent_length + 7;
    let room = match random.below(6) {
        0 => exact,
        1 => exact - 1,
        2 => exact + 1,
        3 => random.below(exact),
        4 => random.one_of(&[0, 63, 64]),
        _ => exact + random.below(OUTPUT_MAX),
    };
    Case::Write {
        room: room.min(OUTPUT_MAX),
        control,
        payload,
    }
}

fn read_case(random: &mut Random) -> Case {
    let mut frame = match random.below(10) {
        0 => noise(random),
        1..=3 => right(random).frame(),
        _ => wrong(random).frame(),
    };
    if random.below(6) == 0 {
        alter_check(random, &mut frame);
    }
    if random.below(4) == 0 {
        damage(random, &mut frame);
    }
    let room = match random.below(12) {
        0 => random.one_of(&[0, 1, 7, 30, 55, 56, 56, 56]),
        1 => random.one_of(&[58, 63, 64, OUTPUT_MAX]),
        _ => PAYLOAD_MAX,
    };
    Case::Read { room, frame }
}

/// The lengths that are escaped and the greatest ones come often.
fn sent_length(random: &mut Random) -> usize {
    match random.below(3) {
        0 => random.one_of(&[0, 1, 16, 17, 17, 18, 19, 19, 20, 55, 56, PAYLOAD_MAX]),
        1 => random.below(8),
        _ => random.below(PAYLOAD_MAX + 1),
    }
}

fn right(random: &mut Random) -> Parts {
    let sent_length = sent_length(random);
    Parts::new(byte(random), &payload(random, sent_length))
}

/// Parts with one fault, seldom two.
fn wrong(random: &mut Random) -> Parts {
    let mut parts = right(random);
    for _ in 0..random.one_of(&[1, 1, 1, 2]) {
        match random.below(3) {
            0 => spoil_header_escape(random, &mut parts),
            1 => spoil_length(random, &mut parts),
            _ => spoil_payload(random, &mut parts),
        }
    }
    parts
}

/// A reserved bit set, or an escape that is needless or missing.
fn spoil_header_escape(random: &mut Random, parts: &mut Parts) {
    let reserved_bit = 1 << random.below(6);
    parts.escape ^= random.one_of(&[reserved_bit, CONTROL_ESCAPED, LENGTH_ESCAPED]);
}

fn spoil_length(random: &mut Random, parts: &mut Parts) {
    let length = parts.length;
    let any = byte(random);
    parts.set_length(random.one_of(&[
        length.wrapping_add(1),
        length.wrapping_sub(1),
        PAYLOAD_MAX as u8 + 1,
        any,
    ]));
}

/// A reserved byte as it is, an escape of a byte that needs none, or an escape at the end; the
/// length is right.
fn spoil_payload(random: &mut Random, parts: &mut Parts) {
    let reserved = random.one_of(&RESERVED);
    let plain = random.one_of(&[b'a', 0x00, 0xff, reserved ^ FLIP]);
    match random.below(3) {
        0 => put(random, parts, reserved, &[reserved]),
        1 => put(random, parts, plain, &[ESCAPE, plain ^ FLIP]),
        _ => parts.sent.push(ESCAPE),
    }
    parts.set_length(parts.sent.len() as u8);
}

/// Puts a byte somewhere into the payload, and sends it in this way.
fn put(random: &mut Random, parts: &mut Parts, byte: u8, sent: &[u8]) {
    let place = random.below(parts.payload.len() + 1);
    let sent_place = stuff(&parts.payload[..place]).len().min(parts.sent.len());
    parts.payload.insert(place, byte);
    parts
        .sent
        .splice(sent_place..sent_place, sent.iter().copied());
}

/// Changes one of the last three bytes.
fn alter_check(random: &mut Random, frame: &mut [u8]) {
    let any_bit = 1 << random.below(8);
    let bits = random.one_of(&[0x10, 0x40, 0x80, any_bit]);
    let behind = random.below(3);
    if let Some(byte) = frame.iter_mut().rev().nth(behind) {
        *byte ^= bits;
    }
}

/// Any bytes, most often behind a flag.
fn noise(random: &mut Random) -> Vec<u8> {
    let limit = random.one_of(&[8, 70, 70, LINE_BYTES_MAX - 2]);
    let length = random.below(limit);
    let mut bytes: Vec<u8> = (0..length).map(|_| byte(random)).collect();
    if random.below(4) != 0 {
        bytes.insert(0, FLAG);
    }
    bytes
}
