//! Random inputs for the three calls and the two laws of the check: valid, damaged, and at each
//! limit.

use crate::frame::{between_flags, enclose, stuff, ESCAPE, FLAG};
use crate::line_bytes::bytes;
use crate::random::Random;

/// Bytes lent to the frame check, and the length of its output.
pub struct CheckInput {
    pub frame: Vec<u8>,
    pub room: usize,
}

/// What the frame writer is given, and the length of its output.
pub struct WriteInput {
    pub kind: u8,
    pub sequence: u8,
    pub payload: Vec<u8>,
    pub room: usize,
}

pub struct CrcInput {
    pub start: u16,
    pub bytes: Vec<u8>,
}

/// A string in two parts, one start value.
pub struct JoinedInput {
    pub start: u16,
    pub first: Vec<u8>,
    pub second: Vec<u8>,
}

/// Three strings of equal length, one start value.
pub struct ThreeInput {
    pub start: u16,
    pub strings: [Vec<u8>; 3],
}

/// Payload lengths around each limit; 384 and 385 make content of 388 and 389 bytes.
const LENGTHS: [usize; 12] = [0, 1, 2, 3, 14, 64, 381, 382, 383, 384, 385, 400];

/// The longest string that is placed.
pub const PLACED_MAX: usize = 40;

/// Longer than any content, any field of a history, and 16 bits.
const LONG_LENGTHS: [usize; 4] = [1_000, 4_096, 65_537, 100_000];

fn length(random: &mut Random) -> usize {
    match random.below(3) {
        0 => random.below(20),
        1 => random.below(500),
        _ => random.one_of(&LENGTHS),
    }
}

/// The length of a string for the check, which takes any.
fn any_length(random: &mut Random) -> usize {
    match random.below(200) {
        0 => random.one_of(&LONG_LENGTHS),
        _ => length(random),
    }
}

fn header_byte(random: &mut Random) -> u8 {
    let any = random.byte();
    random.one_of(&[0x00, 0x01, 0x02, FLAG, ESCAPE, 0xff, any, any])
}

/// A frame with a right check; its content may be too long.
fn valid(random: &mut Random) -> Vec<u8> {
    let length = length(random);
    enclose(
        header_byte(random),
        header_byte(random),
        &bytes(random, length),
    )
}

/// A bit flipped, a byte put in, dropped or replaced, or the rest cut off.
fn damage(random: &mut Random, frame: &mut Vec<u8>) {
    let place = random.below(frame.len() + 1);
    let byte = random.byte();
    let put = random.one_of(&[FLAG, ESCAPE, 0x5e, 0x5d, byte]);
    let choice = random.below(5);
    if choice == 0 || place == frame.len() {
        frame.insert(place, put);
        return;
    }
    match choice {
        1 => frame[place] ^= 1 << random.below(8),
        2 => drop(frame.remove(place)),
        3 => frame[place] = put,
        _ => frame.truncate(place),
    }
}

fn damaged(random: &mut Random) -> Vec<u8> {
    let mut frame = valid(random);
    for _ in 0..1 + random.below(3) {
        damage(random, &mut frame);
    }
    frame
}

/// Bytes between flags with no flag among them, so that escapes and lengths decide.
fn flagless(random: &mut Random) -> Vec<u8> {
    let length = length(random);
    let mut sent = bytes(random, length);
    for byte in sent.iter_mut().filter(|byte| **byte == FLAG) {
        *byte = random.one_of(&[0x5e, 0x5d, 0x00]);
    }
    between_flags(&sent)
}

/// Content of 384 to 390 bytes, plain or escaped, then perhaps a pair, a bad pair or an escape.
fn at_content_limit(random: &mut Random) -> Vec<u8> {
    let length = 384 + random.below(7);
    let content: Vec<u8> = match random.below(3) {
        0 => vec![0x41; length],
        1 => vec![random.one_of(&[FLAG, ESCAPE]); length],
        _ => (0..length).map(|_| random.byte()).collect(),
    };
    let tails: [&[u8]; 7] = [
        &[],
        &[ESCAPE, 0x5e],
        &[ESCAPE, 0x5d],
        &[ESCAPE, 0x41],
        &[ESCAPE, ESCAPE],
        &[ESCAPE],
        &[0x41, ESCAPE],
    ];
    let mut sent = stuff(&content);
    sent.extend(random.one_of(&tails));
    between_flags(&sent)
}

/// Content of 0 to 5 bytes.
fn short(random: &mut Random) -> Vec<u8> {
    let length = random.below(6);
    between_flags(&stuff(&bytes(random, length)))
}

fn noise(random: &mut Random) -> Vec<u8> {
    let length = length(random);
    bytes(random, length)
}

pub fn check_input(random: &mut Random) -> CheckInput {
    let frame = match random.below(12) {
        0 => noise(random),
        1 => short(random),
        2 | 3 => flagless(random),
        4 | 5 => at_content_limit(random),
        6..=8 => valid(random),
        _ => damaged(random),
    };
    let room = match random.below(12) {
        0 => random.one_of(&[0, 1, 6, 381, 382, 382]),
        1 => 384,
        2 => 383 + random.below(500),
        _ => 383,
    };
    CheckInput { frame, room }
}

pub fn write_input(random: &mut Random) -> WriteInput {
    let (kind, sequence) = (header_byte(random), header_byte(random));
    let length = length(random);
    let payload = bytes(random, length);
    let exact = enclose(kind, sequence, &payload).len();
    let room = match random.below(8) {
        0 | 1 => exact,
        2 | 3 => exact - 1,
        4 => exact + 1,
        5 => exact + 1 + random.below(400),
        6 => 776,
        _ => random.below(exact),
    };
    WriteInput {
        kind,
        sequence,
        payload,
        room,
    }
}

fn start(random: &mut Random) -> u16 {
    let any = random.next() as u16;
    random.one_of(&[0xffff, 0x0000, any])
}

pub fn crc_input(random: &mut Random) -> CrcInput {
    let length = any_length(random);
    CrcInput {
        start: start(random),
        bytes: bytes(random, length),
    }
}

pub fn placed_input(random: &mut Random, length: usize) -> CrcInput {
    CrcInput {
        start: start(random),
        bytes: bytes(random, length),
    }
}

pub fn joined_input(random: &mut Random) -> JoinedInput {
    let lengths = [any_length(random), any_length(random)];
    JoinedInput {
        start: start(random),
        first: bytes(random, lengths[0]),
        second: bytes(random, lengths[1]),
    }
}

pub fn three_input(random: &mut Random) -> ThreeInput {
    let length = any_length(random);
    ThreeInput {
        start: start(random),
        strings: std::array::from_fn(|_| bytes(random, length)),
    }
}
