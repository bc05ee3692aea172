//! Inputs that go through every value of something. A check may take eight bytes in one step, or
//! two, and the bytes left over by a table, so the strings have every length around 2, 8 and 16.

use crate::frame::{between_flags, check, enclose, stuff};
use crate::inputs::{CheckInput, CrcInput, WriteInput};

/// The start of a frame's check.
const START: u16 = 0xffff;

/// Payload lengths up to and a little past the limit.
const PAYLOADS: std::ops::RangeInclusive<usize> = 0..=386;

/// Unlike bytes, so that two that changed places show.
fn unlike(length: usize) -> Vec<u8> {
    (0..length).map(|place| (place * 167 + 13) as u8).collect()
}

fn frame_of(content: &[u8]) -> CheckInput {
    CheckInput {
        frame: between_flags(&stuff(content)),
        room: 383,
    }
}

/// Each byte alone from start 0: the entries of a table of remainders.
pub fn every_byte() -> impl Iterator<Item = CrcInput> {
    (0..=255).map(|byte| CrcInput {
        start: 0,
        bytes: vec![byte],
    })
}

/// Each start value before no byte, before one or two, and before strings of about 8 and 16.
pub fn every_start() -> impl Iterator<Item = CrcInput> {
    let mut strings: Vec<Vec<u8>> = [0x00, 0x01, 0x7e, 0x80, 0xff].map(|b| vec![b]).into();
    strings.extend([0, 2, 7, 8, 9, 16, 17].map(unlike));
    strings.into_iter().flat_map(|bytes| {
        (0..=0xffff).map(move |start| CrcInput {
            start,
            bytes: bytes.clone(),
        })
    })
}

/// Each byte at each place of strings of up to 24 bytes: among zero bytes from start 0, so that
/// what came before it leaves no trace, and among unlike bytes.
pub fn every_byte_at_every_place() -> impl Iterator<Item = CrcInput> {
    let places = (1..=24).flat_map(|length| (0..length).map(move |place| (length, place)));
    places.flat_map(|(length, place)| {
        (0..=255).flat_map(move |byte| {
            [(0, vec![0; length]), (START, unlike(length))].map(|(start, mut bytes)| {
                bytes[place] = byte;
                CrcInput { start, bytes }
            })
        })
    })
}

/// Each bit alone in strings of up to 40 bytes from start 0, and each bit of the start before zero
/// bytes: the check is linear, and these fix it.
pub fn every_bit() -> impl Iterator<Item = CrcInput> {
    (0..=40).flat_map(|length| {
        let of_bytes = (0..8 * length).map(move |bit| CrcInput {
            start: 0,
            bytes: flipped(&vec![0; length], bit),
        });
        let of_start = (0..16).map(move |bit| CrcInput {
            start: 1 << bit,
            bytes: vec![0; length],
        });
        of_bytes.chain(of_start)
    })
}

fn flipped(bytes: &[u8], bit: usize) -> Vec<u8> {
    let mut bytes = bytes.to_vec();
    bytes[bit / 8] ^= 1 << (bit % 8);
    bytes
}

/// Content of 8, 9, 16 and 17 bytes with its check, and each two of its bits flipped.
fn two_bits_flipped() -> impl Iterator<Item = Vec<u8>> {
    [8, 9, 16, 17].into_iter().flat_map(|length| {
        let mut content = unlike(length - 2);
        content.extend(check(START, &content).to_be_bytes());
        (0..8 * length).flat_map(move |one| {
            let content = flipped(&content, one);
            (0..one).map(move |other| flipped(&content, other))
        })
    })
}

/// None of them has check 0: the check sees any two bits less than 32,767 apart.
pub fn every_two_bits() -> impl Iterator<Item = CrcInput> {
    two_bits_flipped().map(|bytes| CrcInput {
        start: START,
        bytes,
    })
}

/// The same content between flags.
pub fn every_two_bits_in_a_frame() -> impl Iterator<Item = CheckInput> {
    two_bits_flipped().map(|content| frame_of(&content))
}

/// Every frame with at most two bytes between its flags.
pub fn every_short_frame() -> impl Iterator<Item = CheckInput> {
    let one = (0..=255).map(|byte| vec![byte]);
    let two = (0..=0xffff).map(|pair: u16| pair.to_be_bytes().to_vec());
    let between = std::iter::once(Vec::new()).chain(one).chain(two);
    between.map(|sent| CheckInput {
        frame: between_flags(&sent),
        room: 383,
    })
}

/// A payload of each length: plain, of unlike bytes, of flags. The sequence goes with the length.
fn every_payload() -> impl Iterator<Item = (u8, Vec<u8>)> {
    PAYLOADS.flat_map(|length| {
        let payloads = [vec![0x41; length], unlike(length), vec![0x7e; length]];
        payloads.map(|payload| (length as u8, payload))
    })
}

/// Each payload length into just enough room.
pub fn every_length_written() -> impl Iterator<Item = WriteInput> {
    every_payload().map(|(sequence, payload)| WriteInput {
        kind: 1,
        sequence,
        room: enclose(1, sequence, &payload).len(),
        payload,
    })
}

/// Each payload length with the right check, the check from start 0, the check without the last
/// byte, and the right one low byte first.
pub fn every_length_checked() -> impl Iterator<Item = CheckInput> {
    every_payload().flat_map(|(sequence, payload)| {
        let content = [&[1, sequence], payload.as_slice()].concat();
        let right = check(START, &content);
        let without_last = check(START, &content[..content.len() - 1]);
        [right, check(0, &content), without_last, right.swap_bytes()]
            .map(|check| frame_of(&[content.as_slice(), &check.to_be_bytes()].concat()))
    })
}
