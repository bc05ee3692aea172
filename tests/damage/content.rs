//! Contents that pass the check, and adjacent bits in them.

use crate::frame::{check, CONTENT_MAX};
use crate::line_bytes::{self, hex};
use crate::random::Random;
use std::fmt;
use std::ops::RangeInclusive;

/// The start of a frame's check.
pub const FRAME_START: u16 = 0xffff;

/// Adjacent bits within which all damage is caught.
pub const BURST: usize = 16;

/// The polynomial with its top bit, and how many bits these are.
pub const POLYNOMIAL: u32 = 0x11021;
pub const POLYNOMIAL_BITS: usize = 17;

/// Bytes whose check from this start value is 0.
pub struct Content {
    pub start: u16,
    pub bytes: Vec<u8>,
}

impl Content {
    /// These bytes, and behind them the two that make the check 0.
    pub fn of(start: u16, bytes: &[u8]) -> Content {
        let two = check(start, bytes).to_be_bytes();
        let bytes = [bytes, &two].concat();
        Content { start, bytes }
    }

    /// A content of so many bytes, at least two.
    pub fn random(random: &mut Random, start: u16, length: usize) -> Content {
        Content::of(start, &line_bytes::bytes(random, length - 2))
    }

    /// Contents of each of these lengths: from start 0, from that of frames, and from any.
    pub fn of_lengths(random: &mut Random, lengths: RangeInclusive<usize>) -> Vec<Content> {
        let of_length = |length| {
            let starts = [0, FRAME_START, random.next() as u16];
            starts.map(|start| Content::random(random, start, length))
        };
        lengths.flat_map(of_length).collect()
    }

    pub fn bits(&self) -> usize {
        8 * self.bytes.len()
    }

    /// Whether it can be that of a frame which passes the check.
    pub fn is_of_a_frame(&self) -> bool {
        self.start == FRAME_START && (4..=CONTENT_MAX).contains(&self.bytes.len())
    }

    pub fn damaged(&self, window: Window, pattern: u32) -> Vec<u8> {
        let mut bytes = self.bytes.clone();
        window.flip(&mut bytes, pattern);
        bytes
    }
}

impl fmt::Display for Content {
    fn fmt(&self, out: &mut fmt::Formatter) -> fmt::Result {
        write!(
            out,
            "start {:04x}, content {}",
            self.start,
            hex(&self.bytes)
        )
    }
}

/// Adjacent bits, at most 17. Bit 0 is the high bit of the first byte.
#[derive(Clone, Copy, Debug)]
pub struct Window {
    pub first: usize,
    pub width: usize,
}

impl Window {
    pub fn burst(first: usize) -> Window {
        let width = BURST;
        Window { first, width }
    }

    pub fn polynomial(first: usize) -> Window {
        let width = POLYNOMIAL_BITS;
        Window { first, width }
    }

    /// Flips the bits that are set in the pattern, whose high bit is the window's first. What is
    /// behind the last byte is cut off. Done twice, the bytes are as they were.
    pub fn flip(self, bytes: &mut [u8], pattern: u32) {
        let in_three_bytes = pattern << (24 - self.width - self.first % 8);
        let [_, changes @ ..] = in_three_bytes.to_be_bytes();
        for (byte, change) in bytes[self.first / 8..].iter_mut().zip(changes) {
            *byte ^= change;
        }
    }

    /// How many of its bits pass the end of a content of so many.
    pub fn cut_off(self, bits: usize) -> usize {
        (self.first + self.width).saturating_sub(bits)
    }
}

/// A start value: that of frames, 0, or any.
pub fn any_start(random: &mut Random) -> u16 {
    let any = random.next() as u16;
    random.one_of(&[FRAME_START, 0, any])
}

/// The length of a content in which 17 bits have room.
pub fn any_length(random: &mut Random) -> usize {
    match random.below(400) {
        0 => 65_537,
        1 | 2 => 4_096,
        3..40 => CONTENT_MAX + 1 + random.below(500),
        40..80 => 3 + random.below(6),
        _ => frame_length(random),
    }
}

/// The length of a frame's content.
pub fn frame_length(random: &mut Random) -> usize {
    match random.below(8) {
        0 => CONTENT_MAX,
        1 => 4 + random.below(5),
        _ => 4 + random.below(CONTENT_MAX - 3),
    }
}
