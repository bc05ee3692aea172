//! Bytes for the line: random ones, and how they are printed.

use crate::frame::{ESCAPE, FLAG};
use crate::random::Random;

/// Any bytes, bytes that matter to framing, or one byte throughout.
pub fn bytes(random: &mut Random, length: usize) -> Vec<u8> {
    let alphabet: &[u8] = match random.below(6) {
        0 => &[FLAG],
        1 => &[ESCAPE],
        2 => &[FLAG, ESCAPE],
        3 => &[FLAG, ESCAPE, 0x5e, 0x5d, 0x01, 0x02, 0x41],
        _ => &[],
    };
    let draw = |_| match alphabet {
        [] => random.byte(),
        _ => random.one_of(alphabet),
    };
    (0..length).map(draw).collect()
}

pub fn hex(bytes: &[u8]) -> String {
    bytes.iter().map(|byte| format!("{byte:02x}")).collect()
}
