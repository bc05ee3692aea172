//! Damage that makes or unmakes a 7d or 7e. It can give content of another length, and be taken.

use crate::frame::Frame;
use crate::reader::{read_by_both, taken};
use crate::sent::is_flag_or_escape;

/// A frame, and the same with two neighbouring bytes damaged so that they are an escape. Both are
/// taken, with type 01 and sequence 05.
const PLAIN: [u8; 10] = [0x7e, 1, 5, 0x42, 0x50, 0x3a, 0x43, 0x27, 0x24, 0x7e];
const ESCAPED: [u8; 10] = [0x7e, 1, 5, 0x42, 0x7d, 0x5e, 0x43, 0x27, 0x24, 0x7e];
const PLAIN_PAYLOAD: [u8; 4] = [0x42, 0x50, 0x3a, 0x43];
const ESCAPED_PAYLOAD: [u8; 3] = [0x42, 0x7e, 0x43];

/// What is taken for each of them, with one byte or two neighbouring bytes damaged in this way.
const TAKEN_FOR_PLAIN: [[u8; 10]; 1] = [ESCAPED];
const TAKEN_FOR_ESCAPED: [[u8; 10]; 2] = [
    [0x7e, 1, 5, 0xa8, 0x0c, 0x5e, 0x43, 0x27, 0x24, 0x7e],
    PLAIN,
];

/// Each of the two frames, and what is taken for it.
pub const FRAMES: [([u8; 10], &[[u8; 10]]); 2] =
    [(PLAIN, &TAKEN_FOR_PLAIN), (ESCAPED, &TAKEN_FOR_ESCAPED)];

pub fn spaced(bytes: &[u8]) -> String {
    let bytes: Vec<String> = bytes.iter().map(|byte| format!("{byte:02x}")).collect();
    bytes.join(" ")
}

/// A line for each of the two frames.
pub fn example() -> Result<[String; 2], String> {
    Ok([
        line(&PLAIN, &PLAIN_PAYLOAD)?,
        line(&ESCAPED, &ESCAPED_PAYLOAD)?,
    ])
}

fn line(sent: &[u8], payload: &[u8]) -> Result<String, String> {
    let wanted = Frame {
        kind: 1,
        sequence: 5,
        payload: payload.to_vec(),
    };
    let frame = taken(sent)?;
    let (sent, payload) = (spaced(sent), spaced(payload));
    if frame != wanted {
        return Err(format!("frame {sent}: {frame:x?}, wanted {wanted:x?}"));
    }
    Ok(format!("{sent} is taken, payload {payload}"))
}

fn makes_or_unmakes(sent: &[u8], received: &[u8]) -> bool {
    let mut pairs = sent.iter().zip(received);
    pairs.any(|(sent, received)| {
        sent != received && (is_flag_or_escape(*sent) || is_flag_or_escape(*received))
    })
}

/// A frame with these bytes at two neighbouring places.
fn with_two(frame: &[u8], place: usize, two: [u8; 2]) -> Vec<u8> {
    [&frame[..place], &two, &frame[place + 2..]].concat()
}

/// All frames that such damage to one byte or two neighbouring bytes between the flags makes of
/// this one, each once: a byte alone is damaged as the first of two, only the last one as the second.
fn damaged(frame: &[u8]) -> impl Iterator<Item = Vec<u8>> + '_ {
    let last = frame.len() - 3;
    (1..=last).flat_map(move |place| {
        let two = &frame[place..place + 2];
        let others = (0..=u16::MAX).map(u16::to_be_bytes);
        others
            .filter(move |other| other[0] != two[0] || place == last)
            .filter(|other| makes_or_unmakes(two, other))
            .map(move |other| with_two(frame, place, other))
    })
}

/// How many were tried. Those that are taken have to be these.
pub fn all(frame: &[u8], wanted: &[[u8; 10]]) -> Result<u64, String> {
    let mut tried = 0;
    let mut taken = Vec::new();
    for received in damaged(frame) {
        tried += 1;
        if read_by_both(&received)?.is_ok() {
            taken.push(received);
        }
    }
    if taken != wanted {
        return Err(format!("frame {}: {taken:x?} are taken", spaced(frame)));
    }
    Ok(tried)
}
