//! Damage to the sent bytes of two neighbouring content bytes that leaves every 7d and 7e in its
//! place. No frame so damaged is taken.

use crate::classes::{Class, Length};
use crate::content::{frame_length, Content, FRAME_START};
use crate::frame::{check, Refusal, ESCAPE, FLAG};
use crate::line_bytes::hex;
use crate::random::Random;
use crate::reader::{framed, read_by_both, taken};

/// A frame, and at two places other bytes.
pub struct Damage<'a> {
    frame: &'a [u8],
    places: [usize; 2],
    bytes: [u8; 2],
}

pub fn is_flag_or_escape(byte: u8) -> bool {
    byte == FLAG || byte == ESCAPE
}

/// Of each content byte the one sent byte that such damage can change: the byte itself, or the one
/// behind its escape.
fn free_places(frame: &[u8]) -> Vec<usize> {
    let between_flags = 1..frame.len() - 1;
    between_flags
        .filter(|place| frame[*place] != ESCAPE)
        .collect()
}

/// Contents without their check: plain, and with 7d and 7e in type, sequence and payload.
const CONTENTS: [&[u8]; 5] = [
    &[0x01, 0x05],
    &[0x01, 0x05, 0x42, 0x50, 0x3a, 0x43],
    &[FLAG, ESCAPE],
    &[0x01, ESCAPE, FLAG, FLAG, ESCAPE, 0x5e],
    &[0x02, 0x01, 0x7a, 0x7b, 0x7c, ESCAPE, FLAG],
];

/// Checks that other contents have.
const CHECKS: [[u8; 2]; 4] = [[FLAG, ESCAPE], [ESCAPE, FLAG], [ESCAPE, 0x41], [0x41, FLAG]];

/// The content with type 01, sequence 00 and two payload bytes that has this check.
fn content_with(wanted: [u8; 2]) -> Vec<u8> {
    let payloads = (0..=u16::MAX).map(u16::to_be_bytes);
    let mut contents = payloads.map(|[first, last]| vec![1, 0, first, last]);
    contents
        .find(|content| check(FRAME_START, content).to_be_bytes() == wanted)
        .expect("each check is that of two payload bytes")
}

pub fn short_frames() -> Vec<Vec<u8>> {
    let with_checks = CHECKS.map(content_with);
    let contents = CONTENTS.into_iter();
    contents
        .chain(with_checks.iter().map(Vec::as_slice))
        .map(|content| framed(&Content::of(FRAME_START, content).bytes))
        .collect()
}

/// Every such damage to a frame.
pub fn all(frame: &[u8]) -> impl Iterator<Item = Damage<'_>> {
    let places = free_places(frame);
    let pairs: Vec<[usize; 2]> = places.windows(2).map(|two| [two[0], two[1]]).collect();
    pairs.into_iter().flat_map(move |places| {
        let two = places.map(|place| frame[place]);
        let others = (0..=u16::MAX).map(u16::to_be_bytes);
        let others = others.filter(move |other| *other != two);
        others
            .filter(|other| !other.iter().any(|byte| is_flag_or_escape(*byte)))
            .map(move |bytes| Damage {
                frame,
                places,
                bytes,
            })
    })
}

/// Another byte for one that has this before it: behind an escape most often one that may be there.
fn byte(random: &mut Random, before: u8) -> u8 {
    if before == ESCAPE && random.below(4) != 0 {
        return random.one_of(&[0x5d, 0x5e]);
    }
    loop {
        let byte = random.byte();
        if !is_flag_or_escape(byte) {
            return byte;
        }
    }
}

/// Such damage to a frame of any length.
pub fn random_refused(random: &mut Random) -> Result<(Vec<Class>, u64), String> {
    let length = frame_length(random);
    let frame = framed(&Content::random(random, FRAME_START, length).bytes);
    taken(&frame)?;
    let first = random.below(length - 1);
    let free = free_places(&frame);
    let places = [free[first], free[first + 1]];
    loop {
        let bytes = places.map(|place| byte(random, frame[place - 1]));
        if bytes != places.map(|place| frame[place]) {
            return refused(&Damage {
                frame: &frame,
                places,
                bytes,
            });
        }
    }
}

/// The damaged frame is refused: by 1 if a byte stands behind an escape that may not, else by 4.
pub fn refused(damage: &Damage) -> Result<(Vec<Class>, u64), String> {
    let (frame, [first, last]) = (damage.frame, damage.places);
    let mut damaged = frame.to_vec();
    [damaged[first], damaged[last]] = damage.bytes;
    let escaped: Vec<u8> = [first, last]
        .into_iter()
        .filter(|place| frame[*place - 1] == ESCAPE)
        .map(|place| damaged[place])
        .collect();
    let wanted = match escaped.iter().all(|byte| [0x5d, 0x5e].contains(byte)) {
        true => Refusal::WrongCheck,
        false => Refusal::WrongEscape,
    };
    let answer = read_by_both(&damaged)?;
    if answer != Err(wanted) {
        let (frame, damaged) = (hex(frame), hex(&damaged));
        return Err(format!("frame {frame}: damaged to {damaged} {answer:x?}"));
    }
    let length = Length::of(free_places(frame).len());
    let mut classes = vec![Class::Sent(escaped.len(), wanted), Class::SentIn(length)];
    if is_exchange(damage) {
        classes.push(Class::EscapesExchanged);
    }
    Ok((classes, 1))
}

/// 7d 5e 7d 5d damaged to 7d 5d 7d 5e.
fn is_exchange(damage: &Damage) -> bool {
    let [first, last] = damage.places;
    damage.frame[first - 1..=last] == [ESCAPE, 0x5e, ESCAPE, 0x5d] && damage.bytes == [0x5d, 0x5e]
}
