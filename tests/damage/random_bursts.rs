//! Damage within 16 adjacent bits of contents of any length.

use crate::bursts::{classes, missed};
use crate::checks;
use crate::classes::{Class, Length};
use crate::content::{any_length, any_start, frame_length, Content, Window, BURST, FRAME_START};
use crate::frame::Refusal;
use crate::random::Random;
use crate::reader::{framed, read_by_both, taken};

/// A window of a content, at its start, at its end, past it, of two bytes, or anywhere.
fn window(random: &mut Random, bits: usize) -> Window {
    Window::burst(match random.below(6) {
        0 => 0,
        1 => bits - BURST,
        2 => bits - BURST - 1 - random.below(7),
        3 => bits - 1 - random.below(BURST - 1),
        4 => 8 * random.below(bits / 8 - 1),
        _ => random.below(bits - BURST + 1),
    })
}

/// A pattern of which something is left where it is cut off.
fn pattern(random: &mut Random, cut_off: usize) -> u32 {
    let patterns = (1 << (BURST - cut_off)) - 1;
    (1 + random.below(patterns) as u32) << cut_off
}

/// A content of any length.
pub fn caught(random: &mut Random) -> Result<([Class; 2], u64), String> {
    let (start, length) = (any_start(random), any_length(random));
    let content = Content::random(random, start, length);
    let window = window(random, content.bits());
    caught_in(random, &content, window)
}

/// Damage within this window is caught by the check, and by the division of polynomials.
pub fn caught_in(
    random: &mut Random,
    content: &Content,
    window: Window,
) -> Result<([Class; 2], u64), String> {
    checks::passes(content)?;
    let damaged = content.damaged(window, pattern(random, window.cut_off(content.bits())));
    match checks::checked(content.start, &damaged)? {
        0 => Err(missed(content, &damaged)),
        _ => Ok((classes(content, window), 1)),
    }
}

/// The content of a frame, which was taken before.
pub fn refused(random: &mut Random) -> Result<([Class; 1], u64), String> {
    let length = frame_length(random);
    let content = Content::random(random, FRAME_START, length);
    taken(&framed(&content.bytes))?;
    let window = window(random, content.bits());
    let damaged = content.damaged(window, pattern(random, window.cut_off(content.bits())));
    match read_by_both(&framed(&damaged))? {
        Err(Refusal::WrongCheck) => Ok(([Class::FramedBurstIn(Length::of(length))], 1)),
        _ => Err(missed(&content, &damaged)),
    }
}
