//! Damage within 17 adjacent bits: the polynomial passes, and no other pattern of exactly 17 bits.

use crate::archive;
use crate::checks;
use crate::classes::{Class, Length};
use crate::content::{any_length, any_start, frame_length, Content, Window};
use crate::content::{FRAME_START, POLYNOMIAL, POLYNOMIAL_BITS};
use crate::line_bytes::hex;
use crate::random::Random;
use crate::reader::{framed, taken};

/// Each window of 17 bits in each content.
pub fn windows(contents: &[Content]) -> impl Iterator<Item = (&Content, Window)> {
    contents.iter().flat_map(|content| {
        let windows = (0..=content.bits() - POLYNOMIAL_BITS).map(Window::polynomial);
        windows.map(move |window| (content, window))
    })
}

fn window(random: &mut Random, content: &Content) -> Window {
    Window::polynomial(random.below(content.bits() - POLYNOMIAL_BITS + 1))
}

/// The polynomial passes.
pub fn passes(content: &Content, window: Window) -> Result<([Class; 1], u64), String> {
    checks::passes(content)?;
    let damaged = content.damaged(window, POLYNOMIAL);
    match checks::checked(content.start, &damaged)? {
        0 => Ok(([Class::PolynomialIn(Length::of(damaged.len()))], 1)),
        check => Err(format!(
            "{content}: damaged to {}, check {check:04x}",
            hex(&damaged)
        )),
    }
}

pub fn random_passes(random: &mut Random) -> Result<([Class; 1], u64), String> {
    let (start, length) = (any_start(random), any_length(random));
    let content = Content::random(random, start, length);
    let window = window(random, &content);
    passes(&content, window)
}

/// A frame with the polynomial in its content is taken.
pub fn is_taken(content: &Content, window: Window) -> Result<([Class; 1], u64), String> {
    let damaged = content.damaged(window, POLYNOMIAL);
    taken(&framed(&damaged)).map_err(|fault| format!("{content}: damaged, {fault}"))?;
    Ok(([Class::FramedPolynomialIn(Length::of(damaged.len()))], 1))
}

pub fn random_is_taken(random: &mut Random) -> Result<([Class; 1], u64), String> {
    let length = frame_length(random);
    let content = Content::random(random, FRAME_START, length);
    let window = window(random, &content);
    is_taken(&content, window)
}

/// Of the patterns of exactly 17 bits, whose first and last are set, the polynomial alone passes.
pub fn no_other_passes(content: &Content, window: Window) -> Result<([Class; 1], u64), String> {
    let patterns = (1 << 16 | 1..1 << 17).step_by(2);
    let others = patterns.len() as u64 - 1;
    let passing: Vec<u32> = patterns
        .filter(|pattern| archive::crc(content.start, &content.damaged(window, *pattern)) == 0)
        .collect();
    if passing != [POLYNOMIAL] {
        return Err(format!("{content}: in {window:?} {passing:x?} pass"));
    }
    Ok(([Class::OtherSeventeenBits], others))
}
