//! Damage within 16 adjacent bits, all of it in short contents. None of the damaged ones passes.

use crate::archive;
use crate::checks;
use crate::classes::{Class, Length, Place};
use crate::content::{Content, Window, BURST};
use crate::line_bytes::hex;
use crate::reader::{framed, read};

/// A content of no bytes passes from start 0 alone. No other has its length: there is no damage.
pub fn no_bytes(start: u16) -> Result<Class, String> {
    match archive::crc(start, &[]) {
        check if check == start => Ok(Class::NoBytes),
        check => Err(format!("start {start:04x}: {check:04x}")),
    }
}

/// Of the 256 contents of one byte at most one passes, so no damaged one does.
pub fn one_byte(start: u16) -> Result<Class, String> {
    let passes = |byte: &u8| archive::crc(start, &[*byte]) == 0;
    let passing: Vec<u8> = (0..=255).filter(passes).collect();
    match passing.len() {
        0 | 1 => Ok(Class::OneByte(passing.len())),
        _ => Err(format!("start {start:04x}: {} each pass", hex(&passing))),
    }
}

/// Each window of each content, those that pass its end among them.
pub fn windows(contents: &[Content]) -> impl Iterator<Item = (&Content, Window)> {
    contents.iter().flat_map(|content| {
        let windows = (0..content.bits()).map(Window::burst);
        windows.map(move |window| (content, window))
    })
}

pub fn classes(content: &Content, window: Window) -> [Class; 2] {
    [
        Class::Burst(Place::of(window, content.bits())),
        Class::BurstIn(Length::of(content.bytes.len())),
    ]
}

/// All damage within one window is caught by the check.
pub fn caught(content: &Content, window: Window) -> Result<([Class; 2], u64), String> {
    checks::passes(content)?;
    let tried = try_all(content, window, |damaged| {
        archive::crc(content.start, damaged) != 0
    })?;
    Ok((classes(content, window), tried))
}

/// All damage within one window, the content sent as a frame behind it, is refused by 4, whose
/// place is the content's length.
pub fn refused(content: &Content, window: Window) -> Result<([Class; 1], u64), String> {
    let length = content.bytes.len();
    let report = archive::refused(4, length);
    let tried = try_all(content, window, |damaged| {
        read(&framed(damaged)) == Err(report)
    })?;
    Ok(([Class::FramedBurstIn(Length::of(length))], tried))
}

/// How many patterns were tried. Two that differ only behind the content's end are one.
fn try_all(
    content: &Content,
    window: Window,
    is_caught: impl Fn(&[u8]) -> bool,
) -> Result<u64, String> {
    let cut_off = window.cut_off(content.bits());
    let last = (1 << (BURST - cut_off)) - 1;
    let mut bytes = content.bytes.clone();
    if is_caught(&bytes) {
        return Err(format!("{content}: caught without damage"));
    }
    for pattern in 1..=last {
        window.flip(&mut bytes, pattern << cut_off);
        if !is_caught(&bytes) {
            return Err(missed(content, &bytes));
        }
        window.flip(&mut bytes, pattern << cut_off);
    }
    Ok(u64::from(last))
}

pub fn missed(content: &Content, damaged: &[u8]) -> String {
    format!("{content}: damaged to {} it is not caught", hex(damaged))
}
