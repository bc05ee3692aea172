//! The kinds of place that a refused frame has (request C-16): a run that hardly met one has tested
//! little there.

use crate::frame::{Refusal, Refused, CONTENT_MAX, ESCAPE, FLAG};

#[derive(Clone, Copy, Debug, PartialEq, Eq)]
pub enum Place {
    /// Refusal 1: what stands behind the escape.
    EscapeThenByte,
    EscapeThenEscape,
    EscapeThenFlag,
    /// The same where the escape begins content byte 388, so that its pair would pass the limit.
    LastEscapeThenByte,
    LastEscapeThenEscape,
    LastEscapeThenFlag,
    /// Refusal 2: what passes the limit.
    PassedByByte,
    PassedByPair,
    /// A refusal and a place that is its least or its greatest.
    End(u8, usize),
    /// Of several faults of 1 and 2 in one frame, the first two.
    Both(u8, u8),
}

/// Those at which an escape stands right before the byte.
pub const AFTER_ESCAPE: [Place; 7] = [
    Place::EscapeThenByte,
    Place::EscapeThenEscape,
    Place::EscapeThenFlag,
    Place::LastEscapeThenByte,
    Place::LastEscapeThenEscape,
    Place::LastEscapeThenFlag,
    Place::PassedByPair,
];

const ENDS: [(u8, usize); 6] = [(1, 2), (1, 776), (2, 388), (2, 776), (4, 4), (4, 387)];

/// The limit is passed once.
const BOTH: [(u8, u8); 3] = [(1, 1), (1, 2), (2, 1)];

impl Place {
    pub fn all() -> impl Iterator<Item = Place> {
        let ends = ENDS.map(|(number, place)| Place::End(number, place));
        let both = BOTH.map(|(first, second)| Place::Both(first, second));
        let alone = AFTER_ESCAPE.into_iter().chain([Place::PassedByByte]);
        alone.chain(ends).chain(both)
    }

    /// What stands at the place of a refusal 1 or 2, which is behind an escape or passes the limit.
    /// The frame has its flags, so that the place is that of one of its bytes.
    pub fn of_byte(frame: &[u8], refused: Refused) -> Option<Place> {
        let place = refused.place;
        match refused.reason {
            Refusal::WrongEscape => {
                // A content byte is sent as one byte that is no escape, alone or behind one.
                let before = frame[1..place - 1].iter().filter(|byte| **byte != ESCAPE);
                Some(behind_escape(frame[place], before.count() == CONTENT_MAX))
            }
            Refusal::LongContent if frame[place - 1] == ESCAPE => Some(Place::PassedByPair),
            Refusal::LongContent => Some(Place::PassedByByte),
            _ => None,
        }
    }

    /// All kinds of the place of a refusal 1, 2 or 4 in a frame with right flags.
    pub fn kinds(frame: &[u8], refused: Refused) -> Vec<Place> {
        let end = (refused.reason.number(), refused.place);
        let end = ENDS.contains(&end).then_some(Place::End(end.0, end.1));
        let of_byte = Place::of_byte(frame, refused);
        let both = of_byte.and(two_faults(frame));
        of_byte.into_iter().chain(end).chain(both).collect()
    }
}

fn behind_escape(byte: u8, is_last: bool) -> Place {
    match (byte, is_last) {
        (FLAG, false) => Place::EscapeThenFlag,
        (FLAG, true) => Place::LastEscapeThenFlag,
        (ESCAPE, false) => Place::EscapeThenEscape,
        (ESCAPE, true) => Place::LastEscapeThenEscape,
        (_, false) => Place::EscapeThenByte,
        (_, true) => Place::LastEscapeThenByte,
    }
}

fn two_faults(frame: &[u8]) -> Option<Place> {
    match faults(frame)[..] {
        [first, second, ..] => Some(Place::Both(first, second)),
        _ => None,
    }
}

/// The numbers of all faults of 1 and 2 in byte order, each looked for as if those before it were
/// none: a wrong byte behind an escape stands for a content byte too.
fn faults(frame: &[u8]) -> Vec<u8> {
    let mut faults = Vec::new();
    let mut content = 0;
    let mut escaped = false;
    for &byte in &frame[1..] {
        if escaped && ![0x5d, 0x5e].contains(&byte) {
            faults.push(1);
        }
        if byte == FLAG {
            break;
        }
        escaped = !escaped && byte == ESCAPE;
        if !escaped {
            content += 1;
            if content == CONTENT_MAX + 1 {
                faults.push(2);
            }
        }
    }
    faults
}
