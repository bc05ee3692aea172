//! Each kind of answer that a run must meet.

use crate::frame::{Refusal, Refused, ESCAPE, FLAG, PAYLOAD_MAX};
use crate::places::Place;

#[derive(Clone, Copy, Debug, PartialEq, Eq)]
pub enum Class {
    CheckedEmpty,
    Checked,
    CheckedLongest,
    CheckRefused(Refusal),
    Flags(Flags),
    Place(Place),
    WrittenExactly,
    WrittenWithRoom,
    WriteRefused(Refusal),
    Crc,
    ByteAlone,
    EachStart,
    ByteAtPlace,
    BitAlone,
    TwoBits,
    Placed,
    Joined,
    JoinedWithEmpty,
    ThreeStrings,
    ThreeEmptyStrings,
}

impl Class {
    /// The frame check handed back a payload of this length.
    pub fn checked(payload_length: usize) -> Class {
        match payload_length {
            0 => Class::CheckedEmpty,
            PAYLOAD_MAX => Class::CheckedLongest,
            _ => Class::Checked,
        }
    }

    pub fn all() -> impl Iterator<Item = Class> {
        let checks = CHECK_REFUSALS.map(Class::CheckRefused);
        let flags = FLAGS.map(Class::Flags);
        let places = Place::all().map(Class::Place);
        let writes = WRITE_REFUSALS.map(Class::WriteRefused);
        TAKEN
            .into_iter()
            .chain(checks)
            .chain(flags)
            .chain(places)
            .chain(writes)
    }
}

/// The frame check refused a frame.
pub fn of_refused(frame: &[u8], refused: Refused) -> Vec<Class> {
    let mut classes = vec![Class::CheckRefused(refused.reason)];
    match refused.reason {
        Refusal::WrongFlags => classes.push(Class::Flags(Flags::of(frame))),
        Refusal::WrongEscape | Refusal::LongContent | Refusal::WrongCheck => {
            classes.extend(Place::kinds(frame, refused).into_iter().map(Class::Place))
        }
        _ => {}
    }
    classes
}

/// What is wrong with a frame's flags. It has place 0, whatever else is wrong.
#[derive(Clone, Copy, Debug, PartialEq, Eq)]
pub enum Flags {
    UnderTwoBytes,
    NoneFirst,
    NoneLast,
    Neither,
    Between,
    BetweenBehindEscape,
}

const FLAGS: [Flags; 6] = [
    Flags::UnderTwoBytes,
    Flags::NoneFirst,
    Flags::NoneLast,
    Flags::Neither,
    Flags::Between,
    Flags::BetweenBehindEscape,
];

impl Flags {
    fn of(frame: &[u8]) -> Flags {
        let [first, between @ .., last] = frame else {
            return Flags::UnderTwoBytes;
        };
        match (*first == FLAG, *last == FLAG) {
            (false, true) => Flags::NoneFirst,
            (true, false) => Flags::NoneLast,
            (false, false) => Flags::Neither,
            (true, true) if between.windows(2).any(|two| two == [ESCAPE, FLAG]) => {
                Flags::BetweenBehindEscape
            }
            (true, true) => Flags::Between,
        }
    }
}

const TAKEN: [Class; 16] = [
    Class::CheckedEmpty,
    Class::Checked,
    Class::CheckedLongest,
    Class::WrittenExactly,
    Class::WrittenWithRoom,
    Class::Crc,
    Class::ByteAlone,
    Class::EachStart,
    Class::ByteAtPlace,
    Class::BitAlone,
    Class::TwoBits,
    Class::Placed,
    Class::Joined,
    Class::JoinedWithEmpty,
    Class::ThreeStrings,
    Class::ThreeEmptyStrings,
];

const CHECK_REFUSALS: [Refusal; 6] = [
    Refusal::WrongFlags,
    Refusal::WrongEscape,
    Refusal::LongContent,
    Refusal::ShortContent,
    Refusal::WrongCheck,
    Refusal::ShortOutput,
];

const WRITE_REFUSALS: [Refusal; 2] = [Refusal::LongPayload, Refusal::ShortOutput];
