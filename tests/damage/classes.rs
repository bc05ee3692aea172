//! Each kind of damage that a run must meet.

use crate::content::{Window, BURST};
use crate::frame::{Refusal, CONTENT_MAX};

#[derive(Clone, Copy, Debug, PartialEq, Eq)]
pub enum Class {
    /// Content of no bytes from a start value: there is nothing to damage.
    NoBytes,
    /// Content of one byte from a start value: so many of the 256 bytes pass.
    OneByte(usize),
    /// Damage within 16 adjacent bits, to the check alone: caught.
    Burst(Place),
    BurstIn(Length),
    /// The same to the frame check: refusal 4.
    FramedBurstIn(Length),
    /// Damage to the sent bytes of two neighbouring content bytes, so many of them escaped.
    Sent(usize, Refusal),
    SentIn(Length),
    /// Among these, 7d 5e 7d 5d damaged to 7d 5d 7d 5e.
    EscapesExchanged,
    /// The 17 bits of the polynomial: they pass.
    PolynomialIn(Length),
    /// The same in a frame: it is taken.
    FramedPolynomialIn(Length),
    /// Any other pattern of exactly 17 bits: caught.
    OtherSeventeenBits,
    /// Damage that makes or unmakes a 7d or 7e: taken or refused.
    FlagOrEscapeMade,
}

impl Class {
    pub fn all() -> impl Iterator<Item = Class> {
        let alone = [
            Class::NoBytes,
            Class::OneByte(0),
            Class::OneByte(1),
            Class::EscapesExchanged,
            Class::OtherSeventeenBits,
            Class::FlagOrEscapeMade,
        ];
        let framed = &LENGTHS[..3];
        alone
            .into_iter()
            .chain(PLACES.map(Class::Burst))
            .chain(LENGTHS.map(Class::BurstIn))
            .chain(framed.iter().copied().map(Class::FramedBurstIn))
            .chain(SENT.map(|(escaped, refusal)| Class::Sent(escaped, refusal)))
            .chain(framed.iter().copied().map(Class::SentIn))
            .chain(LENGTHS.map(Class::PolynomialIn))
            .chain(framed.iter().copied().map(Class::FramedPolynomialIn))
    }
}

/// Where in its content a window of 16 bits lies.
#[derive(Clone, Copy, Debug, PartialEq, Eq)]
pub enum Place {
    FirstTwoBytes,
    TwoBytes,
    LastTwoBytes,
    ThreeBytes,
    LastThreeBytes,
    PastTheEnd,
}

const PLACES: [Place; 6] = [
    Place::FirstTwoBytes,
    Place::TwoBytes,
    Place::LastTwoBytes,
    Place::ThreeBytes,
    Place::LastThreeBytes,
    Place::PastTheEnd,
];

impl Place {
    /// Of a content of so many bits.
    pub fn of(window: Window, bits: usize) -> Place {
        let behind = window.first + BURST;
        if behind > bits {
            return Place::PastTheEnd;
        }
        match (window.first % 8, window.first, bits - behind) {
            (0, _, 0) => Place::LastTwoBytes,
            (0, 0, _) => Place::FirstTwoBytes,
            (0, _, _) => Place::TwoBytes,
            (_, _, 0..8) => Place::LastThreeBytes,
            _ => Place::ThreeBytes,
        }
    }
}

/// How many bytes a content has.
#[derive(Clone, Copy, Debug, PartialEq, Eq)]
pub enum Length {
    UpTo8,
    UpTo386,
    Of387,
    Longer,
}

/// The last is of no frame.
const LENGTHS: [Length; 4] = [
    Length::UpTo8,
    Length::UpTo386,
    Length::Of387,
    Length::Longer,
];

impl Length {
    pub fn of(content: usize) -> Length {
        match content {
            0..=8 => Length::UpTo8,
            9..CONTENT_MAX => Length::UpTo386,
            CONTENT_MAX => Length::Of387,
            _ => Length::Longer,
        }
    }
}

/// Without an escape there is none to be wrong.
const SENT: [(usize, Refusal); 5] = [
    (0, Refusal::WrongCheck),
    (1, Refusal::WrongCheck),
    (1, Refusal::WrongEscape),
    (2, Refusal::WrongCheck),
    (2, Refusal::WrongEscape),
];
