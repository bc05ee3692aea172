//! Each kind of answer that a run must meet.

use crate::ash::{Refusal, CONTROL_ESCAPED, LENGTH_ESCAPED, PAYLOAD_MAX};

#[derive(Clone, Copy, Debug, PartialEq, Eq)]
pub enum Class {
    Written(Form),
    WriteRefused(Refusal),
    Read(Form),
    ReadRefused(Refusal),
}

/// What the header of a right frame has escaped, or how long its payload is if it has nothing.
#[derive(Clone, Copy, Debug, PartialEq, Eq)]
pub enum Form {
    Empty,
    Filled,
    Longest,
    ControlEscaped,
    LengthEscaped,
    BothEscaped,
}

impl Form {
    pub fn of(frame: &[u8]) -> Form {
        let escape = frame[1];
        match (escape & CONTROL_ESCAPED != 0, escape & LENGTH_ESCAPED != 0) {
            (true, true) => Form::BothEscaped,
            (true, false) => Form::ControlEscaped,
            (false, true) => Form::LengthEscaped,
            (false, false) => match usize::from(frame[3]) {
                0 => Form::Empty,
                PAYLOAD_MAX => Form::Longest,
                _ => Form::Filled,
            },
        }
    }
}

impl Class {
    pub fn all() -> impl Iterator<Item = Class> {
        let written = FORMS.map(Class::Written).into_iter();
        written
            .chain(WRITE_REFUSALS.map(Class::WriteRefused))
            .chain(FORMS.map(Class::Read))
            .chain(READ_REFUSALS.map(Class::ReadRefused))
    }
}

const FORMS: [Form; 6] = [
    Form::Empty,
    Form::Filled,
    Form::Longest,
    Form::ControlEscaped,
    Form::LengthEscaped,
    Form::BothEscaped,
];

const WRITE_REFUSALS: [Refusal; 2] = [Refusal::LongPayload, Refusal::ShortOutput];

const READ_REFUSALS: [Refusal; 12] = [
    Refusal::ShortOutput,
    Refusal::WrongFlag,
    Refusal::ReservedBits,
    Refusal::NeedlessHeaderEscape,
    Refusal::MissingHeaderEscape,
    Refusal::ShortFrame,
    Refusal::LongPayload,
    Refusal::WrongLength,
    Refusal::RawReserved,
    Refusal::LastEscape,
    Refusal::NeedlessEscape,
    Refusal::WrongCheck,
];
