//! Each situation of the sender that a run must meet (request C-13).

use crate::frame::{CONTENT_MAX, PAYLOAD_MAX};
use crate::sender::REPEATS_MAX;

#[derive(Clone, Copy, Debug, PartialEq, Eq)]
pub enum Sending {
    // Accepted sends.
    Sent(Sequence),
    /// With a payload of this length.
    SentLength(usize),
    /// With an output of just the frame's length, and with one of six bytes.
    SentExactly,
    SentIntoSix,
    /// With a pair in the check, and with as many pairs as there can be.
    SentEscapedCheck,
    SentLongest,
    /// Behind a frame with this end, and behind a send that was refused by this number.
    SentAfter(End),
    SentAfterRefused(u8),

    // Refused ones.
    /// All refusals that apply.
    SendRefused(&'static [u8]),
    SendOneByteShort,

    // Timeouts, with the number of the repeat.
    Repeated(u8),
    RepeatedExactly(u8),
    RepeatedAfter(u8, Between),
    RepeatRefused(u8),
    RepeatOneByteShort(u8),
    Dropped,
    DroppedWithoutRoom,
    DroppedAfter(Between),
    /// Nothing is held, at all or behind a frame with this end.
    Idle,
    IdleWithoutRoom,
    IdleAfter(End),

    // Acknowledgements, with how often the held frame was repeated.
    Freed(u8),
    FreedAfter(Between),
    FreedAround(Inner),
    /// Of another sequence than the held one.
    Other(u8),
    /// With nothing held: at all, of the last frame, which had this end, or of the next one.
    HeardIdle,
    HeardAfter(End),
    HeardTooSoon,

    // Other pieces.
    /// One that has the held sequence.
    NotFreed(Cause),
    NewAround(Inner),
    /// The module begins anew, and our sender does not.
    NewOfSequence0,
}

#[derive(Clone, Copy, Debug, PartialEq, Eq)]
pub enum Sequence {
    First,
    Middle,
    /// 7d or 7e.
    Escaped,
    Last,
    /// 1 behind 255.
    BehindLast,
}

/// How a held frame ended.
#[derive(Clone, Copy, Debug, PartialEq, Eq)]
pub enum End {
    Freed,
    Dropped,
}

/// What came since the send, or right before it.
#[derive(Clone, Copy, Debug, PartialEq, Eq)]
pub enum Between {
    RefusedTimeout,
    OtherAcknowledgement,
    Tick,
    /// Before the send, with nothing held.
    IdleTimeout,
}

/// What came behind the first byte of a frame and before its closing flag, from the last send on.
#[derive(Clone, Copy, Debug, PartialEq, Eq)]
pub enum Inner {
    Send,
    Repeat,
    Drop,
}

/// Why a frame with the held sequence is not heard.
#[derive(Clone, Copy, Debug, PartialEq, Eq)]
pub enum Cause {
    Refused(u8),
    NewData,
    DataAgain,
    /// The acknowledgement is in a piece refused by 7.
    ShortBuffers,
}

const SINGLE: [Sending; 12] = [
    Sending::SentExactly,
    Sending::SentIntoSix,
    Sending::SentEscapedCheck,
    Sending::SentLongest,
    Sending::SendOneByteShort,
    Sending::Dropped,
    Sending::DroppedWithoutRoom,
    Sending::Idle,
    Sending::IdleWithoutRoom,
    Sending::HeardIdle,
    Sending::HeardTooSoon,
    Sending::NewOfSequence0,
];

const SEQUENCES: [Sequence; 5] = [
    Sequence::First,
    Sequence::Middle,
    Sequence::Escaped,
    Sequence::Last,
    Sequence::BehindLast,
];

const ENDS: [End; 2] = [End::Freed, End::Dropped];

const BETWEEN: [Between; 4] = [
    Between::RefusedTimeout,
    Between::OtherAcknowledgement,
    Between::Tick,
    Between::IdleTimeout,
];

const INNER: [Inner; 3] = [Inner::Send, Inner::Repeat, Inner::Drop];

/// Those behind which a frame is held.
const OF_HELD: [Inner; 2] = [Inner::Send, Inner::Repeat];

const CAUSES: [Cause; 9] = [
    Cause::Refused(1),
    Cause::Refused(2),
    Cause::Refused(3),
    Cause::Refused(4),
    Cause::Refused(5),
    Cause::Refused(6),
    Cause::NewData,
    Cause::DataAgain,
    Cause::ShortBuffers,
];

pub const LENGTHS: [usize; 4] = [0, 1, PAYLOAD_MAX - 1, PAYLOAD_MAX];

/// The refusals of a send in their order, alone and together.
pub const FAULTS: [&[u8]; 7] = [&[25], &[8], &[7], &[25, 8], &[25, 7], &[8, 7], &[25, 8, 7]];

pub const FRAME_MIN: usize = 6;

/// Two flags, two plain content bytes, and all others in pairs.
pub const FRAME_MAX: usize = 2 + 2 + 2 * (CONTENT_MAX - 2);

impl Sending {
    pub fn all() -> impl Iterator<Item = Sending> {
        let sends = SEQUENCES.into_iter().map(Sending::Sent);
        let sends = sends
            .chain(LENGTHS.map(Sending::SentLength))
            .chain(ENDS.map(Sending::SentAfter))
            .chain([25, 8, 7].map(Sending::SentAfterRefused))
            .chain(FAULTS.map(Sending::SendRefused));
        let timeouts = (1..=REPEATS_MAX).flat_map(Sending::of_repeat);
        let timeouts = timeouts
            .chain(BETWEEN.map(Sending::DroppedAfter))
            .chain(ENDS.map(Sending::IdleAfter));
        let heard = (0..=REPEATS_MAX).flat_map(|n| [Sending::Freed(n), Sending::Other(n)]);
        let heard = heard
            .chain(BETWEEN.map(Sending::FreedAfter))
            .chain(OF_HELD.map(Sending::FreedAround))
            .chain(ENDS.map(Sending::HeardAfter));
        let others = CAUSES.into_iter().map(Sending::NotFreed);
        let others = others.chain(INNER.map(Sending::NewAround)).chain(SINGLE);
        sends.chain(timeouts).chain(heard).chain(others)
    }

    /// The kinds of the first or the second repeat.
    fn of_repeat(number: u8) -> impl Iterator<Item = Sending> {
        let after = BETWEEN.map(|between| Sending::RepeatedAfter(number, between));
        let alone = [
            Sending::Repeated(number),
            Sending::RepeatedExactly(number),
            Sending::RepeatRefused(number),
            Sending::RepeatOneByteShort(number),
        ];
        alone.into_iter().chain(after)
    }
}
