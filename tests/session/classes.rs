//! Each kind of answer that a run must meet.

use crate::ash::{self, read_frame, stuff, PAYLOAD_MAX};
use crate::cut_classes::Piece;
use crate::events::Event;
use crate::session::{next, Answer, Control, Kind, Refusal, Session, COUNTER_MAX, OUTPUT_MIN};

#[derive(Clone, Copy, Debug, PartialEq, Eq)]
pub enum Class {
    /// Our RESET, with so many frames dropped.
    Reset(usize),
    /// A timeout, with so many frames sent again.
    Timeout(usize),
    /// Our data, with so many frames held behind it.
    Send(usize),
    SendRefused(Refusal),
    /// The first two refusals, where several apply to a send.
    Both(Refusal, Refusal),
    /// A RESET, or a timeout, refused.
    ResetRefused,
    TimeoutRefused,
    ReceiveRefused {
        short_output: bool,
        short_payload: bool,
    },
    /// A frame that C-11 refuses.
    Damaged {
        awaiting: bool,
        refusal: ash::Refusal,
    },
    BadReset {
        awaiting: bool,
        data: bool,
        other_counters: bool,
    },
    PeerReset {
        awaiting: bool,
        dropped: usize,
    },
    ResetAck {
        awaiting: bool,
        data: bool,
    },
    BadResetAck {
        data: bool,
    },
    IgnoredInTheWait {
        kind: Kind,
        data: bool,
    },
    NotNext {
        kind: Kind,
        ofc: Ofc,
    },
    Acknowledgement {
        kind: Kind,
        data: bool,
        cover: Cover,
    },
    /// An answer that fills the output which every event asks.
    FullOutput,
    /// Our counter, or the peer's, goes back to 1.
    CounterBack,
    GoodBack,
    Cut(Piece),
}

/// The OFC of data that is not next.
#[derive(Clone, Copy, Debug, PartialEq, Eq)]
pub enum Ofc {
    Zero,
    Repeated,
    Another,
}

/// Which of the held frames an AFC covers.
#[derive(Clone, Copy, Debug, PartialEq, Eq)]
pub enum Cover {
    NothingHeld,
    NoneOfOne,
    OneOfOne,
    NoneOfTwo,
    OlderOfTwo,
    BothOfTwo,
}

const SEND_REFUSALS: [Refusal; 5] = [
    Refusal::ShortOutput,
    Refusal::ResetAckAwaited,
    Refusal::TwoHeld,
    Refusal::EmptyData,
    Refusal::LongData,
];

const READ_REFUSALS: [ash::Refusal; 11] = [
    ash::Refusal::WrongFlag,
    ash::Refusal::ReservedBits,
    ash::Refusal::NeedlessHeaderEscape,
    ash::Refusal::MissingHeaderEscape,
    ash::Refusal::ShortFrame,
    ash::Refusal::LongPayload,
    ash::Refusal::WrongLength,
    ash::Refusal::RawReserved,
    ash::Refusal::LastEscape,
    ash::Refusal::NeedlessEscape,
    ash::Refusal::WrongCheck,
];

const COVERS: [Cover; 6] = [
    Cover::NothingHeld,
    Cover::NoneOfOne,
    Cover::OneOfOne,
    Cover::NoneOfTwo,
    Cover::OlderOfTwo,
    Cover::BothOfTwo,
];

impl Class {
    pub fn all() -> Vec<Class> {
        let mut all = vec![Class::Send(1), Class::Send(2)];
        all.extend((0..=2).flat_map(|count| [Class::Reset(count), Class::Timeout(count)]));
        all.extend(refused());
        all.extend([false, true].into_iter().flat_map(faulty));
        all.extend([false, true].into_iter().flat_map(of_resets));
        all.extend((0..=2).map(|dropped| Class::PeerReset {
            awaiting: false,
            dropped,
        }));
        all.extend(of_acknowledgements());
        all.extend([Class::FullOutput, Class::CounterBack, Class::GoodBack]);
        all.extend(Piece::all().map(Class::Cut));
        all
    }
}

fn refused() -> Vec<Class> {
    let mut refused = vec![Class::ResetRefused, Class::TimeoutRefused];
    refused.extend(SEND_REFUSALS.map(Class::SendRefused));
    let [short, awaited, two_held, empty, long] = SEND_REFUSALS;
    for second in [awaited, two_held, empty, long] {
        refused.push(Class::Both(short, second));
    }
    for first in [awaited, two_held] {
        refused.extend([empty, long].map(|second| Class::Both(first, second)));
    }
    for (short_output, short_payload) in [(true, false), (false, true), (true, true)] {
        refused.push(Class::ReceiveRefused {
            short_output,
            short_payload,
        });
    }
    refused
}

/// The frames that get a NACK whether or not RESET ACK is awaited.
fn faulty(awaiting: bool) -> Vec<Class> {
    let damaged = READ_REFUSALS.map(|refusal| Class::Damaged { awaiting, refusal });
    let resets = [(true, false), (false, true), (true, true)];
    let resets = resets.map(|(data, other_counters)| Class::BadReset {
        awaiting,
        data,
        other_counters,
    });
    [&damaged[..], &resets].concat()
}

/// With data, or empty.
fn of_resets(data: bool) -> Vec<Class> {
    let mut classes = vec![Class::BadResetAck { data }];
    for awaiting in [false, true] {
        classes.push(Class::ResetAck { awaiting, data });
    }
    for kind in [Kind::Ack, Kind::Nack] {
        classes.push(Class::IgnoredInTheWait { kind, data });
    }
    classes
}

fn of_acknowledgements() -> Vec<Class> {
    let mut classes = vec![Class::PeerReset {
        awaiting: true,
        dropped: 0,
    }];
    for kind in [Kind::Ack, Kind::Nack] {
        for ofc in [Ofc::Zero, Ofc::Repeated, Ofc::Another] {
            classes.push(Class::NotNext { kind, ofc });
        }
        for cover in COVERS {
            let with = |data| Class::Acknowledgement { kind, data, cover };
            classes.extend([with(false), with(true)]);
        }
    }
    classes
}

/// The kinds of an answer to an event, by the session before it.
pub fn of_event(before: &Session, event: &Event, answer: &Result<Answer, Refusal>) -> Vec<Class> {
    let held = before.held.len();
    let refused = answer.is_err();
    let mut classes = match event {
        Event::Reset { .. } if refused => vec![Class::ResetRefused],
        Event::Reset { .. } => vec![Class::Reset(held)],
        Event::Timeout { .. } if refused => vec![Class::TimeoutRefused],
        Event::Timeout { .. } => vec![Class::Timeout(held)],
        Event::Send { room, data } => of_send(before, *room, data),
        Event::Receive {
            room, payload_room, ..
        } if refused => vec![Class::ReceiveRefused {
            short_output: *room < OUTPUT_MIN,
            short_payload: *payload_room < PAYLOAD_MAX,
        }],
        Event::Receive { frame, .. } => of_frame(before, frame),
    };
    if answer
        .as_ref()
        .is_ok_and(|answer| answer.sent.len() == OUTPUT_MIN)
    {
        classes.push(Class::FullOutput);
    }
    classes
}

fn of_send(before: &Session, room: usize, data: &[u8]) -> Vec<Class> {
    let applies = |refusal: &Refusal| match refusal {
        Refusal::ShortOutput => room < OUTPUT_MIN,
        Refusal::ResetAckAwaited => before.awaiting,
        Refusal::TwoHeld => before.held.len() == 2,
        Refusal::EmptyData => data.is_empty(),
        Refusal::LongData => stuff(data).len() > PAYLOAD_MAX,
    };
    let refusals: Vec<Refusal> = SEND_REFUSALS.into_iter().filter(applies).collect();
    match refusals[..] {
        [] if before.counter == COUNTER_MAX => {
            vec![Class::Send(before.held.len() + 1), Class::CounterBack]
        }
        [] => vec![Class::Send(before.held.len() + 1)],
        [only] => vec![Class::SendRefused(only)],
        [first, second, ..] => vec![Class::SendRefused(first), Class::Both(first, second)],
    }
}

fn of_frame(before: &Session, bytes: &[u8]) -> Vec<Class> {
    let awaiting = before.awaiting;
    let frame = match read_frame(bytes, PAYLOAD_MAX) {
        Ok(frame) => frame,
        Err(refusal) => return vec![Class::Damaged { awaiting, refusal }],
    };
    let control = Control::of(frame.control);
    let data = !frame.payload.is_empty();
    match control.kind {
        Kind::Reset => vec![of_reset(before, control, data)],
        Kind::ResetAck => {
            let good = if data { (2, 1) } else { (1, 1) };
            let bad = awaiting && (control.ofc, control.afc) != good;
            vec![match bad {
                true => Class::BadResetAck { data },
                false => Class::ResetAck { awaiting, data },
            }]
        }
        kind if awaiting => vec![Class::IgnoredInTheWait { kind, data }],
        _ => of_acknowledgement(before, control, data),
    }
}

fn of_reset(before: &Session, control: Control, data: bool) -> Class {
    let awaiting = before.awaiting;
    let other_counters = (control.ofc, control.afc) != (1, 0);
    if data || other_counters {
        return Class::BadReset {
            awaiting,
            data,
            other_counters,
        };
    }
    let dropped = before.held.len();
    Class::PeerReset { awaiting, dropped }
}

fn of_acknowledgement(before: &Session, control: Control, data: bool) -> Vec<Class> {
    let Control { kind, ofc, afc } = control;
    if data && ofc != next(before.good) {
        let ofc = match ofc {
            0 => Ofc::Zero,
            ofc if ofc == before.good => Ofc::Repeated,
            _ => Ofc::Another,
        };
        return vec![Class::NotNext { kind, ofc }];
    }
    let held: Vec<u8> = before.held.iter().map(|held| held.ofc).collect();
    let cover = match held[..] {
        [] => Cover::NothingHeld,
        [only] if afc == only => Cover::OneOfOne,
        [_] => Cover::NoneOfOne,
        [older, _] if afc == older => Cover::OlderOfTwo,
        [_, newer] if afc == newer => Cover::BothOfTwo,
        _ => Cover::NoneOfTwo,
    };
    let acknowledgement = Class::Acknowledgement { kind, data, cover };
    if data && before.good == COUNTER_MAX {
        return vec![acknowledgement, Class::GoodBack];
    }
    vec![acknowledgement]
}
