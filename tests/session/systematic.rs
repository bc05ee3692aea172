//! Conversations that go through every value of something.

use crate::ash::{Parts, CONTROL_ESCAPED, ESCAPE, FLAG, LENGTH_ESCAPED, PAYLOAD_MAX, RESERVED};
use crate::ash_inputs::{plain, stuffed};
use crate::cases::{Case, LINE_BYTES_MAX};
use crate::cutter::WAKE;
use crate::events::{receive, reset, send, timeout, Event, OUTPUT_MAX, PAYLOAD_ROOM_MAX};
use crate::session::{next, Control, Kind, OUTPUT_MIN};
use crate::states::{self, frame, open, waiting, State};

/// What the held frames have, the older and the newer.
const OLDER: &[u8] = b"a\x7e";
const NEWER: &[u8] = b"\xeeb\xee";

/// What the frames have that are tried in each state.
#[derive(Clone, Copy)]
pub enum Data {
    Short,
    Longest,
}

/// A frame of each control byte in each state: empty and with short data, or with the longest, plain
/// and stuffed.
pub fn frames(data: Data) -> impl Iterator<Item = Case> {
    let data = match data {
        Data::Short => [Vec::new(), b"\xeex".to_vec()],
        Data::Longest => [plain(PAYLOAD_MAX), stuffed(PAYLOAD_MAX)],
    };
    states::all().into_iter().flat_map(move |state| {
        let data = data.iter();
        let cases = data.map(|data| tries(state, every_control(data).collect()));
        cases.collect::<Vec<Case>>()
    })
}

pub fn others() -> impl Iterator<Item = Case> {
    every_longest_answer()
        .chain(every_fault())
        .chain(every_change())
        .chain(every_cut())
        .chain(every_room())
        .chain(every_data())
        .chain(every_short_history())
}

fn tries(state: State, tried: Vec<Event>) -> Case {
    let start = state.events([OLDER, NEWER]);
    Case::Tries { start, tried }
}

/// A frame of each control byte with this data.
pub fn every_control(data: &[u8]) -> impl Iterator<Item = Event> + '_ {
    (0..=255).map(|byte| receive(Control::of(byte).frame(data)))
}

/// NACKs of each AFC with the longest data, while two of the longest are held.
fn every_longest_answer() -> impl Iterator<Item = Case> {
    let states = states::all().into_iter().filter(|state| state.held == 2);
    states.map(|state| {
        let start = state.events([&plain(PAYLOAD_MAX), &stuffed(PAYLOAD_MAX)]);
        let nacks =
            (0..=7).map(|afc| frame(Kind::Nack, next(state.good), afc, &plain(PAYLOAD_MAX)));
        let tried = nacks.map(receive).collect();
        Case::Tries { start, tried }
    })
}

/// A frame with each fault of C-11, and a RESET with data, in each state.
fn every_fault() -> impl Iterator<Item = Case> {
    let with_escape =
        [0x01, CONTROL_ESCAPED, LENGTH_ESCAPED].map(|escape| Parts { escape, ..right() });
    let lengths = [1, 3, PAYLOAD_MAX as u8 + 1];
    let other_length = lengths.map(|length| with_length(right(), length));
    let with_payload = [&RESERVED[..1], &[ESCAPE], &[ESCAPE, b'a']].map(|sent| {
        let sent = sent.to_vec();
        let length = sent.len() as u8;
        with_length(Parts { sent, ..right() }, length)
    });
    let faults = [with_escape, other_length, with_payload]
        .into_iter()
        .flatten();
    let mut frames: Vec<Vec<u8>> = faults.map(|parts| parts.frame()).collect();
    frames.push(Vec::new());
    frames.push(frame(Kind::Reset, 1, 0, b"up"));
    let tried: Vec<Event> = frames.into_iter().map(receive).collect();
    let states = states::all().into_iter();
    states.map(move |state| tries(state, tried.clone()))
}

fn right() -> Parts {
    let (kind, ofc, afc) = (Kind::Ack, 2, 1);
    Parts::new(Control { kind, ofc, afc }.byte(), b"up")
}

fn with_length(mut parts: Parts, length: u8) -> Parts {
    parts.set_length(length);
    parts
}

/// States in which damaged frames are tried: two of the wait, and some behind it.
fn some_states() -> [State; 7] {
    [
        waiting(0),
        waiting(1),
        open(1, 1, 0),
        open(4, 7, 1),
        open(7, 6, 0),
        open(7, 6, 2),
        open(1, 3, 2),
    ]
}

/// Frames that have an effect in this state, each of another kind.
fn telling_frames(state: State) -> Vec<Vec<u8>> {
    let ofc = next(state.good);
    let afc = state.counter;
    vec![
        frame(Kind::Reset, 1, 0, &[]),
        frame(Kind::ResetAck, 1, 1, &[]),
        frame(Kind::ResetAck, 2, 1, b"ab\x11"),
        frame(Kind::Ack, ofc, afc, &[]),
        frame(Kind::Ack, ofc, afc, b"\x7ec"),
        frame(Kind::Nack, ofc, afc, &[]),
        frame(Kind::Nack, ofc, 0, &stuffed(17)),
    ]
}

/// Each byte of each frame with each of its bits flipped and with some other values.
fn every_change() -> impl Iterator<Item = Case> {
    some_states().into_iter().flat_map(|state| {
        let frames = telling_frames(state).into_iter();
        frames.map(move |frame| {
            let places = 0..frame.len();
            let changed = places.flat_map(|place| changed_at(&frame, place));
            tries(state, changed.map(receive).collect())
        })
    })
}

fn changed_at(frame: &[u8], place: usize) -> Vec<Vec<u8>> {
    let bits = (0..8).map(|bit| frame[place] ^ 1 << bit);
    let values = bits.chain(RESERVED).chain([0, PAYLOAD_MAX as u8 + 1, WAKE]);
    let changed = values.map(|value| {
        let mut changed = frame.to_vec();
        changed[place] = value;
        changed
    });
    changed.collect()
}

/// Each frame cut at each byte, with bytes behind it, and with a byte before it.
fn every_cut() -> impl Iterator<Item = Case> {
    some_states().into_iter().flat_map(|state| {
        let frames = telling_frames(state).into_iter();
        frames.map(move |frame| {
            let cut = (0..frame.len()).map(|length| frame[..length].to_vec());
            let mut tried: Vec<Vec<u8>> = cut.collect();
            for other in [0, FLAG, WAKE] {
                tried.push([&frame[..], &[other]].concat());
                tried.push([&[other], &frame[..]].concat());
            }
            tried.push(frame.repeat(2));
            let mut longest = frame;
            longest.resize(LINE_BYTES_MAX - 2, 0);
            tried.push(longest);
            tries(state, tried.into_iter().map(receive).collect())
        })
    })
}

/// Each event with rooms at the limits, in each state, so that each two refusals that can apply
/// together do.
fn every_room() -> impl Iterator<Item = Case> {
    let rooms = [0, OUTPUT_MIN - 1, OUTPUT_MIN, OUTPUT_MAX];
    let payload_rooms = [0, PAYLOAD_MAX - 1, PAYLOAD_MAX, PAYLOAD_ROOM_MAX];
    states::all().into_iter().map(move |state| {
        let mut tried = Vec::new();
        for room in rooms {
            tried.extend([Event::Reset { room }, Event::Timeout { room }]);
            let data = [
                plain(0),
                plain(1),
                plain(PAYLOAD_MAX),
                plain(PAYLOAD_MAX + 1),
            ];
            tried.extend(data.map(|data| Event::Send { room, data }));
            let received = payload_rooms.into_iter().flat_map(|payload_room| {
                limits(state).map(|frame| Event::Receive {
                    room,
                    payload_room,
                    frame,
                })
            });
            tried.extend(received);
        }
        tries(state, tried)
    })
}

/// A frame that is answered in every state, and one with data that is next.
fn limits(state: State) -> [Vec<u8>; 2] {
    let reset = frame(Kind::Reset, 1, 0, &[]);
    let data = frame(Kind::Nack, next(state.good), 0, b"up");
    [reset, data]
}

/// Our data of each length, plain and stuffed, in a state that takes it and in ones that do not; and
/// data of each byte.
fn every_data() -> impl Iterator<Item = Case> {
    let states = [open(3, 2, 0), open(7, 7, 1), open(2, 5, 2), waiting(0)];
    states.into_iter().map(|state| {
        let lengths = (0..=PAYLOAD_MAX + 3).chain([2 * PAYLOAD_MAX, 256, LINE_BYTES_MAX - 1]);
        let mut data: Vec<Vec<u8>> = lengths
            .flat_map(|length| [plain(length), stuffed(length)])
            .collect();
        data.extend((0..=255).map(|byte| vec![byte]));
        tries(state, data.into_iter().map(send).collect())
    })
}

/// Each history of four events out of these, behind RESET ACK and behind the peer's RESET in the
/// wait.
fn every_short_history() -> impl Iterator<Item = Case> {
    let events = [
        reset(),
        timeout(),
        send(b"one".to_vec()),
        receive(frame(Kind::Reset, 1, 0, &[])),
        receive(frame(Kind::ResetAck, 1, 1, &[])),
        receive(frame(Kind::ResetAck, 2, 1, b"up")),
        receive(frame(Kind::Ack, 1, 2, &[])),
        receive(frame(Kind::Ack, 2, 3, b"up")),
        receive(frame(Kind::Nack, 2, 0, b"up")),
        receive(frame(Kind::Nack, 3, 2, &[])),
    ];
    let starts = [open(1, 1, 0), waiting(1)].map(|state| state.events([OLDER, NEWER]));
    let mut histories = starts.to_vec();
    for _ in 0..3 {
        histories = longer(&histories, &events);
    }
    histories.into_iter().map(move |start| {
        let tried = events.to_vec();
        Case::Tries { start, tried }
    })
}

/// Each history with each event behind it.
fn longer(histories: &[Vec<Event>], events: &[Event]) -> Vec<Vec<Event>> {
    let histories = histories.iter().flat_map(|history| {
        let events = events.iter();
        events.map(|event| [history, std::slice::from_ref(event)].concat())
    });
    histories.collect()
}
