//! Lists of sends, timeouts and pieces that go through every value of something.

use crate::cases::{Case, LINE_BYTES_MAX, OUTPUT_MAX, ROOM_BYTES};
use crate::frame::{between_flags, check, enclose, stuff, ESCAPE, FLAG, PAYLOAD_MAX};
use crate::packet::CASE_6;
use crate::receiver::{ACKNOWLEDGEMENT, DATA};
use crate::script::{Next, Script};
use crate::strings::strings;

pub fn cases() -> impl Iterator<Item = Case> {
    every_sequence()
        .chain(every_room())
        .chain(every_length())
        .chain(longest())
        .chain(every_acknowledgement())
        .chain(every_other_frame())
        .chain(every_cut())
}

/// Each order of up to five out of five, and behind each count of repeats each order of up to three
/// out of all.
pub fn orders() -> impl Iterator<Item = Case> {
    let five = [
        Next::Send,
        Next::Timeout,
        Next::ShortTimeout,
        Next::Acknowledgement,
        Next::OtherAcknowledgement,
    ];
    let of_five = strings(&five, 5).into_iter().map(|order| list(&[], &order));
    let starts = (0..=STARTS.len()).map(|count| &STARTS[..count]);
    let of_all = starts.flat_map(|start| {
        let orders = strings(&Next::ALL, 3).into_iter();
        orders.map(move |order| list(start, &order))
    });
    of_five.chain(of_all)
}

/// The first of these lead to a held frame, the others to one that was repeated once and twice.
const STARTS: [Next; 3] = [Next::Send, Next::Timeout, Next::Timeout];

fn list(start: &[Next], order: &[Next]) -> Case {
    let mut script = Script::new();
    for next in start.iter().chain(order) {
        script.go_on(*next);
    }
    script.case()
}

/// More sends than two rounds of sequences.
const MANY_SENDS: usize = 600;

/// Every sequence twice: acknowledged, repeated, dropped, and with the acknowledgement around the
/// send.
fn every_sequence() -> impl Iterator<Item = Case> {
    let ways: [fn(&mut Script, usize); 4] = [acknowledged, repeated, dropped, surrounded];
    ways.into_iter().map(|way| {
        let mut script = Script::new();
        for number in 0..MANY_SENDS {
            way(&mut script, number);
        }
        script.case()
    })
}

fn acknowledged(script: &mut Script, _number: usize) {
    script.short_send(&[]);
    script.send(&[]);
    script.go_on(Next::Acknowledgement);
}

/// With payloads of a few bytes, among which are flags and escapes.
fn repeated(script: &mut Script, number: usize) {
    let payload = [FLAG, number as u8, ESCAPE, number as u8];
    script.send(&payload[..number % 5]);
    for _ in 0..1 + number % 2 {
        script.go_on(Next::ShortTimeout);
        script.go_on(Next::Timeout);
        script.go_on(Next::OtherAcknowledgement);
    }
    script.go_on(Next::Acknowledgement);
}

fn dropped(script: &mut Script, _number: usize) {
    script.go_on(Next::Send);
    script.go_on(Next::Timeout);
    script.go_on(Next::Timeout);
    script.timeout_into(0);
    script.go_on(Next::Acknowledgement);
}

/// The send, and for some numbers a repeat, comes at any place of its acknowledgement's bytes.
/// Behind all of them it is not acknowledged yet.
fn surrounded(script: &mut Script, number: usize) {
    let acknowledgement = enclose(ACKNOWLEDGEMENT, script.sender().next, &[]);
    let (first, rest) = acknowledgement.split_at(number % (acknowledgement.len() + 1));
    script.piece(first);
    script.go_on(Next::Send);
    if number % 3 == 0 {
        script.go_on(Next::Timeout);
    }
    script.piece(rest);
    script.go_on(Next::Acknowledgement);
}

/// Payloads whose frames have six bytes and some more.
const SHORT_PAYLOADS: [&[u8]; 5] = [
    &[],
    &[0x00],
    &[FLAG],
    &[0xee, 0xee],
    &[FLAG, ESCAPE, 0x5e, 0x5d, 0xee, ESCAPE],
];

fn every_room() -> impl Iterator<Item = Case> {
    let short = SHORT_PAYLOADS.into_iter().map(every_short_room);
    short.chain([every_longer_room()])
}

/// Each room from none to just enough, for the send and for each repeat.
fn every_short_room(payload: &[u8]) -> Case {
    let mut script = Script::new();
    for room in 0..=script.room_to_send(payload) {
        script.send_into(room, payload);
    }
    for _ in 0..2 {
        for room in 0..=script.room_to_repeat() {
            script.timeout_into(room);
        }
    }
    script.timeout_into(0);
    script.case()
}

/// Each room from just enough to the longest output, for the send and a repeat.
fn every_longer_room() -> Case {
    let mut script = Script::new();
    for room in script.room_to_send(&[])..=OUTPUT_MAX {
        script.send_into(room, &[]);
        script.timeout_into(room);
        script.go_on(Next::Acknowledgement);
    }
    script.case()
}

/// Bytes of which payloads are made: plain, as the outputs are before the call, and escaped.
const FILLINGS: [&[u8]; 4] = [&[0x41, 0x00], &[0xee], &[FLAG], &[ESCAPE, FLAG, 0x5e]];

/// Payloads about the limits with rooms about their frames' lengths, when nothing is held and when
/// a frame is, so that each set of refusals that can apply together does.
fn every_length() -> impl Iterator<Item = Case> {
    let about_most = PAYLOAD_MAX - 1..=PAYLOAD_MAX + 2;
    let lengths = [0, 1, 2, LINE_BYTES_MAX - ROOM_BYTES].into_iter();
    lengths.chain(about_most).flat_map(|length| {
        FILLINGS.into_iter().flat_map(move |filling| {
            let payload: Vec<u8> = filling.iter().copied().cycle().take(length).collect();
            [false, true].map(|is_held| tried_rooms(&payload, is_held))
        })
    })
}

/// A payload sent with no room, a byte too few, enough and all; then what is held repeated and
/// freed.
fn tried_rooms(payload: &[u8], is_held: bool) -> Case {
    let mut script = Script::new();
    if is_held {
        script.go_on(Next::Send);
    }
    let enough = script.room_to_send(payload);
    for room in [0, enough - 1, enough, OUTPUT_MAX] {
        script.send_into(room, payload);
    }
    script.go_on(Next::ShortTimeout);
    script.go_on(Next::Timeout);
    script.go_on(Next::Acknowledgement);
    script.send(payload);
    script.case()
}

/// The longest frames that there are, each repeated twice and dropped.
fn longest() -> impl Iterator<Item = Case> {
    let checks = [ESCAPE, FLAG].map(|high| [ESCAPE, FLAG].map(|low| [high, low]));
    checks.into_iter().flatten().map(|check| {
        let mut script = behind_longest(check);
        for next in [Next::ShortTimeout, Next::Timeout].repeat(2) {
            script.go_on(next);
        }
        script.timeout_into(0);
        script.case()
    })
}

/// A list in which the longest frame is sent, with a check of two pairs. Its sequence is 1: in
/// content whose check is right an even number of bits is set, and in 7d and 7e too, so that beside
/// type 01 another byte is no pair.
pub fn behind_longest(check: [u8; 2]) -> Script {
    let mut script = Script::behind(1);
    let payload = all_pairs(script.sender().next, check);
    script.short_send(&payload);
    script.send(&payload);
    script
}

/// The longest payload of flags and escapes whose frame with this sequence has this check. The last
/// bytes are flags or escapes by the bits of a number, which is looked for.
fn all_pairs(sequence: u8, wanted: [u8; 2]) -> Vec<u8> {
    const CHOSEN: usize = 20;
    let mut payload = [ESCAPE, FLAG].repeat(PAYLOAD_MAX / 2 + 1);
    payload.truncate(PAYLOAD_MAX);
    let before = PAYLOAD_MAX - CHOSEN;
    let register = check(0xffff, &[&[DATA, sequence], &payload[..before]].concat());
    for number in 0..1 << CHOSEN {
        for (bit, byte) in payload[before..].iter_mut().enumerate() {
            *byte = [ESCAPE, FLAG][number >> bit & 1];
        }
        if check(register, &payload[before..]) == u16::from_be_bytes(wanted) {
            return payload;
        }
    }
    panic!("no payload with check {wanted:02x?}");
}

/// Sequences whose frames meet every acknowledgement.
const LOOKED_AT: [u8; 10] = [0x00, 0x01, 0x02, 0x7c, 0x7d, 0x7e, 0x7f, 0x80, 0xfe, 0xff];

/// Every other acknowledgement while a frame is held; the sequences go a little over one round.
fn every_acknowledgement() -> impl Iterator<Item = Case> {
    let mut script = Script::new();
    for _ in 0..=u8::MAX as usize + 2 {
        script.go_on(Next::Send);
        let held = script.sequence();
        if LOOKED_AT.contains(&held) {
            for other in (0..=u8::MAX).filter(|other| *other != held) {
                script.piece(&enclose(ACKNOWLEDGEMENT, other, &[]));
            }
        }
        script.go_on(Next::Acknowledgement);
    }
    [script.case()].into_iter()
}

/// All frames that are no acknowledgement of the held frame, though most have its sequence.
fn every_other_frame() -> impl Iterator<Item = Case> {
    [0, 3].into_iter().flat_map(|sends| {
        let held = sends as u8;
        let kinds = (0..=u8::MAX).filter(|kind| *kind != ACKNOWLEDGEMENT);
        let frames = [
            kinds.map(|kind| enclose(kind, held, &[])).collect(),
            (0..=u8::MAX)
                .map(|sequence| enclose(DATA, sequence, CASE_6))
                .collect(),
            spoilt_acknowledgements(held),
        ];
        frames.map(|frames: Vec<Vec<u8>>| {
            let mut script = Script::behind(sends);
            script.go_on(Next::Send);
            for frame in frames {
                script.piece(&frame);
            }
            script.go_on(Next::Timeout);
            script.go_on(Next::Acknowledgement);
            script.case()
        })
    })
}

/// With payloads, with each bit changed, with each byte left out, cut, and with bad escapes.
fn spoilt_acknowledgements(sequence: u8) -> Vec<Vec<u8>> {
    let lengths = [1, 2, PAYLOAD_MAX, PAYLOAD_MAX + 1, PAYLOAD_MAX + 2];
    let payloads = lengths.map(|length| enclose(ACKNOWLEDGEMENT, sequence, &vec![0; length]));
    let right = enclose(ACKNOWLEDGEMENT, sequence, &[]);
    let content = &right[1..right.len() - 1];
    let changed = (0..content.len() * 8).map(|bit| {
        let mut content = content.to_vec();
        content[bit / 8] ^= 1 << (bit % 8);
        stuff(&content)
    });
    let left_out =
        (0..content.len()).map(|place| [&content[..place], &content[place + 1..]].concat());
    let cut = (1..content.len()).map(|length| content[..length].to_vec());
    let escaped = (0..=content.len()).flat_map(|place| {
        let (first, rest) = content.split_at(place);
        [&[ESCAPE][..], &[ESCAPE, 0x00]].map(|bad| [first, bad, rest].concat())
    });
    let between = changed.chain(left_out).chain(cut).chain(escaped);
    let spoilt = between.map(|between| between_flags(&between));
    payloads.into_iter().chain(spoilt).collect()
}

/// What comes inside a frame's bytes.
const INSIDE: [&[Next]; 9] = [
    &[Next::Send],
    &[Next::Timeout],
    &[Next::Send, Next::Timeout],
    &[Next::Timeout, Next::Timeout, Next::Timeout],
    &[Next::Timeout, Next::Timeout, Next::Timeout, Next::Send],
    &[Next::ShortSend, Next::ShortTimeout],
    &[Next::RefusedPiece],
    &[Next::Tick],
    &[Next::Tick, Next::Send, Next::RefusedPiece, Next::Timeout],
];

/// Acknowledgements of the held and of the next frame and a data frame, cut at each place, with
/// each of these inside, when nothing is held and when a frame is.
fn every_cut() -> impl Iterator<Item = Case> {
    let starts = [&STARTS[..0], &STARTS[..1]];
    starts.into_iter().flat_map(|start| {
        INSIDE.into_iter().flat_map(move |inside| {
            let held = enclose(ACKNOWLEDGEMENT, 0, &[]);
            let next = enclose(ACKNOWLEDGEMENT, 1, &[]);
            let data = enclose(DATA, 0, CASE_6);
            let frames = [held, next, data].into_iter();
            frames.flat_map(move |frame| {
                let places = 0..=frame.len();
                places.map(move |place| cut_at(place, &frame, start, inside))
            })
        })
    })
}

fn cut_at(place: usize, frame: &[u8], start: &[Next], inside: &[Next]) -> Case {
    let mut script = Script::new();
    let (first, rest) = frame.split_at(place);
    start.iter().for_each(|next| script.go_on(*next));
    script.piece(first);
    inside.iter().for_each(|next| script.go_on(*next));
    script.piece(rest);
    script.go_on(Next::Timeout);
    script.case()
}
