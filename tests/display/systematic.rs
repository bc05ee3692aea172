//! Lists of calls that go through every value of something.

use crate::cases::{Case, Event, ZEROS_MAX};
use crate::frame::{between_flags, enclose, CONTENT_MAX, ESCAPE, FLAG};
use crate::packet::CASE_6;
use crate::pairs::{fewest_pairs, sent, Order, ORDERS};

/// The acknowledgement that stands behind a fault, to see that it is heard: known answer 2.
const NEXT: [u8; 5] = [0x02, 0x01, 0x6b, 0x4c, FLAG];

fn pieces(pieces: Vec<Vec<u8>>) -> Case {
    let events = pieces.into_iter().map(Event::Piece);
    Case {
        events: events.collect(),
    }
}

/// So many zero bytes, in as few lines as there can be.
fn zeros(count: usize) -> impl Iterator<Item = Event> {
    let whole = (0..count / ZEROS_MAX).map(|_| Event::Zeros(ZEROS_MAX));
    let left = Some(count % ZEROS_MAX).filter(|left| *left > 0);
    whole.chain(left.map(Event::Zeros))
}

/// Noise, an update twice, an escape before a flag, an acknowledgement, a bad escape, a wrong
/// check, an end mark.
fn first_line() -> Vec<u8> {
    let update = enclose(1, 1, CASE_6);
    let parts: [&[u8]; 8] = [
        &[0x33, ESCAPE],
        &update,
        &update[1..],
        &[0x01, 0x02, ESCAPE, FLAG],
        &NEXT,
        &[
            FLAG, 0x01, ESCAPE, 0x41, 0x5d, FLAG, 0x01, 0x02, 0x03, 0x04, 0x05, FLAG,
        ],
        &enclose(1, 2, b"\x01\x03\x00\x07\x14\x00"),
        &[ESCAPE, 0x41],
    ];
    parts.concat()
}

/// An escape before an escape and before a good pair, two bad pairs, nothing but an escape, pairs
/// in good frames, each other refusal, a name that is not watched.
fn second_line() -> Vec<u8> {
    let parts: [&[u8]; 9] = [
        &[FLAG, ESCAPE, ESCAPE, 0x5e, FLAG],
        &[0x01, ESCAPE, 0x5d, ESCAPE, 0x00, ESCAPE, 0x01, FLAG],
        &[ESCAPE, FLAG, FLAG, ESCAPE, ESCAPE, FLAG],
        &enclose(1, 0x7d, &[0x7e, 0x7d]),
        &enclose(3, 9, &[]),
        &enclose(2, 9, &[0x7e]),
        &[FLAG, ESCAPE, 0x5e, FLAG, 0x7c, 0x5e, 0x5d, 0x00, FLAG],
        &enclose(1, 0, b"\x01\x03\x00\x00\x01\x02h3\x0f\x01\x01"),
        &[0x00],
    ];
    parts.concat()
}

/// Both lines cut in two at each place, with nothing between or a refused call and a tick; and cut
/// into pieces of each length up to nine.
pub fn divisions() -> impl Iterator<Item = Case> {
    [first_line(), second_line()].into_iter().flat_map(|line| {
        let lengths = (1..=9).map(|length| line.chunks(length).map(<[u8]>::to_vec).collect());
        let mut cases: Vec<Case> = lengths.map(pieces).collect();
        for place in 0..=line.len() {
            let (first, rest) = line.split_at(place);
            cases.push(pieces(vec![first.to_vec(), rest.to_vec()]));
            cases.push(Case {
                events: vec![
                    Event::Piece(first.to_vec()),
                    Event::ShortBuffers(rest.to_vec()),
                    Event::Tick,
                    Event::Piece(rest.to_vec()),
                ],
            });
        }
        cases
    })
}

pub fn places() -> impl Iterator<Item = Case> {
    behind_escapes()
        .chain(passing())
        .chain(nearly_passing())
        .chain(wrong_checks())
        .chain(two_faults())
}

/// A frame and NEXT: in one piece, cut at a place, cut around it, in pieces of 100 bytes, or byte
/// by byte from shortly before the place. The number says which.
fn cut_at(number: usize, between: &[u8], place: usize) -> Case {
    let line = [&between_flags(between)[..], &NEXT].concat();
    let (first, rest) = line.split_at(place);
    match number % 5 {
        0 => pieces(vec![line]),
        1 => pieces(vec![first.to_vec(), rest.to_vec()]),
        2 => {
            let (first, escape) = first.split_at(place - 1);
            let (byte, rest) = rest.split_at(1);
            pieces([first, escape, byte, rest].map(<[u8]>::to_vec).into())
        }
        3 => pieces(line.chunks(100).map(<[u8]>::to_vec).collect()),
        _ => {
            let (first, near) = line.split_at(place.saturating_sub(4));
            let single = near.iter().map(|byte| vec![*byte]);
            let first = Some(first.to_vec()).filter(|first| !first.is_empty());
            pieces(first.into_iter().chain(single).collect())
        }
    }
}

/// What stands behind a bad escape: a plain byte, nothing but the flag, another escape, more bytes.
const BAD: [&[u8]; 4] = [&[0x41], &[], &[ESCAPE], &[0x5f, 0x41, 0x41]];

/// Each offset of the byte after a bad escape, with the fewest and the most pairs before it.
fn behind_escapes() -> impl Iterator<Item = Case> {
    (2..=776).flat_map(|place| {
        let length = place - 2;
        [fewest_pairs(length, CONTENT_MAX), length / 2].map(|pairs| {
            let order = ORDERS[(place + pairs) % ORDERS.len()];
            let before = sent(length - pairs, pairs, order);
            let between = [&before[..], &[ESCAPE], BAD[place % BAD.len()]].concat();
            cut_at(place / BAD.len() + pairs, &between, place)
        })
    })
}

/// What stands behind the 388th content byte.
const TAILS: [&[u8]; 4] = [&[], &[0x41], &[ESCAPE], &[ESCAPE, 0x00]];

/// Content of 388 bytes with each number of pairs, the last byte plain or a pair.
fn passing() -> impl Iterator<Item = Case> {
    (0..=CONTENT_MAX + 1).flat_map(|pairs| {
        [Order::First, Order::Last].map(|order| {
            let passing = sent(CONTENT_MAX + 1, pairs, order);
            let between = [&passing[..], TAILS[pairs % TAILS.len()]].concat();
            cut_at(pairs / TAILS.len(), &between, passing.len())
        })
    })
}

/// Content of 387 bytes with each number of pairs and an escape behind it: before a byte, before
/// the flag, before another escape.
fn nearly_passing() -> impl Iterator<Item = Case> {
    (0..=CONTENT_MAX).flat_map(|pairs| {
        [BAD[0], BAD[1], BAD[2]].map(|bad| {
            let before = sent(CONTENT_MAX, pairs, ORDERS[pairs % ORDERS.len()]);
            let between = [&before[..], &[ESCAPE], bad].concat();
            cut_at(pairs, &between, before.len() + 2)
        })
    })
}

/// Content of each length with a wrong check, plain, half of pairs or all of them.
fn wrong_checks() -> impl Iterator<Item = Case> {
    (4..=CONTENT_MAX).map(|content| {
        let pairs = [0, content / 2, content][content % 3];
        let between = sent(content, pairs, ORDERS[content % ORDERS.len()]);
        cut_at(content, &between, between.len() / 2)
    })
}

/// Two bad escapes; a bad escape and then too much content; too much content and then a bad escape.
/// Both lie in one piece or in two.
fn two_faults() -> impl Iterator<Item = Case> {
    let much = sent(CONTENT_MAX + 1, 5, Order::Last);
    (0..40).flat_map(move |apart| {
        let near = sent(apart, apart / 2, Order::Spread);
        let bad = [ESCAPE, 0x00];
        let lines: [[&[u8]; 3]; 3] = [
            [&bad, &near, &bad],
            [&bad, &near, &much],
            [&much, &near, &bad],
        ];
        lines.map(|parts| {
            let line = parts.concat();
            cut_at(apart, &line, parts[0].len() + 1 + apart / 2)
        })
    })
}

/// A fault and then far more bytes than a frame has, or than 16 bits count, in pieces of zero
/// bytes; with another fault behind them or none.
pub fn long_runs() -> impl Iterator<Item = Case> {
    let counts = [1_001, 1_200, 3_000, 65_536, 66_000];
    let cases = counts.into_iter().flat_map(|count| {
        let passing = sent(CONTENT_MAX + 1, 0, Order::First);
        let most = sent(CONTENT_MAX + 1, CONTENT_MAX + 1, Order::First);
        let mut nearly = sent(CONTENT_MAX, 100, Order::Spread);
        nearly.extend([ESCAPE, ESCAPE]);
        let faults = [vec![], vec![ESCAPE, 0x00], nearly, passing, most];
        let tails: [&[u8]; 3] = [&[FLAG], &[ESCAPE, FLAG], &[ESCAPE, 0x01, FLAG]];
        faults
            .into_iter()
            .flat_map(move |fault| tails.map(|tail| (count, fault.clone(), tail)))
    });
    cases.map(|(count, fault, tail)| {
        let mut events = vec![Event::Piece(vec![FLAG]), Event::Piece(fault)];
        events.extend(zeros(count));
        events.push(Event::Piece(tail.to_vec()));
        events.push(Event::Piece(NEXT.to_vec()));
        events.retain(|event| !matches!(event, Event::Piece(bytes) if bytes.is_empty()));
        Case { events }
    })
}
