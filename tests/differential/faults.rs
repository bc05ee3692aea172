//! Frames with faults at every place (request C-16).

use crate::frame::{between_flags, check, enclose, stuff, CONTENT_MAX, ESCAPE, FLAG, PAYLOAD_MAX};
use crate::inputs::CheckInput;
use crate::pairs::{fewest_pairs, sent, Order, ORDERS};
use std::ops::RangeInclusive;

/// Offsets of the byte after an escape: the least, and up to a little past the greatest place.
const OFFSETS: RangeInclusive<usize> = 2..=790;

/// What is a fault behind any content: an escape before the closing flag, each kind of bad pair.
const BAD: [&[u8]; 6] = [
    &[ESCAPE],
    &[ESCAPE, 0x41],
    &[ESCAPE, ESCAPE],
    &[ESCAPE, ESCAPE, 0x5e],
    &[ESCAPE, 0x5c],
    &[ESCAPE, 0x5f, 0x41],
];

/// What is none: nothing, a pair, a plain byte.
const GOOD: [&[u8]; 3] = [&[], &[ESCAPE, 0x5e], &[0x41]];

fn input(frame: Vec<u8>) -> CheckInput {
    CheckInput {
        frame,
        room: PAYLOAD_MAX,
    }
}

fn framed(parts: &[&[u8]]) -> CheckInput {
    input(between_flags(&parts.concat()))
}

/// So many sent bytes with none, few and many pairs: most often as many as keep the content within
/// 387 bytes, or one more or less.
fn sent_bytes(length: usize) -> impl Iterator<Item = Vec<u8>> {
    let fewest = fewest_pairs(length, CONTENT_MAX);
    let mut numbers = vec![0, 1, fewest.saturating_sub(1), fewest, fewest + 1];
    numbers.extend([length / 4, length / 2]);
    numbers.retain(|pairs| *pairs <= length / 2);
    numbers.sort();
    numbers.dedup();
    numbers.into_iter().map(move |pairs| {
        let order = ORDERS[(length + pairs) % ORDERS.len()];
        sent(length - pairs, pairs, order)
    })
}

/// A bad escape at each offset. Where content has passed its limit before it, that is the fault.
pub fn every_bad_escape() -> impl Iterator<Item = CheckInput> {
    let before = OFFSETS.flat_map(|offset| sent_bytes(offset - 2));
    before.flat_map(|before| BAD.map(|bad| framed(&[&before, bad])))
}

/// Content of 386 to 388 bytes with each number of pairs, and all of these behind it: the limit is
/// passed, or nearly, at each offset at which it can be.
pub fn every_passing() -> impl Iterator<Item = CheckInput> {
    let contents = (CONTENT_MAX - 1..=CONTENT_MAX + 1)
        .flat_map(|content| (0..=content).map(move |pairs| (content, pairs)));
    contents.flat_map(|(content, pairs)| {
        ORDERS.into_iter().flat_map(move |order| {
            let before = sent(content, pairs, order);
            let tails = BAD.into_iter().chain(GOOD);
            tails.map(move |tail| framed(&[&before, tail]))
        })
    })
}

/// Content of each length, plain, of unlike bytes and of flags, with two wrong checks.
pub fn every_bad_check() -> impl Iterator<Item = CheckInput> {
    (4..=CONTENT_MAX).flat_map(|length| {
        let unlike = (0..length - 2).map(|place| (place * 167 + 13) as u8);
        let contents = [
            vec![0x41; length - 2],
            unlike.collect(),
            vec![FLAG; length - 2],
        ];
        contents.into_iter().flat_map(|content| {
            let right = check(0xffff, &content);
            [right ^ 1, !right]
                .map(|wrong| framed(&[&stuff(&[&content[..], &wrong.to_be_bytes()].concat())]))
        })
    })
}

/// What stands between the flags: a good frame, and each fault alone.
fn between() -> [Vec<u8>; 6] {
    let good = enclose(2, 0x7d, b"\x7a\x7b\x7c\x7d\x7e");
    [
        good[1..good.len() - 1].to_vec(),
        vec![],
        vec![0x01, ESCAPE, 0x41, ESCAPE],
        vec![0x01, 0x02, 0x03, 0x04, 0x05],
        sent(CONTENT_MAX, 30, Order::Spread),
        sent(CONTENT_MAX + 1, 30, Order::Spread),
    ]
}

/// No flag first, none last, neither, one more at each place between, and fewer than two bytes.
pub fn every_wrong_flags() -> impl Iterator<Item = CheckInput> {
    let few = (0..=255).map(|byte| vec![byte]).chain([vec![]]);
    let frames = between().into_iter().flat_map(|sent| {
        let whole = between_flags(&sent);
        let mut wrong = vec![whole[1..].to_vec(), whole[..whole.len() - 1].to_vec(), sent];
        wrong.extend((1..whole.len()).map(|place| {
            let mut frame = whole.clone();
            frame.insert(place, FLAG);
            frame
        }));
        wrong
    });
    few.chain(frames).map(input)
}

/// A bad escape at each offset and then another one or too much content; too much content and then
/// a bad escape.
pub fn every_two_faults() -> impl Iterator<Item = CheckInput> {
    let much = sent(CONTENT_MAX + 1, 0, Order::First);
    let escape_first = OFFSETS.flat_map(move |offset| {
        let pairs = fewest_pairs(offset - 2, CONTENT_MAX);
        let before = sent(offset - 2 - pairs, pairs, ORDERS[offset % ORDERS.len()]);
        let between = sent(offset % 7, offset % 2, Order::First);
        let bad = BAD[1 + offset % (BAD.len() - 1)];
        let second: [&[u8]; 4] = [BAD[0], BAD[1], BAD[2], &much];
        second.map(|second| framed(&[&before, bad, &between, second]))
    });
    let limit_first = (0..=CONTENT_MAX + 1).flat_map(|pairs| {
        let before = sent(CONTENT_MAX + 1, pairs, ORDERS[pairs % ORDERS.len()]);
        let between = sent(pairs % 7, 0, Order::First);
        BAD.map(|bad| framed(&[&before, &between, bad]))
    });
    escape_first.chain(limit_first)
}
