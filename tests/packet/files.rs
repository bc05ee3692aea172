//! Transfers that go through every value of something.

use crate::cases::Case;
use crate::draft::{fragment, part, Draft};
use crate::packet::{BINARY, EOF, LENGTH, LOCATION, OFFSET};
use crate::receiver::{Event, LOC};
use crate::strings::strings;
use crate::transfer::FRAGMENT;

pub fn cases() -> impl Iterator<Item = Case> {
    every_few_items()
        .chain(every_limit())
        .chain(every_number())
        .chain(every_offset())
        .chain(every_set_of_faults())
        .chain(every_cut())
        .chain(every_division())
        .chain(every_location())
}

/// Packets, each for a fresh transfer with a buffer of so many bytes.
fn alone(room: usize, packets: Vec<Vec<u8>>) -> Case {
    let packets = packets.into_iter().map(Event::Alone);
    let events = [Event::Room(room)].into_iter().chain(packets);
    Case::Transfer(events.collect())
}

/// A transfer of `loc` that is put to a next offset.
fn started(room: usize, next: u64) -> Vec<Event> {
    vec![
        Event::Room(room),
        Event::Start(LOC.to_vec()),
        Event::Next(next),
    ]
}

/// Each string of up to five items out of six, so that each of the five that a fragment may have is
/// missing, single and double, and they stand in each order.
fn every_few_items() -> impl Iterator<Item = Case> {
    let items = [
        part(LOCATION, LOC),
        part(OFFSET, &[0]),
        part(BINARY, b"ab"),
        part(LENGTH, &[2]),
        part(EOF, &[]),
        part(0x05, b"t"),
    ];
    let strings = strings(&items, 5).into_iter();
    strings.map(|items| alone(3, vec![Draft::new(FRAGMENT, 7, items).bytes()]))
}

/// Each declared length, buffer and number of bytes up to five, with EOF and without.
fn every_limit() -> impl Iterator<Item = Case> {
    (0..=5).map(|room| {
        let mut packets = Vec::new();
        for count in 0..=5 {
            let binary = &b"abcde"[..count];
            for length in [None, Some(0), Some(1), Some(2), Some(3), Some(4), Some(5)] {
                let with = |eof| fragment(LOC, 0, binary, length, eof).bytes();
                packets.extend([with(false), with(true)]);
            }
        }
        alone(room, packets)
    })
}

/// Offsets and Lengths of 0 to 9 bytes, of which at most one is not 0.
fn every_number() -> impl Iterator<Item = Case> {
    let numbers = (0..=9).flat_map(|width| {
        (0..=width).map(move |place| {
            let mut number = vec![0; width];
            number
                .iter_mut()
                .skip(place)
                .take(1)
                .for_each(|byte| *byte = 2);
            number
        })
    });
    numbers.map(|number| {
        let mut packets = Vec::new();
        for kind in [OFFSET, LENGTH] {
            let mut draft = fragment(LOC, 0, b"ab", Some(2), true);
            let item = draft.items.iter_mut().find(|item| item.0 == kind);
            item.expect("an item").1 = number.clone();
            packets.push(draft.bytes());
        }
        alone(3, packets)
    })
}

/// Each offset at and beside each next one, at the limits of one, two and four bytes.
fn every_offset() -> impl Iterator<Item = Case> {
    let offsets = [
        0,
        1,
        2,
        255,
        256,
        257,
        0xffff,
        0x1_0000,
        0xff_ffff,
        0xffff_fffe,
        0xffff_ffff,
    ];
    let nexts = offsets
        .into_iter()
        .chain([512, 513, 514, 0x1_0000_0000, u64::MAX]);
    nexts.flat_map(move |next| {
        offsets.map(|offset| {
            let mut events = started(514, next);
            for count in [2, 1, 0] {
                let packet = fragment(LOC, offset, &b"ab"[..count], None, count < 2).bytes();
                events.push(Event::Give(packet));
            }
            Case::Transfer(events)
        })
    })
}

/// Each set of the eight refusals, of a transfer that has come to offset 2 of 4. The right fragment
/// behind it is accepted, unless the one before was.
fn every_set_of_faults() -> impl Iterator<Item = Case> {
    (0..=255u8).map(|set| {
        let has = |bit: u8| set >> bit & 1 == 1;
        let location = if has(4) { b"lod" } else { LOC };
        let offset = if has(5) { 1 } else { 2 };
        let mut draft = fragment(location, offset, b"c", None, has(7));
        if has(0) {
            draft.first = 2;
        }
        if has(1) {
            draft.tail = vec![EOF];
        }
        if has(2) {
            draft.opcode = 0x03;
        }
        if has(3) {
            draft.items.push(part(0x05, b"t"));
        }
        Case::Transfer(vec![
            Event::Room(4),
            Event::Start(LOC.to_vec()),
            Event::Give(fragment(LOC, 0, b"ab", Some(4), false).bytes()),
            Event::Room(if has(6) { 3 } else { 4 }),
            Event::Give(draft.bytes()),
            Event::Room(4),
            Event::Give(fragment(LOC, 2, b"cd", None, true).bytes()),
        ])
    })
}

/// A fragment cut at each byte, and one with each opcode and each first byte.
fn every_cut() -> impl Iterator<Item = Case> {
    let draft = fragment(LOC, 0, b"abc", Some(3), true);
    let whole = draft.bytes();
    let mut packets: Vec<Vec<u8>> = (0..=whole.len())
        .map(|length| whole[..length].to_vec())
        .collect();
    for byte in 0..=255 {
        let opcode = Draft {
            opcode: byte,
            ..draft.clone()
        };
        let first = Draft {
            first: byte,
            ..draft.clone()
        };
        packets.extend([opcode.bytes(), first.bytes()]);
    }
    [alone(3, packets)].into_iter()
}

/// Each file of up to six bytes in each division into fragments, with a declared length and
/// without, the last fragment with EOF or one with no bytes behind it, into a buffer of just enough
/// bytes, one more and one fewer; each fragment sent twice.
fn every_division() -> impl Iterator<Item = Case> {
    const FILE: &[u8] = b"abcdef";
    let divisions = (0..=FILE.len()).flat_map(|length| {
        let cuts = 1usize << length.saturating_sub(1);
        (0..cuts).map(move |cuts| divided(&FILE[..length], cuts))
    });
    divisions.flat_map(|pieces| {
        let forms = [(false, false), (false, true), (true, false), (true, true)];
        forms.into_iter().flat_map(move |(declares, end_apart)| {
            let pieces = pieces.clone();
            let length: usize = pieces.iter().map(|piece| piece.len()).sum();
            let rooms = [length, length + 1, length.saturating_sub(1)];
            rooms.map(|room| sent_twice(room, &pieces, declares, end_apart))
        })
    })
}

/// The file cut behind each byte whose bit is set.
fn divided(file: &'static [u8], cuts: usize) -> Vec<&'static [u8]> {
    let mut pieces = Vec::new();
    let mut from = 0;
    for place in 1..file.len() {
        if cuts >> (place - 1) & 1 == 1 {
            pieces.push(&file[from..place]);
            from = place;
        }
    }
    pieces.push(&file[from..]);
    pieces
}

fn sent_twice(room: usize, pieces: &[&[u8]], declares: bool, end_apart: bool) -> Case {
    let length: usize = pieces.iter().map(|piece| piece.len()).sum();
    let mut events = vec![Event::Room(room), Event::Start(LOC.to_vec())];
    let mut pieces = pieces.to_vec();
    if end_apart {
        pieces.push(&[]);
    }
    let mut offset = 0;
    for (number, piece) in pieces.iter().enumerate() {
        let declared = (declares && offset == 0).then_some(length as u64);
        let last = number + 1 == pieces.len();
        let packet = fragment(LOC, offset, piece, declared, last).bytes();
        events.extend([Event::Give(packet.clone()), Event::Give(packet)]);
        offset += piece.len() as u64;
    }
    Case::Transfer(events)
}

/// Locations of each length up to 70; one that starts a transfer gets a fragment of each location
/// that differs from it in one bit, is one byte shorter or longer, and its own. One that starts none
/// gets a good fragment.
fn every_location() -> impl Iterator<Item = Case> {
    (0..=70).map(|length| {
        let location = vec![b'l'; length];
        let mut events = vec![Event::Room(2), Event::Start(location.clone())];
        if (1..=64).contains(&length) {
            let mut others = vec![location[1..].to_vec(), [&location, &b"l"[..]].concat()];
            for place in 0..length {
                let mut other = location.clone();
                other[place] ^= 1 << (place % 8);
                others.push(other);
            }
            others.push(location);
            let packets = others
                .iter()
                .map(|other| fragment(other, 0, b"a", None, true).bytes());
            events.extend(packets.map(Event::Give));
        } else {
            events.push(Event::Give(fragment(LOC, 0, b"a", None, true).bytes()));
        }
        Case::Transfer(events)
    })
}
